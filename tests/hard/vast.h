/* Calls that are lent more than four thousand million bytes or slots, which a number of 32 bits would cut to a right
   number. The memory is there to be read, and takes no room until somebody does. */

#ifndef VAST_H
#define VAST_H

/* Returns how many calls were made. */
unsigned long vast_run(void);

#endif
