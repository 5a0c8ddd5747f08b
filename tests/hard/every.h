/* Calls that come one after another: every wrong length, every byte of a slot and of a text, every shift of a span, every
   code of a plan. */

#ifndef EVERY_H
#define EVERY_H

#include <stdint.h>

/* Returns how many calls were made. */
unsigned long every_run(uint64_t seed);

#endif
