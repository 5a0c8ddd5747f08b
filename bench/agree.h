/* Before anything is measured, all calls must give what the second program gives. */

#ifndef AGREE_H
#define AGREE_H

/* Prints the inputs as lines of the second program. */
void agree_print_inputs(void);

/* Holds every call to the second program's output for those lines. Returns 0, or 1 after naming a difference. */
int agree_check(const char *expected_path);

#endif
