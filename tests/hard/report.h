/* What is said where something is wrong: the fault, the call that was being made, and where it stands in the run. */

#ifndef REPORT_H
#define REPORT_H

#include "call.h"

/* The call that is made from now on, and whose turn it is. */
void report_call(const struct call *call, const struct table *table);
void report_whose(const char *whose);

/* Where the run is: a name of what is being run, and its number. */
void report_place(const char *what, uint64_t number);

/* Prints all that and aborts. */
_Noreturn void report(const char *format, ...) __attribute__((format(printf, 1, 2)));

/* Has the same printed where a sanitizer ends the program. */
void report_at_death(void);

void report_outcome(const char *whose, const struct call *call, const struct outcome *outcome);

#endif
