/* Times, and values in order. */

#ifndef TIMES_H
#define TIMES_H

/* Nanoseconds by the wall's clock. */
double times_now(void);

/* Sorts values and returns the one in the middle. */
double times_median(double *values, int count);

#endif
