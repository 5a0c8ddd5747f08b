/* The time of a call by its number of blocks, 1 to 33: the bench call of all subjects, and the card's traffic. */

#ifndef CURVE_H
#define CURVE_H

#include "front.h"
#include "subjects.h"

enum { CURVES = MOST_SUBJECTS + 1 };

/* A subject's bench call, or the card's traffic: nanoseconds a call, by blocks less one. */
struct curve {
    const char *name;
    double ns[BLOCKS];
};

/* Measures all curves, the card's traffic first, and returns how many there are. */
int curve_measure(struct curve curves[CURVES]);

/* Prints them as a table. */
void curve_print(const struct curve *curves, int count);

#endif
