/* Checkers that answer right and touch what isn't theirs, or don't set the place. */

#ifndef ASTRAY_H
#define ASTRAY_H

#include "oracle.h"

enum { ASTRAY = 4 };

uint8_t astray_converted(size_t which, const struct lent *lent, size_t *place);

#endif
