/* The curves as a picture. */

#ifndef PLOT_H
#define PLOT_H

#include "curve.h"

/* Writes an SVG file. Returns 0, or 1 where it can't be written. */
int plot_write(const char *path, const struct curve *curves, int count);

#endif
