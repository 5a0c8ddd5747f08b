#include "plot.h"

#include <math.h>
#include <stdio.h>

/* The picture in units of its view box; the curves' part of it; the times at its foot and top. */
enum { WIDTH = 800, HEIGHT = 460, LEFT = 70, RIGHT = 670, TOP = 50, FOOT = 410 };

static const double lowest = 200, highest = 200000;

static const char *const colours[CURVES] = {"#b2182b", "#2166ac", "#4d4d4d", "#8c6d1f"};

static double across(int blocks)
{
    return LEFT + (double)(RIGHT - LEFT) * blocks / BLOCKS;
}

/* Equal ratios of times are equal heights. */
static double height(double ns)
{
    return FOOT - (FOOT - TOP) * log(ns / lowest) / log(highest / lowest);
}

static void time_line(FILE *file, double ns)
{
    double y = height(ns);

    fprintf(file, "<line x1='%d' y1='%.1f' x2='%d' y2='%.1f' stroke='#ddd'/>\n", LEFT, y, RIGHT, y);
    fprintf(file, "<text x='%d' y='%.1f' text-anchor='end'>%g µs</text>\n", LEFT - 8, y + 4, ns / 1000);
}

static void frame(FILE *file)
{
    for (double ns = lowest; ns <= highest; ns *= 10) {
        time_line(file, ns);
        if (ns * 5 <= highest) {
            time_line(file, ns * 2.5);
            time_line(file, ns * 5);
        }
    }
    for (int blocks = 1; blocks <= BLOCKS; blocks += 4)
        fprintf(file, "<text x='%.1f' y='%d' text-anchor='middle'>%d</text>\n", across(blocks), FOOT + 18, blocks);
    fprintf(file, "<text x='%d' y='%d' text-anchor='middle'>blocks of 256 bits in a call</text>\n",
            (LEFT + RIGHT) / 2, FOOT + 40);
    fprintf(file, "<text x='%d' y='%d' font-size='15'>Time of a call, by its blocks (lower is faster)</text>\n", LEFT,
            TOP - 20);
}

static void draw(FILE *file, const struct curve *curve, const char *colour)
{
    fprintf(file, "<polyline fill='none' stroke='%s' stroke-width='2' points='", colour);
    for (int b = 0; b < BLOCKS; b++)
        fprintf(file, "%.1f,%.1f ", across(b + 1), height(curve->ns[b]));
    fprintf(file, "'/>\n");
}

/* The names stand at the ends of the curves; one that would cover the one before it moves up. */
static void name(FILE *file, const struct curve *curve, const char *colour, double y)
{
    fprintf(file, "<text x='%d' y='%.1f' fill='%s'>%s</text>\n", RIGHT + 8, y + 4, colour, curve->name);
}

int plot_write(const char *path, const struct curve *curves, int count)
{
    FILE *file = fopen(path, "w");

    if (file == NULL)
        return 1;
    fprintf(file, "<svg xmlns='http://www.w3.org/2000/svg' viewBox='0 0 %d %d' font-family='sans-serif' "
                  "font-size='13'>\n<rect width='%d' height='%d' fill='white'/>\n", WIDTH, HEIGHT, WIDTH, HEIGHT);
    frame(file);
    for (int i = 0; i < count; i++)
        draw(file, &curves[i], colours[i]);
    for (int i = 0; i < count; i++) {
        double y = height(curves[i].ns[BLOCKS - 1]);
        if (i == 0 && y > height(curves[1].ns[BLOCKS - 1]) - 15)
            y = height(curves[1].ns[BLOCKS - 1]) - 15;
        name(file, &curves[i], colours[i], y);
    }
    fprintf(file, "</svg>\n");
    return fclose(file) != 0;
}
