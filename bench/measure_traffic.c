#include <stdio.h>

#include "measure.h"
#include "times.h"
#include "traffic.h"

enum { ROUNDS = 101, SEED = 3 };

/* A length, how many calls of it make a batch, and the most that traffic may take in units of the bench call of as many
   blocks. */
struct size {
    size_t bits;
    int calls;
    double bar;
};

static const struct size sizes[] = {{8288, 4, 1.03}, {256, 20, 1.18}};

enum { SIZES = sizeof sizes / sizeof sizes[0] };

typedef uint8_t timed_call(struct traffic *traffic, size_t *blocks);

/* Each call has an initial value of its own, so that each has other work to do. */
static double time_of_batch(timed_call *call, struct traffic *traffic, int calls)
{
    size_t blocks;
    double start = times_now();

    for (int i = 0; i < calls; i++) {
        traffic->input.iv[0] = (uint8_t)i;
        call(traffic, &blocks);
    }
    return times_now() - start;
}

/* Traffic's batch by that of the bench call. They begin in turn. */
static double ratio(struct traffic *traffic, int calls, int round)
{
    double times[2];

    for (int i = 0; i < 2; i++) {
        int which = (round + i) % 2;
        times[which] = time_of_batch(which == 0 ? traffic_call : traffic_bench, traffic, calls);
    }
    return times[0] / times[1];
}

/* The median of the rounds' ratios, for each shift. */
static void measure_size(const struct size *size, double medians[SHIFTS])
{
    static double ratios[SHIFTS][ROUNDS];
    uint64_t generator = SEED;
    struct traffic traffic;

    for (int round = 0; round < ROUNDS; round++)
        for (int shift = 0; shift < SHIFTS; shift++) {
            traffic_taken(&traffic, &generator, 5 + (uint64_t)round % 3, size->bits, shift);
            ratios[shift][round] = ratio(&traffic, size->calls, round);
        }
    for (int shift = 0; shift < SHIFTS; shift++)
        medians[shift] = times_median(ratios[shift], ROUNDS);
}

/* Prints a line; returns 1 if its bar is missed. The bar is of the worst of the shifts. */
static int report_size(const struct size *size, double medians[SHIFTS])
{
    double median = times_median(medians, SHIFTS), worst = medians[SHIFTS - 1];
    int missed = worst > size->bar;

    printf("%6zu  traffic/card's bench call of as many blocks, over %d starts and skips: median %.2f, worst %.2f, at most "
           "%.2f  %s\n",
           size->bits, SHIFTS, median, worst, size->bar, missed ? "MISSED" : "pass");
    return missed;
}

int measure_traffic(void)
{
    double medians[SHIFTS];
    int missed = 0;

    for (int z = 0; z < SIZES; z++) {
        measure_size(&sizes[z], medians);
        missed += report_size(&sizes[z], medians);
    }
    return missed;
}
