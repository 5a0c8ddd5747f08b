#include "measure.h"

#include <stdio.h>

#include "inputs.h"
#include "subjects.h"
#include "times.h"

enum { ROUNDS = 601, SEED = 2 };

/* A length, how many calls of it make a batch, and the most that the card may take in units of each peer. */
struct size {
    size_t bits;
    int calls;
    double bars[MOST_SUBJECTS];
};

static const struct size sizes[] = {
    {8288, 12, {[PLAIN] = 1.10, [LIBMCRYPT] = 0.16}},
    {256, 60, {[PLAIN] = 1.15, [LIBMCRYPT] = 0.16}},
};

/* And for a block more, by plain C's. */
static const double further_bar = 1.05;

enum { SIZES = sizeof sizes / sizeof sizes[0] };

/* By size, subject and round: nanoseconds a call, and the card's by the subject's. */
static double times[SIZES][MOST_SUBJECTS][ROUNDS];
static double ratios[SIZES][MOST_SUBJECTS][ROUNDS];

/* Each call has an initial value of its own, so that each has other work to do. */
static double time_of_batch(bench_call *call, struct input input, int calls)
{
    size_t blocks;
    double start = times_now();

    for (int i = 0; i < calls; i++) {
        input.iv[0] = (uint8_t)i;
        inputs_call(call, &input, &blocks);
    }
    return (times_now() - start) / calls;
}

/* All subjects get the same input, and another of them begins each round. */
static void run_round(int round, uint64_t *generator)
{
    struct input input;

    for (int z = 0; z < SIZES; z++) {
        inputs_taken(&input, generator, 5 + (uint64_t)round % 3, sizes[z].bits);
        for (int i = 0; i < subject_count; i++) {
            int s = (round + i) % subject_count;
            times[z][s][round] = time_of_batch(subjects[s].call, input, sizes[z].calls);
        }
        for (int s = 0; s < subject_count; s++)
            ratios[z][s][round] = times[z][CARD][round] / times[z][s][round];
    }
}

/* Prints a row of the table and leaves its times sorted; returns 1 if its bar is missed. */
static int report_row(int size, int subject)
{
    double *time = times[size][subject], median = times_median(time, ROUNDS);
    double ratio = times_median(ratios[size][subject], ROUNDS), bar = sizes[size].bars[subject];
    int missed = subject != CARD && ratio > bar;

    printf("%6zu  %-10s %9.0f   %7.0f to %-7.0f %8.2f", sizes[size].bits, subjects[subject].name, median,
           time[ROUNDS / 4], time[3 * ROUNDS / 4], median / ((double)sizes[size].bits / 8));
    if (subject != CARD)
        printf("  %8.2f  %7.2f  %s", ratio, bar, missed ? "MISSED" : "pass");
    printf("\n");
    return missed;
}

/* What the long call takes beyond the short one, by the blocks it has more: no key set-up is left in that. Of each
   the fastest batch, since libmcrypt's set-up varies by more than the blocks take. */
static double further_block(int subject)
{
    size_t blocks = (sizes[0].bits - 1) / BLOCK_BITS - (sizes[1].bits - 1) / BLOCK_BITS;

    return (times[0][subject][0] - times[1][subject][0]) / (double)blocks;
}

/* Returns 1 if the bar is missed. */
static int report_further_blocks(void)
{
    double ratio = further_block(CARD) / further_block(PLAIN);
    int missed = ratio > further_bar;

    printf("each further block:");
    for (int s = 0; s < subject_count; s++)
        printf(" %s %.0f ns,", subjects[s].name, further_block(s));
    printf(" card/plain C %.2f, at most %.2f: %s\n", ratio, further_bar, missed ? "MISSED" : "pass");
    return missed;
}

int measure_bench(void)
{
    uint64_t generator = SEED;
    int missed = 0;

    for (int round = 0; round < ROUNDS; round++)
        run_round(round, &generator);
    printf("%6s  %-10s %9s   %-18s %8s  %8s  %7s\n", "bits", "call", "ns", "half lie within", "ns/byte",
           "card/it", "at most");
    for (int z = 0; z < SIZES; z++)
        for (int s = 0; s < subject_count; s++)
            missed += report_row(z, s);
    return missed + report_further_blocks();
}
