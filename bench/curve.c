#include "curve.h"

#include <stdio.h>

#include "times.h"
#include "traffic.h"

/* Start 3 and skip 0: no byte of the buffer is whole in the keystream, and traffic makes as many blocks as bench. */
enum { ROUNDS = 201, SEED = 4, CALLS = 8, SHIFT = 3 };

static double times[CURVES][BLOCKS][ROUNDS];

/* The last number of blocks is the longest call, whose last block isn't whole. */
static size_t bits_of(int blocks)
{
    return blocks < BLOCKS ? (size_t)blocks * BLOCK_BITS : KEYSTREAM_BITS;
}

/* Curve 0 is the card's traffic, curve 1 the first subject's bench call, and so on. */
static double time_of_batch(int curve, struct traffic *traffic)
{
    size_t blocks;
    double start = times_now();

    for (int i = 0; i < CALLS; i++) {
        traffic->input.iv[0] = (uint8_t)i;
        if (curve == 0)
            traffic_call(traffic, &blocks);
        else
            inputs_call(subjects[curve - 1].call, &traffic->input, &blocks);
    }
    return (times_now() - start) / CALLS;
}

/* All curves get the same input, and another of them begins each round. */
static void run_round(int round, int count, uint64_t *generator)
{
    struct traffic traffic;

    for (int blocks = 1; blocks <= BLOCKS; blocks++) {
        traffic_taken(&traffic, generator, 5 + (uint64_t)round % 3, bits_of(blocks), SHIFT);
        for (int i = 0; i < count; i++) {
            int curve = (round + i) % count;
            times[curve][blocks - 1][round] = time_of_batch(curve, &traffic);
        }
    }
}

int curve_measure(struct curve curves[CURVES])
{
    uint64_t generator = SEED;
    int count = subject_count + 1;

    for (int round = 0; round < ROUNDS; round++)
        run_round(round, count, &generator);
    for (int curve = 0; curve < count; curve++) {
        curves[curve].name = curve == 0 ? "card, traffic" : curve == 1 ? "card, bench" : subjects[curve - 1].name;
        for (int b = 0; b < BLOCKS; b++)
            curves[curve].ns[b] = times_median(times[curve][b], ROUNDS);
    }
    return count;
}

void curve_print(const struct curve *curves, int count)
{
    printf("blocks  bits");
    for (int curve = 0; curve < count; curve++)
        printf("  %13s", curves[curve].name);
    printf("   ns a call\n");
    for (int b = 0; b < BLOCKS; b++) {
        printf("%6d  %4zu", b + 1, bits_of(b + 1));
        for (int curve = 0; curve < count; curve++)
            printf("  %13.0f", curves[curve].ns[b]);
        printf("\n");
    }
}
