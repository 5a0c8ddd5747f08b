#include <stdio.h>
#include <string.h>

#include "card_plain.h"
#include "inputs.h"
#include "measure.h"
#include "times.h"

enum { ROUNDS = 21, SEED = 5 };

/* The plain engine with the face of the bench call. */
static uint8_t engine_bench(uint64_t algorithm, const uint8_t *key, size_t key_len, const uint8_t *iv, size_t iv_len,
                            uint8_t *buf, size_t buf_len, size_t n, size_t *blocks)
{
    return card_plain(algorithm, key, key_len, iv, iv_len, buf, buf_len, n, 0, blocks);
}

static double time_of_call(bench_call *call, struct input *input, size_t *blocks)
{
    double start = times_now();

    inputs_call(call, input, blocks);
    return times_now() - start;
}

/* Returns 1 where the two engines differ. */
static int measure_size(size_t bits)
{
    static double plain[ROUNDS], ratios[ROUNDS];
    uint64_t generator = SEED;

    for (int round = 0; round < ROUNDS; round++) {
        struct input slow, quick;
        size_t slow_blocks, quick_blocks;

        inputs_taken(&slow, &generator, 5 + (uint64_t)round % 3, bits);
        quick = slow;
        plain[round] = time_of_call(engine_bench, &slow, &slow_blocks);
        ratios[round] = plain[round] / time_of_call(card_bench, &quick, &quick_blocks);
        if (slow_blocks != quick_blocks || memcmp(slow.buf, quick.buf, sizeof slow.buf) != 0) {
            fprintf(stderr, "bench: the plain engine and the bench call differ at %zu bits\n", bits);
            return 1;
        }
    }
    printf("%6zu  plain engine %9.0f ns, %.0f times the bench call\n", bits, times_median(plain, ROUNDS),
           times_median(ratios, ROUNDS));
    return 0;
}

int measure_engine(void)
{
    return measure_size(8288) + measure_size(256);
}
