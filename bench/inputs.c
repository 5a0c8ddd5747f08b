#include "inputs.h"

#include <inttypes.h>
#include <string.h>

static uint64_t next_word(uint64_t *generator)
{
    uint64_t word = *generator += 0x9e3779b97f4a7c15;

    word = (word ^ (word >> 30)) * 0xbf58476d1ce4e5b9;
    word = (word ^ (word >> 27)) * 0x94d049bb133111eb;
    return word ^ (word >> 31);
}

static size_t below(uint64_t *generator, size_t bound)
{
    return next_word(generator) % bound;
}

static void fill(uint8_t *bytes, size_t count, uint64_t *generator)
{
    for (size_t i = 0; i < count; i++)
        bytes[i] = (uint8_t)next_word(generator);
}

void inputs_taken(struct input *input, uint64_t *generator, uint64_t algorithm, size_t bits)
{
    *input = (struct input){.algorithm = algorithm, .key_len = KEY_BYTES, .iv_len = IV_BYTES, .bits = bits};
    input->buf_len = (bits + 7) / 8;
    fill(input->key, sizeof input->key, generator);
    fill(input->iv, sizeof input->iv, generator);
    fill(input->buf, sizeof input->buf, generator);
}

static size_t some_bits(uint64_t *generator)
{
    static const size_t edges[] = {1, 7, 8, 9, 255, 256, 257, 511, 512, 8192, 8193, 8287, 8288};

    if (below(generator, 2) == 0)
        return edges[below(generator, sizeof edges / sizeof edges[0])];
    return 1 + below(generator, KEYSTREAM_BITS);
}

/* Makes an input that is taken one that is refused, by one fault or by two. */
static void spoil(struct input *input, uint64_t *generator)
{
    int faults = 1 << below(generator, 6);

    faults |= 1 << below(generator, 6);
    if (faults & 1)
        input->algorithm = below(generator, 2) == 0 ? 4 : 8;
    if (faults & 2)
        input->key_len = below(generator, 2) == 0 ? KEY_BYTES - 1 : KEY_BYTES + 1;
    if (faults & 4)
        input->iv_len = below(generator, 2) == 0 ? IV_BYTES - 1 : IV_BYTES + 1;
    if (faults & 8)
        input->bits = 8 * input->buf_len + 1;
    if (faults & 16)
        input->bits = below(generator, 2) == 0 ? 0 : KEYSTREAM_BITS + 1;
    if (faults & 32)
        input->buf_len = BUFFER_BYTES + 1;
}

void inputs_next(struct input *input, uint64_t *generator)
{
    uint64_t algorithm = 5 + below(generator, 3);

    inputs_taken(input, generator, algorithm, some_bits(generator));
    input->buf_len += below(generator, 4);
    if (below(generator, 4) == 0)
        spoil(input, generator);
}

static void print_hex(const uint8_t *bytes, size_t count)
{
    for (size_t i = 0; i < count; i++)
        printf("%02x", bytes[i]);
}

void inputs_print_traffic(const struct input *input, size_t start, size_t skip)
{
    printf("%" PRIu64 " ", input->algorithm);
    print_hex(input->key, input->key_len);
    printf(" ");
    print_hex(input->iv, input->iv_len);
    printf(" %zu %zu %zu ", start, input->bits, skip);
    print_hex(input->buf, input->buf_len);
    printf("\n");
}

void inputs_print_bench(const struct input *input)
{
    static const uint8_t zeros[BUFFER_BYTES + 1];
    struct input cleared = *input;

    if (input->bits <= 8 * input->buf_len)
        front_write_bits(cleared.buf, zeros, input->bits);
    inputs_print_traffic(&cleared, 0, 0);
}

uint8_t inputs_call(bench_call *call, struct input *input, size_t *blocks)
{
    return call(input->algorithm, input->key, input->key_len, input->iv, input->iv_len, input->buf,
                input->buf_len, input->bits, blocks);
}
