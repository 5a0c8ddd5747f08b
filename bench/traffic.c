#include "traffic.h"

#include <string.h>

enum { LAST_PLACE = 79 };

/* Every slot has the key, and the side that lets it receive with the initial value: with any of the three algorithms, of which
   TEA6 is neither loaded nor sent with. The place is in its last byte: it may change in all others. */
static void fill_table(struct card_slot table[CARD_SLOTS], const struct input *input)
{
    struct card_slot slot = {.algorithm = (uint8_t)input->algorithm, .usage = CARD_FOR_BOTH, .place = LAST_PLACE};

    slot.side = !(input->iv[LAST_PLACE / 8] & 1);
    memcpy(slot.key, input->key, CARD_KEY_BYTES);
    for (int i = 0; i < CARD_SLOTS; i++) {
        slot.version = (uint16_t)(i + 1);
        table[i] = slot;
    }
}

void traffic_taken(struct traffic *traffic, uint64_t *generator, uint64_t algorithm, size_t bits, int shift)
{
    traffic->start = (size_t)shift % 8;
    traffic->skip = (size_t)shift / 8;
    if (bits > KEYSTREAM_BITS - traffic->skip)
        bits = KEYSTREAM_BITS - traffic->skip;
    inputs_taken(&traffic->input, generator, algorithm, bits);
    traffic->input.buf_len = (traffic->start + bits + 7) / 8;
    fill_table(traffic->table, &traffic->input);
}

uint8_t traffic_call(struct traffic *traffic, size_t *blocks)
{
    struct input *input = &traffic->input;

    return card_traffic(traffic->table, CARD_SLOTS, CARD_RECEIVE, CARD_SLOTS, input->iv, input->iv_len, input->buf,
                        input->buf_len, traffic->start, input->bits, traffic->skip, blocks);
}

uint8_t traffic_bench(struct traffic *traffic, size_t *blocks)
{
    struct input *input = &traffic->input;

    return card_bench(input->algorithm, input->key, input->key_len, input->iv, input->iv_len, input->buf,
                      (traffic->skip + input->bits + 7) / 8, traffic->skip + input->bits, blocks);
}
