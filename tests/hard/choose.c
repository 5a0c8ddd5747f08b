#include "choose.h"

#include <string.h>

#define OF(source, numbers) choose_of(source, numbers, sizeof numbers / sizeof numbers[0])

/* Numbers of bits at which a span changes. */
static const uint64_t span_edges[] = {0, 1, 7, 8, 9, 255, 256, 257, 511, 512, 513, 8287, 8288, 8289};

/* Numbers of a PDU's bits at which a plan changes. */
static const uint64_t pdu_edges[] = {0,  1,  9,  10, 11,   12,   13,   17,   18,   19,
                                     23, 24, 25, 8263, 8264, 8265, 8286, 8287, 8288, 8289};

uint64_t choose_of(struct source *source, const uint64_t *numbers, size_t count)
{
    return numbers[source_below(source, count)];
}

static uint64_t with_lost_bit(struct source *source, uint64_t good)
{
    static const int bits[] = {8, 16, 32, 63};

    return good | (uint64_t)1 << bits[source_byte(source) % 4];
}

/* The number itself, or the one before it or after it. */
static uint64_t beside(struct source *source, uint64_t number)
{
    return number - 1 + source_byte(source) % 3;
}

uint64_t choose_mostly(struct source *source, uint64_t low, uint64_t high)
{
    uint8_t way = source_byte(source) % 64;
    uint64_t good = low + source_below(source, high - low + 1);

    switch (way) {
    case 1: return low - 1;
    case 2: return high + 1;
    case 3: return with_lost_bit(source, good);
    case 4: return UINT64_MAX - good;
    case 5: return source_number(source, 8);
    case 6: return UINT64_MAX - source_byte(source) % 10;
    case 7: return source_below(source, 300);
    case 8: return 0;
    default: return way >= 56 ? low : way >= 49 ? high : good;
    }
}

uint16_t choose_version(struct source *source)
{
    uint8_t way = source_byte(source);
    uint16_t any = (uint16_t)source_number(source, 2);

    return way % 8 == 1 ? UINT16_MAX : (uint16_t)(any >> way / 16);
}

static int is_filled(const struct card_slot *slot)
{
    return slot->algorithm != 0;
}

uint64_t choose_slot(struct source *source, const struct table *table, int filled)
{
    uint8_t way = source_byte(source);
    size_t first = source_byte(source);

    if (way % 8 == 1)
        return choose_mostly(source, 1, CARD_SLOTS);
    if (way % 8 == 2 || (way % 8 == 3 && !filled))
        return 1 + first % CARD_SLOTS;
    for (size_t i = 0; i < table->slots; i++) {
        size_t place = (first + i) % table->slots;

        if (is_filled(&table->at[place]) == filled)
            return place + 1;
    }
    return first;
}

struct card_slot choose_good_slot(struct source *source)
{
    static struct bytes key;
    struct card_slot slot = {0};

    if (source_byte(source) % 4 == 1)
        return slot;
    slot.version = choose_version(source);
    slot.algorithm = (uint8_t)(5 + source_byte(source) % 3);
    slot.usage = (uint8_t)(1 + source_byte(source) % 3);
    slot.side = source_byte(source) % 2;
    slot.place = source_byte(source) % 80;
    slot.mcc = (uint16_t)source_below(source, 1024);
    slot.mnc = (uint16_t)source_below(source, 16384);
    choose_bytes(source, &key, CARD_KEY_BYTES);
    memcpy(slot.key, key.at, CARD_KEY_BYTES);
    return slot;
}

size_t choose_count(struct source *source, size_t right)
{
    switch (source_byte(source) % 64) {
    case 1: return 0;
    case 2: return right - 1;
    case 3: return right + 1;
    case 4: return source_byte(source);
    case 5: return right + 256;
    case 6: return right + 65536;
    case 7: return source_below(source, 4096);
    case 8: return right + 512;
    default: return right;
    }
}

size_t choose_buffer_count(struct source *source)
{
    switch (source_byte(source) % 32) {
    case 1:
    case 12: return CARD_BUFFER_BYTES + 1 + source_byte(source) % 3;
    case 2: return 65536 + source_below(source, 1300);
    case 3: return CARD_BUFFER_BYTES - source_byte(source) % 3;
    case 4: return source_below(source, CARD_BUFFER_BYTES + 1);
    case 5: return 0;
    case 6: return CARD_KEYSTREAM_BITS / 8 - 2 + source_byte(source) % 5;
    case 7: return CARD_BUFFER_BYTES + (source_byte(source) % 2 ? CARD_BUFFER_BYTES : 256);
    case 8:
    case 9:
    case 10:
    case 11: return source_below(source, 1300);
    default: return source_byte(source) % 80;
    }
}

/* Just the room for a listing, more, and now and then less. */
size_t choose_listing_count(struct source *source)
{
    uint8_t way = source_byte(source) % 32;

    if (way == 1)
        return source_below(source, CARD_LISTING_BYTES);
    return way == 2 ? CARD_LISTING_BYTES - 1 : way < 16 ? CARD_LISTING_BYTES : CARD_LISTING_BYTES + way * 6;
}

static void fill(struct bytes *bytes, uint64_t state)
{
    for (size_t i = 0; i < bytes->count; i += sizeof state) {
        uint64_t next = generator_next(&state);
        size_t left = bytes->count - i;

        memcpy(bytes->at + i, &next, left < sizeof next ? left : sizeof next);
    }
}

/* Zeros, ones, bytes of the source itself, or mostly bytes of a generator whose seed the source gives. */
void choose_bytes(struct source *source, struct bytes *bytes, size_t count)
{
    uint8_t way = source_byte(source) % 16;

    bytes->count = count;
    if (way == 1 || way == 2) {
        memset(bytes->at, way == 1 ? 0 : 0xff, count);
    } else if (way == 3 && source->generator == NULL) {
        for (size_t i = 0; i < count; i++)
            bytes->at[i] = source_byte(source);
    } else {
        fill(bytes, source_number(source, 2));
    }
}

uint64_t choose_length(struct source *source, size_t buffer_bytes)
{
    uint64_t bits = 8 * (uint64_t)buffer_bytes;
    uint64_t most = bits == 0 ? 1 : bits < CARD_KEYSTREAM_BITS ? bits : CARD_KEYSTREAM_BITS;
    uint8_t way = source_byte(source) % 32;
    uint64_t good = 1 + source_below(source, most);

    switch (way) {
    case 1: return 0;
    case 2: return most + 1 + source_byte(source) % 9;
    case 3: return most;
    case 4: return UINT64_MAX - source_byte(source);
    case 5: return with_lost_bit(source, good);
    case 6: return source_number(source, 8);
    case 7: return CARD_KEYSTREAM_BITS - 1 + source_byte(source) % 3;
    case 8: return 256 * (1 + good / 256) - 1 + source_byte(source) % 3;
    case 9: return OF(source, span_edges);
    case 10: return 1 + source_below(source, CARD_KEYSTREAM_BITS);
    case 11: return most - source_below(source, most < 9 ? most : 9);
    default: return good;
    }
}

uint64_t choose_first_bit(struct source *source, uint64_t length, uint64_t end)
{
    uint64_t last = end - length;
    uint8_t way = source_byte(source) % 32;
    uint64_t fitting = length > end ? 0 : source_number(source, 2) % (last + 1);

    switch (way) {
    case 1: return UINT64_MAX - source_byte(source);
    case 2: return beside(source, 0 - length);
    case 3: return with_lost_bit(source, fitting);
    case 4: return beside(source, last);
    case 5: return source_number(source, 8);
    case 6: return last;
    case 7:
    case 8: return fitting / 8 * 8;
    case 9:
    case 10:
    case 11: return 0;
    case 12: return OF(source, span_edges);
    default: return fitting;
    }
}

/* A number of a PDU's bits, mostly one of those at which a plan changes. */
static uint64_t pdu_bits(struct source *source)
{
    uint8_t way = source_byte(source) % 16;

    if (way >= 6)
        return OF(source, pdu_edges);
    switch (way) {
    case 1: return UINT64_MAX - source_byte(source) % 30;
    case 2: return with_lost_bit(source, source_below(source, CARD_KEYSTREAM_BITS + 1));
    case 3: return source_number(source, 8);
    case 4: return source_below(source, 30);
    default: return source_below(source, CARD_KEYSTREAM_BITS + 1);
    }
}

uint64_t choose_pdu_length(struct source *source)
{
    return source_byte(source) % 2 == 1 ? pdu_bits(source) : source_below(source, CARD_KEYSTREAM_BITS + 1);
}

uint64_t choose_sdu(struct source *source, uint64_t length)
{
    uint64_t most = length < CARD_KEYSTREAM_BITS ? length : CARD_KEYSTREAM_BITS;

    switch (source_byte(source) % 8) {
    case 1:
    case 2: return pdu_bits(source);
    case 3:
    case 4: return beside(source, length);
    default: return source_below(source, most + 1);
    }
}

/* From bit 0 on the SDU's skip is the largest. */
uint64_t choose_address(struct source *source, uint64_t sdu)
{
    uint64_t last = sdu - 24, most = last < CARD_KEYSTREAM_BITS ? last : CARD_KEYSTREAM_BITS;

    switch (source_byte(source) % 8) {
    case 1: return pdu_bits(source);
    case 2: return source_byte(source) % 2;
    case 3:
    case 4: return beside(source, last);
    default: return source_below(source, most + 1);
    }
}
