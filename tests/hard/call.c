#include "call.h"

#include <stddef.h>
#include <stdlib.h>
#include <string.h>

const char *const kind_names[KINDS] = {"load",        "move",         "clear", "read",  "traffic", "bench",
                                       "record_read", "record_write", "plan",  "plain", "slotlist", "pdu"};

void bytes_copy(struct bytes *to, const struct bytes *from)
{
    to->count = from->count;
    memcpy(to->at, from->at, from->count);
}

void table_copy(struct table *to, const struct table *from)
{
    to->slots = from->slots;
    memcpy(to->at, from->at, from->slots * sizeof from->at[0]);
}

void call_copy(struct call *to, const struct call *from)
{
    memcpy(to, from, offsetof(struct call, key));
    bytes_copy(&to->key, &from->key);
    bytes_copy(&to->iv, &from->iv);
    bytes_copy(&to->text, &from->text);
    bytes_copy(&to->buffer, &from->buffer);
}

int bit_at(const struct bytes *bytes, size_t place)
{
    return bytes->at[place / 8] >> (7 - place % 8) & 1;
}

void set_bit(struct bytes *bytes, size_t place, int bit)
{
    uint8_t mask = (uint8_t)(0x80 >> place % 8);

    bytes->at[place / 8] = (uint8_t)((bytes->at[place / 8] & ~mask) | (bit ? mask : 0));
}

int bytes_same(const struct bytes *a, const struct bytes *b)
{
    return a->count == b->count && memcmp(a->at, b->at, a->count) == 0;
}

int table_same(const struct table *a, const struct table *b)
{
    return a->slots == b->slots && memcmp(a->at, b->at, a->slots * sizeof a->at[0]) == 0;
}

int kind_has_table(enum kind kind)
{
    return kind <= TRAFFIC || kind == PDU;
}

int kind_has_buffer(enum kind kind)
{
    return kind == TRAFFIC || kind == BENCH || kind == PLAIN || kind == RECORD_WRITE || kind == SLOTLIST || kind == PDU;
}

unsigned said(const struct call *call, const struct outcome *outcome)
{
    static const char refused[] = "refused=";
    const char *listing = (const char *)outcome->buffer.at;

    if (call->kind != SLOTLIST)
        return outcome->answer;
    if (outcome->numbers[0] == 0)
        return CARD_RECORD_ROOM;
    return strncmp(listing, refused, sizeof refused - 1) == 0 ? (unsigned)atoi(listing + sizeof refused - 1) : 0;
}
