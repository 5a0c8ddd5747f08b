#include "decode.h"

#include <string.h>

#include "choose.h"
#include "text.h"

/* Of the values of a list's byte, those from this one on are the owner's turn. */
enum { OWNER = 232, OWNER_BYTE = 234, OWNER_TABLE = 238 };

/* So many of the values below it are a kind's, beside its own number. */
static const uint8_t shares[KINDS] = {
    [LOAD] = 32,  [MOVE] = 32,        [CLEAR] = 10,       [READ] = 17, [TRAFFIC] = 39,  [BENCH] = 12,
    [PLAIN] = 10, [RECORD_READ] = 32, [RECORD_WRITE] = 3, [PLAN] = 3,  [SLOTLIST] = 11, [PDU] = 19,
};

static enum kind kind_of(uint8_t way)
{
    int kind = LOAD, left = way - KINDS;

    if (way < KINDS)
        return (enum kind)way;
    for (; kind < KINDS - 1 && left >= shares[kind]; kind++)
        left -= shares[kind];
    return (enum kind)kind;
}

/* The first so many slots, counted from anywhere in steps of 5. */
void decode_table(struct source *source, struct table *table)
{
    int filled = source_byte(source) % 34;
    int first = filled > 0 ? source_byte(source) : 0;

    memset(table, 0, sizeof *table);
    table->slots = CARD_SLOTS;
    for (int i = 0; i < filled && i < CARD_SLOTS; i++)
        table->at[(first + 5 * i) % CARD_SLOTS] = choose_good_slot(source);
}

/* One byte of the table becomes any, or one of a slot at its edges or in its middle becomes one at an edge. */
static void change_byte(struct source *source, struct table *table)
{
    static const uint64_t bytes[] = {0, 1, 2, 3, 4, 5, 7, 8, 63, 64, 79, 80, 255},
                          places[] = {0, 1, 2, 3, 4, 5, 6, 7, 8, 9, 10, 21, 33};
    size_t slots[] = {0, table->slots / 2, table->slots - 1}, size = sizeof table->at[0];
    uint8_t *at = (uint8_t *)table->at;

    if (table->slots == 0)
        return;
    if (source_byte(source) % 2 == 1) {
        at += slots[source_byte(source) % 3] * size + choose_of(source, places, sizeof places / sizeof places[0]);
        *at = (uint8_t)choose_of(source, bytes, sizeof bytes / sizeof bytes[0]);
    } else {
        at[source_below(source, table->slots * size)] = source_byte(source);
    }
}

/* A table of another number of slots, one byte changed, or a good table again. */
static void owner_writes(struct source *source, struct table *table, uint8_t way)
{
    static const uint64_t likely[] = {0, 1, 16, 31, 33, 64};

    if (way < OWNER_BYTE)
        table->slots = source_byte(source) % 2 == 1 ? choose_of(source, likely, sizeof likely / sizeof likely[0])
                                                    : source_byte(source) % (MOST_SLOTS + 1u);
    else if (way < OWNER_TABLE)
        change_byte(source, table);
    else
        decode_table(source, table);
}

static void decode_fields(struct source *source, struct call *call)
{
    call->version = choose_version(source);
    call->algorithm = choose_mostly(source, 5, 7);
    call->usage = choose_mostly(source, 1, 3);
    call->side = choose_mostly(source, 0, 1);
    call->place = choose_mostly(source, 0, 79);
    call->mcc = choose_mostly(source, 0, 1023);
    call->mnc = choose_mostly(source, 0, 16383);
    choose_bytes(source, &call->key, CARD_KEY_BYTES);
}

/* The initial value, mostly with the side bit that the slot and the direction need. */
static void decode_iv(struct source *source, const struct table *table, struct call *call)
{
    const struct card_slot *slot;
    uint8_t mask;

    choose_bytes(source, &call->iv, choose_count(source, CARD_IV_BYTES));
    if (source_byte(source) % 8 == 1 || call->number < 1 || call->number > table->slots)
        return;
    slot = &table->at[call->number - 1];
    if (slot->place >= 8 * call->iv.count)
        return;
    mask = (uint8_t)(0x80 >> slot->place % 8);
    call->iv.at[slot->place / 8] &= (uint8_t)~mask;
    if ((slot->side == 1) == (call->direction == CARD_SEND))
        call->iv.at[slot->place / 8] |= mask;
}

/* A slot, mostly a filled one, in a direction that its use mostly has, and an initial value. */
static void decode_right(struct source *source, const struct table *table, struct call *call)
{
    call->number = choose_slot(source, table, 1);
    call->direction = choose_mostly(source, 1, 2);
    if (call->number >= 1 && call->number <= table->slots && source_byte(source) % 4 != 1) {
        uint8_t usage = table->at[call->number - 1].usage;

        call->direction = usage == CARD_SEND || usage == CARD_RECEIVE ? usage : call->direction;
    }
    decode_iv(source, table, call);
}

static void decode_traffic(struct source *source, const struct table *table, struct call *call)
{
    size_t bytes = choose_buffer_count(source);

    decode_right(source, table, call);
    choose_bytes(source, &call->buffer, bytes);
    call->length = choose_length(source, bytes);
    call->start = choose_first_bit(source, call->length, 8 * bytes);
    call->skip = choose_first_bit(source, call->length, CARD_KEYSTREAM_BITS);
}

/* Mostly a PDU that its buffer holds. */
static void decode_pdu(struct source *source, const struct table *table, struct call *call)
{
    size_t bytes = choose_buffer_count(source);

    decode_right(source, table, call);
    choose_bytes(source, &call->buffer, bytes);
    call->pdu_kind = choose_mostly(source, 1, 3);
    call->state = choose_mostly(source, 0, 3);
    call->length = source_byte(source) % 8 == 1 ? choose_pdu_length(source) : choose_length(source, bytes);
    call->sdu = choose_sdu(source, call->length);
    call->address = choose_address(source, call->sdu);
}

static void decode_bench(struct source *source, struct call *call)
{
    size_t bytes = choose_buffer_count(source);

    call->algorithm = choose_mostly(source, 5, 7);
    choose_bytes(source, &call->key, choose_count(source, CARD_KEY_BYTES));
    choose_bytes(source, &call->iv, choose_count(source, CARD_IV_BYTES));
    choose_bytes(source, &call->buffer, bytes);
    call->length = choose_length(source, bytes);
}

static void decode_plain(struct source *source, struct call *call)
{
    decode_bench(source, call);
    call->skip = choose_first_bit(source, call->length, CARD_KEYSTREAM_BITS);
}

static void decode_record_write(struct source *source, struct call *call)
{
    size_t bytes = source_byte(source) % 4 == 1 ? choose_buffer_count(source) : 122u + source_byte(source) % 20;

    call->number = choose_mostly(source, 1, CARD_SLOTS);
    decode_fields(source, call);
    choose_bytes(source, &call->buffer, bytes);
}

static void decode_plan(struct source *source, struct call *call)
{
    call->pdu_kind = choose_mostly(source, 1, 3);
    call->state = choose_mostly(source, 0, 3);
    call->flag = choose_mostly(source, 0, 1);
    call->length = choose_pdu_length(source);
    call->sdu = choose_sdu(source, call->length);
    call->address = choose_address(source, call->sdu);
}

static void decode_slotlist(struct source *source, struct call *call)
{
    text_sheet(source, &call->text);
    choose_bytes(source, &call->buffer, choose_listing_count(source));
}

void decode_arguments(struct source *source, const struct table *table, struct call *call)
{
    call->key.count = call->iv.count = call->text.count = call->buffer.count = 0;
    switch (call->kind) {
    case LOAD:
        call->number = choose_slot(source, table, 0);
        decode_fields(source, call);
        break;
    case MOVE:
        call->number = choose_slot(source, table, 1);
        call->to = choose_slot(source, table, 0);
        call->asked = choose_mostly(source, 0, 3);
        break;
    case CLEAR:
    case READ: call->number = choose_slot(source, table, 1); break;
    case TRAFFIC: decode_traffic(source, table, call); break;
    case PDU: decode_pdu(source, table, call); break;
    case BENCH: decode_bench(source, call); break;
    case PLAIN: decode_plain(source, call); break;
    case RECORD_READ: text_record(source, &call->text); break;
    case RECORD_WRITE: decode_record_write(source, call); break;
    case SLOTLIST: decode_slotlist(source, call); break;
    default: decode_plan(source, call);
    }
}

int decode_call(struct source *source, struct table *table, struct call *call)
{
    uint8_t way = source_byte(source);

    while (!source_dry(source) && way >= OWNER) {
        owner_writes(source, table, way);
        way = source_byte(source);
    }
    if (source_dry(source))
        return 0;
    call->kind = kind_of(way);
    decode_arguments(source, table, call);
    return 1;
}
