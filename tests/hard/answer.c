#include "answer.h"

#include <string.h>

#include "oracle.h"
#include "report.h"
#include "room.h"

const struct face card_face = {
    "card's",     card_load,  card_move,        card_clear,        card_read,
    card_traffic, card_bench, card_record_read, card_record_write, card_plan,
    card_plain,   card_slotlist, card_pdu,
};

const struct face oracle_face = {
    "second program's", oracle_load,  oracle_move,        oracle_clear,        oracle_read,
    oracle_traffic,     oracle_bench, oracle_record_read, oracle_record_write, oracle_plan,
    oracle_plain,       oracle_slotlist, oracle_pdu,
};

static void *lend_table(const struct table *table)
{
    return room_lend(TABLE_ROOM, table->at, table->slots * sizeof table->at[0]);
}

static const void *lend_table_to_read(const struct table *table)
{
    return room_lend_to_read(TABLE_ROOM, table->at, table->slots * sizeof table->at[0]);
}

static void take_table(struct outcome *outcome)
{
    room_take(TABLE_ROOM, outcome->table.at);
}

static const uint8_t *lend_bytes(enum room room, const struct bytes *bytes)
{
    return room_lend_to_read(room, bytes->at, bytes->count);
}

static uint8_t *lend_buffer(const struct bytes *bytes)
{
    return room_lend(BUFFER_ROOM, bytes->at, bytes->count);
}

/* Takes back what was lent to be read. Its pages couldn't be written to; its guards are looked at. */
static void take_bytes(enum room room)
{
    room_take(room, NULL);
}

/* A number that is to be set, of so many bytes, in the room of a place in the outcome. */
static void *lend_number(int i, size_t bytes)
{
    return room_lend_unset((enum room)(FIRST_NUMBER_ROOM + i), bytes);
}

/* Numbers of fewer than 8 bytes have their first byte first here as in the card. */
static void take_number(int i, struct outcome *outcome)
{
    room_take((enum room)(FIRST_NUMBER_ROOM + i), &outcome->numbers[i]);
}

static void make_load(const struct face *face, const struct call *call, struct outcome *outcome)
{
    outcome->answer = face->load(lend_table(&outcome->table), outcome->table.slots, call->number, call->version,
                                 call->algorithm, call->usage, call->side, call->place, call->mcc, call->mnc,
                                 room_lend_to_read(KEY_ROOM, call->key.at, CARD_KEY_BYTES));
    take_table(outcome);
    take_bytes(KEY_ROOM);
}

static void make_move(const struct face *face, const struct call *call, struct outcome *outcome)
{
    outcome->answer =
        face->move(lend_table(&outcome->table), outcome->table.slots, call->number, call->to, call->asked);
    take_table(outcome);
}

static void make_clear(const struct face *face, const struct call *call, struct outcome *outcome)
{
    outcome->answer = face->clear(lend_table(&outcome->table), outcome->table.slots, call->number);
    take_table(outcome);
}

static void make_read(const struct face *face, const struct call *call, struct outcome *outcome)
{
    outcome->answer = face->read(lend_table_to_read(&outcome->table), outcome->table.slots, call->number,
                                 lend_number(0, 8), lend_number(1, 2), lend_number(2, 1), lend_number(3, 1),
                                 lend_number(4, 1), lend_number(5, 1), lend_number(6, 2), lend_number(7, 2));
    take_table(outcome);
    for (int i = 0; i < 8; i++)
        take_number(i, outcome);
}

static void make_traffic(const struct face *face, const struct call *call, struct outcome *outcome)
{
    outcome->answer =
        face->traffic(lend_table_to_read(&outcome->table), outcome->table.slots, call->direction, call->number,
                      lend_bytes(IV_ROOM, &call->iv), call->iv.count, lend_buffer(&call->buffer), call->buffer.count,
                      call->start, call->length, call->skip, lend_number(0, sizeof(size_t)));
    take_table(outcome);
    take_bytes(IV_ROOM);
    room_take(BUFFER_ROOM, outcome->buffer.at);
    take_number(0, outcome);
}

static void make_pdu(const struct face *face, const struct call *call, struct outcome *outcome)
{
    outcome->answer =
        face->pdu(lend_table_to_read(&outcome->table), outcome->table.slots, call->direction, call->number,
                  lend_bytes(IV_ROOM, &call->iv), call->iv.count, lend_buffer(&call->buffer), call->buffer.count,
                  call->pdu_kind, call->state, call->length, call->address, call->sdu, lend_number(0, sizeof(size_t)));
    take_table(outcome);
    take_bytes(IV_ROOM);
    room_take(BUFFER_ROOM, outcome->buffer.at);
    take_number(0, outcome);
}

static void make_bench(const struct face *face, const struct call *call, struct outcome *outcome)
{
    outcome->answer = face->bench(call->algorithm, lend_bytes(KEY_ROOM, &call->key), call->key.count,
                                  lend_bytes(IV_ROOM, &call->iv), call->iv.count, lend_buffer(&call->buffer),
                                  call->buffer.count, call->length, lend_number(0, sizeof(size_t)));
    take_bytes(KEY_ROOM);
    take_bytes(IV_ROOM);
    room_take(BUFFER_ROOM, outcome->buffer.at);
    take_number(0, outcome);
}

static void make_plain(const struct face *face, const struct call *call, struct outcome *outcome)
{
    outcome->answer = face->plain(call->algorithm, lend_bytes(KEY_ROOM, &call->key), call->key.count,
                                  lend_bytes(IV_ROOM, &call->iv), call->iv.count, lend_buffer(&call->buffer),
                                  call->buffer.count, call->length, call->skip, lend_number(0, sizeof(size_t)));
    take_bytes(KEY_ROOM);
    take_bytes(IV_ROOM);
    room_take(BUFFER_ROOM, outcome->buffer.at);
    take_number(0, outcome);
}

/* Its eight shown numbers are one array; they go to the first eight of the outcome, `used`, `line` and `column` after them. */
static void make_record_read(const struct face *face, const struct call *call, struct outcome *outcome)
{
    outcome->answer =
        face->record_read(lend_bytes(TEXT_ROOM, &call->text), call->text.count, lend_number(0, 8 * 8),
                          room_lend_unset(KEY_ROOM, CARD_KEY_BYTES), lend_number(8, sizeof(size_t)),
                          lend_number(9, sizeof(size_t)), lend_number(10, sizeof(size_t)));
    take_bytes(TEXT_ROOM);
    room_take(KEY_ROOM, outcome->key);
    room_take(FIRST_NUMBER_ROOM, outcome->numbers);
    take_number(8, outcome);
    take_number(9, outcome);
    take_number(10, outcome);
}

static void make_record_write(const struct face *face, const struct call *call, struct outcome *outcome)
{
    outcome->answer = face->record_write(call->number, call->version, call->algorithm, call->usage, call->side,
                                         call->place, call->mcc, call->mnc, room_lend_to_read(KEY_ROOM, call->key.at, CARD_KEY_BYTES),
                                         lend_buffer(&call->buffer), call->buffer.count,
                                         lend_number(0, sizeof(size_t)));
    take_bytes(KEY_ROOM);
    room_take(BUFFER_ROOM, outcome->buffer.at);
    take_number(0, outcome);
}

static void make_plan(const struct face *face, const struct call *call, struct outcome *outcome)
{
    outcome->answer = face->plan(call->pdu_kind, call->state, call->flag, call->length, call->address, call->sdu,
                                 lend_number(0, 6 * sizeof(size_t)));
    room_take(FIRST_NUMBER_ROOM, outcome->numbers);
}

static void make_slotlist(const struct face *face, const struct call *call, struct outcome *outcome)
{
    outcome->answer = CARD_DONE;
    outcome->numbers[0] = face->slotlist(lend_bytes(TEXT_ROOM, &call->text), call->text.count,
                                         lend_buffer(&call->buffer), call->buffer.count);
    take_bytes(TEXT_ROOM);
    room_take(BUFFER_ROOM, outcome->buffer.at);
}

void answer(const struct face *face, const struct call *call, const struct table *table, struct outcome *outcome)
{
    static void (*const make[KINDS])(const struct face *, const struct call *, struct outcome *) = {
        make_load,        make_move,         make_clear, make_read,  make_traffic,  make_bench,
        make_record_read, make_record_write, make_plan,  make_plain, make_slotlist, make_pdu,
    };

    report_whose(face->whose);
    memset(outcome->numbers, 0, sizeof outcome->numbers);
    memset(outcome->key, 0, sizeof outcome->key);
    outcome->table.slots = 0;
    if (kind_has_table(call->kind))
        table_copy(&outcome->table, table);
    outcome->buffer.count = kind_has_buffer(call->kind) ? call->buffer.count : 0;
    make[call->kind](face, call, outcome);
}
