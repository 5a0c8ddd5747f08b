#define _GNU_SOURCE
#include "check.h"

#include <string.h>

#include "answer.h"
#include "report.h"
#include "room.h"

static void hold(const char *law, int holds)
{
    if (!holds)
        report("%s", law);
}

static void agree(const struct call *call, const struct outcome *given, const struct outcome *expected)
{
    if (given->answer == expected->answer && bytes_same(&given->buffer, &expected->buffer) &&
        memcmp(given->numbers, expected->numbers, sizeof given->numbers) == 0 &&
        memcmp(given->key, expected->key, sizeof given->key) == 0 && table_same(&given->table, &expected->table))
        return;
    report_outcome("card", call, given);
    report_outcome("second", call, expected);
    report("card and second program differ");
}

/* Line and column name a byte of the text that is no line end before the next, or the place just past the text. */
static int names_a_place(const struct bytes *text, uint64_t line, uint64_t column)
{
    const uint8_t *start = text->at, *end = text->at + text->count, *next;

    while (--line > 0 && (next = memchr(start, '\n', end - start)) != NULL)
        start = next + 1;
    return line == 0 && column >= 1 && column - 1 <= (size_t)(end - start) &&
           memchr(start, '\n', column - 1) == NULL;
}

/* Refused: nothing changed and every number is 0, save line and column, which are the last. */
static void refused_changes_nothing(const struct call *call, const struct table *before, const struct outcome *given)
{
    static const uint64_t zeros[MOST_NUMBERS];
    int place_given = given->answer == CARD_RECORD_TEXT;
    uint64_t line = given->numbers[MOST_NUMBERS - 2], column = given->numbers[MOST_NUMBERS - 1];

    hold("a refused call changed the table", !kind_has_table(call->kind) || table_same(&given->table, before));
    hold("a refused call changed the buffer",
         !kind_has_buffer(call->kind) || bytes_same(&given->buffer, &call->buffer));
    hold("a refused call reports a number",
         memcmp(given->numbers, zeros, (MOST_NUMBERS - 2) * sizeof zeros[0]) == 0);
    hold("the line isn't 1 to 7, or to 10 of form 2",
         place_given ? line >= 1 && line <= (call->text.count > 7 && memcmp(call->text.at, "form=2\n", 7) == 0 ? 10 : 7)
                     : line == 0);
    hold("line and column name no place", place_given ? names_a_place(&call->text, line, column) : column == 0);
    hold("a refused call gives a key", memcmp(given->key, zeros, CARD_KEY_BYTES) == 0);
}

/* Traffic, or a whole PDU. */
static void twice_is_back(const struct call *call, const struct table *table, const struct outcome *given)
{
    static struct call again;
    static struct outcome twice;

    call_copy(&again, call);
    bytes_copy(&again.buffer, &given->buffer);
    answer(&card_face, &again, table, &twice);
    hold("the same call again doesn't bring the buffer back",
         twice.answer == CARD_DONE && bytes_same(&twice.buffer, &call->buffer));
}

/* A whole PDU is its plan's pieces by traffic, one after the other, each of which is done; its blocks are the different ones
   among theirs. */
static void pdu_as_traffic(const struct call *call, const struct table *table, const struct outcome *given)
{
    static struct call part;
    static struct outcome planned, ciphered;
    uint8_t used[CARD_KEYSTREAM_BITS / 256 + 1] = {0};
    size_t blocks = 0;

    call_copy(&part, call);
    part.kind = PLAN;
    part.flag = call->pdu_kind == CARD_DMAC_SYNC_SCH_H && call->length >= 12 ? (uint64_t)bit_at(&call->buffer, 11) : 0;
    answer(&card_face, &part, table, &planned);
    part.kind = TRAFFIC;
    for (int i = 0; i < 6; i += 3) {
        part.start = planned.numbers[i];
        part.length = planned.numbers[i + 1];
        part.skip = planned.numbers[i + 2];
        if (part.length == 0)
            continue;
        answer(&card_face, &part, table, &ciphered);
        hold("a piece of a PDU is refused by traffic", ciphered.answer == CARD_DONE);
        bytes_copy(&part.buffer, &ciphered.buffer);
        for (uint64_t bit = part.skip; bit < part.skip + part.length; bit++)
            used[bit / 256] = 1;
    }
    for (size_t i = 0; i < sizeof used; i++)
        blocks += used[i];
    hold("a PDU isn't the traffic of its pieces", planned.answer == CARD_DONE && bytes_same(&part.buffer, &given->buffer));
    hold("a PDU's blocks aren't the different ones of its pieces", given->numbers[0] == blocks);
}

/* What was read is written in form 2 to a buffer that is as long as the text, and as the longest record, and whose bytes
   after the record stay. What was of form 2 is the same text; what was of form 1 has the lines of form 2 besides. */
static void written_as_read(const struct call *call, const struct table *table, const struct outcome *given)
{
    static struct call write;
    static struct outcome written;
    static uint8_t expected[MOST_BYTES];
    size_t used = given->numbers[8];
    int old = call->text.at[0] != 'f';
    static const char opening[] = "form=2\n", codes[] = "mcc=0\nmnc=0\n";
    size_t key_line = 53, more = old ? strlen(opening) + strlen(codes) : 0, count = call->text.count + more;
    uint8_t *to = expected;

    write.kind = RECORD_WRITE;
    write.number = given->numbers[0];
    write.version = (uint16_t)given->numbers[1];
    write.algorithm = given->numbers[2];
    write.usage = given->numbers[3];
    write.side = given->numbers[4];
    write.place = given->numbers[5];
    write.mcc = given->numbers[6];
    write.mnc = given->numbers[7];
    memcpy(write.key.at, given->key, CARD_KEY_BYTES);
    write.buffer.count = count;
    memset(write.buffer.at, '~', count);
    memset(expected, '~', count);
    if (old)
        to = mempcpy(to, opening, strlen(opening));
    to = mempcpy(to, call->text.at, used - key_line);
    if (old)
        to = mempcpy(to, codes, strlen(codes));
    memcpy(to, call->text.at + used - key_line, key_line);
    answer(&card_face, &write, table, &written);
    hold("a record that was read isn't written the same",
         written.answer == CARD_DONE && written.numbers[0] == used + more &&
             memcmp(written.buffer.at, expected, count) == 0);
}

static void read_as_written(const struct call *call, const struct table *table, const struct outcome *given)
{
    static struct call read;
    static struct outcome back;
    const uint64_t shown[] = {call->number, call->version, call->algorithm,   call->usage,
                              call->side,   call->place,   call->mcc,         call->mnc,
                              given->numbers[0], 0, 0};

    read.kind = RECORD_READ;
    bytes_copy(&read.text, &given->buffer);
    answer(&card_face, &read, table, &back);
    hold("a record that was written isn't read the same",
         back.answer == CARD_DONE && memcmp(back.numbers, shown, sizeof shown) == 0 &&
             memcmp(back.key, call->key.at, CARD_KEY_BYTES) == 0);
}

/* Traffic with the bench's key on zero bits gives what the bench gives there; with TEA6 it is a receive. */
static void bench_as_traffic(const struct call *call, const struct outcome *given)
{
    static struct call traffic;
    static struct table table;
    static struct outcome sent;
    int bit = call->iv.at[0] >= 0x80, receive = bit || call->algorithm == CARD_TEA6;

    table.slots = CARD_SLOTS;
    table.at[0] = (struct card_slot){.algorithm = (uint8_t)call->algorithm, .usage = CARD_FOR_BOTH, .side = receive && !bit};
    memcpy(table.at[0].key, call->key.at, CARD_KEY_BYTES);
    traffic.kind = TRAFFIC;
    traffic.number = 1;
    traffic.direction = receive ? CARD_RECEIVE : CARD_SEND;
    traffic.length = call->length;
    bytes_copy(&traffic.iv, &call->iv);
    bytes_copy(&traffic.buffer, &call->buffer);
    for (size_t i = 0; i < call->length; i++)
        set_bit(&traffic.buffer, i, 0);
    answer(&card_face, &traffic, &table, &sent);
    hold("bench isn't traffic on zero bits",
         sent.answer == CARD_DONE && sent.numbers[0] == given->numbers[0] && bytes_same(&sent.buffer, &given->buffer));
}

/* Without a skip the plain engine is the bench call, refusals and all. */
static void plain_without_skip(const struct call *call, const struct table *table)
{
    static struct call other;
    static struct outcome plain, bench;

    call_copy(&other, call);
    other.skip = 0;
    answer(&card_face, &other, table, &plain);
    other.kind = BENCH;
    answer(&card_face, &other, table, &bench);
    hold("without a skip the plain engine isn't the bench", plain.answer == bench.answer &&
             plain.numbers[0] == bench.numbers[0] && bytes_same(&plain.buffer, &bench.buffer));
}

/* The plain engine gives the bench's bits from `skip` on: the bench is asked for all bits up to the last. */
static void plain_as_bench(const struct call *call, const struct outcome *given)
{
    static struct call bench;
    static struct outcome whole;
    static struct bytes expected;

    call_copy(&bench, call);
    bench.kind = BENCH;
    bench.length = call->skip + call->length;
    bench.buffer.count = CARD_KEYSTREAM_BITS / 8;
    answer(&card_face, &bench, &given->table, &whole);
    bytes_copy(&expected, &call->buffer);
    for (size_t i = 0; i < call->length; i++)
        set_bit(&expected, i, bit_at(&whole.buffer, call->skip + i));
    hold("the plain engine's bits aren't the bench's from the skip on",
         whole.answer == CARD_DONE && bytes_same(&expected, &given->buffer));
}

static void hold_laws(const struct call *call, const struct table *before, const struct outcome *given)
{
    if (call->kind == PLAIN)
        plain_without_skip(call, before);
    if (call->kind == PDU && given->answer == CARD_DONE)
        pdu_as_traffic(call, before, given);
    if (given->answer != CARD_DONE)
        refused_changes_nothing(call, before, given);
    else if (call->kind == TRAFFIC || call->kind == PDU)
        twice_is_back(call, before, given);
    else if (call->kind == BENCH)
        bench_as_traffic(call, given);
    else if (call->kind == PLAIN)
        plain_as_bench(call, given);
    else if (call->kind == RECORD_READ)
        written_as_read(call, before, given);
    else if (call->kind == RECORD_WRITE)
        read_as_written(call, before, given);
}

/* A plan is lent no bytes whose address matters. The plain engine is slow: each call is made against one of the pages, and
   between guards by its law. */
static int lent_at(enum side side, const struct call *call)
{
    switch (call->kind) {
    case PLAN: return side != BETWEEN;
    case PLAIN: return side == (call->length % 2 == 0 ? FRONT : BACK);
    default: return 1;
    }
}

const struct outcome *check_call(const struct call *call, struct table *table)
{
    static struct outcome expected, given;

    report_call(call, table);
    room_side(FRONT);
    answer(&oracle_face, call, table, &expected);
    for (enum side side = FRONT; side < SIDES; side++) {
        if (!lent_at(side, call))
            continue;
        room_side(side);
        answer(&card_face, call, table, &given);
        agree(call, &given, &expected);
    }
    room_side(lent_at(BETWEEN, call) ? FRONT : BETWEEN);
    hold_laws(call, table, &given);
    if (kind_has_table(call->kind))
        table_copy(table, &given.table);
    return &given;
}
