/* Wrong cards, to show that the harness finds them. -DBREAK names the fault; -DSUBJECT=oracle gives it to the second
   program as well, so that only a law can find it. The linker puts these before the true calls (--wrap). Compiled
   without sanitizers, as the card is. */

#include <string.h>

#include "card.h"
#include "card_plain.h"

#ifndef SUBJECT
#define SUBJECT card
#endif
#define JOIN(a, b, c, d) a##b##c##d
#define NAMED(prefix, subject, name) JOIN(prefix, subject, _, name)
#define WRAP(name) NAMED(__wrap_, SUBJECT, name)
#define REAL(name) NAMED(__real_, SUBJECT, name)

extern __typeof__(card_load) REAL(load), WRAP(load);
extern __typeof__(card_move) REAL(move), WRAP(move);
extern __typeof__(card_clear) REAL(clear), WRAP(clear);
extern __typeof__(card_read) REAL(read), WRAP(read);
extern __typeof__(card_traffic) REAL(traffic), WRAP(traffic);
extern __typeof__(card_pdu) REAL(pdu), WRAP(pdu);
extern __typeof__(card_bench) REAL(bench), WRAP(bench);
extern __typeof__(card_record_read) REAL(record_read), WRAP(record_read);
extern __typeof__(card_record_write) REAL(record_write), WRAP(record_write);
extern __typeof__(card_plan) REAL(plan), WRAP(plan);
extern __typeof__(card_plain) REAL(plain), WRAP(plain);
extern __typeof__(card_slotlist) REAL(slotlist), WRAP(slotlist);

enum {
    BYTE_AFTER_BUFFER = 1,
    BYTE_BEFORE_BUFFER,
    MEMSET_PAST_BUFFER,
    READS_PAST_IV,
    WRITES_TO_KEY,
    OTHER_REFUSAL,
    BIT_BESIDE_SPAN,
    ONE_BLOCK_MORE,
    SKIP_CUT,
    LENGTH_CUT,
    SLOTS_CUT,
    NO_LINE,
    USED_ONE_MORE,
    MOVE_WIDENS,
    CLEAR_LEAVES_A_BYTE,
    READ_LEAVES_VERSION,
    PLAN_LEAVES_PIECE,
    LOAD_JUDGES_KEY,
    REFUSED_BENCH_WRITES,
    RECORD_AND_ONE_BYTE,
    TRAFFIC_WRITES,
    BENCH_STARTS_LATE,
    RECORD_READ_LAX,
    RECORD_WRITE_LAX,
    PLAN_SKIPS_ONE_LESS,
    PLAIN_SKIPS_BLOCKS,
    KEEP_KEEPS_BOTH,
    PLAIN_STARTS_LATE,
    PLAN_KIND_CUT,
    RECORD_BYTE_UNSEEN,
    SHEET_BYTE_UNSEEN,
    LISTS_ONE_MORE,
    LISTS_WITHOUT_ROOM,
    MISREADS_ODD_TABLE,
    NUMBER_AFTER_BLOCKS,
    COLUMN_ONE_MORE,
    PDU_BIT_BETWEEN,
    PDU_HALF_CIPHERED,
    PDU_FLAG_OF_BIT_11,
    PDU_BLOCKS_ADDED,
    PDU_SAME_SKIP,
    PDU_PARTS_FIRST,
    TEA6_LOADED,
    TEA6_SENDS,
    TEA6_NOT_RECEIVED,
    TEA6_BEFORE_USE,
    TEA6_SLOT_BAD
};

#define IS(fault) (BREAK == (fault))

uint8_t WRAP(load)(struct card_slot *table, size_t slots, uint64_t number, uint16_t version, uint64_t algorithm,
                   uint64_t usage, uint64_t side, uint64_t place, uint64_t mcc, uint64_t mnc, const uint8_t *key)
{
    static const uint8_t zeros[CARD_KEY_BYTES];
    uint8_t answer;

    if (IS(LOAD_JUDGES_KEY) && memcmp(key, zeros, sizeof zeros) == 0)
        return CARD_CODE;
    if (IS(SLOTS_CUT))
        slots = (uint32_t)slots;
    answer = REAL(load)(table, slots, number, version, algorithm, usage, side, place, mcc, mnc, key);
    if (IS(TEA6_LOADED) && answer == CARD_OUT_OF_SERVICE) {
        answer = REAL(load)(table, slots, number, version, CARD_TEA7, usage, side, place, mcc, mnc, key);
        if (answer == CARD_DONE)
            table[number - 1].algorithm = CARD_TEA6;
    }
    return answer;
}

uint8_t WRAP(move)(struct card_slot *table, size_t slots, uint64_t from, uint64_t to, uint64_t asked)
{
    int of_both = slots == CARD_SLOTS && from - 1 < CARD_SLOTS && table[from - 1].usage == CARD_FOR_BOTH;
    uint64_t meant = IS(KEEP_KEEPS_BOTH) && of_both && asked == CARD_KEEP ? CARD_FOR_BOTH : asked;
    uint8_t answer = REAL(move)(table, slots, from, to, meant);

    if (IS(MOVE_WIDENS) && answer == CARD_DONE)
        table[to - 1].usage = CARD_FOR_BOTH;
    return answer;
}

uint8_t WRAP(clear)(struct card_slot *table, size_t slots, uint64_t number)
{
    uint8_t last = slots == CARD_SLOTS && number - 1 < CARD_SLOTS ? table[number - 1].key[23] : 0;
    uint8_t answer = REAL(clear)(table, slots, number);

    if (IS(CLEAR_LEAVES_A_BYTE) && answer == CARD_DONE)
        table[number - 1].key[23] = last;
    return answer;
}

/* One byte of a text, one bit of which is wrong, is read as if it were right. */
static const uint8_t *mended(const uint8_t *text, size_t bytes, size_t place, uint8_t wrong)
{
    static uint8_t copy[1 << 17];

    if (bytes > sizeof copy || bytes <= place || text[place] != wrong)
        return text;
    memcpy(copy, text, bytes);
    copy[place] ^= 1;
    return copy;
}

uint8_t WRAP(read)(const struct card_slot *table, size_t slots, uint64_t number, uint64_t *found, uint16_t *version,
                   uint8_t *algorithm, uint8_t *usage, uint8_t *side, uint8_t *place,
                   uint16_t *mcc, uint16_t *mnc)
{
    uint16_t before = *version;
    uint8_t answer = REAL(read)(table, slots, number, found, version, algorithm, usage, side, place, mcc, mnc);

    if (IS(TEA6_SLOT_BAD) && answer == CARD_DONE && *algorithm == CARD_TEA6) {
        *found = 0;
        return CARD_TABLE;
    }
    if (IS(MISREADS_ODD_TABLE) && (uintptr_t)table % 4 != 0)
        *version ^= 1;
    if (IS(READ_LEAVES_VERSION) && answer != CARD_DONE)
        *version = before;
    return answer;
}

/* Whether the call's slot is there, and holds a key of TEA6. */
static int of_tea6(const struct card_slot *table, size_t slots, uint64_t number)
{
    return slots == CARD_SLOTS && number - 1 < CARD_SLOTS && table[number - 1].algorithm == CARD_TEA6;
}

/* A send with a key of TEA6, made by a receive of the other side. */
static uint8_t send_with_tea6(const struct card_slot *table, uint64_t number, const uint8_t *iv, size_t iv_bytes,
                              uint8_t *buffer, size_t bytes, size_t start, size_t length, size_t skip, size_t *blocks)
{
    static struct card_slot other[CARD_SLOTS];

    memcpy(other, table, sizeof other);
    other[number - 1].usage = CARD_FOR_BOTH;
    other[number - 1].side ^= 1;
    return REAL(traffic)(other, CARD_SLOTS, CARD_RECEIVE, number, iv, iv_bytes, buffer, bytes, start, length, skip, blocks);
}

/* What a wrong traffic call does after the right one. */
static void spoil_traffic(uint8_t *buffer, size_t bytes, size_t start, size_t length, size_t *blocks)
{
    size_t bit_after = start + length;

    if (IS(BYTE_AFTER_BUFFER))
        buffer[bytes] ^= 1;
    if (IS(BYTE_BEFORE_BUFFER))
        buffer[-1] ^= 1;
    if (IS(MEMSET_PAST_BUFFER))
        memset(buffer + bytes - 1, 0, 2);
    if (IS(BIT_BESIDE_SPAN) && bit_after < 8 * bytes)
        buffer[bit_after / 8] ^= (uint8_t)(0x80 >> bit_after % 8);
    if (IS(ONE_BLOCK_MORE))
        ++*blocks;
    if (IS(NUMBER_AFTER_BLOCKS))
        blocks[1] = 0;
    if (IS(TRAFFIC_WRITES) && start > 0)
        buffer[0] = 0x55;
}

uint8_t WRAP(traffic)(const struct card_slot *table, size_t slots, uint64_t direction, uint64_t number,
                      const uint8_t *iv, size_t iv_bytes, uint8_t *buffer, size_t bytes, size_t start, size_t length,
                      size_t skip, size_t *blocks)
{
    uint8_t answer;

    if (IS(SKIP_CUT))
        skip = (uint32_t)skip;
    if (IS(LENGTH_CUT))
        length = (uint16_t)length;
    if (IS(TEA6_NOT_RECEIVED) && of_tea6(table, slots, number) && direction == CARD_RECEIVE) {
        *blocks = 0;
        return CARD_OUT_OF_SERVICE;
    }
    answer = REAL(traffic)(table, slots, direction, number, iv, iv_bytes, buffer, bytes, start, length, skip, blocks);
    if (IS(TEA6_SENDS) && answer == CARD_OUT_OF_SERVICE)
        return send_with_tea6(table, number, iv, iv_bytes, buffer, bytes, start, length, skip, blocks);
    if (IS(TEA6_BEFORE_USE) && answer == CARD_DIRECTION && of_tea6(table, slots, number) && direction == CARD_SEND)
        return CARD_OUT_OF_SERVICE;
    if (answer == CARD_DONE)
        spoil_traffic(buffer, bytes, start, length, blocks);
    return IS(OTHER_REFUSAL) && answer == CARD_SPAN ? CARD_LENGTH : answer;
}

/* What wrong PDU calls do, by traffic and plan. */
static uint8_t spoiled_pdu(const struct card_slot *table, uint64_t direction, uint64_t number, const uint8_t *iv,
                           uint8_t *buffer, size_t bytes, uint8_t answer, const size_t pieces[6], size_t *blocks)
{
    size_t some;

    if (IS(PDU_HALF_CIPHERED) && answer == CARD_PDU_PARTS && bytes > 3)
        REAL(traffic)(table, CARD_SLOTS, direction, number, iv, CARD_IV_BYTES, buffer, bytes, 0, 24, 0, &some);
    if (answer != CARD_DONE || pieces[4] == 0)
        return answer;
    if (IS(PDU_BIT_BETWEEN) && pieces[3] > pieces[0] + pieces[1])
        buffer[(pieces[3] - 1) / 8] ^= (uint8_t)(0x80 >> (pieces[3] - 1) % 8);
    if (IS(PDU_BLOCKS_ADDED) && pieces[5] < 256)
        ++*blocks;
    if (IS(PDU_SAME_SKIP) && pieces[4] < 24) /* taken back, and ciphered again from the first piece's bits */
        for (int i = 0; i < 2; i++)
            REAL(traffic)(table, CARD_SLOTS, direction, number, iv, CARD_IV_BYTES, buffer, bytes, pieces[3], pieces[4],
                          i == 0 ? pieces[5] : 0, &some);
    return answer;
}

uint8_t WRAP(pdu)(const struct card_slot *table, size_t slots, uint64_t direction, uint64_t number, const uint8_t *iv,
                  size_t iv_bytes, uint8_t *buffer, size_t bytes, uint64_t kind, uint64_t state, size_t length_bits,
                  size_t address_bit, size_t sdu_bit, size_t *blocks)
{
    size_t pieces[6] = {0};
    uint8_t answer, moved = 0;

    if (IS(PDU_FLAG_OF_BIT_11) && kind == CARD_DMAC_SYNC_SCH_H && state == CARD_AFTER_HEAD && length_bits > 18 && bytes > 2)
        moved = (buffer[1] ^ buffer[1] >> 1) & 0x10;
    if (moved)
        buffer[1] ^= moved;
    answer = REAL(pdu)(table, slots, direction, number, iv, iv_bytes, buffer, bytes, kind, state, length_bits, address_bit,
                       sdu_bit, blocks);
    if (moved)
        buffer[1] ^= moved;
    if (IS(PDU_PARTS_FIRST) && answer == CARD_SPAN && length_bits <= CARD_KEYSTREAM_BITS && state == CARD_SDU &&
        sdu_bit > length_bits)
        return CARD_PDU_PARTS;
    REAL(plan)(kind, state, 0, length_bits, address_bit, sdu_bit, pieces);
    return spoiled_pdu(table, direction, number, iv, buffer, bytes, answer, pieces, blocks);
}

uint8_t WRAP(bench)(uint64_t algorithm, const uint8_t *key, size_t key_bytes, const uint8_t *iv, size_t iv_bytes,
                    uint8_t *buffer, size_t bytes, size_t length, size_t *blocks)
{
    uint8_t answer = REAL(bench)(algorithm, key, key_bytes, iv, iv_bytes, buffer, bytes, length, blocks);

    if (IS(READS_PAST_IV))
        (void)((const volatile uint8_t *)iv)[iv_bytes];
    if (IS(WRITES_TO_KEY) && answer == CARD_DONE)
        ((volatile uint8_t *)key)[0] = key[0];
    if (IS(REFUSED_BENCH_WRITES) && answer == CARD_SPAN && bytes > 0)
        buffer[0] ^= 1;
    if (IS(BENCH_STARTS_LATE) && answer == CARD_DONE)
        buffer[0] ^= 0x80;
    return answer;
}

uint8_t WRAP(plain)(uint64_t algorithm, const uint8_t *key, size_t key_bytes, const uint8_t *iv, size_t iv_bytes,
                    uint8_t *buffer, size_t bytes, size_t length, size_t skip, size_t *blocks)
{
    uint8_t answer;

    if (IS(PLAIN_SKIPS_BLOCKS) && skip <= CARD_KEYSTREAM_BITS)
        skip -= skip % 256;
    answer = REAL(plain)(algorithm, key, key_bytes, iv, iv_bytes, buffer, bytes, length, skip, blocks);
    if (IS(PLAIN_STARTS_LATE) && answer == CARD_DONE && skip == 0)
        buffer[0] ^= 0x80;
    if (IS(REFUSED_BENCH_WRITES) && answer == CARD_SPAN && bytes > 0)
        buffer[0] ^= 1; /* as the bench, since their law would find it */
    return answer;
}

uint8_t WRAP(record_read)(const uint8_t *text, size_t text_bytes, uint64_t *shown, uint8_t *key, size_t *used,
                          size_t *line, size_t *column)
{
    const uint8_t *seen = IS(RECORD_BYTE_UNSEEN) ? mended(text, text_bytes, 6, '<') : text;
    uint8_t answer = REAL(record_read)(seen, text_bytes, shown, key, used, line, column);

    if (IS(NO_LINE))
        *line = 0;
    if (IS(COLUMN_ONE_MORE) && answer == CARD_RECORD_TEXT)
        ++*column;
    if (IS(USED_ONE_MORE) && answer == CARD_DONE)
        ++*used;
    if (IS(RECORD_READ_LAX) && answer == CARD_DONE)
        shown[5] ^= 1;
    return answer;
}

uint8_t WRAP(record_write)(uint64_t number, uint16_t version, uint64_t algorithm, uint64_t usage, uint64_t side,
                           uint64_t place, uint64_t mcc, uint64_t mnc, const uint8_t *key, uint8_t *buffer, size_t bytes,
                           size_t *length)
{
    uint8_t answer = REAL(record_write)(number, version, algorithm, usage, side, place, mcc, mnc, key, buffer, bytes,
                                        length);

    if (IS(RECORD_AND_ONE_BYTE) && answer == CARD_DONE && *length < bytes)
        buffer[*length] = 0;
    if (IS(RECORD_WRITE_LAX) && answer == CARD_DONE && *length < bytes && buffer[*length] != '~')
        buffer[*length - 2] = '0'; /* but not for the law of records that are read, which has this sign there */
    return answer;
}

uint8_t WRAP(plan)(uint64_t kind, uint64_t state, uint64_t flag, size_t length, size_t address, size_t sdu,
                   size_t *pieces)
{
    size_t before = pieces[5];
    uint8_t answer = REAL(plan)(IS(PLAN_KIND_CUT) ? (uint8_t)kind : kind, state, flag, length, address, sdu, pieces);

    if (IS(PLAN_LEAVES_PIECE) && pieces[4] == 0)
        pieces[5] = before;
    if (IS(PLAN_SKIPS_ONE_LESS) && pieces[5] > 0)
        pieces[5]--;
    return answer;
}

size_t WRAP(slotlist)(const uint8_t *sheet, size_t sheet_bytes, uint8_t *buffer, size_t bytes)
{
    uint8_t enough[CARD_LISTING_BYTES];
    const uint8_t *seen = IS(SHEET_BYTE_UNSEEN) ? mended(sheet, sheet_bytes, 120, '<') : sheet;
    size_t length = REAL(slotlist)(seen, sheet_bytes, buffer, bytes);

    if (IS(LISTS_ONE_MORE) && length > 1 && buffer[0] == 't')
        buffer[length - 2]++;
    if (IS(LISTS_WITHOUT_ROOM) && length == 0) {
        length = REAL(slotlist)(sheet, sheet_bytes, enough, sizeof enough);
        length = length < bytes ? length : bytes;
        memcpy(buffer, enough, length);
    }
    return length;
}
