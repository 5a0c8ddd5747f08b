#include "calls.h"

#include <stdio.h>
#include <string.h>

#include "bound.h"
#include "card_plain.h"
#include "oracle.h"
#include "source.h"

enum { PLACE = 28 };

static struct card_slot chosen[CARD_SLOTS], table[CARD_SLOTS];
static uint8_t keys[KEY_SETS][CARD_SLOTS][CARD_KEY_BYTES];
static uint8_t key[CARD_KEY_BYTES], iv[CARD_IV_BYTES], read_key[CARD_KEY_BYTES];
static uint8_t text[CARD_RECORD_BYTES + 1], sheet[CARD_SLOTS * CARD_RECORD_BYTES + 1], buffer[CARD_BUFFER_BYTES];
static uint64_t number, target, other, direction, shown[8], found;
static size_t length, start, skip, blocks, used, line, column;
static uint16_t version, mcc, mnc;
static uint8_t algorithm, usage, side, place;
static size_t text_bytes, sheet_bytes;
static struct card_pdu_parts pdu;

/* The algorithm of a key that is loaded: TEA6 is out of service. */
static uint8_t served(void)
{
    return algorithm == CARD_TEA6 ? CARD_TEA7 : algorithm;
}

static void random_bytes(uint64_t *generator, uint8_t *bytes, size_t count)
{
    for (size_t i = 0; i < count; i++)
        bytes[i] = (uint8_t)generator_next(generator);
}

static uint8_t make_load(void)
{
    memset(&table[number - 1], 0, sizeof table[0]);
    return card_load(table, CARD_SLOTS, number, 1, served(), CARD_FOR_BOTH, 0, PLACE, 0, 0, key);
}

static uint8_t make_move(void)
{
    return card_move(table, CARD_SLOTS, number, target, CARD_FOR_BOTH);
}

static uint8_t make_clear(void)
{
    return card_clear(table, CARD_SLOTS, number);
}

static uint8_t make_read(void)
{
    return card_read(table, CARD_SLOTS, number, &found, &version, &algorithm, &usage, &side, &place, &mcc, &mnc);
}

static uint8_t make_traffic(void)
{
    return card_traffic(table, CARD_SLOTS, direction, number, iv, CARD_IV_BYTES, buffer, sizeof buffer, start, length,
                        skip, &blocks);
}

static uint8_t make_pdu(void)
{
    return card_cipher_pdu(table, CARD_SLOTS, direction, number, iv, CARD_IV_BYTES, buffer, sizeof buffer, pdu, &blocks);
}

static uint8_t make_bench(void)
{
    return card_bench(algorithm, key, CARD_KEY_BYTES, iv, CARD_IV_BYTES, buffer, sizeof buffer, length, &blocks);
}

static uint8_t make_plain(void)
{
    return card_plain(algorithm, key, CARD_KEY_BYTES, iv, CARD_IV_BYTES, buffer, sizeof buffer, length, skip, &blocks);
}

static uint8_t make_record_read(void)
{
    return card_record_read(text, text_bytes, shown, read_key, &used, &line, &column);
}

static uint8_t make_record_write(void)
{
    return card_record_write(number, 1, algorithm, CARD_FOR_BOTH, 0, PLACE, 0, 0, key, buffer, sizeof buffer, &used);
}

static uint8_t make_slotlist(void)
{
    return card_slotlist(sheet, sheet_bytes, buffer, sizeof buffer) > 0 ? CARD_DONE : CARD_RECORD_ROOM;
}

static uint8_t slotlist_without_room(void)
{
    return card_slotlist(sheet, sheet_bytes, buffer, CARD_LISTING_BYTES - 1) > 0 ? CARD_DONE : CARD_RECORD_ROOM;
}

/* Into a slot that is filled. */
static uint8_t refused_load(void)
{
    return card_load(table, CARD_SLOTS, number, 1, served(), CARD_FOR_BOTH, 0, PLACE, 0, 0, key);
}

static uint8_t load_of_tea6(void)
{
    return card_load(table, CARD_SLOTS, target, 1, CARD_TEA6, CARD_FOR_BOTH, 0, PLACE, 0, 0, key);
}

static uint8_t refused_move(void)
{
    return card_move(table, CARD_SLOTS, number, other, CARD_KEEP);
}

/* Of a slot that is empty. */
static uint8_t refused_clear(void)
{
    return card_clear(table, CARD_SLOTS, target);
}

static uint8_t refused_read(void)
{
    return card_read(table, CARD_SLOTS, target, &found, &version, &algorithm, &usage, &side, &place, &mcc, &mnc);
}

/* Of a slot that there isn't. */
static uint8_t traffic_of_no_slot(void)
{
    return card_traffic(table, CARD_SLOTS, direction, 0, iv, CARD_IV_BYTES, buffer, sizeof buffer, start, length, skip,
                        &blocks);
}

static uint8_t send_with_tea6(void)
{
    table[number - 1].algorithm = CARD_TEA6;
    return card_traffic(table, CARD_SLOTS, CARD_SEND, number, iv, CARD_IV_BYTES, buffer, sizeof buffer, start, length, skip,
                        &blocks);
}

static uint8_t traffic_of_no_bits(void)
{
    return card_traffic(table, CARD_SLOTS, direction, number, iv, CARD_IV_BYTES, buffer, sizeof buffer, start, 0, skip,
                        &blocks);
}

/* Whose last test is of its parts. */
static uint8_t pdu_of_no_parts(void)
{
    struct card_pdu_parts none = pdu;

    none.sdu_bit = pdu.address_bit;
    return card_cipher_pdu(table, CARD_SLOTS, direction, number, iv, CARD_IV_BYTES, buffer, sizeof buffer, none, &blocks);
}

static uint8_t pdu_past_the_buffer(void)
{
    return card_cipher_pdu(table, CARD_SLOTS, direction, number, iv, CARD_IV_BYTES, buffer, 1, pdu, &blocks);
}

/* With no piece: no schedule and no block is needed. */
static uint8_t clear_pdu(void)
{
    struct card_pdu_parts clear = pdu;

    clear.state = CARD_ALL_CLEAR;
    return card_cipher_pdu(table, CARD_SLOTS, direction, number, iv, CARD_IV_BYTES, buffer, sizeof buffer, clear, &blocks);
}

/* With a slot in the table that has a key and no fields. */
static uint8_t traffic_beside_no_fields(void)
{
    memcpy(table[target - 1].key, chosen[other - 1].key, CARD_KEY_BYTES);
    return make_traffic();
}

/* With a slot in the table that has a key, and fields that are none. */
static uint8_t traffic_beside_bad_fields(void)
{
    table[other - 1].usage = CARD_FOR_BOTH + 1;
    return make_traffic();
}

static uint8_t refused_bench(void)
{
    return card_bench(algorithm, key, CARD_KEY_BYTES, iv, CARD_IV_BYTES, buffer, sizeof buffer, 0, &blocks);
}

static uint8_t rust_load(void)
{
    return bound_load(target, served(), PLACE, key);
}

static uint8_t rust_move(void)
{
    return bound_move(number, target);
}

static uint8_t rust_clear(void)
{
    return bound_clear(number);
}

static uint8_t rust_read(void)
{
    return bound_read(number);
}

static uint8_t rust_traffic(void)
{
    return bound_traffic(direction, number, iv, buffer, sizeof buffer, start, length, skip);
}

static uint8_t rust_pdu(void)
{
    return bound_pdu(direction, number, iv, buffer, sizeof buffer, &pdu);
}

static uint8_t rust_bench(void)
{
    return bound_bench(algorithm, key, iv, buffer, sizeof buffer, length);
}

static uint8_t rust_record_read(void)
{
    return bound_record_read(text, text_bytes);
}

static uint8_t rust_record_write(void)
{
    return bound_record_write(number, algorithm, PLACE, key, buffer, sizeof buffer);
}

static uint8_t rust_slotlist(void)
{
    return bound_slotlist(sheet, sheet_bytes);
}

/* A refused call, a read, a clear, a PDU with no piece and every call of the Rust bindings: not a byte that depends on a key. */
static const struct bar nothing;

/* A slot with a key and no fields is bad, and so is its table. Whether its key is zero is seen by joining its bytes, and the joins
   stay in a register: no byte of the key, but what depends on it. */
static const struct bar its_joins = {{{0}, 0}, {{0}, 16}};

/* Load and move: the one key concerned, that a move has twice on its stack. */
static const struct bar its_key = {{{[THE_KEY] = 24}, 48}, {{[THE_KEY] = 24}, 32}};

/* Traffic, PDU and bench: what they were seen to leave before calls worked on the table in place, but for the other keys; and
   of keystream the last two blocks, beside which a byte may go on by chance. */
static const struct bar its_cipher = {
    {{[THE_KEY] = 24, [MODE_KEY] = 24, [MODE_VALUE] = 24, [SCHEDULE] = 456, [KEYSTREAM] = 2 * 32 + 4}, 900},
    {{[THE_KEY] = 24, [KEYSTREAM] = 2 * 32}, 64},
};

/* The plain engine, which hands its schedule on by value: the C library copies it through wide registers. */
static const struct bar its_plain = {
    {{[MODE_KEY] = 24, [MODE_VALUE] = 24, [SCHEDULE] = 456, [KEYSTREAM] = 32 + 4}, 1800},
    {{[SCHEDULE] = 456, [KEYSTREAM] = 32}, 640},
};

/* The records: the key, and its digits in registers. */
static const struct bar its_text = {{{[THE_KEY] = 24}, 72}, {{[THE_KEY] = 24, [KEY_AS_TEXT] = 32}, 96}};

/* A sheet: every key of it, since its table is on the stack. */
static const struct bar its_sheet = {
    {{[THE_KEY] = 24, [OTHER_KEYS] = 720}, 3100},
    {{[THE_KEY] = 24, [OTHER_KEYS] = 720}, 500},
};

const struct keyed_call keyed_calls[KEYED_CALLS] = {
    {"card_load", make_load, CARD_DONE, &its_key},
    {"  refused with 9", refused_load, CARD_TARGET_FILLED, &nothing},
    {"  refused with 21", load_of_tea6, CARD_OUT_OF_SERVICE, &nothing},
    {"card_move", make_move, CARD_DONE, &its_key},
    {"  refused with 9", refused_move, CARD_TARGET_FILLED, &nothing},
    {"card_clear", make_clear, CARD_DONE, &nothing},
    {"  refused with 8", refused_clear, CARD_SLOT_EMPTY, &nothing},
    {"card_read", make_read, CARD_DONE, &nothing},
    {"  refused with 8", refused_read, CARD_SLOT_EMPTY, &nothing},
    {"card_traffic", make_traffic, CARD_DONE, &its_cipher},
    {"  refused with 7", traffic_of_no_slot, CARD_SLOT_NUMBER, &nothing},
    {"  refused with 21", send_with_tea6, CARD_OUT_OF_SERVICE, &nothing},
    {"  refused with 4", traffic_of_no_bits, CARD_LENGTH, &nothing},
    {"  with 16, key", traffic_beside_no_fields, CARD_TABLE, &its_joins},
    {"  with 16, fields", traffic_beside_bad_fields, CARD_TABLE, &nothing},
    {"card_pdu", make_pdu, CARD_DONE, &its_cipher},
    {"  refused with 6", pdu_past_the_buffer, CARD_SPAN, &nothing},
    {"  refused with 19", pdu_of_no_parts, CARD_PDU_PARTS, &nothing},
    {"  with no piece", clear_pdu, CARD_DONE, &nothing},
    {"card_bench", make_bench, CARD_DONE, &its_cipher},
    {"  refused with 4", refused_bench, CARD_LENGTH, &nothing},
    {"card_plain", make_plain, CARD_DONE, &its_plain},
    {"card_record_read", make_record_read, CARD_DONE, &its_text},
    {"card_record_write", make_record_write, CARD_DONE, &its_text},
    {"card_slotlist", make_slotlist, CARD_DONE, &its_sheet},
    {"  without room", slotlist_without_room, CARD_RECORD_ROOM, &nothing},
    {"Rust load", rust_load, CARD_DONE, &nothing},
    {"Rust move_slot", rust_move, CARD_DONE, &nothing},
    {"Rust clear", rust_clear, CARD_DONE, &nothing},
    {"Rust read", rust_read, CARD_DONE, &nothing},
    {"Rust traffic", rust_traffic, CARD_DONE, &nothing},
    {"Rust pdu", rust_pdu, CARD_DONE, &nothing},
    {"Rust bench", rust_bench, CARD_DONE, &nothing},
    {"Rust record_read", rust_record_read, CARD_DONE, &nothing},
    {"Rust record_write", rust_record_write, CARD_DONE, &nothing},
    {"Rust slotlist", rust_slotlist, CARD_DONE, &nothing},
};

/* No byte is the same in both sets. */
static void choose_keys(uint64_t *generator, uint64_t of)
{
    random_bytes(generator, keys[LOOKED_FOR][of - 1], CARD_KEY_BYTES);
    for (int i = 0; i < CARD_KEY_BYTES; i++)
        keys[OTHERS][of - 1][i] = (uint8_t)(keys[LOOKED_FOR][of - 1][i] ^ (1 + generator_next(generator) % 255));
}

/* All slots are filled but the target. */
static void choose_table(uint64_t *generator)
{
    number = 1 + generator_next(generator) % CARD_SLOTS;
    target = 1 + number % CARD_SLOTS;
    other = 1 + target % CARD_SLOTS;
    memset(chosen, 0, sizeof chosen);
    for (uint64_t i = 1; i <= CARD_SLOTS; i++) {
        if (i == target)
            continue;
        chosen[i - 1] = (struct card_slot){1, algorithm, CARD_FOR_BOTH, 0, PLACE, 0, 0, {0}};
        choose_keys(generator, i);
    }
}

/* Writes the record of a slot, with an algorithm, and returns its length. */
static size_t write_record(uint8_t *to, uint64_t of, uint8_t with)
{
    static const char *const names[] = {"TEA5", "TEA6", "TEA7"};
    int count = sprintf((char *)to, "number=%d\nversion=1\nalg=%s\nuse=BOTH\nside=0\nplace=%d\nkey=", (int)of,
                        names[with - CARD_TEA5], PLACE);

    for (int i = 0; i < CARD_KEY_BYTES; i++)
        count += sprintf((char *)to + count, "%02x", chosen[of - 1].key[i]);
    to[count] = '\n';
    return (size_t)count + 1;
}

/* The text is the slot's record, the sheet has one of each slot that is filled, to be loaded. */
static void write_text(void)
{
    text_bytes = write_record(text, number, algorithm);
    sheet_bytes = 0;
    for (uint64_t i = 1; i <= CARD_SLOTS; i++)
        if (i != target)
            sheet_bytes += write_record(sheet + sheet_bytes, i, served());
}

void calls_take_keys(enum keys which)
{
    memcpy(key, keys[which][number - 1], CARD_KEY_BYTES);
    for (uint64_t i = 1; i <= CARD_SLOTS; i++)
        if (i != target)
            memcpy(chosen[i - 1].key, keys[which][i - 1], CARD_KEY_BYTES);
    write_text();
}

const uint8_t *calls_key(void)
{
    return key;
}

static void choose_secrets(void)
{
    static struct oracle_secrets made;

    secrets_add(THE_KEY, key, CARD_KEY_BYTES);
    secrets_add(KEY_AS_TEXT, text + text_bytes - 1 - 2 * CARD_KEY_BYTES, 2 * CARD_KEY_BYTES);
    oracle_secrets(algorithm, key, iv, &made);
    for (uint64_t i = 1; i <= CARD_SLOTS; i++)
        if (i != number && i != target)
            secrets_add(OTHER_KEYS, chosen[i - 1].key, CARD_KEY_BYTES);
    secrets_add_words(MODE_KEY, made.mode_key, CARD_KEY_BYTES);
    secrets_add(MODE_VALUE, made.mode_value, CARD_KEY_BYTES);
    secrets_add_words(SCHEDULE, made.words[6], sizeof made.words - CARD_KEY_BYTES);
    secrets_add_blocks(KEYSTREAM, made.blocks[0], sizeof made.blocks);
}

/* From the span, so that the other calls have what they had without it. */
static void choose_pdu(void)
{
    pdu.kind = CARD_DMAC_DATA;
    pdu.state = CARD_ADDRESS_AND_SDU;
    pdu.address_bit = start % 50;
    pdu.sdu_bit = pdu.address_bit + 24 + skip % 50;
    pdu.length_bits = length > pdu.sdu_bit && length < CARD_KEYSTREAM_BITS ? length : pdu.sdu_bit + 74;
}

void calls_choose(uint64_t *generator)
{
    secrets_begin();
    random_bytes(generator, iv, sizeof iv);
    algorithm = (uint8_t)(CARD_TEA5 + generator_next(generator) % 3);
    if (algorithm == CARD_TEA6)
        iv[PLACE / 8] |= 0x80 >> PLACE % 8; /* a receive: it doesn't send */
    direction = iv[PLACE / 8] >> (7 - PLACE % 8) & 1 ? CARD_RECEIVE : CARD_SEND;
    length = 1 + generator_next(generator) % CARD_KEYSTREAM_BITS;
    skip = generator_next(generator) % (CARD_KEYSTREAM_BITS - length + 1);
    start = generator_next(generator) % (8 * sizeof buffer - length + 1);
    choose_pdu();
    choose_table(generator);
    calls_take_keys(LOOKED_FOR);
    choose_secrets();
    secrets_ready();
}

void calls_restore(void)
{
    algorithm = chosen[number - 1].algorithm;
    memcpy(table, chosen, sizeof table);
    bound_take(table);
    memset(buffer, 0, sizeof buffer);
}
