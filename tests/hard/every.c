#include "every.h"

#include <string.h>

#include "check.h"
#include "choose.h"
#include "decode.h"
#include "report.h"

static struct call call;
static struct table table;
static uint64_t generator;
static struct source source = {.generator = &generator};
static unsigned long calls;

/* Slot 1 is filled for both uses, the others are empty. */
static void begin(enum kind kind)
{
    memset(&table, 0, sizeof table);
    table.slots = CARD_SLOTS;
    table.at[0] = (struct card_slot){.version = 1, .algorithm = CARD_TEA7, .usage = CARD_FOR_BOTH};
    memset(table.at[0].key, 0x3c, CARD_KEY_BYTES);
    memset(&call, 0, sizeof call);
    call = (struct call){.kind = kind, .number = 1, .to = 2, .asked = CARD_FOR_BOTH, .algorithm = CARD_TEA5,
                         .usage = CARD_FOR_SENDING, .direction = CARD_SEND, .length = 9,
                         .pdu_kind = CARD_DMAC_DATA, .state = CARD_SDU};
    call.key.count = CARD_KEY_BYTES;
    call.iv.count = CARD_IV_BYTES;
    call.buffer.count = 2;
}

static void make(void)
{
    report_place("every call", calls++);
    check_call(&call, &table);
}

static void every_key_and_iv_length(void)
{
    begin(BENCH);
    for (call.key.count = 0; call.key.count <= 300; call.key.count++)
        make();
    begin(BENCH);
    for (call.iv.count = 0; call.iv.count <= 300; call.iv.count++)
        make();
    begin(TRAFFIC);
    for (call.iv.count = 0; call.iv.count <= 300; call.iv.count++)
        make();
    begin(PDU);
    for (call.iv.count = 0; call.iv.count <= 300; call.iv.count++)
        make();
}

/* Buffers of every length, each asked for its last bit and for the one after it. */
static void every_traffic_buffer(void)
{
    begin(TRAFFIC);
    call.length = 1;
    for (size_t bytes = 0; bytes <= CARD_BUFFER_BYTES + 8; bytes++) {
        call.buffer.count = bytes;
        call.start = 8 * bytes - 1;
        make();
        call.start = 8 * bytes;
        make();
    }
}

/* Buffers of every length, each asked for its first bit and for one bit more than it has. */
static void every_bench_buffer(void)
{
    begin(BENCH);
    for (size_t bytes = 0; bytes <= CARD_BUFFER_BYTES + 8; bytes++) {
        call.buffer.count = bytes;
        call.length = 1;
        make();
        call.length = 8 * bytes + 1;
        make();
    }
}

/* From the first bit on, of every number of bits that a short buffer has, and one more. */
static void every_bench_length(void)
{
    begin(BENCH);
    call.buffer.count = 70;
    for (call.length = 0; call.length <= 8 * call.buffer.count + 1; call.length++)
        make();
}

static void every_shift(void)
{
    begin(TRAFFIC);
    call.buffer.count = 5;
    for (call.start = 0; call.start < 8; call.start++)
        for (call.skip = 248; call.skip < 264; call.skip++)
            for (call.length = 1; call.length <= 17; call.length++)
                make();
}

/* Sums that wrap to every small number. */
static void every_wrap(void)
{
    begin(TRAFFIC);
    for (uint64_t sum = 0; sum < 20; sum++) {
        for (call.length = 1; call.length <= 16; call.length++) {
            call.start = sum - call.length;
            call.skip = 0;
            make();
            call.skip = call.start;
            call.start = 0;
            make();
        }
    }
}

static void every_number_of_slots(void)
{
    static const enum kind kinds[] = {LOAD, MOVE, CLEAR, READ, TRAFFIC, PDU};

    for (size_t k = 0; k < sizeof kinds / sizeof kinds[0]; k++)
        for (size_t slots = 0; slots <= MOST_SLOTS; slots++) {
            begin(kinds[k]);
            call.number = kinds[k] == LOAD ? 2 : 1;
            table.slots = slots;
            make();
        }
}

/* Each byte of a filled slot and of an empty one in turn has every value. */
static void every_byte_of_a_slot(void)
{
    for (size_t place = 0; place < 2 * sizeof(struct card_slot); place++)
        for (int value = 0; value < 256; value++) {
            begin(READ);
            ((uint8_t *)table.at)[place] = (uint8_t)value;
            make();
        }
}

/* Every use, asked for each other and for what no use is. */
static void every_pair_of_uses(void)
{
    for (uint8_t present = CARD_FOR_SENDING; present <= CARD_FOR_BOTH; present++)
        for (uint64_t asked = CARD_KEEP; asked <= CARD_FOR_BOTH + 1; asked++) {
            begin(MOVE);
            table.at[0].usage = present;
            call.asked = asked;
            make();
        }
}

/* Every algorithm, good and bad, in a slot and in a load; of a slot every use and direction, an initial value of either side
   and of either length, and a span or a PDU that is good or not. */
static void every_algorithm(void)
{
    for (int i = 0; i < 2 * 10 * 3 * 4 * 2 * 2 * 2; i++) {
        begin(i % 2 == 0 ? TRAFFIC : PDU);
        table.at[0].algorithm = (uint8_t)(i / 2 % 10);
        table.at[0].usage = (uint8_t)(CARD_FOR_SENDING + i / 20 % 3);
        call.direction = (uint64_t)(i / 60 % 4);
        call.iv.at[0] = i / 240 % 2 == 0 ? 0 : 0x80;
        call.iv.count = CARD_IV_BYTES - (size_t)(i / 480 % 2);
        call.length = i / 960 % 2 == 0 ? 9 : 17;
        make();
    }
    for (int i = 0; i < 12 * 5 * 3 * 3; i++) {
        static const uint64_t algorithms[] = {0, 4, 5, 6, 7, 8, 22, 70, 0x106, 0x10006, 0x100000006, UINT64_MAX};

        begin(LOAD);
        call.algorithm = algorithms[i % 12];
        call.usage = (uint64_t)(i / 12 % 5);
        call.place = (uint64_t)(78 + i / 60 % 3);
        call.number = (uint64_t)(i / 180 % 3);
        make();
    }
}

/* A slot with TEA6 beside another: each call that works on it, and on the one beside it. */
static void every_call_beside_tea6(void)
{
    static const enum kind kinds[] = {LOAD, MOVE, CLEAR, READ, TRAFFIC, PDU};

    for (size_t k = 0; k < sizeof kinds / sizeof kinds[0]; k++)
        for (uint64_t number = 1; number <= 3; number++)
            for (uint64_t direction = CARD_SEND; direction <= CARD_RECEIVE; direction++) {
                begin(kinds[k]);
                table.at[1] = table.at[0];
                table.at[1].algorithm = CARD_TEA6;
                call.number = number;
                call.to = 4;
                call.direction = direction;
                call.iv.at[0] = direction == CARD_SEND ? 0 : 0x80;
                make();
            }
}

static const char shortest[] = "number=1\nversion=0\nalg=TEA5\nuse=SEND\nside=0\nplace=0\n"
                               "key=000000000000000000000000000000000000000000000000\n";
static const char longest[] = "number=32\nversion=65535\nalg=TEA7\nuse=BOTH\nside=1\nplace=79\n"
                              "key=0123456789abcdeffedcba9876543210a0b1c2d3e4f59768\n";
static const char new_shortest[] = "form=2\nnumber=1\nversion=0\nalg=TEA5\nuse=SEND\nside=0\nplace=0\nmcc=0\nmnc=0\n"
                                   "key=000000000000000000000000000000000000000000000000\n";
static const char new_longest[] = "form=2\nnumber=32\nversion=65535\nalg=TEA7\nuse=BOTH\nside=1\nplace=79\nmcc=1023\n"
                                  "mnc=16383\nkey=0123456789abcdeffedcba9876543210a0b1c2d3e4f59768\n";
static const char sheet[] = "number=32\nversion=17\nalg=TEA5\nuse=SEND\nside=1\nplace=7\n"
                            "key=00112233445566778899aabbccddeeff0123456789abcdef\n"
                            "form=2\nnumber=1\nversion=65530\nalg=TEA7\nuse=BOTH\nside=0\nplace=79\nmcc=262\nmnc=16383\n"
                            "key=fedcba98765432100123456789abcdeff0e1d2c3b4a59687\n";

/* A text cut at each place, and with each byte from a place on changed to every other. */
static void every_byte_of(enum kind kind, const char *text, size_t from)
{
    size_t count = strlen(text);

    begin(kind);
    choose_bytes(&source, &call.buffer, CARD_LISTING_BYTES);
    memcpy(call.text.at, text, count + 1);
    for (call.text.count = 0; call.text.count <= count + 1; call.text.count++)
        make();
    call.text.count = count;
    for (size_t place = from; place < count; place++) {
        for (int byte = 0; byte < 256; byte++) {
            call.text.at[place] = (uint8_t)byte;
            make();
        }
        call.text.at[place] = (uint8_t)text[place];
    }
}

static void every_byte_of_a_text(void)
{
    every_byte_of(RECORD_READ, shortest, 0);
    every_byte_of(RECORD_READ, longest, 0);
    every_byte_of(RECORD_READ, new_shortest, 0);
    every_byte_of(RECORD_READ, new_longest, 0);
    every_byte_of(SLOTLIST, sheet, (size_t)(strstr(sheet, "form=2\n") - sheet));
}

static void every_listing_buffer(void)
{
    begin(SLOTLIST);
    call.text.count = strlen(sheet);
    memcpy(call.text.at, sheet, call.text.count);
    for (call.buffer.count = 0; call.buffer.count <= CARD_LISTING_BYTES + 8; call.buffer.count++)
        make();
}

/* Records of any fields, good and bad, to buffers of every length around that of their text. */
static void every_written_record(void)
{
    begin(RECORD_WRITE);
    for (call.buffer.count = 0; call.buffer.count <= 2 * CARD_RECORD_BYTES; call.buffer.count++)
        make();
    for (size_t bytes = 0; bytes <= 120; bytes++)
        for (int i = 0; i < 400; i++) {
            decode_arguments(&source, &table, &call);
            choose_bytes(&source, &call.buffer, bytes);
            make();
        }
}

/* Address and SDU beside each other, over each other, and in PDUs of every edge. */
static void every_plan(void)
{
    static const uint64_t edges[] = {0, 1, 9, 10, 12, 18, 24, 25, 8287, 8288, 8289, UINT64_MAX - 23, UINT64_MAX};
    enum { EDGES = sizeof edges / sizeof edges[0] };

    begin(PLAN);
    for (int i = 0; i < 5 * 5 * 3; i++) {
        call.pdu_kind = (uint64_t)i % 5;
        call.state = (uint64_t)i / 5 % 5;
        call.flag = (uint64_t)i / 25;
        for (int j = 0; j < EDGES * EDGES * EDGES; j++) {
            call.length = edges[j % EDGES];
            call.address = edges[j / EDGES % EDGES];
            call.sdu = edges[j / EDGES / EDGES];
            make();
        }
    }
}

/* Every kind, state and flag, good and bad, some of which would be good in a narrower type of number. */
static void every_plan_code(void)
{
    static const uint64_t kinds[] = {0, 1, 2, 3, 4, 0x101, 0x100000002, 0x8000000000000003, UINT64_MAX};
    static const uint64_t states[] = {0, 1, 2, 3, 4, 0x100, 0x100000002, 0x8000000000000003, UINT64_MAX};
    static const uint64_t flags[] = {0, 1, 2, 0x100, 0x100000001, UINT64_MAX};

    begin(PLAN);
    for (int i = 0; i < 9 * 9 * 6 * 2000; i++) {
        decode_arguments(&source, &table, &call);
        call.pdu_kind = kinds[i % 9];
        call.state = states[i / 9 % 9];
        call.flag = flags[i / 81 % 6];
        make();
    }
}

/* PDUs of every kind and state, good and bad, with the flag's byte and all others set or not, in buffers that they fill, that
   are longer, and that are too short by a byte. */
static void every_pdu(void)
{
    static const uint64_t edges[] = {0, 1, 9, 10, 11, 12, 13, 17, 18, 19, 24, 36, 124, 256, 280, 300, 512, 8287, 8288, 8289};
    static const uint64_t starts[] = {0, 1, 10, 11, 12, 24, 34, 35, 50, 124, 255, 256, 257, 280, 8288, UINT64_MAX - 23};
    enum { EDGES = sizeof edges / sizeof edges[0], STARTS = sizeof starts / sizeof starts[0] };

    begin(PDU);
    for (int i = 0; i < EDGES * STARTS * STARTS * 25; i++) {
        call.length = edges[i % EDGES];
        call.address = starts[i / EDGES % STARTS];
        call.sdu = starts[i / EDGES / STARTS % STARTS];
        call.pdu_kind = (uint64_t)(i / EDGES / STARTS / STARTS % 5);
        call.state = (uint64_t)(i / EDGES / STARTS / STARTS / 5);
        if (call.length > 600 && call.sdu % 50 != 0)
            continue; /* few of the long ones */
        call.buffer.count = (call.length + 7) / 8 + (size_t)(i % 7 == 1) - (size_t)(i % 11 == 1 && call.length > 0);
        memset(call.buffer.at, i % 2 == 0 ? 0 : 0xff, call.buffer.count);
        make();
    }
}

/* From every ninth bit of the keystream on, and from those at a block's edge, up to the bit behind the last. */
static void every_plain_skip(void)
{
    begin(PLAIN);
    call.length = 1;
    for (uint64_t skip = 0; skip <= CARD_KEYSTREAM_BITS; skip++) {
        if (skip % 9 > 0 && (skip + 2) % 256 > 3)
            continue;
        call.skip = skip;
        make();
    }
}

unsigned long every_run(uint64_t seed)
{
    generator = seed;
    every_key_and_iv_length();
    every_byte_of_a_text();
    every_listing_buffer();
    every_written_record();
    every_traffic_buffer();
    every_bench_buffer();
    every_bench_length();
    every_shift();
    every_wrap();
    every_number_of_slots();
    every_byte_of_a_slot();
    every_pair_of_uses();
    every_algorithm();
    every_call_beside_tea6();
    every_plan();
    every_plan_code();
    every_pdu();
    every_plain_skip();
    return calls;
}
