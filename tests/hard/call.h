/* A call of the card with its arguments, and what came of it. */

#ifndef CALL_H
#define CALL_H

#include "card.h"
#include "card_plain.h"

enum kind { LOAD, MOVE, CLEAR, READ, TRAFFIC, BENCH, RECORD_READ, RECORD_WRITE, PLAN, PLAIN, SLOTLIST, PDU, KINDS };

enum { MOST_BYTES = 17 * 4096, MOST_SLOTS = 96 };

struct bytes {
    size_t count;
    uint8_t at[MOST_BYTES];
};

struct table {
    size_t slots;
    struct card_slot at[MOST_SLOTS];
};

/* What a kind of call doesn't take isn't looked at. */
struct call {
    enum kind kind;
    uint64_t number, to, asked; /* a move goes from `number` */
    uint16_t version;
    uint64_t algorithm, usage, side, place, mcc, mnc;
    uint64_t direction, start, length, skip;
    uint64_t pdu_kind, state, flag, address, sdu; /* a plan's or a PDU's, whose length is `length` */
    struct bytes key, iv, text, buffer;           /* the text is a record's or a sheet's */
};

enum { MOST_NUMBERS = 11 };

/* The answer, the numbers that it reported in the order of card.h, and all that may have changed. The listing of a sheet
   has no answer but its length, which is the first number. */
struct outcome {
    uint8_t answer;
    uint64_t numbers[MOST_NUMBERS];
    uint8_t key[CARD_KEY_BYTES];
    struct table table;
    struct bytes buffer;
};

extern const char *const kind_names[KINDS];

/* Copies only the bytes and slots that are there. */
void bytes_copy(struct bytes *to, const struct bytes *from);
void table_copy(struct table *to, const struct table *from);
void call_copy(struct call *to, const struct call *from);

/* Bit 0 of a byte is its most significant one. */
int bit_at(const struct bytes *bytes, size_t place);
void set_bit(struct bytes *bytes, size_t place, int bit);

int bytes_same(const struct bytes *a, const struct bytes *b);
int table_same(const struct table *a, const struct table *b);

/* Whether a call of the kind works on a table, or is lent a buffer that it may write to. */
int kind_has_table(enum kind kind);
int kind_has_buffer(enum kind kind);

/* The answer, or what a listing says: the refusal in it, or 17 where the buffer had no room for it. */
unsigned said(const struct call *call, const struct outcome *outcome);

#endif
