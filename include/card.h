/*
 * The card: TEA5, TEA6 and TEA7 (ETSI TS 104 053-2) behind thirty-two key slots.
 *
 * Link with libcard_c.a, which `rt lib` in crates/card_c writes. It holds no state of its own, takes no memory and calls
 * nothing but memcpy and memset. The table of slots is the caller's, and a call sees only what it is lent.
 *
 * Every call but card_slotlist, which answers a length, answers CARD_DONE or the number of a refusal. The tests are made
 * in the order in which a call lists them here, and the first that fails gives the number. A refused call changes no bit
 * of a buffer or of a slot; the numbers that it reports are 0.
 *
 * What the caller sees to, since no call can test it:
 *   - A pointer is not null, also where its length is 0, and so many bytes, slots or numbers stand there.
 *   - What a call writes to does not overlap with anything else that the same call is lent.
 *   - No other thread uses what a call writes to while it runs.
 *   - A call leaves copies of keys on the stack below it. Where that matters, card_wipe.h has what wipes them.
 */

#ifndef CARD_H
#define CARD_H

#include <stddef.h>
#include <stdint.h>

/* The version of what this file declares. 2: card_record_read leaves a column too. 3: a slot has a network, so that it is
   34 bytes long and was 30; loading, reading and writing it take both codes. What was compiled with an older file has to
   be compiled again, and a table that was stored with one has to be loaded again: nothing can tell at run time, but that
   32 slots of 30 bytes are mostly refused with 16. */
#define CARD_FACE 3

#ifdef __cplusplus
extern "C" {
#endif

/* The numbers that an engineer sees. */
enum card_answer {
    CARD_DONE = 0,
    CARD_ALGORITHM = 1,      /* algorithm not 5, 6, 7 */
    CARD_BENCH_KEY = 2,      /* bench key not 24 bytes */
    CARD_IV_SIZE = 3,        /* initial value not 10 bytes */
    CARD_LENGTH = 4,         /* length 0, or skip + length above 8,288 */
    CARD_BUFFER = 5,         /* buffer above 8,192 bytes */
    CARD_SPAN = 6,           /* start + length, or a PDU's length, above 8 times the buffer's bytes */
    CARD_SLOT_NUMBER = 7,    /* slot number not 1..32 */
    CARD_SLOT_EMPTY = 8,     /* slot empty */
    CARD_TARGET_FILLED = 9,  /* target slot filled */
    CARD_CODE = 10,          /* use or direction code unknown */
    CARD_SIDE_OR_PLACE = 11, /* side above 1 or place above 79 */
    CARD_DIRECTION = 12,     /* use doesn't include the direction */
    CARD_IV_SIDE = 13,       /* the initial value's side bit is wrong */
    CARD_USE_WIDER = 14,     /* asked use not within the present use, or 0 asked of a key for both */
    CARD_RECORD_TEXT = 15,   /* record text bad; line 1..10 and column given */
    CARD_TABLE = 16,         /* table not 32 records, or a bad slot in it */
    CARD_RECORD_ROOM = 17,   /* record text longer than the buffer */
    CARD_PDU_CODE = 18,      /* PDU kind, state or flag unknown, or PDU above 8,288 bits */
    CARD_PDU_PARTS = 19,     /* PDU parts don't fit */
    CARD_NETWORK = 20,       /* mobile country code above 1,023 or mobile network code above 16,383 */
    CARD_OUT_OF_SERVICE = 21 /* algorithm out of service: a load of TEA6, or a send with it */
};

enum card_size {
    CARD_SLOTS = 32,
    CARD_KEY_BYTES = 24,
    CARD_IV_BYTES = 10,
    CARD_BUFFER_BYTES = 8192,   /* the longest buffer */
    CARD_KEYSTREAM_BITS = 8288, /* the most keystream of a call, its skip included */
    CARD_RECORD_BYTES = 137,    /* the longest record */
    CARD_LISTING_BYTES = 2560   /* room for every listing of a sheet */
};

/* TEA6 is out of service: no key of it is loaded, and none sends. A slot that holds one can receive, be read, moved and
   cleared; its records are read and written, and card_bench has its keystream. */
enum card_algorithm { CARD_TEA5 = 5, CARD_TEA6 = 6, CARD_TEA7 = 7 };

/* What a key is for. 'Keep' is only for a move, of a key that isn't for both. */
enum card_use { CARD_KEEP = 0, CARD_FOR_SENDING = 1, CARD_FOR_RECEIVING = 2, CARD_FOR_BOTH = 3 };

enum card_direction { CARD_SEND = 1, CARD_RECEIVE = 2 };

/* Which direct mode PDU it is. */
enum card_pdu_kind { CARD_DMAC_DATA = 1, CARD_DMAC_SYNC_SCH_H = 2, CARD_DMAC_SYNC_SCH_S = 3 };

/* A PDU's encryption state: what of it is ciphered. A DMAC-SYNC on SCH/S is clear in every state. */
enum card_pdu_state {
    CARD_ALL_CLEAR = 0,
    CARD_AFTER_HEAD = 1,     /* what follows the head: 10 bits of a DMAC-DATA, 12 of a DMAC-SYNC, 18 if its flag is 1 */
    CARD_SDU = 2,            /* the DM-SDU */
    CARD_ADDRESS_AND_SDU = 3 /* the address and the DM-SDU */
};

/* A slot. All bytes zero: empty. Filled: a version of 0..65535, an algorithm of 5..7, a use of 1..3, a side of 0..1, a
   place of 0..79, a mobile country code of 0..1023, a mobile network code of 0..16383 and any key. Anything else is a bad slot, and one bad slot refuses every call on the table.
   Bit 0 of a byte is its most significant bit. A send needs bit `place` of the initial value equal to `side`, a receive
   needs the other value. */
struct card_slot {
    uint16_t version;
    uint8_t algorithm;
    uint8_t usage;
    uint8_t side;
    uint8_t place;
    uint16_t mcc;
    uint16_t mnc;
    uint8_t key[CARD_KEY_BYTES];
};

#ifdef __cplusplus
static_assert(sizeof(struct card_slot) == 34, "a slot is 34 bytes");
static_assert(offsetof(struct card_slot, key) == 10, "its key starts at byte 10");
#else
_Static_assert(sizeof(struct card_slot) == 34, "a slot is 34 bytes");
_Static_assert(offsetof(struct card_slot, key) == 10, "its key starts at byte 10");
#endif

/*
 * The table: `slots` records from `table` on, numbered from 1. Where `slots` is not 32, or a slot is bad, a call on the
 * table is refused with 16 before anything else is looked at. An empty table is 32 slots of zero bytes.
 */

/* Fills the empty slot `number`. The key is copied; it decides no refusal.
   Refused: 16, 7, 1, 21 (TEA6), 10, 11, 20, 9. */
uint8_t card_load(struct card_slot *table, size_t slots, uint64_t number, uint16_t version, uint64_t algorithm,
                  uint64_t usage, uint64_t side, uint64_t place, uint64_t mcc, uint64_t mnc,
                  const uint8_t key[CARD_KEY_BYTES]);

/* Carries slot `from` to the empty slot `to`, and empties `from`. The asked use is the use in `to`, and must lie
   within the present one. CARD_KEEP keeps a use for sending or for receiving; a key for both is refused it with 14, and
   stays one for both where CARD_FOR_BOTH is asked. A slot moved to itself is refused with 9.
   Refused: 16, 7 (either number), 8, 9, 10, 14. */
uint8_t card_move(struct card_slot *table, size_t slots, uint64_t from, uint64_t to, uint64_t asked);

/* Empties a filled slot: all its bytes become zero.
   Refused: 16, 7, 8. */
uint8_t card_clear(struct card_slot *table, size_t slots, uint64_t number);

/* Gives a filled slot's number and fields, without the key.
   Refused: 16, 7, 8. */
uint8_t card_read(const struct card_slot *table, size_t slots, uint64_t number, uint64_t *found, uint16_t *version,
                  uint8_t *algorithm, uint8_t *usage, uint8_t *side, uint8_t *place, uint16_t *mcc, uint16_t *mnc);

/* Ciphers: bit start_bit + i of the buffer becomes itself xor keystream bit skip_bits + i, for each i below length_bits,
   and every other bit stays. The same call again brings the buffer back. `blocks` becomes the number of keystream blocks,
   of 256 bits, in which a used bit lies. Start, length and skip may be any numbers: their sums never wrap.
   Refused: 16, 10, 7, 8, 12, 21 (a send with TEA6), 3, 13, 5, 4, 6. */
uint8_t card_traffic(const struct card_slot *table, size_t slots, uint64_t direction, uint64_t number,
                     const uint8_t *iv, size_t iv_bytes, uint8_t *buffer, size_t buffer_bytes, size_t start_bit,
                     size_t length_bits, size_t skip_bits, size_t *blocks);

/* Ciphers a whole PDU, which stands in the buffer from bit 0 on: every piece that card_plan has for it, or no bit. The
   fragmentation flag is read from the PDU: bit 12, numbered from 1, of a DMAC-SYNC on SCH/H of 12 bits or more, and 0
   otherwise. The same call again brings the PDU back. `blocks` becomes the number of different keystream blocks in which
   a used bit lies, also where two pieces share one; at most 33, and 0 where there is no piece. The buffer may be longer
   than the PDU; its bits from length_bits on stay. card_cipher_pdu, below, takes the PDU's parts by name.
   Refused: 16, 10, 7, 8, 12, 21 (a send with TEA6), 3, 13, 5, 6 (length_bits above the buffer's bits), 18, 19. */
uint8_t card_pdu(const struct card_slot *table, size_t slots, uint64_t direction, uint64_t number, const uint8_t *iv,
                 size_t iv_bytes, uint8_t *buffer, size_t buffer_bytes, uint64_t kind, uint64_t state,
                 size_t length_bits, size_t address_bit, size_t sdu_bit, size_t *blocks);

/*
 * Calls without a table.
 */

/* Writes keystream bits 0 to length_bits - 1 from bit 0 of the buffer on, and keeps the buffer's later bits: to compare the
   card with another.
   Refused: 1, 2, 3, 5, 4, 6. */
uint8_t card_bench(uint64_t algorithm, const uint8_t *key, size_t key_bytes, const uint8_t *iv, size_t iv_bytes,
                   uint8_t *buffer, size_t buffer_bytes, size_t length_bits, size_t *blocks);

/* Reads one record from the front of a text: of form 1, seven lines, or of form 2, ten, the first of them `form=2`.
   `shown` becomes number, version, algorithm, use, side, place, mobile country code and mobile network code, both 0 of a
   record of form 1, and `used` the bytes that the record took; what follows it is not judged. On refusal 15, `line` and
   `column` say where the first byte stands at which no good record can go on, both counted from 1, and all else becomes
   zero: the line is 1..7, or 1..10 of form 2; of a text that ends too early the column is just past its end.
   Refused: 15. */
uint8_t card_record_read(const uint8_t *text, size_t text_bytes, uint64_t shown[8], uint8_t key[CARD_KEY_BYTES],
                         size_t *used, size_t *line, size_t *column);

/* Writes a record of form 2 to the front of a buffer, keeps the bytes after it, and leaves its length, 124 to
   CARD_RECORD_BYTES.
   Refused: 7, 1, 10, 11, 20, 17. */
uint8_t card_record_write(uint64_t number, uint16_t version, uint64_t algorithm, uint64_t usage, uint64_t side,
                          uint64_t place, uint64_t mcc, uint64_t mnc, const uint8_t key[CARD_KEY_BYTES],
                          uint8_t *buffer, size_t buffer_bytes, size_t *length);

/* Loads every record of a sheet into an empty table, one after the other, and leaves the table's listing at the front of
   the buffer: a header, a line for each filled slot without its key, and their count. Where a record is refused, the
   listing is only the line `refused=N record=R line=L column=C`, with the record counted from 1. Each line ends with LF;
   no NUL follows. Answers the listing's length, and keeps the bytes after it. A buffer of fewer than
   CARD_LISTING_BYTES bytes stays as it is, and the answer is 0. */
size_t card_slotlist(const uint8_t *sheet, size_t sheet_bytes, uint8_t *buffer, size_t buffer_bytes);

/* Which bits of a direct mode PDU are ciphered, by its kind, its state, its fragmentation flag (0 or 1), its length, and
   where its address and its DM-SDU start, in bits from 0. `pieces` becomes start, length and skip of the first piece and of
   the second; zeros where there is none. In state 3 the DM-SDU's skip is 24 + n + 1, with n the bits between the address
   and it, and a plan that would need keystream bit 8,288 is refused with 19. card_plan_pdu, below, takes the parts by name.
   Refused: 18, 19. */
uint8_t card_plan(uint64_t kind, uint64_t state, uint64_t flag, size_t length_bits, size_t address_bit, size_t sdu_bit,
                  size_t pieces[6]);

/*
 * The same by name: a kind in the place of a state, or a start in that of a length, would leave a PDU in the clear and
 * be no fault of a call.
 */

/* What a PDU is, and where in it what starts, in bits from 0. What a state doesn't use may be anything. */
struct card_pdu_parts {
    enum card_pdu_kind kind;
    enum card_pdu_state state;
    size_t length_bits; /* without fill bits */
    size_t address_bit, sdu_bit;
};

static inline uint8_t card_plan_pdu(struct card_pdu_parts pdu, uint64_t flag, size_t pieces[6])
{
    return card_plan(pdu.kind, pdu.state, flag, pdu.length_bits, pdu.address_bit, pdu.sdu_bit, pieces);
}

static inline uint8_t card_cipher_pdu(const struct card_slot *table, size_t slots, enum card_direction direction,
                                      uint64_t number, const uint8_t *iv, size_t iv_bytes, uint8_t *buffer,
                                      size_t buffer_bytes, struct card_pdu_parts pdu, size_t *blocks)
{
    return card_pdu(table, slots, direction, number, iv, iv_bytes, buffer, buffer_bytes, pdu.kind, pdu.state,
                    pdu.length_bits, pdu.address_bit, pdu.sdu_bit, blocks);
}

#ifdef __cplusplus
}
#endif

#endif
