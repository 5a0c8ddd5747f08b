/* The second program for C: each call of include/card.h and card_plain.h by its second name, and what a call makes of a key. */

#ifndef ORACLE_H
#define ORACLE_H

#include "card.h"
#include "card_plain.h"

extern __typeof__(card_load) oracle_load;
extern __typeof__(card_move) oracle_move;
extern __typeof__(card_clear) oracle_clear;
extern __typeof__(card_read) oracle_read;
extern __typeof__(card_traffic) oracle_traffic;
extern __typeof__(card_pdu) oracle_pdu;
extern __typeof__(card_bench) oracle_bench;
extern __typeof__(card_plain) oracle_plain;
extern __typeof__(card_record_read) oracle_record_read;
extern __typeof__(card_record_write) oracle_record_write;
extern __typeof__(card_slotlist) oracle_slotlist;
extern __typeof__(card_plan) oracle_plan;

enum { ORACLE_WORDS = 120, ORACLE_BLOCKS = 33, ORACLE_BLOCK_BYTES = 32 };

/* What the cipher makes of a key and an initial value: the mode key, the mode value, the key schedule with each word's
   first byte first, and the keystream's blocks. */
struct oracle_secrets {
    uint8_t mode_key[CARD_KEY_BYTES];
    uint8_t mode_value[CARD_KEY_BYTES];
    uint8_t words[ORACLE_WORDS][4];
    uint8_t blocks[ORACLE_BLOCKS][ORACLE_BLOCK_BYTES];
};

/* The algorithm is 5, 6 or 7. */
void oracle_secrets(uint64_t algorithm, const uint8_t key[CARD_KEY_BYTES], const uint8_t iv[CARD_IV_BYTES],
                    struct oracle_secrets *secrets);

#endif
