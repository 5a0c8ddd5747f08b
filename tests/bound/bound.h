/* The calls of bindings/rust for C, on a table that the library holds. Each answers the number of its refusal. */

#ifndef BOUND_H
#define BOUND_H

#include "card.h"

/* Takes over a copy of a table of 32 slots. */
uint8_t bound_take(const struct card_slot *table);

/* For both uses, on side 0. */
uint8_t bound_load(uint64_t number, uint64_t algorithm, uint64_t place, const uint8_t key[CARD_KEY_BYTES]);

/* Asks for both uses. */
uint8_t bound_move(uint64_t from, uint64_t to);

uint8_t bound_clear(uint64_t number);
uint8_t bound_read(uint64_t number);
uint8_t bound_traffic(uint64_t direction, uint64_t number, const uint8_t iv[CARD_IV_BYTES], uint8_t *buffer,
                      size_t buffer_bytes, size_t start, size_t length, size_t skip);
uint8_t bound_pdu(uint64_t direction, uint64_t number, const uint8_t iv[CARD_IV_BYTES], uint8_t *buffer,
                  size_t buffer_bytes, const struct card_pdu_parts *pdu);
uint8_t bound_bench(uint64_t algorithm, const uint8_t key[CARD_KEY_BYTES], const uint8_t iv[CARD_IV_BYTES],
                    uint8_t *buffer, size_t buffer_bytes, size_t length);
uint8_t bound_record_read(const uint8_t *text, size_t text_bytes);
uint8_t bound_record_write(uint64_t number, uint64_t algorithm, uint64_t place, const uint8_t key[CARD_KEY_BYTES],
                           uint8_t *buffer, size_t buffer_bytes);
uint8_t bound_slotlist(const uint8_t *sheet, size_t sheet_bytes);

#endif
