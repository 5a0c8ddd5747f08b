/* Arguments, good and bad, of a source's bytes. Most bytes choose good ones; the rest are the edges of what is good,
   numbers that a narrower type cuts to good ones, sums that wrap, and any number of 64 bits. */

#ifndef CHOOSE_H
#define CHOOSE_H

#include "call.h"
#include "source.h"

/* One of so many numbers. */
uint64_t choose_of(struct source *source, const uint64_t *numbers, size_t count);

/* A number of a range of at most 65,536, mostly. */
uint64_t choose_mostly(struct source *source, uint64_t low, uint64_t high);

/* Any version, of every number of digits. */
uint16_t choose_version(struct source *source);

/* The number of a slot, mostly of one that is filled, or of one that is empty. */
uint64_t choose_slot(struct source *source, const struct table *table, int filled);

/* A good slot: filled, or empty. */
struct card_slot choose_good_slot(struct source *source);

/* How many bytes are lent where `right` is the right number. */
size_t choose_count(struct source *source, size_t right);
size_t choose_buffer_count(struct source *source);
size_t choose_listing_count(struct source *source);
void choose_bytes(struct source *source, struct bytes *bytes, size_t count);

/* A length for a buffer, and where so many bits start, mostly so that they end by `end`. */
uint64_t choose_length(struct source *source, size_t buffer_bytes);
uint64_t choose_first_bit(struct source *source, uint64_t length, uint64_t end);

/* A PDU's length; where its SDU starts, mostly within it or at its end; and where its address starts, mostly so that it
   ends before the SDU or with its start. */
uint64_t choose_pdu_length(struct source *source);
uint64_t choose_sdu(struct source *source, uint64_t length);
uint64_t choose_address(struct source *source, uint64_t sdu);

#endif
