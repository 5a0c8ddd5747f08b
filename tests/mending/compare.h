/* One text by card_mend, lent in fenced memory (tests/hard/room.h), beside the second program. */

#ifndef COMPARE_H
#define COMPARE_H

#include "card_mend.h"

/* What damaged_text says of a text whose answer its making doesn't tell. */
enum { UNKNOWN = 255, MOST_TEXT_BYTES = 16384 };

struct answer {
    uint8_t refusal;
    size_t written;
    uint8_t out[2 * CARD_MENDED_BYTES];
};

/* The second program's card_mend. */
uint8_t second_mend(const uint8_t *text, size_t text_bytes, uint8_t *out, size_t out_bytes, size_t *written);

/* Leaves the text of a seed and a number in `text`, and in `known` what must come of it: 0 with what is mended in `mended`,
   a room of CARD_MENDED_BYTES, or a refusal, or UNKNOWN. Answers the text's length. */
size_t damaged_text(uint64_t seed, uint64_t number, uint8_t *text, size_t room, uint8_t *mended, size_t *mended_bytes,
                    uint8_t *known);

/* Where the run is, for what is said of a fault. */
void compare_place(const char *what, uint64_t number);

/* Makes the calls, and ends with a report where one is wrong. */
const struct answer *compare_text(const uint8_t *text, size_t bytes);

#endif
