/*
 * Mending of a key record that an office tool damaged: CR LF at the ends of lines, upper-case hex digits, leading zeros,
 * spaces beside `=`, lines in another order, and the old form 1.
 *
 * Link with libmending_c.a, which `rt lib` in crates/mending_c writes; a program that only uses the card needs
 * libcard_c.a alone. What card.h says of answers, of refused calls and of what the caller sees to holds here too.
 *
 * What is mended holds a key, and a call leaves copies of it on the stack below it: card_wipe.h has what wipes them.
 */

#ifndef CARD_MEND_H
#define CARD_MEND_H

#include "card.h"

#ifdef __cplusplus
extern "C" {
#endif

/* Refusals beside those of card.h. */
enum card_mend_answer {
    CARD_SHEET_NAMES = 25, /* a name missing, doubled or unknown for the form, a last line without its LF, a longer text */
    CARD_SHEET_VALUE = 26  /* a value still out of form or range */
};

enum card_mend_size {
    CARD_SHEET_BYTES = 4096, /* the longest text that is mended */
    CARD_MENDED_BYTES = 218  /* room for every mended record with its changes */
};

/* Reads one record of form 1 or 2, in which these faults may be: a CR before an LF (crlf), hex digits A to F in the key
   (hex), leading zeros of numbers (zeros), spaces on either side of the `=` (spaces), lines in another order (order). A
   line named `form`, good or bad, means form 2; without one the record is of form 1, which gains `form=2`, `mcc=0` and
   `mnc=0` (form). Nothing else is mended: no missing line is filled in, of two lines of one name none is chosen, and no
   digit's value is altered.
   Leaves the good text of form 2 at the front of `out`, then a line `changed=` and its word for each kind of change that
   was made, in the order crlf, hex, zeros, spaces, order, form; keeps the bytes after it; and leaves its length in
   `written`. Each line ends with LF; no NUL follows. A good record of form 2 comes out as it was, and so does a record that
   was mended.
   Refused: 25, 26, 17 (`out` is shorter than what would be left in it). */
uint8_t card_mend(const uint8_t *text, size_t text_bytes, uint8_t *out, size_t out_bytes, size_t *written);

#ifdef __cplusplus
}
#endif

#endif
