/*
 * The checker of conversions: somebody hands over key records before and after a conversion, with pairs of their numbers,
 * and claims that no right grew.
 *
 * Link with libconversion_c.a, which `rt lib` in crates/conversion_c writes; a program that only uses the card needs
 * libcard_c.a alone. It loads nothing: a record that reads can be checked, also one that the card would not load. What
 * card.h says of answers and of what the caller sees to holds here too. The texts hold keys, of which a call leaves
 * copies in some 10,300 bytes of stack: card_wipe_stack of card_wipe.h wipes them.
 */

#ifndef CARD_CONVERTED_H
#define CARD_CONVERTED_H

#include "card.h"

#ifdef __cplusplus
extern "C" {
#endif

enum card_conversion_answer {
    CARD_CONVERSION_TEXT = 22, /* a text doesn't read as records of form 1 or 2 up to its end, or repeats a number */
    CARD_PAIR_LIST = 23,       /* more than 32 pairs; a pair names a number that is not there, or one that an earlier pair names
                                  on the same side; or a record after stands in no pair */
    CARD_PAIR_DIFFERS = 24     /* a pair widens the use, or differs in key, version, algorithm, side, place or network */
};

enum card_conversion_size { CARD_PAIRS = 32 /* the most pairs */ };

/* Tells whether no right grew: both texts read whole, no number stands twice in either, every record after stands in exactly
   one pair, no number before stands in two, both numbers of each pair are there, and its records agree but for the number and
   for a use after that lies within the use before. A record before may stand in no pair. A text of no bytes is no record.
   `pairs` holds two numbers a pair, before and after; the last pair of an odd count lacks its number after, and so names one
   that is not there. `place` becomes the place of the first pair that 23 or 24 is about, counted from 1, and 0 where it is
   about none.
   Refused: 22; 23 for a list too long, else for the first pair that names wrongly, else for a record after without a pair; 24
   for the first pair that widens or differs. */
uint8_t card_converted(const uint8_t *before, size_t before_bytes, const uint8_t *after, size_t after_bytes,
                       const uint64_t *pairs, size_t numbers, size_t *place);

#ifdef __cplusplus
}
#endif

#endif
