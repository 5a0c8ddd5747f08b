/* card_converted beside the second program on random conversions, good and damaged. What is lent stands right against pages that
   nobody may touch, in pages that can't be written to (tests/hard/room.h).
   Usage: calls SEED COUNT            the card's checker
          calls SEED COUNT WRONG      a wrong checker in its place, by its number from 1 on, which must be found
          calls                       how many wrong checkers there are */

#include <inttypes.h>
#include <stdarg.h>
#include <stdio.h>
#include <stdlib.h>

#include "astray.h"
#include "card_converted.h"
#include "oracle.h"
#include "report.h"
#include "room.h"

static const enum room before_room = TEXT_ROOM, after_room = BUFFER_ROOM, pairs_room = FIRST_NUMBER_ROOM,
                       place_room = LAST_NUMBER_ROOM;

/* The answers that a run has to show. */
enum shown { ACCEPTED, BAD_TEXT, BAD_LIST, BAD_PAIR, GROWS, SHOWN };

static const char *const answers[SHOWN] = {"accepted", "refused with 22", "with 23 and no pair", "with 23 at a pair", "with 24"};

struct answer {
    uint8_t refusal;
    size_t place;
};

static uint64_t present_seed, present_number;
static uint8_t subject[64] = "the card";

_Noreturn void report(const char *format, ...)
{
    va_list arguments;

    va_start(arguments, format);
    fprintf(stderr, "conversion: fault: ");
    vfprintf(stderr, format, arguments);
    fprintf(stderr, " (seed %" PRIu64 ", conversion %" PRIu64 ")\n", present_seed, present_number);
    va_end(arguments);
    exit(1);
}

static uint8_t asked(size_t wrong, const struct lent *lent, size_t *place)
{
    if (wrong == 0)
        return card_converted(lent->before, lent->before_bytes, lent->after, lent->after_bytes, lent->pairs, lent->numbers, place);
    if (wrong <= wrong_checkers())
        return wrong_converted(wrong - 1, place);
    return astray_converted(wrong - wrong_checkers() - 1, lent, place);
}

/* The checker's answer to what is lent it in guarded rooms. */
static struct answer answered(size_t wrong, struct lent lent)
{
    struct answer answer;
    size_t *place;

    room_side((enum side)(present_number % SIDES));
    lent.before = room_lend_to_read(before_room, lent.before, lent.before_bytes);
    lent.after = room_lend_to_read(after_room, lent.after, lent.after_bytes);
    lent.pairs = room_lend_to_read(pairs_room, lent.pairs, lent.numbers * sizeof *lent.pairs);
    place = room_lend_unset(place_room, sizeof *place);
    answer.refusal = asked(wrong, &lent, place);
    room_take(before_room, NULL);
    room_take(after_room, NULL);
    room_take(pairs_room, NULL);
    room_take(place_room, &answer.place);
    return answer;
}

static enum shown compare(size_t wrong, const struct lent *lent)
{
    struct answer given = answered(wrong, *lent), wanted;

    wanted.refusal = second_converted(lent->before, lent->before_bytes, lent->after, lent->after_bytes, lent->pairs,
                                      lent->numbers, &wanted.place);
    if (given.refusal != wanted.refusal || given.place != wanted.place)
        report("%s: %u at %zu, expected %u at %zu", subject, given.refusal, given.place, wanted.refusal, wanted.place);
    if (lent->by_moves && given.refusal != CARD_DONE)
        report("a conversion by our own moves is refused with %u", given.refusal);
    switch (given.refusal) {
    case CARD_DONE: return ACCEPTED;
    case CARD_CONVERSION_TEXT: return BAD_TEXT;
    case CARD_PAIR_LIST: return given.place == 0 ? BAD_LIST : BAD_PAIR;
    default: return GROWS;
    }
}

int main(int count, char **words)
{
    uint64_t conversions, seen[SHOWN] = {0};
    size_t wrong = count > 3 ? strtoul(words[3], NULL, 10) : 0;

    if (count < 3) {
        printf("%zu\n", wrong_checkers() + ASTRAY);
        return 0;
    }
    if (wrong > 0 && wrong <= wrong_checkers())
        wrong_name(wrong - 1, subject, sizeof subject);
    present_seed = strtoull(words[1], NULL, 10);
    conversions = strtoull(words[2], NULL, 10);
    for (present_number = 0; present_number < conversions; present_number++) {
        struct lent lent = conversion_random(present_seed, present_number);

        seen[compare(wrong, &lent)]++;
    }
    printf("conversion: %" PRIu64 " conversions agree:", conversions);
    for (int shown = 0; shown < SHOWN; shown++) {
        printf(" %" PRIu64 " %s%s", seen[shown], answers[shown], shown < SHOWN - 1 ? "," : "\n");
        if (seen[shown] == 0)
            report("none is %s", answers[shown]);
    }
    return 0;
}
