/* The fuzz target of the checker of conversions: an input as the program `converted` reads it, by the proved code and by the second
   program. With WRONG defined it is a wrong checker's, by its name, and the fuzzer has to find it. */
#include <stdio.h>
#include <stdlib.h>
#include <string.h>

#include "card_converted.h"
#include "oracle.h"

/* A counter for each answer, by which the fuzzer sees that an input has shown something new. (Counters in the second program as well
   would keep hundreds of texts that don't read, and lead away from those that do.) */
static uint8_t counters[25][64] __attribute__((section("__libfuzzer_extra_counters")));

static void fault(const char *what)
{
    fprintf(stderr, "fault: %s\n", what);
    abort();
}

#ifdef WRONG
static size_t number_of(const char *wanted)
{
    char name[64];

    for (size_t number = 0; number < wrong_checkers(); number++) {
        wrong_name(number, (uint8_t *)name, sizeof name);
        if (strcmp(name, wanted) == 0)
            return number;
    }
    fault("there is no such wrong checker");
    return 0;
}
#endif

static uint8_t asked(const struct lent *lent, size_t *place)
{
#ifdef WRONG
    (void)lent;
    return wrong_converted(number_of(WRONG), place);
#else
    return card_converted(lent->before, lent->before_bytes, lent->after, lent->after_bytes, lent->pairs, lent->numbers, place);
#endif
}

int LLVMFuzzerTestOneInput(const uint8_t *input, size_t bytes)
{
    struct lent lent = conversion_of_input(input, bytes);
    size_t place = 77, expected = 78;
    uint8_t refusal = asked(&lent, &place);

    if (refusal != second_converted(lent.before, lent.before_bytes, lent.after, lent.after_bytes, lent.pairs, lent.numbers,
                                    &expected) || place != expected)
        fault("card and second program differ");
    counters[refusal % 25][(refusal == CARD_DONE ? lent.numbers / 2 : place) % 64]++;
    return 0;
}
