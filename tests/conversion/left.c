/* What card_converted leaves of keys on the stack, before and after card_wipe_stack (docs/KEY-HYGIENE.md).
   Usage: left SEED COUNT */

#define _GNU_SOURCE

#include <inttypes.h>
#include <stdio.h>
#include <stdlib.h>
#include <string.h>

#include "card_converted.h"
#include "card_wipe.h"
#include "oracle.h"
#include "stack.h"

/* So many bytes of a key in a row count as found; and so many of what is wiped are to be left over. */
enum { RUN = 8, TO_SPARE = 4096 };

static struct lent lent;
static size_t place;

static __attribute__((noinline)) void call_alone(void)
{
    card_converted(lent.before, lent.before_bytes, lent.after, lent.after_bytes, lent.pairs, lent.numbers, &place);
}

static __attribute__((noinline)) void call_and_wipe(void)
{
    call_alone();
    card_wipe_stack();
}

static uint8_t nibble(uint8_t digit)
{
    return digit <= '9' ? digit - '0' : digit - 'a' + 10;
}

/* How many of a key's runs are found among the bytes. */
static size_t runs_found(const uint8_t key[CARD_KEY_BYTES], struct stack_left left)
{
    size_t found = 0;

    for (size_t at = 0; at + RUN <= CARD_KEY_BYTES; at++)
        found += memmem(left.bytes, left.count, key + at, RUN) != NULL;
    return found;
}

/* The same over all keys of the records before. */
static size_t found(struct stack_left left)
{
    const uint8_t *end = lent.before + lent.before_bytes, *at = lent.before;
    size_t sum = 0;

    while ((at = memmem(at, (size_t)(end - at), "key=", 4)) != NULL && end - at >= 4 + 2 * CARD_KEY_BYTES) {
        uint8_t key[CARD_KEY_BYTES];

        for (size_t i = 0; i < CARD_KEY_BYTES; i++)
            key[i] = (uint8_t)(nibble(at[4 + 2 * i]) << 4 | nibble(at[5 + 2 * i]));
        sum += runs_found(key, left);
        at += 4;
    }
    return sum;
}

int main(int count, char **words)
{
    uint64_t seed = count > 2 ? strtoull(words[1], NULL, 10) : 0, conversions = count > 2 ? strtoull(words[2], NULL, 10) : 0;
    size_t most_stack = 0, before = 0, after = 0;

    for (uint64_t number = 0; number < conversions; number++) {
        struct stack_left left;

        lent = conversion_random(seed, number);
        left = stack_run(call_alone);
        most_stack = left.count > most_stack ? left.count : most_stack;
        before += found(left);
        after += found(stack_run(call_and_wipe));
    }
    if (before == 0 || after > 0 || most_stack > CARD_WIPE_BYTES - TO_SPARE) {
        fprintf(stderr, "conversion: %zu bytes of stack are used; %zu runs of keys are found there, and %zu after the wipe of %d bytes\n",
                most_stack, before, after, CARD_WIPE_BYTES);
        return 1;
    }
    printf("conversion: a call uses up to %zu bytes of stack, and leaves keys there; after card_wipe_stack none is found\n", most_stack);
    return 0;
}
