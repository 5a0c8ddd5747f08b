/* The fuzz target of mending: a text of any bytes, by the proved code and by the second program. */

#define _GNU_SOURCE
#include <string.h>

#include "compare.h"

int LLVMFuzzerTestOneInput(const uint8_t *text, size_t bytes);

/* What libFuzzer counts beside the code that it sees, since the proved code isn't instrumented: the answers with the length of
   what is mended, and the changes by their length. */
static struct {
    uint8_t answers[3][32];
    uint8_t changes[128];
} counters __attribute__((section("__libfuzzer_extra_counters")));

int LLVMFuzzerTestOneInput(const uint8_t *text, size_t bytes)
{
    const struct answer *answer;
    const uint8_t *changes;

    compare_place("an input of bytes", bytes);
    answer = compare_text(text, bytes);
    changes = memmem(answer->out, answer->written, "changed=", 8);
    counters.answers[answer->refusal == CARD_DONE ? 0 : answer->refusal - 24][answer->written % 32]++;
    if (changes != NULL)
        counters.changes[(answer->written - (size_t)(changes - answer->out)) % 128]++;
    return 0;
}
