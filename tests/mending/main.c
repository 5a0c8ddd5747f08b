/* Damaged record sheets, each by card_mend and by the second program, and held to what the text's making says; and a text of
   each form, in which each byte is made each other one or is lost, and which is cut at each place.
   Usage: mending SEED COUNT */

#define _GNU_SOURCE
#include <stdio.h>
#include <stdlib.h>
#include <string.h>

#include "compare.h"
#include "report.h"

enum { MIXTURES = 64, OF_ONE_KIND = 512, FORM = 32, SHORT = 300 };

/* What came: the texts that were mended, by the changes that were listed, and those that were refused with 25 and 26. */
static struct {
    unsigned long mended[MIXTURES], refused[2];
} seen;

/* A bit for each kind of change that is listed. */
static unsigned changes_of(const struct answer *answer)
{
    static const char *const kinds[] = {"=crlf\n", "=hex\n", "=zeros\n", "=spaces\n", "=order\n", "=form\n"};
    unsigned changes = 0;

    for (unsigned i = 0; i < sizeof kinds / sizeof kinds[0]; i++)
        if (memmem(answer->out, answer->written, kinds[i], strlen(kinds[i])) != NULL)
            changes |= 1u << i;
    return changes;
}

static void try_text(uint64_t seed, uint64_t number)
{
    static uint8_t text[MOST_TEXT_BYTES], mended[CARD_MENDED_BYTES];
    uint8_t known;
    size_t mended_bytes, bytes;
    const struct answer *answer;

    bytes = damaged_text(seed, number, text, sizeof text, mended, &mended_bytes, &known);
    compare_place("text", number);
    answer = compare_text(text, bytes);
    if (known != UNKNOWN && (answer->refusal != known || answer->written != mended_bytes ||
                             memcmp(answer->out, mended, mended_bytes) != 0))
        report("the text was made to give %u and \"%.*s\"", known, (int)mended_bytes, (const char *)mended);
    if (answer->refusal == CARD_DONE)
        seen.mended[changes_of(answer)]++;
    else
        seen.refused[answer->refusal - CARD_SHEET_NAMES]++;
}

/* A text with every fault but `form`, or with every fault, that isn't long. */
static size_t short_text(uint64_t seed, uint64_t mixture, uint8_t *text)
{
    uint8_t mended[CARD_MENDED_BYTES], known;
    size_t mended_bytes, bytes;

    do {
        bytes = damaged_text(seed, mixture, text, MOST_TEXT_BYTES, mended, &mended_bytes, &known);
        mixture += OF_ONE_KIND;
    } while (bytes > SHORT);
    return bytes;
}

/* Answers how many texts these were. */
static uint64_t try_every_byte(uint64_t seed, uint64_t mixture)
{
    static uint8_t text[MOST_TEXT_BYTES];
    size_t bytes = short_text(seed, mixture, text);

    for (size_t place = 0; place < bytes; place++) {
        uint8_t right = text[place];

        compare_place("a text that is wrong at byte", place);
        compare_text(text, place);
        for (int wrong = 0; wrong <= UINT8_MAX; wrong++) {
            text[place] = (uint8_t)wrong;
            compare_text(text, bytes);
        }
        memmove(text + place, text + place + 1, bytes - place - 1);
        compare_text(text, bytes - 1);
        memmove(text + place + 1, text + place, bytes - place - 1);
        text[place] = right;
    }
    return bytes * (UINT8_MAX + 3);
}

int main(int count, char **words)
{
    uint64_t seed = count == 3 ? strtoull(words[1], NULL, 10) : 0;
    uint64_t texts = count == 3 ? strtoull(words[2], NULL, 10) : 0;
    unsigned long mended = 0;
    uint64_t every;

    report_at_death();
    for (uint64_t number = 0; number < texts; number++)
        try_text(seed, number);
    for (int i = 0; i < MIXTURES; i++) {
        if (seen.mended[i] == 0)
            report("mixture %d of changes never came", i);
        mended += seen.mended[i];
    }
    if (seen.refused[0] == 0 || seen.refused[1] == 0)
        report("refusal 25 or 26 never came");
    printf("mending: %llu texts agree: %lu mended, by each of the %d mixtures of changes, %lu refused with 25, %lu with 26\n",
           (unsigned long long)texts, mended, MIXTURES, seen.refused[0], seen.refused[1]);
    every = try_every_byte(seed, FORM - 1) + try_every_byte(seed, MIXTURES - 1);
    printf("mending: %llu texts with each byte wrong or lost agree\n", (unsigned long long)every);
    return 0;
}
