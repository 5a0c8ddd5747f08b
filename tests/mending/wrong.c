/* Wrong menders, to show that the comparison finds them. The variable WRONG names one, and BOTH, where it is set, gives the same
   fault to the second program, so that only a text's making or a law can find it. The linker puts these before the true calls
   (--wrap). Most spoil the text before the true call sees it, so that they take what it refuses, or the answer after it.
   Compiled without sanitizers, as the proved code is. */

#define _GNU_SOURCE
#include <ctype.h>
#include <stdlib.h>
#include <string.h>

#include "compare.h"

typedef uint8_t mender(const uint8_t *text, size_t bytes, uint8_t *out, size_t out_bytes, size_t *written);

extern mender __real_card_mend, __real_second_mend, __wrap_card_mend, __wrap_second_mend;

struct text {
    size_t bytes;
    uint8_t at[2 * MOST_TEXT_BYTES];
};

static int wrong(const char *name)
{
    const char *chosen = getenv("WRONG");

    return chosen != NULL && strcmp(chosen, name) == 0;
}

static uint8_t *find(struct text *text, const char *words)
{
    return memmem(text->at, text->bytes, words, strlen(words));
}

static int begins(const struct text *text, const char *words)
{
    return text->bytes >= strlen(words) && memcmp(text->at, words, strlen(words)) == 0;
}

/* Puts other words in the place of so many bytes. */
static void put(struct text *text, uint8_t *at, size_t bytes, const char *words)
{
    memmove(at + strlen(words), at + bytes, (size_t)(text->at + text->bytes - at) - bytes);
    memcpy(at, words, strlen(words));
    text->bytes += strlen(words) - bytes;
}

/* Every occurrence of some words, until there is none; the others are shorter, or have none of these in them. */
static void replace(struct text *text, const char *words, const char *others)
{
    for (uint8_t *at = find(text, words); at != NULL; at = find(text, words))
        put(text, at, strlen(words), others);
}

/* Of two lines that begin with the same word, takes one out: the earlier or the later. */
static void drop_doubled(struct text *text, const char *word, int later)
{
    uint8_t *first = find(text, word), *end = text->at + text->bytes;
    uint8_t *second = first == NULL ? NULL : memmem(first + 1, (size_t)(end - first) - 1, word, strlen(word));
    uint8_t *from = later ? second : first, *to;

    if (second == NULL)
        return;
    to = memchr(from + 1, '\n', (size_t)(end - from) - 1);
    put(text, from, to == NULL ? 0 : (size_t)(to - from), "");
}

/* A key of 49 digits loses the zero before them, or one of 47 gets one. */
static void fit_key(struct text *text, const char *zero, size_t digits)
{
    uint8_t *key = find(text, "key="), *value = key == NULL ? NULL : key + 4;
    size_t found = 0;

    while (value != NULL && value + found < text->at + text->bytes && isxdigit(value[found]))
        found++;
    if (found == digits)
        put(text, value, strlen(zero) == 0 ? 1 : 0, zero);
}

/* A number of more than 64 bits is cut to them. */
static void cut_number(struct text *text)
{
    uint8_t *number = find(text, "number=");
    uint64_t value = 0;
    size_t digits = 0;
    char cut[32];

    if (number == NULL)
        return;
    for (number += 7; number + digits < text->at + text->bytes && isdigit(number[digits]); digits++)
        value = 10 * value + number[digits] - '0';
    for (int place = 20; place >= 0; place--, value /= 10)
        cut[place] = (char)('0' + value % 10);
    cut[21] = 0;
    if (digits > 19)
        put(text, number, digits, cut);
}

/* A name that begins in upper case is taken in lower case. */
static void lower_names(struct text *text)
{
    for (size_t i = 0; i < text->bytes; i++)
        if ((i == 0 || text->at[i - 1] == '\n') && isupper(text->at[i]))
            for (size_t j = i; j < text->bytes && isupper(text->at[j]); j++)
                text->at[j] = (uint8_t)tolower(text->at[j]);
}

/* Words that are taken for others, by the mender's name. */
static const struct {
    const char *name, *words, *others;
} lax[] = {
    {"spaces at a line's end are dropped", " \n", "\n"},
    {"spaces before a name are dropped", "\n ", "\n"},
    {"a tab is a space", "\t", " "},
    {"every CR is dropped", "\r\r", "\r"},
    {"a zero in an algorithm is dropped", "TEA0", "TEA"},
    {"a use in lower case is taken", "send", "SEND"},
    {"any form is taken", "form=3", "form=2"},
    {"zeros of the form are refused", "form=0", "form=x"},
    {"empty lines are passed over", "\n\n", "\n"},
    {"two equals signs are one", "==", "="},
    {"a sign is taken", "=+", "="},
};

/* One byte too many, if it is a space or a zero that could go, is taken out. */
static void shorten(struct text *text)
{
    uint8_t *at = find(text, "  ") != NULL ? find(text, "  ") : find(text, "=00");

    if (at != NULL)
        put(text, at + 1, 1, "");
}

/* The text as a wrong mender sees it. */
static void spoil_text(struct text *text)
{
    int of_form_2 = find(text, "form") != NULL;

    for (size_t i = 0; i < sizeof lax / sizeof lax[0]; i++)
        if (wrong(lax[i].name))
            replace(text, lax[i].words, lax[i].others);
    if (wrong("the earlier of two lines is taken"))
        drop_doubled(text, "\nside=", 1);
    if (wrong("the later of two lines is taken"))
        drop_doubled(text, "\nside=", 0);
    if (wrong("a leading zero of the key is dropped"))
        fit_key(text, "", 49);
    if (wrong("a short key is filled up"))
        fit_key(text, "0", 47);
    if (wrong("a number is cut to 64 bits"))
        cut_number(text);
    if (wrong("names in upper case are taken"))
        lower_names(text);
    if (wrong("a missing mcc is filled in") && of_form_2 && find(text, "mcc") == NULL && find(text, "\nkey") != NULL)
        put(text, find(text, "\nkey"), 0, "\nmcc=0");
    if (wrong("a missing form is guessed") && !of_form_2 && find(text, "mnc") != NULL)
        put(text, text->at, 0, "form=2\n");
    if (wrong("a byte order mark is passed over") && begins(text, "\xef\xbb\xbf"))
        put(text, text->at, 3, "");
    if (wrong("a last LF is added") && text->bytes > 0 && text->at[text->bytes - 1] != '\n')
        text->at[text->bytes++] = '\n';
    if (wrong("4,097 bytes are taken") && text->bytes == CARD_SHEET_BYTES + 1)
        shorten(text);
    if (wrong("4,096 bytes are refused") && text->bytes == CARD_SHEET_BYTES)
        text->bytes = 0;
}

static void list(uint8_t *out, size_t out_bytes, size_t *written, const char *change)
{
    if (*written + strlen(change) <= out_bytes) {
        memcpy(out + *written, change, strlen(change));
        *written += strlen(change);
    }
}

/* The same for what was printed. */
static void spoil_record(struct text *text, uint8_t *out, size_t out_bytes, size_t *written)
{
    uint8_t *changes = memmem(out, *written, "changed=", 8), *key = memmem(out, *written, "key=", 4);

    if (wrong("a change is listed that was not made") && changes == NULL)
        list(out, out_bytes, written, "changed=hex\n");
    if (wrong("a change is not listed") && changes != NULL && changes[8] == 'o')
        *written = (size_t)(changes - out);
    if (wrong("a key's digit is altered") && find(text, "\r\n") != NULL)
        key[51] = key[51] == '0' ? '1' : '0';
    if (wrong("a digit is left in upper case"))
        key[51] = (uint8_t)toupper(key[51]);
    if (wrong("a byte is written behind the record"))
        out[*written] = '\n';
}

static uint8_t spoil_refusal(struct text *text, uint8_t *out, size_t out_bytes, size_t *written, uint8_t refusal)
{
    if (wrong("26 comes before 25") && refusal == CARD_SHEET_NAMES && find(text, "TEA05") != NULL)
        return CARD_SHEET_VALUE;
    if (wrong("17 comes before 25") && refusal == CARD_SHEET_NAMES && out_bytes == 0)
        return CARD_RECORD_ROOM;
    if (wrong("a refused call writes") && out_bytes > 0)
        out[0] = 'r';
    if (wrong("a refused call reports a length"))
        *written = 1;
    return refusal;
}

static uint8_t mended_wrongly(mender *real, const uint8_t *text, size_t bytes, uint8_t *out, size_t out_bytes,
                              size_t *written)
{
    static struct text spoiled;
    uint8_t refusal;

    spoiled.bytes = bytes < sizeof spoiled.at / 2 ? bytes : sizeof spoiled.at / 2;
    memcpy(spoiled.at, text, spoiled.bytes);
    spoil_text(&spoiled);
    if (wrong("a byte more is wanted") && out_bytes > 0)
        out_bytes--;
    refusal = real(spoiled.at, spoiled.bytes, out, out_bytes, written);
    if (refusal != CARD_DONE)
        return spoil_refusal(&spoiled, out, out_bytes, written, refusal);
    spoil_record(&spoiled, out, out_bytes, written);
    return CARD_DONE;
}

uint8_t __wrap_card_mend(const uint8_t *text, size_t bytes, uint8_t *out, size_t out_bytes, size_t *written)
{
    volatile const uint8_t *behind = text + bytes;

    if (wrong("a byte is read behind the text"))
        (void)*behind;
    if (wrong("the text is written to") && bytes > 0)
        ((volatile uint8_t *)text)[0] = text[0];
    return mended_wrongly(__real_card_mend, text, bytes, out, out_bytes, written);
}

uint8_t __wrap_second_mend(const uint8_t *text, size_t bytes, uint8_t *out, size_t out_bytes, size_t *written)
{
    return getenv("BOTH") == NULL ? __real_second_mend(text, bytes, out, out_bytes, written)
                                  : mended_wrongly(__real_second_mend, text, bytes, out, out_bytes, written);
}
