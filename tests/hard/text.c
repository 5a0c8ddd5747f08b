#include "text.h"

#include <ctype.h>
#include <stdarg.h>
#include <stdio.h>
#include <string.h>

#include "choose.h"

struct word {
    size_t count;
    const char *at;
};

#define WORD(text) {sizeof(text) - 1, text}
#define PICK(source, all) all[source_below(source, sizeof all / sizeof all[0])]

/* A line in the parts that damage strikes. */
struct line {
    char name[16], value[64];
    struct word equals, end;
};

enum { MOST_RECORDS = 40, MOST_LINES = 10 * MOST_RECORDS + 4 };

static struct line lines[MOST_LINES];
static size_t line_count;

static void add_line(const char *name, const char *format, ...) __attribute__((format(printf, 2, 3)));

static void add_line(const char *name, const char *format, ...)
{
    struct line *line = &lines[line_count++];
    va_list values;

    strcpy(line->name, name);
    line->equals = (struct word)WORD("=");
    line->end = (struct word)WORD("\n");
    va_start(values, format);
    vsnprintf(line->value, sizeof line->value, format, values);
    va_end(values);
}

/* A record; where its key is to be loaded, with an algorithm that is in service. */
static void add_record(struct source *source, uint64_t number, int in_service)
{
    static const char *const uses[] = {"SEND", "RECV", "BOTH"};
    static struct bytes key;
    char digits[2 * CARD_KEY_BYTES + 1];
    int two = source_byte(source) % 4 != 1;

    if (two)
        add_line("form", "2");
    add_line("number", "%d", (int)number);
    add_line("version", "%d", choose_version(source));
    add_line("alg", "TEA%d", in_service ? 5 + source_byte(source) % 2 * 2 : 5 + source_byte(source) % 3);
    add_line("use", "%s", PICK(source, uses));
    add_line("side", "%d", source_byte(source) % 2);
    add_line("place", "%d", source_byte(source) % 80);
    if (two) {
        add_line("mcc", "%d", (int)source_below(source, 1024));
        add_line("mnc", "%d", (int)source_below(source, 16384));
    }
    choose_bytes(source, &key, CARD_KEY_BYTES);
    for (int i = 0; i < CARD_KEY_BYTES; i++) {
        digits[2 * i] = "0123456789abcdef"[key.at[i] / 16];
        digits[2 * i + 1] = "0123456789abcdef"[key.at[i] % 16];
    }
    digits[2 * CARD_KEY_BYTES] = 0;
    add_line("key", "%s", digits);
}

/* Values just in range and just out of it, ones that a narrower number would cut to good ones, and ones that people take for
   good; then values of other lines. */
static const struct {
    const char *name, *values;
} other_values[] = {
    {"number", "1 32 0 33 00 01 -1 +1 40 99 100 257 321 65537 4294967297 18446744073709551617 1.0 0x1 1e0 one"},
    {"version", "0 9 10 65535 65536 65540 65599 65600 66000 70000 99999 100000 655350 00 007 -0 4294967296 "
                "18446744073709551616 36893488147419103232 1,000 ffff"},
    {"alg", "TEA4 TEA8 TEA1 TEA TEA55 TEA05 tea5 Tea6 TEB5 5"},
    {"use", "send Send SENT SEN SENDS RECEIVE REC RECD BOTHS BOT SECV REND BOND NONE 1"},
    {"side", "0 1 2 9 00 01 10 11 -1 256 A"},
    {"place", "0 7 8 9 79 80 81 89 90 99 100 790 00 07 079 -1 256 335 4294967296 18446744073709551616"},
    {"form", "1 2 3 02 22 0 two"},
    {"mcc", "0 9 10 1023 1024 1025 1030 1100 2000 9999 10230 00 07 -1 65536 4294967296 18446744073709551616"},
    {"mnc", "0 9 10 16383 16384 16390 16400 17000 20000 99999 163830 00 07 -1 65536 4294967296 18446744073709551616"},
    {"", "0 00 01 1 2 3 7 32 33 79 80 100 65535 65536 655350 99999999999999999999 -1 +1 1.0 0x10 TEA4 TEA5 TEA8 TEA77 "
         "tea6 SENDS send RECV BOT"},
};

/* One of the words of a list, or none. */
static void pick_value(struct source *source, const char *values, char *value)
{
    size_t spaces = 0, skipped;

    for (const char *at = values; *at != 0; at++)
        spaces += *at == ' ';
    for (skipped = source_below(source, spaces + 2); skipped > 0 && values != NULL; skipped--) {
        values = strchr(values, ' ');
        values = values != NULL ? values + 1 : NULL;
    }
    sprintf(value, "%.*s", values != NULL ? (int)strcspn(values, " ") : 0, values != NULL ? values : "");
}

/* A digit less, or more, or another sign in the place of one. */
static void other_digits(struct source *source, char *value)
{
    static const char signs[] = "09afgGF/:`@ ";
    size_t count = strlen(value), place = source_below(source, count + 1);
    size_t after = place + (place < count && source_byte(source) % 2);
    char sign = signs[source_below(source, sizeof signs)], rest[64];

    strcpy(rest, value + after);
    if (count < 63 && sign != 0)
        value[place++] = sign;
    strcpy(value + place, rest);
}

static void other_value(struct source *source, struct line *line)
{
    size_t i = 0, last = sizeof other_values / sizeof other_values[0] - 1;

    if (strcmp(line->name, "key") == 0) {
        other_digits(source, line->value);
        return;
    }
    while (i < last && strcmp(line->name, other_values[i].name) != 0)
        i++;
    pick_value(source, other_values[i].values, line->value);
}

static void other_case(char *text)
{
    for (; *text != 0; text++)
        *text = (char)(islower((unsigned char)*text) ? toupper(*text) : tolower(*text));
}

static void put_before(char *text, size_t room, const char *what)
{
    char after[64];

    strcpy(after, text);
    snprintf(text, room, "%s%s", what, after);
}

static void damage_line(struct source *source, struct line *line)
{
    static const char *const names[] = {"number", "version", "alg", "use",  "side", "place", "key",  "form", "mcc",  "mnc",
                                        "Number", "KEY",     "",    " key", "no",   "usage", "keys", "algorithm"};
    static const struct word equals[] = {WORD(" ="), WORD("= "), WORD(" = "), WORD("\t="), WORD("=\t"), WORD("  =  "),
                                         WORD(""),   WORD("=="), WORD(":"),   WORD("=+"),  WORD("=-")};
    static const struct word ends[] = {WORD("\r\n"), WORD("\r"),   WORD("\n\r"), WORD("\n\n"),
                                       WORD(" \n"),  WORD("\t\n"), WORD(""),     WORD("\0\n")};
    static const char *const zeros[] = {"0", "00", "000"}, *const spaces[] = {" ", "\t"};

    switch (source_byte(source) % 16) {
    case 0: strcpy(line->name, PICK(source, names)); break;
    case 1: put_before(line->name, sizeof line->name, PICK(source, spaces)); break;
    case 2:
    case 3: line->equals = PICK(source, equals); break;
    case 4:
    case 5: put_before(line->value, sizeof line->value, PICK(source, zeros)); break;
    case 6: other_case(line->value + source_below(source, strlen(line->value) + 1)); break;
    case 7:
        other_case(line->name);
        other_case(line->value);
        break;
    case 8: sprintf(line->value, "%llu", (unsigned long long)choose_mostly(source, 0, 79)); break;
    case 9: pick_value(source, other_values[9].values, line->value); break;
    case 10:
    case 11: line->end = PICK(source, ends); break;
    default: other_value(source, line);
    }
}

static void remove_line(size_t place)
{
    line_count--;
    memmove(lines + place, lines + place + 1, (line_count - place) * sizeof lines[0]);
}

static void insert_line(size_t place, struct line line)
{
    memmove(lines + place + 1, lines + place, (line_count - place) * sizeof lines[0]);
    lines[place] = line;
    line_count++;
}

static void swap_lines(size_t a, size_t b)
{
    struct line kept = lines[a];

    lines[a] = lines[b];
    lines[b] = kept;
}

/* Damages one line, all of them, or their order. */
static void damage_lines(struct source *source)
{
    static const struct line empty = {.equals = WORD(""), .end = WORD("\n")};
    size_t place = source_below(source, line_count), other = source_below(source, line_count);
    uint8_t way = source_byte(source) % 16;

    for (size_t i = 0; i < line_count; i++)
        if (way == 0)
            damage_line(source, &lines[i]);
        else if (way == 1)
            lines[i].end = (struct word)WORD("\r\n");
        else if (way == 2)
            other_case(lines[i].name);
        else if (way == 3 && i > 0)
            swap_lines(i - 1, i); /* the first line goes to the end */
    switch (way) {
    case 0:
    case 1:
    case 2:
    case 3: break;
    case 4: swap_lines(place, other); break;
    case 5: swap_lines(place, (place + 1) % line_count); break;
    case 6: insert_line(other, lines[place]); break;
    case 7: insert_line(place, lines[place]); break;
    case 8: insert_line(place, empty); break;
    case 9: remove_line(place); break;
    default: damage_line(source, &lines[place]);
    }
}

static void join_lines(struct bytes *text)
{
    text->count = 0;
    for (size_t i = 0; i < line_count; i++) {
        const struct line *line = &lines[i];
        struct word parts[] = {{strlen(line->name), line->name}, line->equals, {strlen(line->value), line->value}, line->end};

        for (size_t j = 0; j < 4; j++) {
            memcpy(text->at + text->count, parts[j].at, parts[j].count);
            text->count += parts[j].count;
        }
    }
}

/* Replaces so many bytes at a place by others. */
static void replace(struct bytes *text, size_t place, size_t lost, const char *by, size_t count)
{
    size_t after = text->count - place;

    lost = lost < after ? lost : after;
    memmove(text->at + place + count, text->at + place + lost, after - lost);
    memcpy(text->at + place, by, count);
    text->count += count - lost;
}

static void damage_bytes(struct source *source, struct bytes *text)
{
    static const char unlikely[] = {0,   1,   '\t', '\n', 0x0b, '\r',   0x1a,   ' ',
                                    '"', ',', '=',  '0',  0x7f, '\x80', '\xa0', '\xff'};
    uint8_t way = source_byte(source) % 16;
    size_t place = text->count == 0 ? 0 : source_below(source, text->count);
    char byte = (char)source_byte(source);

    if (way % 2 == 1)
        byte = PICK(source, unlikely);
    switch (way / 2) {
    case 0: replace(text, place, 1, &byte, 1); break;
    case 1: replace(text, place, 1, "", 0); break;
    case 2: replace(text, place, 0, &byte, 1); break;
    case 3: text->count = way % 2 == 1 || text->count == 0 ? place : text->count - 1; break;
    case 4: replace(text, place, 0, way % 2 == 1 ? "0" : "\r\n", way % 2 == 1 ? 1 : 2); break;
    case 5: replace(text, place, source_byte(source), "\n", 1); break;
    case 6: replace(text, 0, 0, "\xef\xbb\xbf", 3); break;
    default: replace(text, text->count, 0, &byte, 1);
    }
}

/* Damages what the lines hold, and joins them to a text. */
static void damaged_text(struct source *source, struct bytes *text)
{
    static const uint64_t damages[] = {0, 0, 1, 1, 1, 1, 2, 3};

    for (uint64_t left = PICK(source, damages); left > 0 && line_count > 0; left--)
        damage_lines(source);
    join_lines(text);
    if (source_byte(source) % 4 == 1)
        damage_bytes(source, text);
}

/* Bytes of the source itself, where it wants that. */
static int raw_text(struct source *source, struct bytes *text)
{
    if (source_byte(source) % 64 != 1)
        return 0;
    text->count = source_byte(source);
    for (size_t i = 0; i < text->count; i++)
        text->at[i] = source_byte(source);
    return 1;
}

static void add_what_follows(struct source *source, struct bytes *text)
{
    static const struct word words[] = {WORD("\n"), WORD("\r\n"), WORD(" "), WORD("\0"), WORD("0"), WORD("#")};
    static struct bytes follows;
    const struct word *word;

    follows.count = 0;
    switch (source_byte(source) % 8) {
    case 1:
        line_count = 0;
        add_record(source, 1 + source_byte(source) % 32, 0);
        join_lines(&follows);
        break;
    case 2:
        word = &PICK(source, words);
        replace(text, text->count, 0, word->at, word->count);
        break;
    case 3: choose_bytes(source, &follows, source_below(source, 300));
    }
    replace(text, text->count, 0, (const char *)follows.at, follows.count);
}

void text_record(struct source *source, struct bytes *text)
{
    if (raw_text(source, text))
        return;
    line_count = 0;
    add_record(source, 1 + source_byte(source) % 32, 0);
    damaged_text(source, text);
    add_what_follows(source, text);
}

/* The numbers of the slots in any order, and now and then one of them twice. */
static void sheet_numbers(struct source *source, uint64_t numbers[CARD_SLOTS])
{
    for (uint64_t i = 0; i < CARD_SLOTS; i++) {
        uint64_t other = source_below(source, i + 1);

        numbers[i] = numbers[other];
        numbers[other] = i + 1;
    }
    if (source_byte(source) % 8 == 1)
        numbers[0] = numbers[1 + source_byte(source) % 4];
}

/* The records come from a generator of their own, whose seed the source gives. */
void text_sheet(struct source *source, struct bytes *text)
{
    uint64_t seed, numbers[CARD_SLOTS] = {0};
    struct source records = {.generator = &seed};
    uint8_t way;
    size_t count;

    if (raw_text(source, text))
        return;
    way = source_byte(source) % 8;
    count = source_below(source, way == 1 ? MOST_RECORDS + 1 : way < 4 ? 12 : 4);
    seed = source_number(source, 2);
    sheet_numbers(&records, numbers);
    line_count = 0;
    for (size_t i = 0; i < count; i++)
        add_record(&records, numbers[i % CARD_SLOTS], way % 4 != 2);
    damaged_text(source, text);
}
