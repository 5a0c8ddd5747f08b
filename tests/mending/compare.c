#define _GNU_SOURCE
#include "compare.h"

#include <sanitizer/common_interface_defs.h>
#include <stdarg.h>
#include <stdio.h>
#include <stdlib.h>
#include <string.h>

#include "report.h"
#include "room.h"

enum { FILLED = 0x5a, MORE = 2 * CARD_MENDED_BYTES };

static const uint8_t *present_text;
static size_t present_bytes;
static const char *present_what = "text";
static uint64_t present_number;

void compare_place(const char *what, uint64_t number)
{
    present_what = what;
    present_number = number;
}

static void print_text(const uint8_t *text, size_t bytes)
{
    for (size_t i = 0; i < bytes; i++)
        fprintf(stderr, text[i] == '\n' || (text[i] >= ' ' && text[i] <= '~') ? "%c" : "\\x%02x", text[i]);
    fputc('\n', stderr);
}

static void print_present(void)
{
    fprintf(stderr, "mending: in %s %llu, of %zu bytes:\n", present_what, (unsigned long long)present_number,
            present_bytes);
    print_text(present_text, present_bytes);
}

/* As tests/hard/room.c calls it. */
void report(const char *format, ...)
{
    va_list arguments;

    fprintf(stderr, "mending: fault: ");
    va_start(arguments, format);
    vfprintf(stderr, format, arguments);
    va_end(arguments);
    fputc('\n', stderr);
    print_present();
    abort();
}

void report_at_death(void)
{
    __sanitizer_set_death_callback(print_present);
}

/* The call with so many bytes to write to: the answer, and all of these bytes. */
static void call(const uint8_t *text, size_t bytes, size_t out_bytes, struct answer *answer)
{
    static uint8_t filled[MORE];
    const uint8_t *lent;
    uint8_t *out;
    size_t *written;

    memset(filled, FILLED, sizeof filled);
    memset(answer->out, FILLED, sizeof answer->out);
    lent = room_lend_to_read(TEXT_ROOM, text, bytes);
    out = room_lend(BUFFER_ROOM, filled, out_bytes);
    written = room_lend_unset(FIRST_NUMBER_ROOM, sizeof *written);
    answer->refusal = card_mend(lent, bytes, out, out_bytes, written);
    room_take(TEXT_ROOM, NULL);
    room_take(BUFFER_ROOM, answer->out);
    room_take(FIRST_NUMBER_ROOM, &answer->written);
}

static void print_answer(const char *whose, const struct answer *answer)
{
    fprintf(stderr, "%s answers %u, and leaves %zu bytes:\n", whose, answer->refusal, answer->written);
    print_text(answer->out, answer->written < sizeof answer->out ? answer->written : sizeof answer->out);
}

/* What is answered is this, and every byte that isn't written is as it was. */
static void same(const char *room, const struct answer *given, const struct answer *wanted)
{
    if (given->refusal == wanted->refusal && given->written == wanted->written &&
        memcmp(given->out, wanted->out, sizeof given->out) == 0)
        return;
    print_answer("card_mend", given);
    print_answer("the second program", wanted);
    report("card_mend and second program differ, %s", room);
}

static void nothing(struct answer *answer, uint8_t refusal)
{
    answer->refusal = refusal;
    answer->written = 0;
    memset(answer->out, FILLED, sizeof answer->out);
}

/* The record that was printed is mended to itself, and nothing is listed. */
static void again(const struct answer *mended)
{
    static struct answer given;
    const uint8_t *changes = memmem(mended->out, mended->written, "changed=", 8);
    size_t bytes = changes != NULL ? (size_t)(changes - mended->out) : mended->written;

    call(mended->out, bytes, CARD_MENDED_BYTES, &given);
    if (given.refusal != CARD_DONE || given.written != bytes || memcmp(given.out, mended->out, bytes) != 0)
        report("the record that was mended is changed again");
}

const struct answer *compare_text(const uint8_t *text, size_t bytes)
{
    static struct answer given, wanted, none;
    size_t needed;

    present_text = text;
    present_bytes = bytes;
    nothing(&wanted, 0);
    wanted.refusal = second_mend(text, bytes, wanted.out, MORE, &wanted.written);
    needed = wanted.written; /* 0 of a refused text, which writes to no buffer */
    room_side(FRONT);
    call(text, bytes, MORE, &given);
    same("with more than enough room", &given, &wanted);
    room_side(BACK);
    call(text, bytes, needed, &given);
    same("with just enough room", &given, &wanted);
    room_side(BETWEEN);
    call(text, bytes, CARD_MENDED_BYTES, &given);
    same("between guards", &given, &wanted);
    if (wanted.refusal != CARD_DONE)
        return &wanted;
    nothing(&none, CARD_RECORD_ROOM);
    call(text, bytes, needed - 1, &given);
    same("with a byte too few", &given, &none);
    call(text, bytes, 0, &given);
    same("without room", &given, &none);
    again(&wanted);
    return &wanted;
}
