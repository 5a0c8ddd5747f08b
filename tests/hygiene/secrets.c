#include "secrets.h"

#include <stdlib.h>
#include <string.h>

enum { WINDOW = 8, MOST_WINDOWS = 8192, MOST_SECRET = 2048 };

const char *const secret_names[SECRETS] = {"key",        "other keys", "key as text", "mode key",
                                           "mode value", "schedule",   "keystream"};

/* Eight bytes to look for, and which bytes of which secret they are: from `place` on, `step` apart. */
struct window {
    uint8_t bytes[WINDOW];
    enum secret secret;
    size_t place, step;
};

static struct window windows[MOST_WINDOWS];
static size_t window_count, lengths[SECRETS];

void secrets_begin(void)
{
    window_count = 0;
    memset(lengths, 0, sizeof lengths);
}

static void add_window(enum secret secret, const uint8_t *bytes, size_t place, size_t step)
{
    struct window *window = &windows[window_count++];

    if (window_count > MOST_WINDOWS || place + WINDOW > MOST_SECRET)
        abort();
    for (size_t i = 0; i < WINDOW; i++)
        window->bytes[i] = bytes[i * step];
    window->secret = secret;
    window->place = place;
    window->step = step;
}

static void add_from(enum secret secret, const uint8_t *bytes, size_t count, size_t place)
{
    for (size_t i = 0; i + WINDOW <= count; i++)
        add_window(secret, bytes + i, place + i, 1);
}

void secrets_add(enum secret secret, const uint8_t *bytes, size_t count)
{
    add_from(secret, bytes, count, lengths[secret]);
    lengths[secret] += count;
}

static void add_rows(enum secret secret, const uint8_t *blocks, size_t count, size_t place)
{
    for (size_t block = 0; block + 32 <= count; block += 32)
        for (size_t row = 0; row < 4; row++)
            add_window(secret, blocks + block + row, place + block + row, 4);
}

void secrets_add_blocks(enum secret secret, const uint8_t *blocks, size_t count)
{
    add_rows(secret, blocks, count, lengths[secret]);
    secrets_add(secret, blocks, count);
}

void secrets_add_words(enum secret secret, const uint8_t *words, size_t count)
{
    uint8_t turned[MOST_SECRET];

    for (size_t i = 0; i < count; i++)
        turned[i] = words[i / 4 * 4 + 3 - i % 4];
    add_from(secret, turned, count, lengths[secret]);
    secrets_add(secret, words, count);
}

static int by_bytes(const void *left, const void *right)
{
    return memcmp(((const struct window *)left)->bytes, ((const struct window *)right)->bytes, WINDOW);
}

void secrets_ready(void)
{
    qsort(windows, window_count, sizeof windows[0], by_bytes);
}

const uint8_t *secrets_sample(enum secret secret)
{
    size_t i = 0;

    while (windows[i].secret != secret)
        i++;
    return windows[i].bytes;
}

/* Bytes of a secret that were found, by secret and place. */
static uint8_t marks[SECRETS][MOST_SECRET];

static void mark(const struct window *window)
{
    for (size_t i = 0; i < WINDOW; i++)
        marks[window->secret][window->place + i * window->step] = 1;
}

void secrets_look(const uint8_t *bytes, size_t count, size_t part)
{
    struct window looked;
    const struct window *hit;

    for (size_t i = 0; i + WINDOW <= count; i++) {
        if (i % part + WINDOW > part)
            continue;
        memcpy(looked.bytes, bytes + i, WINDOW);
        hit = bsearch(&looked, windows, window_count, sizeof windows[0], by_bytes);
        if (hit != NULL)
            mark(hit);
    }
}

struct found secrets_found(void)
{
    struct found found = {{0}, 0};

    for (int secret = 0; secret < SECRETS; secret++)
        for (size_t i = 0; i < MOST_SECRET; i++)
            found.bytes[secret] += marks[secret][i];
    memset(marks, 0, sizeof marks);
    return found;
}
