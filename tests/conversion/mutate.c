/* Half of what the fuzzer changes are whole lines: one is lost, copied to another place, put in another's place, or two change places. */
#include <stddef.h>
#include <stdint.h>
#include <string.h>

enum { MOST_LINES = 128, MOST_BYTES = 4096 };
enum change { LOSE, COPY, REPLACE, SWAP, CHANGES };

struct line {
    const uint8_t *from;
    size_t bytes;
};

size_t LLVMFuzzerMutate(uint8_t *data, size_t bytes, size_t most);
size_t LLVMFuzzerCustomMutator(uint8_t *data, size_t bytes, size_t most, unsigned seed);

static struct line lines[MOST_LINES];

static size_t split(const uint8_t *data, size_t bytes)
{
    const uint8_t *end = data + bytes;
    size_t count = 0;

    while (data < end && count < MOST_LINES) {
        const uint8_t *feed = memchr(data, '\n', (size_t)(end - data));

        lines[count].from = data;
        lines[count].bytes = (size_t)((feed == NULL || count == MOST_LINES - 1 ? end : feed + 1) - data);
        data += lines[count++].bytes;
    }
    return count;
}

/* A line more, if there is one and it fits. */
static void put(uint8_t *to, size_t *length, const struct line *line)
{
    if (line == NULL || *length + line->bytes > MOST_BYTES)
        return;
    memcpy(to + *length, line->from, line->bytes);
    *length += line->bytes;
}

static size_t changed(uint8_t *to, size_t count, enum change change, size_t one, size_t other)
{
    size_t length = 0;

    for (size_t at = 0; at < count; at++) {
        const struct line *here = &lines[at];

        if (change == COPY && at == other)
            put(to, &length, &lines[one]);
        if (at == one && change != COPY)
            here = change == LOSE ? NULL : &lines[other];
        else if (at == other && change == SWAP)
            here = &lines[one];
        put(to, &length, here);
    }
    return length;
}

size_t LLVMFuzzerCustomMutator(uint8_t *data, size_t bytes, size_t most, unsigned seed)
{
    static uint8_t made[MOST_BYTES];
    size_t count = split(data, bytes), length;

    if (seed % 2 == 0 || count == 0)
        return LLVMFuzzerMutate(data, bytes, most);
    length = changed(made, count, (enum change)(seed / 2 % CHANGES), seed / 8 % count, seed / 1024 % count);
    if (length > most)
        return LLVMFuzzerMutate(data, bytes, most);
    memcpy(data, made, length);
    return length;
}
