#include "agree.h"

#include <stdio.h>
#include <stdlib.h>
#include <string.h>

#include "inputs.h"
#include "subjects.h"
#include "traffic.h"

enum { INPUTS = 1000, TRAFFICS = 2 * SHIFTS, SEED = 1 };

/* The second program's output, line by line. */
struct expected {
    FILE *file;
    char *line;
    size_t room;
    int count;
};

/* Traffic of a number below TRAFFICS: all shifts at a long length, then all at a short one. */
static void next_traffic(struct traffic *traffic, uint64_t *generator, int number)
{
    size_t bits = number < SHIFTS ? KEYSTREAM_BITS : BLOCK_BITS;

    traffic_taken(traffic, generator, 5 + (uint64_t)number % 3, bits, number % SHIFTS);
}

void agree_print_inputs(void)
{
    uint64_t generator = SEED;
    struct input input;
    struct traffic traffic;

    for (int i = 0; i < INPUTS; i++) {
        inputs_next(&input, &generator);
        inputs_print_bench(&input);
    }
    for (int i = 0; i < TRAFFICS; i++) {
        next_traffic(&traffic, &generator, i);
        inputs_print_traffic(&traffic.input, traffic.start, traffic.skip);
    }
}

/* The last field of the second program's next line: the buffer in hex, or refused=N; nothing where no line is left. */
static const char *next_answer(struct expected *expected)
{
    char *space;

    expected->count++;
    if (getline(&expected->line, &expected->room, expected->file) < 0)
        return "";
    expected->line[strcspn(expected->line, "\n")] = '\0';
    space = strrchr(expected->line, ' ');
    return space == NULL ? expected->line : space + 1;
}

/* Writes an answer as the second program does. */
static void answer_text(char *text, uint8_t refusal, const struct input *after)
{
    if (refusal != 0)
        sprintf(text, "refused=%d", refusal);
    else
        for (size_t i = 0; i < after->buf_len; i++)
            sprintf(text + 2 * i, "%02x", after->buf[i]);
}

/* Whether refusal, blocks and buffer are right, and the bytes after the buffer, or all of a refused one, are kept. */
static int is_right(const struct input *before, const struct input *after, uint8_t refusal, size_t blocks,
                    size_t needed, const char *answer)
{
    char text[2 * sizeof after->buf + 1];
    size_t kept_from = refusal != 0 ? 0 : before->buf_len;

    answer_text(text, refusal, after);
    return strcmp(text, answer) == 0 && blocks == (refusal != 0 ? 0 : needed) &&
           memcmp(after->buf + kept_from, before->buf + kept_from, sizeof before->buf - kept_from) == 0;
}

static int bench_agrees(const struct subject *subject, const struct input *input, const char *answer)
{
    struct input after = *input;
    size_t blocks = SIZE_MAX;
    uint8_t refusal = inputs_call(subject->call, &after, &blocks);

    return is_right(input, &after, refusal, blocks, (input->bits + BLOCK_BITS - 1) / BLOCK_BITS, answer);
}

static int traffic_agrees(const struct traffic *traffic, const char *answer)
{
    struct traffic after = *traffic;
    size_t blocks = SIZE_MAX, last_bit = traffic->skip + traffic->input.bits - 1;
    uint8_t refusal = traffic_call(&after, &blocks);

    return memcmp(after.table, traffic->table, sizeof after.table) == 0 &&
           is_right(&traffic->input, &after.input, refusal, blocks, last_bit / BLOCK_BITS + 1, answer);
}

static int differs(const char *name, int line)
{
    fprintf(stderr, "bench: %s and the second program differ at line %d of the inputs\n", name, line);
    return 1;
}

static int check_bench(struct expected *expected, uint64_t *generator)
{
    struct input input;

    for (int i = 0; i < INPUTS; i++) {
        const char *answer = next_answer(expected);
        inputs_next(&input, generator);
        for (int s = 0; s < subject_count; s++)
            if (!bench_agrees(&subjects[s], &input, answer))
                return differs(subjects[s].name, expected->count);
    }
    return 0;
}

static int check_traffic(struct expected *expected, uint64_t *generator)
{
    struct traffic traffic;

    for (int i = 0; i < TRAFFICS; i++) {
        const char *answer = next_answer(expected);
        next_traffic(&traffic, generator, i);
        if (!traffic_agrees(&traffic, answer))
            return differs("the card's traffic", expected->count);
    }
    return 0;
}

int agree_check(const char *expected_path)
{
    struct expected expected = {.file = fopen(expected_path, "r")};
    uint64_t generator = SEED;
    int fault;

    if (expected.file == NULL) {
        perror(expected_path);
        return 1;
    }
    fault = check_bench(&expected, &generator) || check_traffic(&expected, &generator);
    free(expected.line);
    fclose(expected.file);
    if (fault == 0)
        printf("%d bench calls agree with the second program on %d inputs, and traffic on %d\n", subject_count, INPUTS,
               TRAFFICS);
    return fault;
}
