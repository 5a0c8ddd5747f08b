/* The card beside the second program, call by call. Usage: hard SEED LISTS */

#include <stdio.h>
#include <stdlib.h>

#include "check.h"
#include "decode.h"
#include "every.h"
#include "report.h"
#include "vast.h"

enum { ANSWERS = 22, CALLS_OF_A_LIST = 40 };

/* How often each answer came, by kind of call. */
static unsigned long tally[KINDS][ANSWERS], lines[11];

/* The answers that card.h lists for each kind; of a listing, what it says. Each must come, or the run has shown too
   little. */
static const char listed[KINDS][ANSWERS] = {
    [LOAD] = {[0] = 1, [16] = 1, [7] = 1, [1] = 1, [21] = 1, [10] = 1, [11] = 1, [20] = 1, [9] = 1},
    [MOVE] = {[0] = 1, [16] = 1, [7] = 1, [8] = 1, [9] = 1, [10] = 1, [14] = 1},
    [CLEAR] = {[0] = 1, [16] = 1, [7] = 1, [8] = 1},
    [READ] = {[0] = 1, [16] = 1, [7] = 1, [8] = 1},
    [TRAFFIC] = {[0] = 1, [16] = 1, [10] = 1, [7] = 1, [8] = 1, [12] = 1, [21] = 1, [3] = 1, [13] = 1, [5] = 1, [4] = 1,
                 [6] = 1},
    [BENCH] = {[0] = 1, [1] = 1, [2] = 1, [3] = 1, [5] = 1, [4] = 1, [6] = 1},
    [RECORD_READ] = {[0] = 1, [15] = 1},
    [RECORD_WRITE] = {[0] = 1, [7] = 1, [1] = 1, [10] = 1, [11] = 1, [20] = 1, [17] = 1},
    [PLAN] = {[0] = 1, [18] = 1, [19] = 1},
    [PDU] = {[0] = 1, [16] = 1, [10] = 1, [7] = 1, [8] = 1, [12] = 1, [21] = 1, [3] = 1, [13] = 1, [5] = 1, [6] = 1,
             [18] = 1, [19] = 1},
    [SLOTLIST] = {[0] = 1, [15] = 1, [21] = 1, [9] = 1, [17] = 1},
    [PLAIN] = {[0] = 1, [1] = 1, [2] = 1, [3] = 1, [5] = 1, [4] = 1, [6] = 1},
};

static void count(const struct call *call, const struct outcome *outcome)
{
    unsigned answer = said(call, outcome);

    if (answer >= ANSWERS || !listed[call->kind][answer])
        report("%s isn't to answer %u", kind_names[call->kind], answer);
    tally[call->kind][answer]++;
    if (call->kind == RECORD_READ)
        lines[outcome->numbers[9]]++;
}

static void run_list(struct source *source)
{
    static struct call call;
    static struct table table;

    decode_table(source, &table);
    for (int i = 0; i < CALLS_OF_A_LIST; i++) {
        decode_call(source, &table, &call);
        count(&call, check_call(&call, &table));
    }
}

/* Prints a kind's answers; returns how many of them never came. */
static int print_kind(int kind)
{
    int missing = 0;

    printf("hard: %s:", kind_names[kind]);
    for (int answer = 0; answer < ANSWERS; answer++)
        if (listed[kind][answer]) {
            printf(" %d: %lu", answer, tally[kind][answer]);
            missing += tally[kind][answer] == 0;
        }
    for (int line = 1; kind == RECORD_READ && line <= 10; line++) {
        printf("%s %lu", line == 1 ? ", by line:" : "", lines[line]);
        missing += lines[line] == 0;
    }
    printf("\n");
    return missing;
}

int main(int count_of_words, char **words)
{
    uint64_t seed, lists, generator;
    struct source source = {.generator = &generator};
    int missing = 0;

    if (count_of_words != 3) {
        fprintf(stderr, "usage: hard SEED LISTS\n");
        return 1;
    }
    generator = seed = strtoull(words[1], NULL, 10);
    lists = strtoull(words[2], NULL, 10);
    report_at_death();
    printf("hard: vast: %lu calls agree\n", vast_run());
    for (uint64_t list = 0; list < lists; list++) {
        report_place("list", list);
        run_list(&source);
    }
    printf("hard: %llu lists of seed %llu agree; answers:\n", (unsigned long long)lists, (unsigned long long)seed);
    for (int kind = 0; kind < KINDS; kind++)
        missing += print_kind(kind);
    if (missing > 0) {
        fprintf(stderr, "hard: %d answers never came\n", missing);
        return 1;
    }
    printf("hard: every: %lu calls one after another agree\n", every_run(seed));
    return 0;
}
