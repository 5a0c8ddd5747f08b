/* What the card's calls leave of keys on the stack and in registers, before and after card_wipe_stack.
   Usage: hygiene ROUNDS */

#include <stdio.h>
#include <stdlib.h>
#include <string.h>

#include "card_wipe.h"
#include "measure.h"
#include "registers.h"

enum { SEED = 1 };

static struct most bare[KEYED_CALLS], wiped[KEYED_CALLS];

static void print_found(const struct found *found)
{
    printf(" %11zu", found->by_key);
    for (int i = 0; i < SECRETS; i++)
        printf(" %11zu", found->bytes[i]);
    printf("\n");
}

static void print_table(const char *title, const struct most *all)
{
    printf("%s\n%-18s %6s %8s %11s", title, "call", "stack", "not zero", "by key");
    for (int i = 0; i < SECRETS; i++)
        printf(" %11s", secret_names[i]);
    printf("\n");
    for (int i = 0; i < KEYED_CALLS; i++) {
        printf("%-18s %6zu %8zu", keyed_calls[i].name, all[i].stack, all[i].not_zero);
        print_found(&all[i].on_stack);
        printf("%-18s %6s %8s", "  registers", "", "");
        print_found(&all[i].in_registers);
    }
    printf("\n");
}

static size_t sum(const struct found *found)
{
    size_t all = found->by_key;

    for (int i = 0; i < SECRETS; i++)
        all += found->bytes[i];
    return all;
}

static int expect(int holds, const char *name, const char *fault)
{
    if (!holds)
        fprintf(stderr, "hygiene: %s: %s\n", name, fault);
    return !holds;
}

static int within(const struct found *found, const struct found *bar)
{
    for (int i = 0; i < SECRETS; i++)
        if (found->bytes[i] > bar->bytes[i])
            return 0;
    return found->by_key <= bar->by_key;
}

static int judge(int i)
{
    const char *name = keyed_calls[i].name;
    const struct bar *bar = keyed_calls[i].bar;

    return expect(within(&bare[i].on_stack, &bar->on_stack), name, "more is left on the stack than its bar") +
           expect(within(&bare[i].in_registers, &bar->in_registers), name, "more is left in registers than its bar") +
           expect(sum(&wiped[i].on_stack) == 0, name, "the wipe leaves something on the stack") +
           expect(sum(&wiped[i].in_registers) == 0 || !REGISTERS_SEEN, name, "the wipe leaves something in registers");
}

/* Each call by itself: a Rust call's stack has its wipe in it. */
static int judge_stack(int i)
{
    int wipes = strncmp(keyed_calls[i].name, "Rust", 4) == 0;

    return expect(wipes || bare[i].stack <= CARD_WIPE_BYTES / 2, keyed_calls[i].name,
                  "more than half of what is wiped is used");
}

int main(int count_of_words, char **words)
{
    int rounds = count_of_words == 2 ? atoi(words[1]) : 0;
    uint64_t generator = SEED;
    int faults = expect(rounds > 0, "usage", "hygiene ROUNDS");

    for (int round = 0; round < rounds; round++) {
        calls_choose(&generator);
        if (expect(planted_is_found(), "the scan", "what was planted isn't found") ||
            expect(apart_is_seen(), "the other keys", "a key that was planted apart isn't seen"))
            return 1;
        for (int i = 0; i < KEYED_CALLS; i++)
            if (measure_bare(&keyed_calls[i], &bare[i]) || measure_wiped(&keyed_calls[i], &wiped[i]))
                return 1;
    }
    print_table("after the call alone: bytes found", bare);
    print_table("after the call and card_wipe_stack: bytes found", wiped);
    for (int i = 0; i < KEYED_CALLS; i++)
        faults += judge(i) + judge_stack(i);
    faults += expect(sum(&bare[0].on_stack) > 0, keyed_calls[0].name, "nothing is found before the wipe: is it looked for?");
    if (faults == 0)
        printf("hygiene: %d rounds: all that is planted is found, no call leaves more than its bar, and nothing is found after the wipe\n", rounds);
    return faults > 0;
}
