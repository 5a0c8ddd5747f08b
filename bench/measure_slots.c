#include <stdio.h>
#include <string.h>

#include "card.h"
#include "measure.h"
#include "times.h"

/* As many tables as a batch has calls: each call meets a table as the one before it left another. */
enum { ROUNDS = 601, TABLES = 32, FROM = 31, TO = 32, PLACE = 28 };

static struct card_slot tables[TABLES][CARD_SLOTS];
static const uint8_t key[CARD_KEY_BYTES] = {1};

static uint8_t load(struct card_slot *table)
{
    return card_load(table, CARD_SLOTS, FROM, 1, CARD_TEA5, CARD_FOR_BOTH, 0, PLACE, 0, 0, key);
}

static uint8_t read(struct card_slot *table)
{
    uint64_t found;
    uint16_t version, mcc, mnc;
    uint8_t algorithm, usage, side, place;

    return card_read(table, CARD_SLOTS, FROM, &found, &version, &algorithm, &usage, &side, &place, &mcc, &mnc);
}

static uint8_t move(struct card_slot *table)
{
    return card_move(table, CARD_SLOTS, FROM, TO, CARD_FOR_BOTH);
}

static uint8_t clear(struct card_slot *table)
{
    return card_clear(table, CARD_SLOTS, TO);
}

/* Of a slot that there isn't. */
static uint8_t refused(struct card_slot *table)
{
    return card_clear(table, CARD_SLOTS, 0) == CARD_SLOT_NUMBER ? CARD_DONE : CARD_SLOT_NUMBER;
}

/* In this order: they leave a table as it was before the first. */
static const struct slot_call {
    const char *name;
    uint8_t (*make)(struct card_slot *table);
} slot_calls[] = {{"load", load}, {"read", read}, {"move", move}, {"clear", clear}, {"refused", refused}};

enum { CALLS = sizeof slot_calls / sizeof slot_calls[0] };

/* Thirty slots are filled, and the last two empty. */
static void fill_tables(void)
{
    memset(tables, 0, sizeof tables);
    for (int t = 0; t < TABLES; t++)
        for (uint64_t number = 1; number < FROM; number++)
            card_load(tables[t], CARD_SLOTS, number, 1, CARD_TEA5, CARD_FOR_BOTH, 0, PLACE, 0, 0, key);
}

/* Nanoseconds a call; below 0 where one isn't done. */
static double time_of_batch(const struct slot_call *call)
{
    unsigned answers = 0;
    double start = times_now();

    for (int t = 0; t < TABLES; t++)
        answers |= call->make(tables[t]);
    return answers == CARD_DONE ? (times_now() - start) / TABLES : -1;
}

int measure_slots(void)
{
    static double times[CALLS][ROUNDS];

    fill_tables();
    for (int round = 0; round < ROUNDS; round++)
        for (int c = 0; c < CALLS; c++) {
            times[c][round] = time_of_batch(&slot_calls[c]);
            if (times[c][round] < 0)
                return 1;
        }
    printf("%-7s %6s   half lie within, on a table of thirty filled slots\n", "call", "ns");
    for (int c = 0; c < CALLS; c++) {
        double median = times_median(times[c], ROUNDS);
        printf("%-7s %6.0f   %4.0f to %-4.0f\n", slot_calls[c].name, median, times[c][ROUNDS / 4], times[c][3 * ROUNDS / 4]);
    }
    return 0;
}
