/* Makes a call to the card or to the second program, with everything lent from a room of its own. */

#ifndef ANSWER_H
#define ANSWER_H

#include "call.h"

struct face {
    const char *whose;
    __typeof__(card_load) *load;
    __typeof__(card_move) *move;
    __typeof__(card_clear) *clear;
    __typeof__(card_read) *read;
    __typeof__(card_traffic) *traffic;
    __typeof__(card_bench) *bench;
    __typeof__(card_record_read) *record_read;
    __typeof__(card_record_write) *record_write;
    __typeof__(card_plan) *plan;
    __typeof__(card_plain) *plain;
    __typeof__(card_slotlist) *slotlist;
    __typeof__(card_pdu) *pdu;
};

extern const struct face card_face, oracle_face;

void answer(const struct face *face, const struct call *call, const struct table *table, struct outcome *outcome);

#endif
