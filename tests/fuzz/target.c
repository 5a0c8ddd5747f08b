/* libFuzzer's target: an input is a list of calls on a table, as tests/hard decodes it. */

#include "check.h"
#include "decode.h"
#include "report.h"

/* What libFuzzer counts beside the code that it sees, since the card's own code isn't instrumented: each kind of call
   with each answer and line, the length of a listing, the shifts of a span, a PDU's kind, state
   and flag, and the blocks. */
static struct {
    uint8_t answers[KINDS][22][11];
    uint8_t shifts[2][8][8];
    uint8_t blocks[4][34];
    uint8_t pdus[4][4][2];
    uint8_t listings[64];
} counters __attribute__((section("__libfuzzer_extra_counters")));

int LLVMFuzzerTestOneInput(const uint8_t *bytes, size_t size);

/* Which row of `blocks` a kind of call has, or none. */
static int row_of(enum kind kind)
{
    switch (kind) {
    case TRAFFIC: return 0;
    case BENCH: return 1;
    case PLAIN: return 2;
    case PDU: return 3;
    default: return -1;
    }
}

static void count(const struct call *call, const struct outcome *outcome)
{
    uint64_t line = call->kind == RECORD_READ ? outcome->numbers[9] : 0;

    counters.answers[call->kind][said(call, outcome) % 22][line % 11]++;
    if (call->kind == SLOTLIST)
        counters.listings[outcome->numbers[0] / 32 % 64]++;
    if (outcome->answer != CARD_DONE || row_of(call->kind) < 0)
        return;
    counters.blocks[row_of(call->kind)][outcome->numbers[0] % 34]++;
    if (call->kind == TRAFFIC) {
        counters.shifts[0][call->start % 8][call->skip % 8]++;
        counters.shifts[1][call->start % 8][call->length % 8]++;
    }
    if (call->kind == PDU)
        counters.pdus[call->pdu_kind % 4][call->state % 4][call->buffer.count > 1 && bit_at(&call->buffer, 11)]++;
}

int LLVMFuzzerTestOneInput(const uint8_t *bytes, size_t size)
{
    static struct call call;
    static struct table table;
    struct source source = {bytes, size, NULL};

    report_place("an input of bytes", size);
    decode_table(&source, &table);
    while (decode_call(&source, &table, &call))
        count(&call, check_call(&call, &table));
    return 0;
}
