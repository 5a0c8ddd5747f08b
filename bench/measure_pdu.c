#include <stdio.h>
#include <string.h>

#include "measure.h"
#include "times.h"
#include "traffic.h"

enum { ROUNDS = 401, CALLS = 24, SEED = 4, PDU_BITS = 124 };

/* A PDU whose two pieces use bits of one block: the example of request [3]. */
static const struct card_pdu_parts parts = {CARD_DMAC_DATA, CARD_ADDRESS_AND_SDU, PDU_BITS, 10, 50};
static const size_t pieces[2][3] = {{10, 24, 0}, {50, 74, 41}};

static uint8_t one_pdu(struct traffic *traffic, size_t *blocks)
{
    struct input *input = &traffic->input;

    return card_cipher_pdu(traffic->table, CARD_SLOTS, CARD_RECEIVE, CARD_SLOTS, input->iv, input->iv_len, input->buf,
                           input->buf_len, parts, blocks);
}

static uint8_t one_traffic(struct traffic *traffic, size_t start, size_t length, size_t skip, size_t *blocks)
{
    struct input *input = &traffic->input;

    return card_traffic(traffic->table, CARD_SLOTS, CARD_RECEIVE, CARD_SLOTS, input->iv, input->iv_len, input->buf,
                        input->buf_len, start, length, skip, blocks);
}

static uint8_t two_traffics(struct traffic *traffic, size_t *blocks)
{
    uint8_t first = one_traffic(traffic, pieces[0][0], pieces[0][1], pieces[0][2], blocks);

    return first | one_traffic(traffic, pieces[1][0], pieces[1][1], pieces[1][2], blocks);
}

/* As many bits as the pieces have, in one run and one block. */
static uint8_t one_block(struct traffic *traffic, size_t *blocks)
{
    return one_traffic(traffic, pieces[0][0], pieces[0][1] + pieces[1][1], 0, blocks);
}

enum subject { WHOLE, BY_PIECES, IN_ONE_RUN, SUBJECTS };

static uint8_t (*const subjects_calls[SUBJECTS])(struct traffic *, size_t *) = {one_pdu, two_traffics, one_block};

static const struct {
    const char *name;
    double bar;
} rows[SUBJECTS] = {
    [BY_PIECES] = {"two traffic calls of its pieces", 0.75},
    [IN_ONE_RUN] = {"a traffic call of one block", 1.15},
};

static double times[SUBJECTS][ROUNDS], ratios[SUBJECTS][ROUNDS];

/* Nanoseconds a call. Each has an initial value of its own. */
static double time_of_batch(enum subject subject, struct traffic *traffic)
{
    size_t blocks;
    double start = times_now();

    for (int i = 0; i < CALLS; i++) {
        traffic->input.iv[0] = (uint8_t)i;
        subjects_calls[subject](traffic, &blocks);
    }
    return (times_now() - start) / CALLS;
}

/* Whether the whole is what the pieces give, and reports the one block that they share. */
static int agrees(const struct traffic *traffic)
{
    struct traffic whole = *traffic, by_pieces = *traffic;
    size_t blocks = 0, some;

    return one_pdu(&whole, &blocks) == CARD_DONE && blocks == 1 && two_traffics(&by_pieces, &some) == CARD_DONE &&
           memcmp(whole.input.buf, by_pieces.input.buf, sizeof whole.input.buf) == 0;
}

/* Prints a row; returns 1 if its bar is missed. */
static int report_row(enum subject subject)
{
    double ratio = times_median(ratios[subject], ROUNDS);
    int missed = ratio > rows[subject].bar;

    printf("%6d  a PDU of two pieces in one block: %.0f ns; by %s, %.0f ns: %.2f, at most %.2f  %s\n", PDU_BITS,
           times_median(times[WHOLE], ROUNDS), rows[subject].name, times_median(times[subject], ROUNDS), ratio,
           rows[subject].bar, missed ? "MISSED" : "pass");
    return missed;
}

int measure_pdu(void)
{
    struct traffic traffic;
    uint64_t generator = SEED;

    for (int round = 0; round < ROUNDS; round++) {
        traffic_taken(&traffic, &generator, 5 + (uint64_t)round % 3, PDU_BITS, 0);
        if (!agrees(&traffic)) {
            fprintf(stderr, "bench: a PDU differs from the traffic of its pieces\n");
            return -1;
        }
        for (int i = 0; i < SUBJECTS; i++) {
            enum subject subject = (enum subject)((round + i) % SUBJECTS);
            times[subject][round] = time_of_batch(subject, &traffic);
        }
        for (int s = BY_PIECES; s < SUBJECTS; s++)
            ratios[s][round] = times[WHOLE][round] / times[s][round];
    }
    return report_row(BY_PIECES) + report_row(IN_ONE_RUN);
}
