/* The calls of card.h that the tour leaves out, with the record of document 01 and the plan of request [3]. The record's
   key is one of TEA6, which is out of service: it isn't loaded, and one that stands in a table does all but send. */
#include "card.h"
#include <stdio.h>
#include <string.h>

static const char record[] = "form=2\nnumber=3\nversion=17\nalg=TEA6\nuse=SEND\nside=0\nplace=28\nmcc=0\nmnc=0\n"
                             "key=000000000000000000000000000000000000000000000001\n";

static struct card_slot table[CARD_SLOTS]; /* zeros: 32 empty slots */

/* Ciphers 40 bytes with the key of slot 9 and an initial value of zeros. */
static int traffic(uint64_t direction, uint8_t buffer[40], size_t *blocks) {
    const uint8_t iv[CARD_IV_BYTES] = {0};

    return card_traffic(table, CARD_SLOTS, direction, 9, iv, sizeof iv, buffer, 40, 0, 320, 0, blocks);
}

/* A key as a table has it that was stored before TEA6 went out of service. Its side is 1, so that it receives with an
   initial value of zeros. */
static void use_tea6(const uint8_t key[CARD_KEY_BYTES]) {
    uint8_t buffer[40] = {0}, algorithm, usage, side, place;
    uint16_t version, mcc, mnc;
    uint64_t number;
    size_t blocks;

    printf("load: %d\n", card_load(table, CARD_SLOTS, 3, 17, CARD_TEA6, CARD_FOR_BOTH, 1, 28, 0, 0, key));
    table[2].algorithm = CARD_TEA6;
    table[2].usage = CARD_FOR_BOTH;
    table[2].side = 1;
    memcpy(table[2].key, key, CARD_KEY_BYTES);
    printf("read: %d", card_read(table, CARD_SLOTS, 3, &number, &version, &algorithm, &usage, &side, &place, &mcc, &mnc));
    printf(", alg=TEA%d\n", algorithm);
    printf("move: %d\n", card_move(table, CARD_SLOTS, 3, 9, CARD_FOR_BOTH));
    printf("send: %d\n", traffic(CARD_SEND, buffer, &blocks));
    printf("receive: %d", traffic(CARD_RECEIVE, buffer, &blocks));
    printf(", blocks %d\n", (int)blocks);
    for (size_t i = 0; i < sizeof buffer; i++) printf("%02x", buffer[i]);
    printf("\nclear: %d\n", card_clear(table, CARD_SLOTS, 9));
}

int main(void) {
    uint64_t shown[8];
    uint8_t key[CARD_KEY_BYTES], written[CARD_RECORD_BYTES], keystream[40] = {0};
    const uint8_t iv[CARD_IV_BYTES] = {0};
    uint8_t listing[CARD_LISTING_BYTES];
    size_t used, line, column, length, pieces[6], blocks;
    struct card_pdu_parts parts;

    printf("record read: %d\n", card_record_read((const uint8_t *)record, strlen(record), shown, key, &used, &line,
                                                 &column));
    for (int i = 0; i < 8; i++) printf("%d ", (int)shown[i]);
    printf("used %s, line %d, column %d\n", used == strlen(record) ? "all" : "not all", (int)line, (int)column);

    printf("record write: %d\n", card_record_write(shown[0], (uint16_t)shown[1], shown[2], shown[3], shown[4], shown[5],
                                                   shown[6], shown[7], key, written, sizeof written, &length));
    printf("%s\n", length == used && memcmp(written, record, length) == 0 ? "the same" : "another");

    length = card_slotlist((const uint8_t *)record, strlen(record), listing, sizeof listing);
    printf("%.*s", (int)length, (const char *)listing);
    use_tea6(key);

    printf("plan: %d\n", card_plan(CARD_DMAC_DATA, CARD_ADDRESS_AND_SDU, 0, 124, 10, 50, pieces));
    for (int i = 0; i < 6; i++) printf("%d%s", (int)pieces[i], i < 5 ? " " : "\n");

    parts.kind = CARD_DMAC_SYNC_SCH_H;
    parts.state = CARD_AFTER_HEAD;
    parts.length_bits = 124;
    parts.address_bit = parts.sdu_bit = 0;
    printf("plan by its parts: %d\n", card_plan_pdu(parts, 1, pieces));
    for (int i = 0; i < 6; i++) printf("%d%s", (int)pieces[i], i < 5 ? " " : "\n");

    printf("bench: %d", card_bench(CARD_TEA6, key, sizeof key, iv, sizeof iv, keystream, sizeof keystream, 320, &blocks));
    printf(", blocks %d\n", (int)blocks);
    for (size_t i = 0; i < sizeof keystream; i++) printf("%02x", keystream[i]);
    printf("\n");
    return 0;
}
