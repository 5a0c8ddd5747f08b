/* A whole PDU in one call: of a DMAC-DATA the address, from bit 10 on, and the DM-SDU, from bit 50 on, are ciphered. */
#include "card.h"
#include "card_wipe.h"
#include <stdio.h>

static struct card_slot table[CARD_SLOTS];
static const uint8_t key[CARD_KEY_BYTES] = {0x90, 0xb4, 0xe1, 0x7c, 0x2d, 0x5f, 0xa8, 0x83, 0x0e, 0x6c, 0x71, 0xd9,
                                            0xf4, 0xa2, 0x5b, 0x38, 0x86, 0xd0, 0xc3, 0x5e, 0x1f, 0x7a, 0xb9, 0x42};
static const uint8_t iv[CARD_IV_BYTES] = {0x5a, 0x01, 0x92, 0x37, 0xe0, 0x44, 0x00, 0xff, 0x6b, 0x1d};
static uint8_t pdu[16] = {0x8c, 0x00, 0x07, 0xd0, 0x15, 0xa9, 0x40, 0x55, 0x6e, 0x69, 0x74, 0x20, 0x37, 0x00, 0x00, 0x00};

static void send(struct card_pdu_parts parts) {
    size_t blocks;
    int answer = card_cipher_pdu(table, CARD_SLOTS, CARD_SEND, 1, iv, sizeof iv, pdu, sizeof pdu, parts, &blocks);

    printf("pdu: %d, blocks %d\n", answer, (int)blocks);
    for (size_t i = 0; i < sizeof pdu; i++) printf("%02x%s", pdu[i], i < sizeof pdu - 1 ? "" : "\n");
}

int main(void) {
    struct card_pdu_parts parts;

    parts.kind = CARD_DMAC_DATA;
    parts.state = CARD_ADDRESS_AND_SDU;
    parts.length_bits = 124;
    parts.address_bit = 10;
    parts.sdu_bit = 50;
    printf("load: %d\n", card_load(table, CARD_SLOTS, 1, 17, CARD_TEA7, CARD_FOR_SENDING, 0, 28, 262, 1001, key));
    send(parts);
    send(parts); /* the same call again brings the PDU back */
    parts.sdu_bit = 33;
    send(parts); /* the address doesn't end before the DM-SDU: no bit changes */
    card_wipe_stack();
    return 0;
}
