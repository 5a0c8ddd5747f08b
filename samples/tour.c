/* A key for sending only: loaded, moved, refused for receiving, used for sending. */
#include "card.h"
#include "card_wipe.h"
#include <stdio.h>

static struct card_slot table[CARD_SLOTS]; /* zeros: 32 empty slots */
static const uint8_t key[CARD_KEY_BYTES] = {0x90, 0xb4, 0xe1, 0x7c, 0x2d, 0x5f, 0xa8, 0x83, 0x0e, 0x6c, 0x71, 0xd9,
                                            0xf4, 0xa2, 0x5b, 0x38, 0x86, 0xd0, 0xc3, 0x5e, 0x1f, 0x7a, 0xb9, 0x42};
static uint8_t iv[CARD_IV_BYTES] = {0x5a, 0x01, 0x92, 0x37, 0xe0, 0x44, 0x00, 0xff, 0x6b, 0x1d};
static uint8_t text[] = "Unit 7 to base";

/* Ciphers the whole text with the key of slot 9. */
static int traffic(uint64_t direction) {
    size_t bytes = sizeof text - 1, blocks;
    return card_traffic(table, CARD_SLOTS, direction, 9, iv, sizeof iv, text, bytes, 0, 8 * bytes, 0, &blocks);
}

int main(void) {
    uint64_t number;
    uint16_t version, mcc, mnc;
    uint8_t algorithm, usage, side, place;

    printf("load: %d\n", card_load(table, CARD_SLOTS, 3, 17, CARD_TEA7, CARD_FOR_SENDING, 0, 28, 262, 1001, key));
    printf("move: %d\n", card_move(table, CARD_SLOTS, 3, 9, CARD_KEEP));
    printf("move for both: %d\n", card_move(table, CARD_SLOTS, 9, 3, CARD_FOR_BOTH));
    printf("read: %d\n",
           card_read(table, CARD_SLOTS, 9, &number, &version, &algorithm, &usage, &side, &place, &mcc, &mnc));
    printf("number=%d version=%d alg=TEA%d use=%d side=%d place=%d", (int)number, version, algorithm, usage, side, place);
    printf(" mcc=%d mnc=%d\n", mcc, mnc);
    iv[3] ^= 0x08; /* bit 28, the slot's place: now 1, the other side's */
    printf("receive: %d\n", traffic(CARD_RECEIVE));
    iv[3] ^= 0x08; /* 0 again, the slot's own side */
    printf("send: %d\n", traffic(CARD_SEND));
    for (size_t i = 0; i < sizeof text - 1; i++) printf("%02x", text[i]);
    printf("\nsend again: %d\n", traffic(CARD_SEND));
    printf("%s\n", (const char *)text);
    number = card_clear(table, CARD_SLOTS, 9);
    card_wipe_stack(); /* load and traffic left copies of the key below main, on the stack and in registers */
    return (int)number;
}
