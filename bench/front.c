#include "front.h"

#include <string.h>

#include "calls.h"
#include "combining.h"
#include "field.h"

enum { MIXED_BYTES = 44, FIRST_MIXED_BYTE = MIXED_BYTES - KEY_BYTES };

static uint8_t times_d7[256];

void front_prepare(void)
{
    for (int byte = 0; byte < 256; byte++)
        times_d7[byte] = field_product((uint8_t)byte, 0xd7);
}

uint8_t front_refusal(uint64_t algorithm, size_t key_len, size_t iv_len, size_t buf_len, size_t n)
{
    if (algorithm < 5 || algorithm > 7)
        return 1;
    if (key_len != KEY_BYTES)
        return 2;
    if (iv_len != IV_BYTES)
        return 3;
    if (buf_len > BUFFER_BYTES)
        return 5;
    if (n == 0 || n > KEYSTREAM_BITS)
        return 4;
    if (n > 8 * buf_len)
        return 6;
    return 0;
}

static void mix(uint8_t mixed[MIXED_BYTES], const uint8_t *iv)
{
    memcpy(mixed, iv, IV_BYTES);
    for (int i = IV_BYTES; i < MIXED_BYTES; i++)
        mixed[i] = mixed[i - 10] ^ mixed[i - 9] ^ times_d7[mixed[i - 1]];
}

void front_mode(struct mode *mode, uint64_t algorithm, const uint8_t *key, const uint8_t *iv)
{
    const uint8_t *f = combining[algorithm - 5];
    uint8_t mixed[MIXED_BYTES];

    mix(mixed, iv);
    for (int i = 0; i < KEY_BYTES; i++) {
        uint8_t other = mixed[FIRST_MIXED_BYTE + i];
        uint8_t high = f[(key[i] & 0xf0) | (other >> 4)];
        uint8_t low = f[((key[i] & 0x0f) << 4) | (other & 0x0f)];
        mode->key[i] = (uint8_t)((high & 0xf0) | (low >> 4));
        mode->value[i] = (uint8_t)((high << 4) | (low & 0x0f));
    }
}

void front_write_bits(uint8_t *buf, const uint8_t *bits, size_t n)
{
    size_t whole = n / 8;

    memcpy(buf, bits, whole);
    if (n % 8 != 0) {
        uint8_t kept = (uint8_t)(0xff >> (n % 8));
        buf[whole] = (uint8_t)((buf[whole] & kept) | (bits[whole] & ~kept));
    }
}
