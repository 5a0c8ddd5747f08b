#include "field.h"

static uint8_t twice(uint8_t a)
{
    return (uint8_t)((a << 1) ^ ((a >> 7) * 0x1b));
}

uint8_t field_product(uint8_t a, uint8_t b)
{
    uint8_t sum = 0;

    for (; b != 0; b >>= 1, a = twice(a))
        if (b & 1)
            sum ^= a;
    return sum;
}

/* The inverse, which is the 254th power; 0 has 0. */
static uint8_t inverse(uint8_t a)
{
    uint8_t power = a;

    for (int i = 1; i < 254; i++)
        power = field_product(power, a);
    return power;
}

static uint8_t rotated_left(uint8_t a, int count)
{
    return (uint8_t)((a << count) | (a >> (8 - count)));
}

uint8_t field_s_box(uint8_t byte)
{
    uint8_t a = inverse(byte);

    return a ^ rotated_left(a, 1) ^ rotated_left(a, 2) ^ rotated_left(a, 3) ^ rotated_left(a, 4) ^ 0x63;
}
