/* GF(2^8) with the polynomial x^8 + x^4 + x^3 + x + 1, worked out: what the peers' tables are filled from. */

#ifndef FIELD_H
#define FIELD_H

#include <stdint.h>

uint8_t field_product(uint8_t a, uint8_t b);
uint8_t field_s_box(uint8_t byte);

#endif
