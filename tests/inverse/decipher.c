/* Reads lines "KEY BLOCK" and prints each block as the inverse block gives it back. */

#include "../second/mcrypt/lines.h"

#include <stdint.h>

/* The one function of the library of crates/inverse: the block is deciphered in place. */
void inverse_decipher(const uint8_t *key, uint8_t *block);

int main(void)
{
    unsigned char key[KEY_BYTES], block[BLOCK_BYTES];

    while (next_line(key, block)) {
        inverse_decipher(key, block);
        print_block(block);
    }
    return 0;
}
