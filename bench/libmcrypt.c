/* The bench call over libmcrypt's rijndael-256 in mode ecb. Each call sets the key up, has libmcrypt encrypt all
   its counter blocks at once, and gives the key back, as libmcrypt asks before another key is set. */

#include <mcrypt.h>
#include <stdio.h>
#include <stdlib.h>
#include <string.h>

#include "calls.h"
#include "front.h"

static MCRYPT cipher;

static void stop(const char *fault)
{
    fprintf(stderr, "bench: %s\n", fault);
    exit(1);
}

void libmcrypt_prepare(void)
{
    cipher = mcrypt_module_open("rijndael-256", NULL, "ecb", NULL);
    if (cipher == MCRYPT_FAILED)
        stop("libmcrypt has no rijndael-256 in mode ecb");
}

static void fill_plaintexts(uint8_t *bytes, size_t blocks, const uint8_t value[KEY_BYTES], uint64_t algorithm)
{
    for (size_t j = 0; j < blocks; j++, bytes += BLOCK_BYTES) {
        memcpy(bytes, value, KEY_BYTES);
        memcpy(bytes + 24, "TEA", 3);
        bytes[27] = (uint8_t)('0' + algorithm);
        memset(bytes + 28, 0, 3);
        bytes[31] = (uint8_t)j; /* at most 32 */
    }
}

uint8_t libmcrypt_bench(uint64_t algorithm, const uint8_t *key, size_t key_len, const uint8_t *iv,
                        size_t iv_len, uint8_t *buf, size_t buf_len, size_t n, size_t *blocks)
{
    uint8_t refusal = front_refusal(algorithm, key_len, iv_len, buf_len, n);
    size_t count = (n + BLOCK_BITS - 1) / BLOCK_BITS;
    uint8_t bytes[BLOCKS * BLOCK_BYTES];
    struct mode mode;

    *blocks = 0;
    if (refusal != 0)
        return refusal;
    front_mode(&mode, algorithm, key, iv);
    fill_plaintexts(bytes, count, mode.value, algorithm);
    if (mcrypt_generic_init(cipher, mode.key, KEY_BYTES, NULL) < 0)
        stop("libmcrypt doesn't take the key");
    if (mcrypt_generic(cipher, bytes, (int)(count * BLOCK_BYTES)) != 0)
        stop("libmcrypt doesn't encrypt the blocks");
    mcrypt_generic_deinit(cipher);
    front_write_bits(buf, bytes, n);
    *blocks = count;
    return 0;
}
