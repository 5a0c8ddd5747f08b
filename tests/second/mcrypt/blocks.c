/* Reads lines "KEY BLOCK" and prints each block as libmcrypt's rijndael-256 encrypts or decrypts it.
   Usage: blocks encrypt|decrypt */

#include "lines.h"

#include <mcrypt.h>
#include <string.h>

typedef int (*direction)(MCRYPT, void *, int);

static direction direction_of(const char *name)
{
    if (strcmp(name, "encrypt") == 0)
        return mcrypt_generic;
    if (strcmp(name, "decrypt") == 0)
        return mdecrypt_generic;
    stop("it is encrypt or decrypt");
    return NULL;
}

static void change(MCRYPT cipher, direction way, unsigned char *key, unsigned char *block)
{
    if (mcrypt_generic_init(cipher, key, KEY_BYTES, NULL) < 0)
        stop("libmcrypt doesn't take the key");
    if (way(cipher, block, BLOCK_BYTES) != 0)
        stop("libmcrypt doesn't take the block");
    mcrypt_generic_deinit(cipher);
}

int main(int words, char **word)
{
    unsigned char key[KEY_BYTES], block[BLOCK_BYTES];
    direction way = direction_of(words == 2 ? word[1] : "");
    MCRYPT cipher = mcrypt_module_open("rijndael-256", NULL, "ecb", NULL);

    if (cipher == MCRYPT_FAILED)
        stop("libmcrypt has no rijndael-256 in mode ecb");
    while (next_line(key, block)) {
        change(cipher, way, key, block);
        print_block(block);
    }
    mcrypt_module_close(cipher);
    return 0;
}
