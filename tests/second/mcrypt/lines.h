/* Lines "KEY BLOCK" (48 and 64 hex digits) from standard input, and blocks to standard output, for programs that change a block
   under a key. */

#ifndef LINES_H
#define LINES_H

#include <stdio.h>
#include <stdlib.h>

enum { KEY_BYTES = 24, BLOCK_BYTES = 32 };

static void stop(const char *fault)
{
    fprintf(stderr, "blocks: %s\n", fault);
    exit(1);
}

static void read_hex(const char *digits, unsigned char *bytes, int count)
{
    for (int i = 0; i < count; i++) {
        unsigned int byte;
        if (sscanf(digits + 2 * i, "%2x", &byte) != 1)
            stop("a digit that isn't hex");
        bytes[i] = (unsigned char)byte;
    }
}

/* Whether there is a line more. */
static int next_line(unsigned char *key, unsigned char *block)
{
    char key_digits[2 * KEY_BYTES + 1], block_digits[2 * BLOCK_BYTES + 1];

    if (scanf("%48s %64s", key_digits, block_digits) != 2)
        return 0;
    read_hex(key_digits, key, KEY_BYTES);
    read_hex(block_digits, block, BLOCK_BYTES);
    return 1;
}

static void print_block(const unsigned char *block)
{
    for (int i = 0; i < BLOCK_BYTES; i++)
        printf("%02x", block[i]);
    printf("\n");
}

#endif
