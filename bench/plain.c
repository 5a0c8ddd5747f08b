/* The whole bench call in plain C. Rijndael with blocks of 256 and keys of 192 bits, by four tables of 1 KiB:
   a column of the state is a word whose highest byte stands in row 0, and a table gives at once what a byte of
   its row adds to a mixed column. */

#include <string.h>

#include "calls.h"
#include "field.h"
#include "front.h"

enum { ROWS = 4, COLUMNS = 8, ROUNDS = 14, KEY_WORDS = 6, SCHEDULE_WORDS = COLUMNS * (ROUNDS + 1) };
enum { KEY_TURNS = SCHEDULE_WORDS / KEY_WORDS };

static uint8_t s_box[256];
static uint32_t round_constants[KEY_TURNS]; /* the first six words are the key and have none */
static uint32_t mixed_row[ROWS][256];

static uint32_t word_of(uint8_t a, uint8_t b, uint8_t c, uint8_t d)
{
    return (uint32_t)a << 24 | (uint32_t)b << 16 | (uint32_t)c << 8 | d;
}

/* The byte of a word that stands in a row. */
static uint8_t in_row(uint32_t word, int row)
{
    return (uint8_t)(word >> (24 - 8 * row));
}

static void fill_round_constants(void)
{
    uint8_t constant = 1;

    for (int turn = 1; turn < KEY_TURNS; turn++, constant = field_product(constant, 2))
        round_constants[turn] = (uint32_t)constant << 24;
}

void plain_prepare(void)
{
    fill_round_constants();
    for (int byte = 0; byte < 256; byte++) {
        uint8_t s = field_s_box((uint8_t)byte);
        uint8_t two = field_product(s, 2), three = field_product(s, 3);
        s_box[byte] = s;
        mixed_row[0][byte] = word_of(two, s, s, three);
        mixed_row[1][byte] = word_of(three, two, s, s);
        mixed_row[2][byte] = word_of(s, three, two, s);
        mixed_row[3][byte] = word_of(s, s, three, two);
    }
}

static uint32_t load_word(const uint8_t *bytes)
{
    return word_of(bytes[0], bytes[1], bytes[2], bytes[3]);
}

static void store_word(uint8_t *bytes, uint32_t word)
{
    for (int row = 0; row < ROWS; row++)
        bytes[row] = in_row(word, row);
}

/* A word turned left by a byte, each byte through the S-box. */
static uint32_t turned(uint32_t word)
{
    return word_of(s_box[in_row(word, 1)], s_box[in_row(word, 2)], s_box[in_row(word, 3)],
                   s_box[in_row(word, 0)]);
}

static void expand_key(uint32_t words[SCHEDULE_WORDS], const uint8_t key[KEY_BYTES])
{
    for (int i = 0; i < KEY_WORDS; i++)
        words[i] = load_word(key + 4 * i);
    for (int turn = 1; turn < KEY_TURNS; turn++) {
        int i = KEY_WORDS * turn;
        words[i] = words[i - KEY_WORDS] ^ turned(words[i - 1]) ^ round_constants[turn];
        for (int k = i + 1; k < i + KEY_WORDS; k++)
            words[k] = words[k - KEY_WORDS] ^ words[k - 1];
    }
}

/* Rows 1, 2, 3 turn left by 1, 3, 4: the byte of a row that comes into a column. */
static uint8_t shifted(const uint32_t state[COLUMNS], int row, int column)
{
    static const int shifts[ROWS] = {0, 1, 3, 4};

    return in_row(state[(column + shifts[row]) % COLUMNS], row);
}

static uint32_t mixed_column(const uint32_t state[COLUMNS], int c)
{
    return mixed_row[0][shifted(state, 0, c)] ^ mixed_row[1][shifted(state, 1, c)] ^
           mixed_row[2][shifted(state, 2, c)] ^ mixed_row[3][shifted(state, 3, c)];
}

static uint32_t last_column(const uint32_t state[COLUMNS], int c)
{
    return word_of(s_box[shifted(state, 0, c)], s_box[shifted(state, 1, c)], s_box[shifted(state, 2, c)],
                   s_box[shifted(state, 3, c)]);
}

static void encrypt(uint8_t block[BLOCK_BYTES], const uint32_t plain[COLUMNS], const uint32_t words[SCHEDULE_WORDS])
{
    uint32_t state[COLUMNS], next[COLUMNS];

    for (int c = 0; c < COLUMNS; c++)
        state[c] = plain[c] ^ words[c];
    for (int round = 1; round < ROUNDS; round++) {
        words += COLUMNS;
        for (int c = 0; c < COLUMNS; c++)
            next[c] = mixed_column(state, c) ^ words[c];
        memcpy(state, next, sizeof state);
    }
    words += COLUMNS;
    for (int c = 0; c < COLUMNS; c++)
        store_word(block + 4 * c, last_column(state, c) ^ words[c]);
}

/* The words of block 0's plaintext. In block j the last one is j. */
static void first_plaintext(uint32_t plain[COLUMNS], const uint8_t value[KEY_BYTES], uint64_t algorithm)
{
    for (int c = 0; c < KEY_WORDS; c++)
        plain[c] = load_word(value + 4 * c);
    plain[6] = word_of('T', 'E', 'A', (uint8_t)('0' + algorithm));
    plain[7] = 0;
}

static void write_keystream(uint8_t *buf, size_t n, uint32_t plain[COLUMNS], const uint32_t words[SCHEDULE_WORDS])
{
    for (; n >= BLOCK_BITS; n -= BLOCK_BITS, buf += BLOCK_BYTES, plain[7]++)
        encrypt(buf, plain, words);
    if (n > 0) {
        uint8_t block[BLOCK_BYTES];
        encrypt(block, plain, words);
        front_write_bits(buf, block, n);
    }
}

uint8_t plain_bench(uint64_t algorithm, const uint8_t *key, size_t key_len, const uint8_t *iv, size_t iv_len,
                    uint8_t *buf, size_t buf_len, size_t n, size_t *blocks)
{
    uint8_t refusal = front_refusal(algorithm, key_len, iv_len, buf_len, n);
    uint32_t plain[COLUMNS], words[SCHEDULE_WORDS];
    struct mode mode;

    *blocks = 0;
    if (refusal != 0)
        return refusal;
    front_mode(&mode, algorithm, key, iv);
    expand_key(words, mode.key);
    first_plaintext(plain, mode.value, algorithm);
    write_keystream(buf, n, plain, words);
    *blocks = (n + BLOCK_BITS - 1) / BLOCK_BITS;
    return 0;
}
