/* What must not be lying about, and the search for it. */

#ifndef SECRETS_H
#define SECRETS_H

#include <stddef.h>
#include <stdint.h>

enum secret { THE_KEY, OTHER_KEYS, KEY_AS_TEXT, MODE_KEY, MODE_VALUE, SCHEDULE, KEYSTREAM, SECRETS };

extern const char *const secret_names[SECRETS];

/* How many different bytes of each secret were found; and how many bytes are others after the same call with other keys,
   which no search counts: it sees what depends on a key, in whatever form and however far apart. */
struct found {
    size_t bytes[SECRETS];
    size_t by_key;
};

/* Forgets what was looked for before. */
void secrets_begin(void);

/* Looks for any 8 bytes in a row of these from now on. A secret can be added in parts. */
void secrets_add(enum secret secret, const uint8_t *bytes, size_t count);

/* Looks for blocks of 32 bytes also as the cipher's state has them: four rows, of every fourth byte. */
void secrets_add_blocks(enum secret secret, const uint8_t *blocks, size_t count);

/* Looks for words of four bytes, and also for the same with their last byte first. */
void secrets_add_words(enum secret secret, const uint8_t *words, size_t count);

/* Ends the adding. */
void secrets_ready(void);

/* Eight bytes of a secret, to see that they are found. */
const uint8_t *secrets_sample(enum secret secret);

/* Looks for the secrets in these bytes, no window reaching from one part of so many bytes into the next. */
void secrets_look(const uint8_t *bytes, size_t count, size_t part);

/* What was found since this was last asked. */
struct found secrets_found(void);

#endif
