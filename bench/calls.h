/* What is measured. The card's bench call and its peers have one face and do the same work. */

#ifndef CALLS_H
#define CALLS_H

#include "card.h"

/* The face of card_bench. */
typedef uint8_t bench_call(uint64_t algorithm, const uint8_t *key, size_t key_len, const uint8_t *iv,
                           size_t iv_len, uint8_t *buf, size_t buf_len, size_t n, size_t *blocks);

bench_call plain_bench;     /* plain.c */
bench_call libmcrypt_bench; /* libmcrypt.c */

/* Each is to be called once, before the first call of its peer. */
void front_prepare(void); /* both peers' */
void plain_prepare(void);
void libmcrypt_prepare(void);

#endif
