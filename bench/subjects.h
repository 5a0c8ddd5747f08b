/* What is measured: the card first, then its peers. Without libmcrypt there is one peer less. */

#ifndef SUBJECTS_H
#define SUBJECTS_H

#include "calls.h"

enum { CARD, PLAIN, LIBMCRYPT, MOST_SUBJECTS };

struct subject {
    const char *name;
    bench_call *call;
};

extern const struct subject subjects[];
extern const int subject_count;

void subjects_prepare(void);

#endif
