#include "subjects.h"

const struct subject subjects[] = {
    [CARD] = {"card", card_bench},
    [PLAIN] = {"plain C", plain_bench},
#ifdef WITH_LIBMCRYPT
    [LIBMCRYPT] = {"libmcrypt", libmcrypt_bench},
#endif
};

const int subject_count = sizeof subjects / sizeof subjects[0];

void subjects_prepare(void)
{
    front_prepare();
    plain_prepare();
#ifdef WITH_LIBMCRYPT
    libmcrypt_prepare();
#endif
}
