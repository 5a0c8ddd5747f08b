/* Compiled without a sanitizer, as the card's library is. */
#include "astray.h"

uint8_t astray_converted(size_t which, const struct lent *lent, size_t *place)
{
    size_t found;
    uint8_t refusal = second_converted(lent->before, lent->before_bytes, lent->after, lent->after_bytes, lent->pairs,
                                       lent->numbers, &found);

    if (refusal == 0 || which != 0) /* 0: sets no place with a refusal */
        *place = found;
    if (which == 1) /* reads the byte behind a text */
        (void)*(volatile const uint8_t *)(lent->after + lent->after_bytes);
    if (which == 2) /* writes beside the place */
        ((volatile uint8_t *)place)[sizeof *place] = 0;
    if (which == 3 && lent->before_bytes > 0) /* writes to a text */
        *(volatile uint8_t *)lent->before = 'f';
    return refusal;
}
