/* What card_mend leaves of a key on the stack, of its digits and of its bytes, and that card_wipe_stack wipes it. Measured on
   a stack of its own (tests/hygiene/stack.h). Exit 1: something is found after the wipe, or the call uses more than half of
   what is wiped. */

#include <stdio.h>
#include <string.h>

#include "card_mend.h"
#include "card_wipe.h"
#include "stack.h"

enum { WINDOW = 8 };

static const char text[] = "number = 03\r\nversion=17\r\nalg=TEA6\r\nuse=SEND\r\nside=0\r\nplace=28\r\n"
                           "key=90B4e17c2d5fa8830e6c71d9f4a25b3886d0c35e1f7ab942\r\n";
static const char lower[] = "90b4e17c2d5fa8830e6c71d9f4a25b3886d0c35e1f7ab942";
static uint8_t key[CARD_KEY_BYTES], out[CARD_MENDED_BYTES];
static size_t text_bytes, written;
static uint8_t answer;

static void mend(void)
{
    answer = card_mend((const uint8_t *)text, text_bytes, out, sizeof out, &written);
}

static void mend_and_wipe(void)
{
    answer = card_mend((const uint8_t *)text, text_bytes, out, sizeof out, &written);
    card_wipe_stack();
}

/* How many bytes of a secret lie somewhere, in a row of at least so many as the window has. */
static size_t found(const uint8_t *secret, size_t bytes, struct stack_left left)
{
    uint8_t seen[sizeof lower] = {0};
    size_t count = 0;

    for (size_t i = 0; i + WINDOW <= bytes; i++)
        for (size_t j = 0; j + WINDOW <= left.count; j++)
            if (memcmp(secret + i, left.bytes + j, WINDOW) == 0)
                memset(seen + i, 1, WINDOW);
    for (size_t i = 0; i < bytes; i++)
        count += seen[i];
    return count;
}

/* Says it, and whether anything was found. */
static int look(const char *what, struct stack_left left)
{
    size_t digits = found((const uint8_t *)lower, sizeof lower - 1, left), bytes = found(key, sizeof key, left);

    printf("mending: %s: answer %u, %zu bytes of stack, with %zu of the key's 48 digits and %zu of its 24 bytes\n", what,
           answer, left.count, digits, bytes);
    return digits + bytes > 0;
}

int main(void)
{
    struct stack_left left;
    int fault = 0;

    text_bytes = sizeof text - 1;
    for (size_t i = 0; i < sizeof key; i++)
        sscanf(lower + 2 * i, "%2hhx", &key[i]);
    mend(); /* what memcpy takes when it is first looked up isn't the call's */
    for (int refused = 0; refused <= 1; refused++) {
        text_bytes = sizeof text - 1 - (size_t)refused; /* without its last LF it is refused */
        left = stack_run(mend);
        look(refused ? "refused" : "mended", left);
        if (left.count > CARD_WIPE_BYTES / 2)
            fault = printf("mending: that is more than half of what card_wipe_stack wipes\n");
        if (look(refused ? "refused, after card_wipe_stack" : "mended, after card_wipe_stack", stack_run(mend_and_wipe)))
            fault = printf("mending: something is found after card_wipe_stack\n");
    }
    return fault != 0;
}
