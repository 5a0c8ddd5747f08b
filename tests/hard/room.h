/* Memory to lend. Each room is some pages between two that nobody may touch, and what is lent stands right against the one
   before it, right against the one after it, or between them at an odd address (a slot at one that 4 doesn't divide): to
   read or write a byte past such a page's edge is a fault of the processor. Beside each other end stand guard bytes, which
   are poisoned for ASan's memcpy and memset and compared when the thing is taken back. What is lent to be read only stands
   in pages that can't be written to. */

#ifndef ROOM_H
#define ROOM_H

#include <stddef.h>

enum room {
    TABLE_ROOM,
    KEY_ROOM,
    IV_ROOM,
    TEXT_ROOM,
    BUFFER_ROOM,
    FIRST_NUMBER_ROOM,
    LAST_NUMBER_ROOM = FIRST_NUMBER_ROOM + 10,
    ROOMS
};

enum side { FRONT, BACK, BETWEEN, SIDES };

/* For all that is lent from now on. */
void room_side(enum side side);

const void *room_lend_to_read(enum room room, const void *what, size_t bytes);
void *room_lend(enum room room, const void *what, size_t bytes);

/* Lends bytes that are to be set. Other ones stand there before. */
void *room_lend_unset(enum room room, size_t bytes);

/* Takes back what was lent, as it is now, or to nowhere. Reports a changed guard byte and ends. */
void room_take(enum room room, void *to);

#endif
