#define _GNU_SOURCE
#include "room.h"

#include <sanitizer/asan_interface.h>
#include <stdint.h>
#include <string.h>
#include <sys/mman.h>
#include <unistd.h>

#include "call.h"
#include "report.h"

enum { PAGE = 4096, ROOM_BYTES = MOST_BYTES + PAGE, GUARDS = 512 };

/* The same pages twice: as they are lent to be read, and as they are written to. */
struct place {
    uint8_t *to_read, *pages; /* null before the first use */
    uint8_t *lent;            /* among either */
    size_t at, bytes;
    int guarded_before, guarded_after;
};

static struct place places[ROOMS];
static enum side present_side;

static const char *const names[ROOMS] = {"the table", "the key", "the initial value", "the text", "the buffer"};

void room_side(enum side side)
{
    present_side = side;
}

/* Filled when the first room is opened. */
static uint8_t pattern[GUARDS];

/* The pages of a file between two that nobody may touch. */
static uint8_t *map(int file, int access)
{
    uint8_t *all = mmap(NULL, ROOM_BYTES + 2 * PAGE, PROT_NONE, MAP_PRIVATE | MAP_ANONYMOUS, -1, 0);

    if (all == MAP_FAILED || mmap(all + PAGE, ROOM_BYTES, access, MAP_SHARED | MAP_FIXED, file, 0) == MAP_FAILED)
        report("no memory to lend");
    return all + PAGE;
}

static void open_pages(struct place *place)
{
    int file = memfd_create("room", 0);

    if (file < 0 || ftruncate(file, ROOM_BYTES) != 0)
        report("no memory to lend");
    place->to_read = map(file, PROT_READ);
    place->pages = map(file, PROT_READ | PROT_WRITE);
    close(file);
    for (size_t i = 0; i < GUARDS; i++)
        pattern[i] = (uint8_t)(0xa5 ^ i ^ (i >> 8));
}

/* Where in its room a thing stands. */
static size_t where(enum room room, size_t bytes)
{
    size_t shift = room == TABLE_ROOM ? 2 : room < FIRST_NUMBER_ROOM ? 1 : 0;

    switch (present_side) {
    case FRONT: return 0;
    case BACK: return ROOM_BYTES - bytes;
    default: return GUARDS + shift;
    }
}

static void guard(struct place *place, size_t at)
{
    memcpy(place->pages + at, pattern, GUARDS);
    ASAN_POISON_MEMORY_REGION(place->lent + at - place->at, GUARDS);
}

static int guards_stand(const struct place *place, size_t at)
{
    ASAN_UNPOISON_MEMORY_REGION(place->lent + at - place->at, GUARDS);
    return memcmp(place->pages + at, pattern, GUARDS) == 0;
}

static void *lend(enum room room, const void *what, size_t bytes, int to_read)
{
    struct place *place = &places[room];

    if (place->pages == NULL)
        open_pages(place);
    if (bytes > MOST_BYTES)
        report("%zu bytes are more than can be lent", bytes);
    place->bytes = bytes;
    place->at = where(room, bytes);
    place->lent = (to_read ? place->to_read : place->pages) + place->at;
    place->guarded_before = present_side != FRONT;
    place->guarded_after = present_side != BACK;
    memcpy(place->pages + place->at, what, bytes);
    if (place->guarded_before)
        guard(place, place->at - GUARDS);
    if (place->guarded_after)
        guard(place, place->at + bytes);
    return place->lent;
}

void *room_lend(enum room room, const void *what, size_t bytes)
{
    return lend(room, what, bytes, 0);
}

const void *room_lend_to_read(enum room room, const void *what, size_t bytes)
{
    return lend(room, what, bytes, 1);
}

void *room_lend_unset(enum room room, size_t bytes)
{
    uint8_t other[64];

    memset(other, 0x5a, sizeof other);
    return room_lend(room, other, bytes);
}

void room_take(enum room room, void *to)
{
    struct place *place = &places[room];
    const char *name = names[room] != NULL ? names[room] : "a number";

    if ((place->guarded_before && !guards_stand(place, place->at - GUARDS)) ||
        (place->guarded_after && !guards_stand(place, place->at + place->bytes)))
        report("the card changed what stands beside %s", name);
    if (to != NULL)
        memcpy(to, place->pages + place->at, place->bytes);
}
