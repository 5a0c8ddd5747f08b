/* A stack of its own for a call, painted before, so that what the call left can be looked at after. */

#ifndef STACK_H
#define STACK_H

#include <stddef.h>
#include <stdint.h>

/* The stack below the caller after a call, and how much of it was written to. */
struct stack_left {
    const uint8_t *bytes; /* from the lowest byte that was written to */
    size_t count;         /* up to the caller's frame */
};

/* Paints the stack and runs `work` on it. */
struct stack_left stack_run(void (*work)(void));

/* All of the stack below the caller, with what is still painted. */
struct stack_left stack_all(void);

#endif
