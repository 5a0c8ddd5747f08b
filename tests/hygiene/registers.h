/* The registers that a call may leave full, as they are after it. */

#ifndef REGISTERS_H
#define REGISTERS_H

#include <stdint.h>

/* Whether this processor's registers are looked at. */
#if defined(__x86_64__)
enum { REGISTERS_SEEN = 1 };
#else
enum { REGISTERS_SEEN = 0 };
#endif

struct registers {
    uint64_t narrow[9];     /* rax, rcx, rdx, rsi, rdi, r8 to r11 */
    uint8_t vector[16][16]; /* xmm0 to xmm15, zeros where there are wide ones */
    uint8_t wide[32][64];   /* zmm0 to zmm31, zeros where the processor has none */
};

extern struct registers registers_kept;

/* Stores them all. */
void registers_keep(void);

/* Forgets what was stored, and clears the vector registers, so that what is found next is the next call's. */
void registers_clear(void);

/* Leaves 16 bytes in a register, to see that they are found. */
void registers_plant(const uint8_t *bytes);

#endif
