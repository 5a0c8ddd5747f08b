/*
 * Wipes what a call of the card leaves of keys on the stack and in registers.
 *
 * The card's calls leave copies of keys, round keys and keystream in the stack that they used: below the caller, in
 * memory that is given up and that later calls overwrite only by and by. docs/KEY-HYGIENE.md has the measure of it. The
 * card can't wipe that itself. Where it matters, the function that made the call does:
 *
 *     answer = card_traffic(table, 32, CARD_SEND, 3, iv, 10, buffer, bytes, start, length, skip, &blocks);
 *     card_wipe_stack();
 *
 * Call it from the very function that made the call, or from one that this returned to. From a function further down it
 * would begin too far down.
 *
 * It does not wipe what the caller holds itself (table, key, record text, keystream), the stack of a signal handler, or
 * what the system copied (swap, core dumps). Registers it clears on x86-64 under the System V conventions; elsewhere,
 * where the compiler has the attribute zero_call_used_regs.
 */

#ifndef CARD_WIPE_H
#define CARD_WIPE_H

#include <stddef.h>
#include <stdint.h>

/* No call of the card was seen to use more than 4,900 bytes; tests/hygiene holds them to half of this. */
#ifndef CARD_WIPE_BYTES
#define CARD_WIPE_BYTES 16384
#endif

/* Not inlined: its room must stand where the card's stood. And the room's address is given away, so that the compiler
   keeps it in one piece. */
#if defined(_MSC_VER)
#define CARD_WIPE_KIND static __declspec(noinline)
#define CARD_GIVE_AWAY(room) ((void)(room)[0])
#else
#define CARD_WIPE_KIND static __attribute__((noinline, unused))
#define CARD_GIVE_AWAY(room) __asm__ volatile("" ::"r"(room) : "memory")
#endif

#if defined(__x86_64__) && defined(__GNUC__) && !defined(_WIN32)

/* memcpy moves keys through vector registers, on some processors through those that only AVX-512 has. */
#define CARD_CLEAR_REGISTERS()                                                                                         \
    do {                                                                                                               \
        __asm__ volatile(".irp n, 0, 1, 2, 3, 4, 5, 6, 7, 8, 9, 10, 11, 12, 13, 14, 15\n"                              \
                         "pxor %%xmm\\n, %%xmm\\n\n"                                                                   \
                         ".endr" ::                                                                                    \
                             : "xmm0", "xmm1", "xmm2", "xmm3", "xmm4", "xmm5", "xmm6", "xmm7", "xmm8", "xmm9",         \
                               "xmm10", "xmm11", "xmm12", "xmm13", "xmm14", "xmm15");                                  \
        if (__builtin_cpu_supports("avx"))                                                                             \
            __asm__ volatile("vzeroall");                                                                              \
        if (__builtin_cpu_supports("avx512f"))                                                                         \
            __asm__ volatile(".irp n, 16, 17, 18, 19, 20, 21, 22, 23, 24, 25, 26, 27, 28, 29, 30, 31\n"                \
                             "vpxorq %zmm\\n, %zmm\\n, %zmm\\n\n"                                                      \
                             ".endr");                                                                                 \
        __asm__ volatile(".irp n, ax, cx, dx, si, di\n"                                                                \
                         "xor %%e\\n, %%e\\n\n"                                                                        \
                         ".endr\n"                                                                                     \
                         ".irp n, 8, 9, 10, 11\n"                                                                      \
                         "xor %%r\\n, %%r\\n\n"                                                                        \
                         ".endr" ::                                                                                    \
                             : "rax", "rcx", "rdx", "rsi", "rdi", "r8", "r9", "r10", "r11", "cc");                     \
    } while (0)

#else

#define CARD_CLEAR_REGISTERS() ((void)0)
#if defined(__has_attribute)
#if __has_attribute(zero_call_used_regs)
#undef CARD_WIPE_KIND
#define CARD_WIPE_KIND static __attribute__((noinline, unused, zero_call_used_regs("all")))
#endif
#endif

#endif

CARD_WIPE_KIND void card_wipe_stack(void)
{
    volatile uint64_t room[CARD_WIPE_BYTES / 8];
    size_t i;

    CARD_GIVE_AWAY(room);
    for (i = 0; i < CARD_WIPE_BYTES / 8; i++)
        room[i] = 0;
    CARD_CLEAR_REGISTERS();
}

#endif
