#include "registers.h"

#include <string.h>

struct registers registers_kept;

#if defined(__x86_64__)

void registers_keep_narrow(void);

__asm__(".text\n"
        ".type registers_keep_narrow, @function\n"
        "registers_keep_narrow:\n"
        "    push %rbx\n"
        "    lea registers_kept(%rip), %rbx\n"
        "    mov %rax, 0(%rbx)\n"
        "    mov %rcx, 8(%rbx)\n"
        "    mov %rdx, 16(%rbx)\n"
        "    mov %rsi, 24(%rbx)\n"
        "    mov %rdi, 32(%rbx)\n"
        "    mov %r8, 40(%rbx)\n"
        "    mov %r9, 48(%rbx)\n"
        "    mov %r10, 56(%rbx)\n"
        "    mov %r11, 64(%rbx)\n"
        "    lea 72(%rbx), %rbx\n"
        ".irp n, 0, 1, 2, 3, 4, 5, 6, 7, 8, 9, 10, 11, 12, 13, 14, 15\n"
        "    movups %xmm\\n, 16*\\n(%rbx)\n"
        ".endr\n"
        "    pop %rbx\n"
        "    ret\n");

#define ALL_WIDE                                                                                                       \
    "0, 1, 2, 3, 4, 5, 6, 7, 8, 9, 10, 11, 12, 13, 14, 15, 16, 17, 18, 19, 20, 21, 22, 23, 24, 25, 26, 27, 28, 29, "   \
    "30, 31\n"

/* What has no AVX-512 has no wide ones here. */
void registers_keep(void)
{
    registers_keep_narrow();
    if (!__builtin_cpu_supports("avx512f"))
        return;
    __asm__ volatile(".irp n, " ALL_WIDE "vmovups %%zmm\\n, 64*\\n(%0)\n.endr" ::"r"(registers_kept.wide)
                     : "memory");
    memset(registers_kept.vector, 0, sizeof registers_kept.vector);
}

void registers_clear(void)
{
    memset(&registers_kept, 0, sizeof registers_kept);
    if (__builtin_cpu_supports("avx512f"))
        __asm__ volatile(".irp n, " ALL_WIDE "vpxorq %zmm\\n, %zmm\\n, %zmm\\n\n.endr");
}

void registers_plant(const uint8_t *bytes)
{
    __asm__ volatile("movups (%0), %%xmm7" ::"r"(bytes) : "xmm7");
}

#else

void registers_keep(void)
{
}

void registers_plant(const uint8_t *bytes)
{
    (void)bytes;
}

void registers_clear(void)
{
}

#endif
