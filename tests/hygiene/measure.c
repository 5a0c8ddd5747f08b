#include "measure.h"

#include <stdio.h>
#include <string.h>

#include "card_wipe.h"
#include "registers.h"
#include "stack.h"
#include "watch.h"

static const struct keyed_call *present;
static uint8_t answer;
static struct watch on_stack, in_registers;

static __attribute__((noinline)) void call_alone(void)
{
    answer = present->make();
    registers_keep();
}

static __attribute__((noinline)) void call_and_wipe(void)
{
    answer = present->make();
    card_wipe_stack();
    registers_keep();
}

/* Leaves eight bytes of each secret on the stack and nothing else. */
static __attribute__((noinline)) void plant(void)
{
    uint8_t planted[SECRETS][8];

    for (int secret = 0; secret < SECRETS; secret++)
        memcpy(planted[secret], secrets_sample((enum secret)secret), 8);
    __asm__ volatile("" ::"r"(planted) : "memory");
}

/* Leaves the key on the stack with one byte to a word, as a compiler may, and some of it in a register. */
static __attribute__((noinline)) void plant_apart(void)
{
    uint64_t planted[CARD_KEY_BYTES];

    for (int i = 0; i < CARD_KEY_BYTES; i++)
        planted[i] = calls_key()[i];
    __asm__ volatile("" ::"r"(planted) : "memory");
    registers_plant(calls_key());
    registers_keep();
}

static struct stack_left run(void (*work)(void))
{
    calls_restore();
    registers_clear();
    return stack_run(work);
}

static void raise_to(size_t *most, size_t number)
{
    if (number > *most)
        *most = number;
}

static void raise_found(struct found *most)
{
    struct found found = secrets_found();

    for (int i = 0; i < SECRETS; i++)
        raise_to(&most->bytes[i], found.bytes[i]);
}

static size_t not_zero(struct stack_left left)
{
    size_t count = 0;

    for (size_t i = 0; i < left.count; i++)
        count += left.bytes[i] != 0;
    return count;
}

/* Each by itself: what stands beside it here is another register, and may go on by chance. */
static void look_at_registers(void)
{
    const struct registers *kept = &registers_kept;

    secrets_look((const uint8_t *)kept->narrow, sizeof kept->narrow, sizeof kept->narrow[0]);
    secrets_look(kept->vector[0], sizeof kept->vector, sizeof kept->vector[0]);
    secrets_look(kept->wide[0], sizeof kept->wide, sizeof kept->wide[0]);
}

/* The same work three times, the last with other keys. */
static void look_by_key(void (*work)(void), struct most *most)
{
    struct stack_left all;

    run(work);
    all = stack_all();
    watch_begin(&on_stack, all.bytes, all.count);
    watch_begin(&in_registers, &registers_kept, sizeof registers_kept);
    run(work);
    watch_again(&on_stack, all.bytes, all.count);
    watch_again(&in_registers, &registers_kept, sizeof registers_kept);
    calls_take_keys(OTHERS);
    run(work);
    calls_take_keys(LOOKED_FOR);
    raise_to(&most->on_stack.by_key, watch_others(&on_stack, all.bytes, all.count));
    raise_to(&most->in_registers.by_key, watch_others(&in_registers, &registers_kept, sizeof registers_kept));
}

static int measure(const struct keyed_call *call, void (*work)(void), struct most *most)
{
    struct stack_left left;

    present = call;
    left = run(work);
    raise_to(&most->stack, left.count);
    raise_to(&most->not_zero, not_zero(left));
    secrets_look(left.bytes, left.count, left.count);
    raise_found(&most->on_stack);
    look_at_registers();
    raise_found(&most->in_registers);
    look_by_key(work, most);
    if (answer != call->answer)
        fprintf(stderr, "hygiene: %s answers %u\n", call->name, answer);
    return answer != call->answer;
}

int measure_bare(const struct keyed_call *call, struct most *most)
{
    return measure(call, call_alone, most);
}

int measure_wiped(const struct keyed_call *call, struct most *most)
{
    return measure(call, call_and_wipe, most);
}

int planted_is_found(void)
{
    struct stack_left left = stack_run(plant);
    struct found found;
    int faults = 0;

    secrets_look(left.bytes, left.count, left.count);
    found = secrets_found();
    for (int i = 0; i < SECRETS; i++)
        faults += found.bytes[i] < 8;
    return faults == 0;
}

int apart_is_seen(void)
{
    struct most seen = {0};

    look_by_key(plant_apart, &seen);
    return seen.on_stack.by_key >= CARD_KEY_BYTES && (seen.in_registers.by_key >= 16 || !REGISTERS_SEEN);
}
