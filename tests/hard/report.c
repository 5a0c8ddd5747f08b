#include "report.h"

#include <sanitizer/common_interface_defs.h>
#include <stdarg.h>
#include <stdio.h>
#include <stdlib.h>

static const struct call *present_call;
static const struct table *present_table;
static const char *present_whose = "nobody's", *present_what = "run";
static uint64_t present_number;

void report_call(const struct call *call, const struct table *table)
{
    present_call = call;
    present_table = table;
}

void report_whose(const char *whose)
{
    present_whose = whose;
}

void report_place(const char *what, uint64_t number)
{
    present_what = what;
    present_number = number;
}

static void print_bytes(const char *name, const uint8_t *bytes, size_t count)
{
    fprintf(stderr, "  %s [%zu] ", name, count);
    for (size_t i = 0; i < count; i++)
        fprintf(stderr, "%02x", bytes[i]);
    fputc('\n', stderr);
}

static void print_number(const char *name, uint64_t number)
{
    fprintf(stderr, " %s=%llu", name, (unsigned long long)number);
}

static void print_table(const struct table *table)
{
    fprintf(stderr, "  table of %zu\n", table->slots);
    for (size_t i = 0; i < table->slots; i++) {
        const struct card_slot *slot = &table->at[i];

        if (slot->algorithm == 0 && slot->usage == 0)
            continue;
        fprintf(stderr, "  slot %zu: version=%u algorithm=%u usage=%u side=%u place=%u mcc=%u mnc=%u\n", i + 1,
                slot->version, slot->algorithm, slot->usage, slot->side, slot->place, slot->mcc, slot->mnc);
        print_bytes("key", slot->key, sizeof slot->key);
    }
}

static void print_numbers(const struct call *call)
{
    const struct {
        const char *name;
        uint64_t number;
    } all[] = {
        {"number", call->number},       {"to", call->to},         {"asked", call->asked}, {"version", call->version},
        {"algorithm", call->algorithm}, {"usage", call->usage},   {"side", call->side},   {"place", call->place},
        {"direction", call->direction}, {"start", call->start},   {"length", call->length}, {"skip", call->skip},
        {"kind", call->pdu_kind},       {"state", call->state},   {"flag", call->flag},   {"address", call->address},
        {"sdu", call->sdu},             {"mcc", call->mcc},       {"mnc", call->mnc},
    };

    fprintf(stderr, "  %s:", kind_names[call->kind]);
    for (size_t i = 0; i < sizeof all / sizeof all[0]; i++)
        print_number(all[i].name, all[i].number);
    fputc('\n', stderr);
}

static void print_present(void)
{
    fprintf(stderr, "hard: in %s %llu, on the %s turn\n", present_what, (unsigned long long)present_number,
            present_whose);
    if (present_call == NULL)
        return;
    print_numbers(present_call);
    print_bytes("key", present_call->key.at, present_call->key.count);
    print_bytes("iv", present_call->iv.at, present_call->iv.count);
    print_bytes("text", present_call->text.at, present_call->text.count);
    print_bytes("buffer", present_call->buffer.at, present_call->buffer.count);
    if (kind_has_table(present_call->kind))
        print_table(present_table);
}

void report(const char *format, ...)
{
    va_list arguments;

    fprintf(stderr, "hard: fault: ");
    va_start(arguments, format);
    vfprintf(stderr, format, arguments);
    va_end(arguments);
    fputc('\n', stderr);
    print_present();
    abort();
}

void report_at_death(void)
{
    __sanitizer_set_death_callback(print_present);
}

void report_outcome(const char *whose, const struct call *call, const struct outcome *outcome)
{
    fprintf(stderr, "  %s: answer=%u", whose, outcome->answer);
    for (int i = 0; i < MOST_NUMBERS; i++)
        print_number("", outcome->numbers[i]);
    fputc('\n', stderr);
    print_bytes("key", outcome->key, sizeof outcome->key);
    if (kind_has_buffer(call->kind))
        print_bytes("buffer", outcome->buffer.at, outcome->buffer.count);
    if (kind_has_table(call->kind))
        print_table(&outcome->table);
}
