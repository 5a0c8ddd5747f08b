#include "vast.h"

#include <stdio.h>
#include <string.h>
#include <sys/mman.h>

#include "answer.h"
#include "report.h"

#define CUT ((size_t)1 << 32)

/* What 2^32 + 33 slots take. Only the front can be written to. */
enum { FRONT_BYTES = 4096 };
static const size_t vast_bytes = (CUT + 33) * sizeof(struct card_slot);
static uint8_t *vast;

/* What is lent beside the vast thing, and what came of the call. */
struct made {
    uint8_t answer;
    struct card_slot table[CARD_SLOTS];
    uint8_t key[CARD_KEY_BYTES], iv[CARD_IV_BYTES], buffer[64], front[FRONT_BYTES];
    uint8_t listing[CARD_LISTING_BYTES];
    uint64_t shown[8], found;
    size_t numbers[3];
    uint16_t version, network[2];
    uint8_t fields[4];
};

typedef void vast_call(const struct face *face, struct made *made);

static void bench_key(const struct face *face, struct made *m)
{
    m->answer = face->bench(5, vast, CUT + 24, m->iv, 10, m->buffer, 64, 512, m->numbers);
}

static void bench_iv(const struct face *face, struct made *m)
{
    m->answer = face->bench(5, m->key, 24, vast, CUT + 10, m->buffer, 64, 512, m->numbers);
}

static void bench_buffer(const struct face *face, struct made *m)
{
    m->answer = face->bench(5, m->key, 24, m->iv, 10, vast, CUT + 64, 512, m->numbers);
}

static void plain_key(const struct face *face, struct made *m)
{
    m->answer = face->plain(5, vast, CUT + 24, m->iv, 10, m->buffer, 64, 512, 0, m->numbers);
}

static void plain_iv(const struct face *face, struct made *m)
{
    m->answer = face->plain(5, m->key, 24, vast, CUT + 10, m->buffer, 64, 512, 0, m->numbers);
}

static void plain_buffer(const struct face *face, struct made *m)
{
    m->answer = face->plain(5, m->key, 24, m->iv, 10, vast, CUT + 64, 512, 0, m->numbers);
}

static void traffic_table(const struct face *face, struct made *m)
{
    m->answer =
        face->traffic((struct card_slot *)vast, CUT + 32, 1, 1, m->iv, 10, m->buffer, 64, 0, 512, 0, m->numbers);
}

static void traffic_iv(const struct face *face, struct made *m)
{
    m->answer = face->traffic(m->table, 32, 1, 1, vast, CUT + 10, m->buffer, 64, 0, 512, 0, m->numbers);
}

static void traffic_buffer(const struct face *face, struct made *m)
{
    m->answer = face->traffic(m->table, 32, 1, 1, m->iv, 10, vast, CUT + 64, 0, 512, 0, m->numbers);
}

static void pdu_table(const struct face *face, struct made *m)
{
    m->answer = face->pdu((struct card_slot *)vast, CUT + 32, 1, 1, m->iv, 10, m->buffer, 64, 1, 3, 512, 10, 50, m->numbers);
}

static void pdu_iv(const struct face *face, struct made *m)
{
    m->answer = face->pdu(m->table, 32, 1, 1, vast, CUT + 10, m->buffer, 64, 1, 3, 512, 10, 50, m->numbers);
}

static void pdu_buffer(const struct face *face, struct made *m)
{
    m->answer = face->pdu(m->table, 32, 1, 1, m->iv, 10, vast, CUT + 64, 1, 3, 512, 10, 50, m->numbers);
}

static void load_table(const struct face *face, struct made *m)
{
    m->answer = face->load((struct card_slot *)vast, CUT + 32, 2, 0, 5, 1, 0, 0, 0, 0, m->key);
}

static void move_table(const struct face *face, struct made *m)
{
    m->answer = face->move((struct card_slot *)vast, CUT + 32, 1, 2, 0);
}

static void clear_table(const struct face *face, struct made *m)
{
    m->answer = face->clear((struct card_slot *)vast, CUT + 32, 1);
}

static void read_table(const struct face *face, struct made *m)
{
    m->answer = face->read((struct card_slot *)vast, CUT + 32, 1, &m->found, &m->version, &m->fields[0], &m->fields[1],
                           &m->fields[2], &m->fields[3], &m->network[0], &m->network[1]);
}

static void record_read(const struct face *face, struct made *m)
{
    snprintf((char *)vast, FRONT_BYTES, "number=1\nversion=0\nalg=TEA5\nuse=SEND\nside=0\nplace=0\nkey=%048d\n", 7);
    m->answer = face->record_read(vast, CUT, m->shown, m->key, &m->numbers[0], &m->numbers[1],
                                  &m->numbers[2]);
}

static void record_write(const struct face *face, struct made *m)
{
    m->answer = face->record_write(1, 0, 5, 1, 0, 0, 0, 0, m->key, vast, CUT, m->numbers);
}

static void slotlist_sheet(const struct face *face, struct made *m)
{
    snprintf((char *)vast, FRONT_BYTES, "number=1\nversion=0\nalg=TEA5\nuse=SEND\nside=0\nplace=0\nkey=%048d\n", 7);
    m->numbers[0] = face->slotlist(vast, CUT, m->listing, sizeof m->listing);
}

static void slotlist_buffer(const struct face *face, struct made *m)
{
    m->numbers[0] = face->slotlist((const uint8_t *)"number=1\n", 9, vast, CUT);
}

static void make(vast_call *call, const struct face *face, struct made *made)
{
    report_whose(face->whose);
    memset(made, 0, sizeof *made);
    memset(vast, 0, FRONT_BYTES);
    made->table[0] = (struct card_slot){.algorithm = CARD_TEA5, .usage = CARD_FOR_BOTH};
    memcpy(vast, made->table, sizeof made->table);
    call(face, made);
    memcpy(made->front, vast, FRONT_BYTES);
}

unsigned long vast_run(void)
{
    static vast_call *const calls[] = {
        bench_key,  bench_iv,   bench_buffer, traffic_table, traffic_iv,  traffic_buffer,
        load_table, move_table, clear_table,  read_table,    record_read, record_write,
        plain_key,  plain_iv,   plain_buffer, slotlist_sheet, slotlist_buffer,
        pdu_table,  pdu_iv,     pdu_buffer,
    };
    enum { CALLS = sizeof calls / sizeof calls[0] };
    static struct made given, expected;

    report_call(NULL, NULL);
    vast = mmap(NULL, vast_bytes, PROT_READ, MAP_PRIVATE | MAP_ANONYMOUS | MAP_NORESERVE, -1, 0);
    if (vast == MAP_FAILED || mprotect(vast, FRONT_BYTES, PROT_READ | PROT_WRITE) != 0)
        report("no %zu bytes of addresses to lend", vast_bytes);
    for (int i = 0; i < CALLS; i++) {
        report_place("vast call", (uint64_t)i);
        make(calls[i], &oracle_face, &expected);
        make(calls[i], &card_face, &given);
        if (memcmp(&given, &expected, sizeof given) != 0)
            report("card and second program differ: answers %u and %u", given.answer, expected.answer);
    }
    munmap(vast, vast_bytes);
    return CALLS;
}
