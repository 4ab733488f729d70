/*
 * Makes the calls that records on standard input name, and writes what each leaves, as the proved driver does:
 * docs/COMPARISON.md has the format of both.
 */
#include "gateway.h"

#include <stdbool.h>
#include <stdio.h>
#include <string.h>

enum { HEAD = 32, MOST = 4096, BUFFER = 70000, BLOCK = 12 + SLOTS * 49, MEANING = 24, READING = MEANING + ROWS * 12 };
enum { FRESH, ADD, REMOVE, START, STOP, TICK, MESSAGE, LISTING, READ, WRITE, HAND_STATE, HAND_TABLE };
enum { NO_CALL = 255 };

struct head {
    uint8_t kind, octet;
    uint16_t as;
    uint32_t address, net, room, times, octets, numbers;
    uint8_t quiet;
};

static uint32_t table[MOST], numbers[MOST];
static uint8_t buffer[BUFFER], octets[MOST];

/* A place in octets that numbers are taken from, or put to, one behind the other. */
static uint32_t take(const uint8_t **from, unsigned size)
{
    uint32_t number = 0;
    while (size-- > 0)
        number = number << 8 | *(*from)++;
    return number;
}

static void put(uint8_t **to, uint32_t number, unsigned size)
{
    while (size-- > 0)
        *(*to)++ = (uint8_t)(number >> 8 * size);
}

static struct gateway read_block(const uint8_t *at)
{
    struct gateway g;
    g.as = (uint16_t)take(&at, 2);
    g.address = take(&at, 4);
    g.capability = (uint8_t)take(&at, 1);
    g.net = take(&at, 4);
    g.quiet = (uint8_t)take(&at, 1);
    for (struct neighbour *n = g.slots; n < g.slots + SLOTS; n++) {
        uint16_t *words[] = {&n->as, &n->s, &n->r, &n->hello, &n->poll, &n->t1, &n->t2, &n->t3, &n->rows};
        uint8_t *last[] = {&n->phase, &n->mode, &n->reach, &n->heard, &n->cause, &n->since_hello, &n->since_poll};
        n->address = take(&at, 4);
        for (unsigned i = 0; i < 9; i++)
            *words[i] = (uint16_t)take(&at, 2);
        for (unsigned i = 0; i < 7; i++)
            *last[i] = (uint8_t)take(&at, 1);
        for (unsigned i = 0; i < PHASES; i++)
            n->seconds[i] = take(&at, 4);
    }
    return g;
}

static void write_block(uint8_t *at, const struct gateway *g)
{
    put(&at, g->as, 2);
    put(&at, g->address, 4);
    put(&at, g->capability, 1);
    put(&at, g->net, 4);
    put(&at, g->quiet, 1);
    for (const struct neighbour *n = g->slots; n < g->slots + SLOTS; n++) {
        uint16_t words[] = {n->as, n->s, n->r, n->hello, n->poll, n->t1, n->t2, n->t3, n->rows};
        uint8_t last[] = {n->phase, n->mode, n->reach, n->heard, n->cause, n->since_hello, n->since_poll};
        put(&at, n->address, 4);
        for (unsigned i = 0; i < 9; i++)
            put(&at, words[i], 2);
        for (unsigned i = 0; i < 7; i++)
            put(&at, last[i], 1);
        for (unsigned i = 0; i < PHASES; i++)
            put(&at, n->seconds[i], 4);
    }
}

/* The reason stands where the hello interval does, and the twelve octets of an Error where the net does. */
static struct meaning read_meaning(const uint8_t *at)
{
    struct meaning m = {0};
    memcpy(m.quote, at + 12, 12);
    m.kind = (uint8_t)take(&at, 1);
    m.status = (uint8_t)take(&at, 1);
    m.as = (uint16_t)take(&at, 2);
    m.sequence = (uint16_t)take(&at, 2);
    m.hello = m.reason = (uint16_t)take(&at, 2);
    m.poll = (uint16_t)take(&at, 2);
    take(&at, 2);
    m.net = take(&at, 4);
    return m;
}

static void write_meaning(uint8_t *at, const struct meaning *m)
{
    put(&at, m->kind, 1);
    put(&at, m->status, 1);
    put(&at, m->as, 2);
    put(&at, m->sequence, 2);
    put(&at, m->kind == ERROR ? m->reason : m->hello, 2);
    put(&at, m->poll, 2);
    put(&at, 0, 2);
    if (m->kind == ERROR) {
        memcpy(at, m->quote, 12);
    } else {
        put(&at, m->net, 4);
        memset(at, 0, 8);
    }
}

static struct outcome read_alone(const struct head *head)
{
    struct meaning m;
    struct row rows[ROWS];
    struct outcome o = message_read(head->net, octets, head->octets, &m, rows);
    if (o.answer != DONE)
        return o;
    if (head->room < READING)
        return (struct outcome){NO_CALL, 0, 0};
    uint8_t *at = buffer + MEANING;
    write_meaning(buffer, &m);
    memset(at, 0, READING - MEANING);
    for (unsigned i = 0; i < o.first; i++) {
        put(&at, rows[i].net, 4);
        put(&at, rows[i].gateway, 4);
        put(&at, rows[i].distance, 4);
    }
    return o;
}

static struct outcome write_alone(const struct head *head)
{
    struct meaning m = read_meaning(octets);
    if (m.kind > ERROR)
        return (struct outcome){NO_CALL, 0, 0};
    return message_write(&m, numbers, head->numbers, buffer, head->room);
}

static struct outcome call(struct gateway *g, const struct lent *lent, const struct head *head)
{
    switch (head->kind) {
    case FRESH: return gateway_fresh(g, head->as, head->address, head->octet, head->net, head->quiet);
    case ADD: return gateway_add(g, head->address, head->as);
    case REMOVE: return gateway_remove(g, head->address);
    case START: return gateway_start(g, lent, head->address);
    case STOP: return gateway_stop(g, lent, head->address);
    case TICK: return gateway_tick(g, lent, head->address);
    case MESSAGE: return gateway_message(g, lent, head->address, octets, head->octets, numbers, head->numbers);
    case LISTING: return gateway_listing(g, lent);
    case READ: return read_alone(head);
    case WRITE: return write_alone(head);
    case HAND_STATE: *g = read_block(octets); return (struct outcome){DONE, 0, 0};
    case HAND_TABLE: return (struct outcome){DONE, 0, 0};
    default: return (struct outcome){NO_CALL, 0, 0};
    }
}

/* Made several times, a call starts from the same state each time: that is for timing. */
static struct outcome repeat(struct gateway *g, const struct lent *lent, const struct head *head)
{
    const struct gateway given = *g;
    struct outcome o = {NO_CALL, 0, 0};
    for (uint32_t times = head->times; times > 0; times--) {
        *g = given;
        o = call(g, lent, head);
    }
    return o;
}

static bool read_numbers(uint32_t *to, size_t count)
{
    static uint8_t raw[MOST * 4];
    const uint8_t *at = raw;
    if (fread(raw, 4, count, stdin) < count)
        return false;
    for (size_t i = 0; i < count; i++)
        to[i] = take(&at, 4);
    return true;
}

/* False where the input ends, or asks for more than there is room for. */
static bool read_record(struct head *head)
{
    uint8_t raw[HEAD];
    const uint8_t *at = raw;
    if (fread(raw, 1, HEAD, stdin) < HEAD)
        return false;
    head->kind = (uint8_t)take(&at, 1);
    head->octet = (uint8_t)take(&at, 1);
    head->as = (uint16_t)take(&at, 2);
    head->address = take(&at, 4);
    head->net = take(&at, 4);
    head->room = take(&at, 4);
    head->times = take(&at, 4);
    head->octets = take(&at, 4);
    head->numbers = take(&at, 4);
    head->quiet = (uint8_t)take(&at, 4);
    if (head->octets > MOST || head->numbers > MOST || head->room > BUFFER)
        return false;
    if (fread(octets, 1, head->octets, stdin) < head->octets)
        return false;
    memset(octets + head->octets, 0, MOST - head->octets);
    memset(buffer, head->octet, head->room);
    return read_numbers(head->kind == HAND_TABLE ? table : numbers, head->numbers);
}

/* The answer, the state's block, the whole buffer and the whole table. */
static bool write_answer(struct outcome o, const struct gateway *g, const struct lent *lent)
{
    uint8_t front[16 + BLOCK], raw[MOST * 4], *at = front;
    put(&at, o.answer, 2);
    put(&at, o.first, 2);
    put(&at, o.second, 2);
    put(&at, 0, 2);
    put(&at, (uint32_t)lent->room, 4);
    put(&at, (uint32_t)lent->numbers, 4);
    write_block(at, g);
    at = raw;
    for (size_t i = 0; i < lent->numbers; i++)
        put(&at, table[i], 4);
    fwrite(front, 1, sizeof front, stdout);
    fwrite(buffer, 1, lent->room, stdout);
    fwrite(raw, 4, lent->numbers, stdout);
    return fflush(stdout) == 0;
}

int main(void)
{
    struct gateway g = {0};
    struct lent lent = {table, TABLE_NUMBERS, buffer, 0};
    struct head head;
    while (read_record(&head)) {
        if (head.kind == HAND_TABLE)
            lent.numbers = head.numbers;
        lent.room = head.room;
        struct outcome o = repeat(&g, &lent, &head);
        if (!write_answer(o, &g, &lent))
            return 1;
    }
    return 0;
}
