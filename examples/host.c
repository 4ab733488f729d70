/*
 * A small host. It acquires one neighbour, comes up with it, polls it, takes its Update in, refuses what is wrong or
 * too quick, saves its state, loads it again, stops, tells the neighbour so that has not noticed, and prints how long
 * it was in which state. There is no network here: the neighbour's messages are made by egp_write, and what would go
 * out is printed. A real host has a raw socket of IP protocol 8 behind transmit and deliver, and a clock behind
 * let_pass (docs/HOST.md, "A main loop").
 *
 *   host [FILE]     FILE is where the state is saved, host.state by default
 *
 * The exit status is 0 if all went as expected.
 */
#include <egp.h>

#include <stdio.h>
#include <stdlib.h>
#include <string.h>

enum { OWN_AS = 9, PEER_AS = 7 };

static const uint32_t NET = EGP_ADDRESS(128, 9, 0, 0);
static const uint32_t OWN = EGP_ADDRESS(128, 9, 0, 1);
static const uint32_t PEER = EGP_ADDRESS(128, 9, 0, 5);
static const uint32_t STRANGER = EGP_ADDRESS(128, 9, 0, 6);

/* What we report when polled: one net of ours, 192.5.9.0, by way of us, at distance 0. */
static const uint8_t home[EGP_ROW_SIZE] = {192, 5, 9, 0, 128, 9, 0, 1, 0, 0, 0, 0};

/* What the neighbour reports: 10.0.0.0 and 192.5.6.0, by way of it. */
static const uint8_t peer_rows[2 * EGP_ROW_SIZE] = {10, 0, 0, 0, 128, 9, 0, 5, 0, 0, 0, 0,
                                                    192, 5, 6, 0, 128, 9, 0, 5, 0, 0, 0, 0};

/* All that is kept between calls, and room for what is to be sent. The table begins as zeros. */
struct gateway {
    uint8_t block[EGP_STATE_SIZE];
    uint8_t table[EGP_TABLE_SIZE];
    uint8_t reply[EGP_REPLY_SIZE];
};

struct message {
    uint8_t octets[EGP_MESSAGE_MAX];
    size_t length;
};

static void fail(const char *what, const char *why)
{
    fprintf(stderr, "host: %s: %s\n", what, why);
    exit(EXIT_FAILURE);
}

/* Every answer is looked at; another one than was expected ends the program. */
static uint64_t expect(int answer, uint64_t result, const char *call)
{
    if (egp_answer(result) != answer)
        fail(call, egp_answer_text(egp_answer(result)));
    return result;
}

static void print_address(uint32_t a)
{
    printf("%d.%d.%d.%d", (int)(a >> 24), (int)(a >> 16 & 255), (int)(a >> 8 & 255), (int)(a & 255));
}

/* ---- what goes out */

static void transmit(uint32_t to, const uint8_t *octets, size_t length)
{
    if (length == 0)
        return;
    printf("  to ");
    print_address(to);
    printf(": ");
    for (size_t i = 0; i < length; i++)
        printf("%02X", octets[i]);
    printf("\n");
}

/* Each message is a datagram of its own; the second stands straight behind the first. */
static void send_replies(const struct gateway *g, uint32_t to, uint64_t result)
{
    transmit(to, g->reply, egp_first_length(result));
    transmit(to, g->reply + egp_first_length(result), egp_second_length(result));
}

/* ---- what happens: Start, Stop, seconds, messages */

typedef uint64_t event_call(uint8_t *, size_t, uint8_t *, size_t, uint8_t *, size_t, uint32_t);

static void happen(struct gateway *g, event_call *call, const char *name, uint32_t address)
{
    uint64_t result = call(g->block, sizeof g->block, g->table, sizeof g->table, g->reply, sizeof g->reply, address);
    send_replies(g, address, expect(EGP_OK, result, name));
}

/* Each second every neighbour has its tick. */
static void let_pass(struct gateway *g, unsigned seconds)
{
    printf("%u seconds pass\n", seconds);
    for (; seconds > 0; seconds--)
        for (unsigned slot = 0; slot < EGP_SLOTS; slot++)
            if (egp_slot_address(g->block, slot) != 0)
                happen(g, egp_tick, "egp_tick", egp_slot_address(g->block, slot));
}

/* What others send may be wrong, so a real host logs a refusal and goes on: nothing has changed. A refusal may have a
   reply too, so what was written is sent whatever the answer is. */
static uint64_t deliver(struct gateway *g, uint32_t from, const struct message *m, const char *name)
{
    uint64_t result = egp_message(g->block, sizeof g->block, g->table, sizeof g->table, g->reply, sizeof g->reply,
                                  home, sizeof home, from, m->octets, m->length);
    printf("%s from ", name);
    print_address(from);
    printf(": %d, %s\n", egp_answer(result), egp_answer_text(egp_answer(result)));
    send_replies(g, from, result);
    return result;
}

/* ---- the neighbour's part of the script */

static struct message written(int kind, int status, uint16_t sequence, uint32_t net)
{
    struct message m;
    uint8_t meaning[EGP_MEANING_SIZE] = {0};
    meaning[EGP_MEANING_KIND] = (uint8_t)kind;
    meaning[EGP_MEANING_STATUS] = (uint8_t)status;
    egp_put16(meaning + EGP_MEANING_AS, PEER_AS);
    egp_put16(meaning + EGP_MEANING_SEQUENCE, sequence);
    if (kind == EGP_CONFIRM) {
        egp_put16(meaning + EGP_MEANING_HELLO, 30);
        egp_put16(meaning + EGP_MEANING_POLL, 120);
    }
    if (kind == EGP_POLL || kind == EGP_UPDATE)
        egp_put32(meaning + EGP_MEANING_NET, net);
    size_t rows = kind == EGP_UPDATE && net == NET ? sizeof peer_rows : 0;
    uint64_t result = egp_write(m.octets, sizeof m.octets, meaning, sizeof meaning, peer_rows, rows);
    m.length = egp_first_length(expect(EGP_OK, result, "egp_write"));
    return m;
}

static void peer_says(struct gateway *g, const char *name, int kind, int status, uint16_t sequence)
{
    struct message m = written(kind, status, sequence, NET);
    expect(EGP_OK, deliver(g, PEER, &m, name), name);
}

/* ---- what is known */

static void print_listing(const struct gateway *g)
{
    static uint8_t text[EGP_LISTING_SIZE];
    uint64_t result = egp_listing(g->block, sizeof g->block, g->table, sizeof g->table, text, sizeof text);
    fwrite(text, 1, egp_first_length(expect(EGP_OK, result, "egp_listing")), stdout);
}

/* The rows themselves, as a host would take them for its routes. */
static void print_routes(const struct gateway *g)
{
    for (unsigned slot = 0; slot < EGP_SLOTS; slot++)
        for (unsigned i = 0; i < egp_slot_rows(g->block, slot); i++) {
            const uint8_t *row = egp_row(g->table, slot, i);
            printf("route to ");
            print_address(egp_get32(row));
            printf(" by way of ");
            print_address(egp_get32(row + 4));
            printf(", distance %u\n", (unsigned)(egp_get32(row + 8) % EGP_EXTERNAL));
        }
}

/* The seconds of each state since the neighbour was added, as long as it is not removed. */
static void print_seconds(const struct gateway *g, unsigned slot)
{
    static const char *const names[] = {"Idle", "Acquisition", "Down", "Up", "Cease"};
    for (int state = EGP_STATE_IDLE; state <= EGP_STATE_CEASE; state++)
        printf("%s%s %u", state == EGP_STATE_IDLE ? "seconds: " : ", ", names[state],
               (unsigned)egp_slot_seconds(g->block, slot, state));
    printf("\n");
}

/* ---- across a restart: the file is the block, then the table */

static void save(const char *path, const uint8_t *block, size_t block_len, const uint8_t *table)
{
    FILE *file = fopen(path, "wb");
    if (file == NULL || fwrite(block, 1, block_len, file) != block_len
        || fwrite(table, 1, EGP_TABLE_SIZE, file) != EGP_TABLE_SIZE || fclose(file) != 0)
        fail(path, "cannot be written");
}

/* What the file holds, its block of whatever length, is judged by a call that checks it and changes nothing. Where it
   is refused a host begins anew, with egp_fresh and a table of zeros. */
static uint64_t load(const char *path, struct gateway *g)
{
    static uint8_t octets[2 * EGP_TABLE_SIZE], text[EGP_LISTING_SIZE];
    FILE *file = fopen(path, "rb");
    if (file == NULL)
        fail(path, "cannot be read");
    size_t length = fread(octets, 1, sizeof octets, file);
    if (ferror(file) || fclose(file) != 0 || length < EGP_TABLE_SIZE)
        fail(path, "cannot be read, or is too short");
    size_t block_len = length - EGP_TABLE_SIZE;
    uint64_t result = egp_listing(octets, block_len, octets + block_len, EGP_TABLE_SIZE, text, sizeof text);
    printf("loading: %d, %s\n", egp_answer(result), egp_answer_text(egp_answer(result)));
    if (egp_answer(result) == EGP_OK) {
        memcpy(g->block, octets, sizeof g->block);
        memcpy(g->table, octets + block_len, sizeof g->table);
    }
    return result;
}

int main(int argc, char **argv)
{
    static struct gateway g, again; /* zeros, so the tables are */
    const char *path = argc > 1 ? argv[1] : "host.state";

    expect(EGP_OK, egp_fresh(g.block, sizeof g.block, OWN_AS, OWN, EGP_CAPABILITY_EITHER, NET, EGP_NOT_QUIET),
           "egp_fresh");
    expect(EGP_OK, egp_add(g.block, sizeof g.block, PEER, PEER_AS), "egp_add");
    expect(EGP_BAD_SETTING, egp_add(g.block, sizeof g.block, PEER, PEER_AS), "egp_add, a second time");

    printf("Start\n");
    happen(&g, egp_start, "egp_start", PEER);
    peer_says(&g, "Confirm", EGP_CONFIRM, EGP_CAPABILITY_PASSIVE, 0);

    /* Each Hello that is answered is a one in the register; in active mode three of four are Up, and then we poll. */
    for (int hellos = 0; hellos < 3; hellos++) {
        peer_says(&g, "I-H-U", EGP_I_H_U, EGP_STATUS_DOWN, 0);
        let_pass(&g, egp_get16(egp_slot(g.block, 0) + EGP_SLOT_T1));
    }
    if (egp_slot_state(g.block, 0) != EGP_STATE_UP)
        fail("the neighbour", "not Up");
    peer_says(&g, "Update", EGP_UPDATE, EGP_STATUS_UP, 1); /* carries our Poll's number */
    peer_says(&g, "Poll", EGP_POLL, EGP_STATUS_UP, 5);
    print_listing(&g);
    print_routes(&g);

    /* Its next Poll may come 120 seconds after the last: the Error that tells it so has that one's number. */
    let_pass(&g, 10);
    struct message m = written(EGP_POLL, EGP_STATUS_UP, 6, NET);
    expect(EGP_TOO_QUICK, deliver(&g, PEER, &m, "next Poll"), "a Poll that is too quick");

    m = written(EGP_HELLO, EGP_STATUS_UP, 7, NET);
    expect(EGP_UNKNOWN_NEIGHBOUR, deliver(&g, STRANGER, &m, "Hello"), "a stranger's Hello");
    m.octets[9] ^= 1;
    expect(EGP_BAD_CHECKSUM, deliver(&g, PEER, &m, "damaged Hello"), "damaged Hello");
    m = written(EGP_UPDATE, EGP_STATUS_UP, 1, EGP_ADDRESS(10, 0, 0, 0));
    expect(EGP_BAD_UPDATE, deliver(&g, PEER, &m, "Update about another net"), "Update about another net");

    /* A block as version 1.6 had it, without seconds, and then ours. */
    enum { EARLIER = EGP_STATE_SIZE - 20 * EGP_SLOTS };
    save(path, g.block, EARLIER, g.table);
    expect(EGP_BAD_STATE_LENGTH, load(path, &again), "a block of another length");
    save(path, g.block, sizeof g.block, g.table);
    expect(EGP_OK, load(path, &again), "the block that was saved");
    if (memcmp(g.block, again.block, sizeof g.block) != 0 || memcmp(g.table, again.table, sizeof g.table) != 0)
        fail(path, "not what was saved");

    /* The loaded one goes on where the saved one was. */
    printf("Stop\n");
    happen(&again, egp_stop, "egp_stop", PEER);
    let_pass(&again, 2);
    peer_says(&again, "Cease-ack", EGP_CEASE_ACK, 0, 1);

    /* It is in Idle, and yet it goes on as if it were acquired: a Cease tells it, of status 7. */
    peer_says(&again, "late Hello", EGP_HELLO, EGP_STATUS_UP, 8);
    let_pass(&again, 5);
    print_seconds(&again, 0);
    expect(EGP_OK, egp_remove(again.block, sizeof again.block, PEER), "egp_remove");
    print_listing(&again);
    return fflush(stdout) == 0 ? EXIT_SUCCESS : EXIT_FAILURE;
}
