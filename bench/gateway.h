/*
 * The gateway's calls in plain C, on a struct in memory: what the proved calls are timed beside
 * (docs/COMPARISON.md).
 * The rules, their order and the answer numbers are those of the proved calls; names are RFC 904's.
 */
#ifndef GATEWAY_H
#define GATEWAY_H

#include <stdbool.h>
#include <stddef.h>
#include <stdint.h>

enum {
    SLOTS = 8,
    ROWS = 128,
    TABLE_NUMBERS = SLOTS * ROWS * 3,
    REPLY_ROOM = 2048,
    LISTING_ROOM = 65536,
    SHORTEST = 10,
    LONGEST = 2048
};

/* Checks are made in this order, 21 after 13 and 22 after 5, and the first that fails answers. */
enum answer {
    DONE,
    BAD_STATE,
    BAD_TABLE,
    SHORT_BUFFER,
    BAD_HOME_LIST,
    UNKNOWN_ADDRESS,
    BAD_SIZE,
    BAD_VERSION,
    BAD_CHECKSUM,
    WRONG_AS,
    UNKNOWN_KIND,
    BAD_STATUS,
    BAD_LENGTH,
    OUT_OF_SEQUENCE,
    BAD_UPDATE,
    TOO_MANY_ROWS,
    BAD_SETTING,
    NO_FREE_SLOT,
    NOT_IDLE,
    TOO_QUICK = 21, /* 19 and 20 are no gateway's */
    NO_MORE_SECONDS
};

enum phase { IDLE, ACQUISITION, DOWN, UP, CEASE, PHASES };
enum mode { NO_MODE, ACTIVE, PASSIVE };
enum kind { REQUEST, CONFIRM, REFUSE, CEASE_COMMAND, CEASE_ACK, HELLO, I_H_U, POLL, UPDATE, ERROR, NO_KIND };

/* One slot. It is free where the address is 0, and then all of it is 0. */
struct neighbour {
    uint32_t address;
    uint16_t as, s, r, hello, poll; /* hello and poll: T1 and T2 */
    uint16_t t1, t2, t3, rows;
    uint8_t phase, mode, reach, heard, cause; /* reach: the register of the last four intervals */
    uint8_t since_hello, since_poll;          /* ticks since the last of each in this acquisition, up to 120 */
    uint32_t seconds[PHASES];                 /* ticks in each state since it was added */
};

struct gateway {
    uint32_t address, net;
    uint16_t as;
    uint8_t capability, quiet; /* quiet: 1 if a neighbour's stray messages in Idle are not answered */
    struct neighbour slots[SLOTS];
};

/* Three numbers of the table; the distance has 256 added if the row is external. */
struct row {
    uint32_t net, gateway, distance;
};

/* What the host lends to a call: the table, and room for replies or the listing. */
struct lent {
    uint32_t *table;
    size_t numbers;
    uint8_t *buffer;
    size_t room;
};

struct outcome {
    uint16_t answer, first, second;
};

/* A message's fields. The twelve octets are an Error's. */
struct meaning {
    uint8_t kind, status;
    uint16_t as, sequence, hello, poll, reason;
    uint32_t net;
    uint8_t quote[12];
};

/* Check 1. */
bool gateway_is_well_formed(const struct gateway *g);

/* A refusal leaves state and table as they are. */
struct outcome gateway_fresh(struct gateway *g, uint16_t as, uint32_t address, uint8_t capability, uint32_t net,
                             uint8_t quiet);
struct outcome gateway_add(struct gateway *g, uint32_t address, uint16_t as);
struct outcome gateway_remove(struct gateway *g, uint32_t address);
struct outcome gateway_start(struct gateway *g, const struct lent *lent, uint32_t address);
struct outcome gateway_stop(struct gateway *g, const struct lent *lent, uint32_t address);
struct outcome gateway_tick(struct gateway *g, const struct lent *lent, uint32_t address);
struct outcome gateway_message(struct gateway *g, const struct lent *lent, uint32_t address, const uint8_t *message,
                               size_t length, const uint32_t *home, size_t numbers);
struct outcome gateway_listing(const struct gateway *g, const struct lent *lent);

/* Reading alone: the first length is the number of rows. Writing: that of octets. */
struct outcome message_read(uint32_t net, const uint8_t *message, size_t length, struct meaning *m, struct row *rows);
struct outcome message_write(const struct meaning *m, const uint32_t *rows, size_t numbers, uint8_t *to, size_t room);

#endif
