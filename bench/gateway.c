/*
 * Check 1, the state machine of one neighbour, and the calls about it.
 */
#include "gateway.h"
#include "message.h"

enum { P1 = 30, P2 = 120, P3 = 30, P4 = 3600, P5 = 120 };
enum { STATUS_UP = 1, STATUS_DOWN = 2, PROHIBITED = 4, GOING_DOWN = 5, PARAMETER_PROBLEM = 6, VIOLATION = 7 };
enum { UNSPECIFIED, BAD_HEADER, BAD_DATA, UNAVAILABLE, EXCESSIVE_RATE }; /* an Error's reasons */
enum { HELLO_TICKS = 30, POLL_TICKS = 120, MOST_TICKS = 120 };           /* between two of a kind; counted at most */

static struct outcome answered(enum answer answer)
{
    return (struct outcome){answer, 0, 0};
}

/* ---- Check 1 ---- */

static bool settings_hold(const struct gateway *g)
{
    return g->as != 0 && g->capability <= 2 && g->quiet <= 1 && is_net(g->net) && is_on(g->address, g->net);
}

/* What add asks of a neighbour, apart from its being present already. */
static bool may_be_neighbour(const struct gateway *g, uint32_t address, uint16_t as)
{
    return as != 0 && as != g->as && address != 0 && address != g->address;
}

static bool is_acquired(const struct neighbour *n)
{
    return n->phase == DOWN || n->phase == UP;
}

/* All ticks since the neighbour was added; they may be no more than a count holds. */
static uint64_t sum_seconds(const struct neighbour *n)
{
    uint64_t sum = 0;
    for (unsigned i = 0; i < PHASES; i++)
        sum += n->seconds[i];
    return sum;
}

/* A free slot, or a neighbour in Idle: nothing but address, AS and, in Idle, seconds. */
static bool is_bare(const struct neighbour *n)
{
    return !(n->s | n->r | n->hello | n->poll | n->t1 | n->t2 | n->t3 | n->rows | n->phase | n->mode | n->reach |
             n->heard | n->cause | n->since_hello | n->since_poll);
}

/* Down and Up: terms are agreed on, and reachability runs. */
static bool reachability_holds(const struct neighbour *n)
{
    return within(n->hello, P1 + 2, 122) && within(n->poll, P2 + 2, 482) && within(n->mode, ACTIVE, PASSIVE) &&
           n->reach <= 15 && n->heard <= 1 && n->cause == 0;
}

/* Acquisition and Cease: none of that. */
static bool has_no_terms(const struct neighbour *n)
{
    return !(n->hello | n->poll | n->mode | n->reach | n->heard);
}

static bool variables_hold(const struct neighbour *n)
{
    if (sum_seconds(n) > UINT32_MAX)
        return false;
    if (n->phase == IDLE)
        return is_bare(n);
    if (!within(n->t1, 1, 122) || !within(n->t3, 1, P4))
        return false;
    if (n->since_hello > MOST_TICKS || n->since_poll > MOST_TICKS)
        return false;
    if (n->phase == UP)
        return within(n->t2, 1, 482) && n->rows <= ROWS && reachability_holds(n);
    if (n->t2 || n->rows)
        return false;
    switch (n->phase) {
    case DOWN: return reachability_holds(n);
    case ACQUISITION: return has_no_terms(n) && n->cause == 0;
    case CEASE: return has_no_terms(n) && within(n->cause, GOING_DOWN, PARAMETER_PROBLEM);
    default: return false;
    }
}

/* The slot of an address among so many, or their number if there is none; address 0 finds a free one. */
static unsigned find(const struct gateway *g, uint32_t address, unsigned slots)
{
    unsigned slot = 0;
    while (slot < slots && g->slots[slot].address != address)
        slot++;
    return slot;
}

bool gateway_is_well_formed(const struct gateway *g)
{
    if (!settings_hold(g))
        return false;
    for (unsigned slot = 0; slot < SLOTS; slot++) {
        const struct neighbour *n = &g->slots[slot];
        if (n->address == 0) {
            if (n->as != 0 || !is_bare(n) || sum_seconds(n) != 0)
                return false;
        } else if (!may_be_neighbour(g, n->address, n->as) || find(g, n->address, slot) < slot ||
                   !variables_hold(n)) {
            return false;
        }
    }
    return true;
}

/* ---- Fresh, add, remove ---- */

struct outcome gateway_fresh(struct gateway *g, uint16_t as, uint32_t address, uint8_t capability, uint32_t net,
                             uint8_t quiet)
{
    *g = (struct gateway){.as = as, .address = address, .capability = capability, .net = net, .quiet = quiet};
    if (settings_hold(g))
        return answered(DONE);
    *g = (struct gateway){0};
    return answered(BAD_SETTING);
}

struct outcome gateway_add(struct gateway *g, uint32_t address, uint16_t as)
{
    if (!gateway_is_well_formed(g))
        return answered(BAD_STATE);
    if (!may_be_neighbour(g, address, as) || find(g, address, SLOTS) < SLOTS)
        return answered(BAD_SETTING);
    unsigned slot = find(g, 0, SLOTS);
    if (slot == SLOTS)
        return answered(NO_FREE_SLOT);
    g->slots[slot] = (struct neighbour){.address = address, .as = as};
    return answered(DONE);
}

struct outcome gateway_remove(struct gateway *g, uint32_t address)
{
    if (!gateway_is_well_formed(g))
        return answered(BAD_STATE);
    unsigned slot = find(g, address, SLOTS);
    if (address == 0 || slot == SLOTS)
        return answered(UNKNOWN_ADDRESS);
    if (g->slots[slot].phase != IDLE)
        return answered(NOT_IDLE);
    g->slots[slot] = (struct neighbour){0};
    return answered(DONE);
}

/* ---- Messages sent ---- */

/* One event of one neighbour while it is carried out. */
struct turn {
    const struct gateway *g;
    struct neighbour *n;
    struct row *rows; /* the neighbour's part of the table */
    uint8_t *reply;   /* where the next message goes */
    struct outcome o;
};

static void begin(struct turn *t, enum kind kind, uint8_t status, uint16_t sequence)
{
    put_header(t->reply, kind, status, t->g->as, sequence);
}

/* The second message goes straight behind the first. */
static void end(struct turn *t, size_t length)
{
    seal(t->reply, length);
    t->reply += length;
    if (t->o.first == 0)
        t->o.first = (uint16_t)length;
    else
        t->o.second = (uint16_t)length;
}

static void send_short(struct turn *t, enum kind kind, uint8_t status, uint16_t sequence)
{
    begin(t, kind, status, sequence);
    end(t, 10);
}

/* Request and Confirm carry our capability and our intervals. */
static void send_terms(struct turn *t, enum kind kind, uint16_t sequence)
{
    begin(t, kind, t->g->capability, sequence);
    put16(t->reply + 10, P1);
    put16(t->reply + 12, P2);
    end(t, 14);
}

static uint8_t reach_status(const struct neighbour *n)
{
    return n->phase == UP ? STATUS_UP : STATUS_DOWN;
}

static void send_hello_if_active(struct turn *t)
{
    if (t->n->mode == ACTIVE)
        send_short(t, HELLO, reach_status(t->n), t->n->s);
}

/* S goes up just before each Poll only, and t2 starts anew. */
static void send_poll(struct turn *t)
{
    t->n->s++;
    t->n->t2 = t->n->poll;
    begin(t, POLL, STATUS_UP, t->n->s);
    put16(t->reply + 10, 0);
    put32(t->reply + 12, t->g->net);
    end(t, 16);
}

static void send_update(struct turn *t, const struct row *home, size_t count)
{
    begin(t, UPDATE, STATUS_UP, t->n->r);
    end(t, (size_t)(put_rows(t->reply + 10, t->g->net, home, count) - t->reply));
}

/* An Error quotes the first twelve octets of a message, and zeros where it has fewer. */
static void send_error(struct turn *t, uint16_t reason, const uint8_t *message, size_t length)
{
    begin(t, ERROR, reach_status(t->n), t->n->r);
    put16(t->reply + 10, reason);
    memset(t->reply + 12, 0, 12);
    memcpy(t->reply + 12, message, length < 12 ? length : 12);
    end(t, 24);
}

/* ---- Transitions ---- */

static void leave_up(struct turn *t)
{
    if (t->n->phase != UP)
        return;
    t->n->t2 = 0;
    t->n->rows = 0;
    memset(t->rows, 0, ROWS * sizeof *t->rows);
}

static void enter_idle(struct turn *t)
{
    leave_up(t);
    struct neighbour idle = {.address = t->n->address, .as = t->n->as};
    memcpy(idle.seconds, t->n->seconds, sizeof idle.seconds);
    *t->n = idle;
}

/* Acquisition or Cease: no terms; S, R and the counts of ticks stay. */
static void enter_unacquired(struct turn *t, enum phase phase, uint8_t cause)
{
    struct neighbour *n = t->n;
    leave_up(t);
    n->phase = phase;
    n->cause = cause;
    n->t1 = P3;
    n->t3 = P5;
    n->hello = n->poll = 0;
    n->mode = NO_MODE;
    n->reach = n->heard = 0;
}

static void enter_cease(struct turn *t, uint8_t cause)
{
    enter_unacquired(t, CEASE, cause);
    send_short(t, CEASE_COMMAND, cause, t->n->s);
}

/* If we can do one mode only, that; else the other one of the peer's; if it can do both too, the smaller AS is
   active. */
static enum mode choose_mode(const struct gateway *g, const struct neighbour *n, uint8_t peer)
{
    if (g->capability != NO_MODE)
        return (enum mode)g->capability;
    if (peer != NO_MODE)
        return peer == ACTIVE ? PASSIVE : ACTIVE;
    return g->as < n->as ? ACTIVE : PASSIVE;
}

static bool is_acceptable(const struct turn *t, const uint8_t *message)
{
    bool both_passive = t->g->capability == PASSIVE && message[3] == PASSIVE;
    return get16(message + 10) <= 120 && get16(message + 12) <= 480 && !both_passive;
}

static uint16_t larger(uint16_t a, uint16_t b)
{
    return a > b ? a : b;
}

/* By the terms of a Request or Confirm. */
static void enter_down(struct turn *t, const uint8_t *message)
{
    struct neighbour *n = t->n;
    leave_up(t);
    n->phase = DOWN;
    n->hello = larger(P1, get16(message + 10)) + 2;
    n->poll = larger(P2, get16(message + 12)) + 2;
    n->mode = choose_mode(t->g, n, message[3]);
    n->reach = n->heard = 0;
    n->t1 = n->hello;
    n->t3 = P5;
    n->since_hello = n->since_poll = MOST_TICKS;
    send_hello_if_active(t);
}

static void receive_request(struct turn *t, const uint8_t *message)
{
    uint16_t sequence = get16(message + 8);
    if (t->n->phase == CEASE) {
        send_short(t, CEASE_COMMAND, t->n->cause, t->n->s);
    } else if (is_acceptable(t, message)) {
        t->n->r = sequence;
        send_terms(t, CONFIRM, sequence);
        enter_down(t, message);
    } else if (t->n->phase == IDLE) {
        send_short(t, REFUSE, PARAMETER_PROBLEM, sequence);
    } else if (t->n->phase == ACQUISITION) {
        enter_idle(t);
    } else {
        enter_cease(t, PARAMETER_PROBLEM);
    }
}

static void receive_confirm(struct turn *t, const uint8_t *message)
{
    if (t->n->phase != ACQUISITION)
        return;
    if (is_acceptable(t, message))
        enter_down(t, message);
    else
        enter_idle(t);
}

static void receive_poll(struct turn *t, const uint8_t *message, const struct row *home, size_t count)
{
    if (is_acquired(t->n))
        t->n->since_poll = 0;
    if (t->n->phase != UP)
        return;
    if (get32(message + 12) == t->g->net)
        send_update(t, home, count);
    else
        send_error(t, UNAVAILABLE, message, 16);
}

static void replace_rows(struct turn *t, const struct row *rows, unsigned count)
{
    t->n->rows = (uint16_t)count;
    memcpy(t->rows, rows, count * sizeof *rows);
    memset(t->rows + count, 0, (ROWS - count) * sizeof *rows);
}

/* Hellos and Polls of an acquired neighbour must be some ticks apart. */
static bool is_too_quick(const struct neighbour *n, enum kind kind)
{
    if (kind == HELLO)
        return is_acquired(n) && n->since_hello < HELLO_TICKS;
    return kind == POLL && is_acquired(n) && n->since_poll < POLL_TICKS;
}

/* Whether a message shows that the neighbour hears us. */
static bool is_indication(enum mode mode, enum kind kind, uint8_t status)
{
    if (mode == ACTIVE)
        return kind == CONFIRM || kind == I_H_U || kind == UPDATE;
    if (kind == UPDATE)
        return (status & ~UNSOLICITED) == STATUS_UP;
    return (kind == HELLO || kind == POLL) && status == STATUS_UP;
}

static void do_start(struct turn *t)
{
    if (t->n->phase == CEASE)
        return;
    enter_unacquired(t, ACQUISITION, 0);
    send_terms(t, REQUEST, t->n->s);
}

static void do_stop(struct turn *t)
{
    if (is_acquired(t->n))
        enter_cease(t, GOING_DOWN);
    else if (t->n->phase != IDLE)
        enter_idle(t);
}

/* t1 came to 0 in Down or Up: the interval's indication is shifted in, and the ones are counted. */
static void judge_reachability(struct turn *t)
{
    struct neighbour *n = t->n;
    n->reach = (uint8_t)((n->reach << 1 | n->heard) & 15);
    n->heard = 0;
    n->t1 = n->hello;
    int ones = __builtin_popcount(n->reach);
    bool enters_up = n->phase == DOWN && ones >= (n->mode == ACTIVE ? 3 : 1);
    if (enters_up) {
        n->phase = UP;
    } else if (n->phase == UP && ones <= (n->mode == ACTIVE ? 1 : 0)) {
        leave_up(t);
        n->phase = DOWN;
    }
    send_hello_if_active(t);
    if (enters_up)
        send_poll(t);
}

static void do_tick(struct turn *t)
{
    struct neighbour *n = t->n;
    bool was_up = n->phase == UP;
    n->seconds[n->phase]++;
    if (n->phase == IDLE)
        return;
    n->since_hello += n->since_hello < MOST_TICKS;
    n->since_poll += n->since_poll < MOST_TICKS;
    if (--n->t3 == 0) {
        do_stop(t);
        return;
    }
    if (--n->t1 == 0) {
        if (is_acquired(n)) {
            judge_reachability(t);
        } else {
            n->t1 = P3;
            if (n->phase == ACQUISITION)
                send_terms(t, REQUEST, n->s);
            else
                send_short(t, CEASE_COMMAND, n->cause, n->s);
        }
    }
    if (was_up && n->phase == UP && --n->t2 == 0)
        send_poll(t);
}

/* ---- The calls about one neighbour ---- */

/* Checks 1 to 3. */
static enum answer check_lent(const struct gateway *g, const struct lent *lent)
{
    if (!gateway_is_well_formed(g))
        return BAD_STATE;
    if (lent->numbers != TABLE_NUMBERS)
        return BAD_TABLE;
    return lent->room < REPLY_ROOM ? SHORT_BUFFER : DONE;
}

/* Check 5. */
static bool take_turn(struct turn *t, struct gateway *g, const struct lent *lent, uint32_t address)
{
    unsigned slot = find(g, address, SLOTS);
    if (address == 0 || slot == SLOTS)
        return false;
    *t = (struct turn){g, &g->slots[slot], (struct row *)lent->table + slot * ROWS, lent->buffer, {DONE, 0, 0}};
    return true;
}

static inline struct outcome happen(struct gateway *g, const struct lent *lent, uint32_t address,
                                    void (*event)(struct turn *))
{
    struct turn t;
    enum answer answer = check_lent(g, lent);
    if (answer)
        return answered(answer);
    if (!take_turn(&t, g, lent, address))
        return answered(UNKNOWN_ADDRESS);
    if (event == do_tick && sum_seconds(t.n) == UINT32_MAX)
        return answered(NO_MORE_SECONDS);
    event(&t);
    return t.o;
}

struct outcome gateway_start(struct gateway *g, const struct lent *lent, uint32_t address)
{
    return happen(g, lent, address, do_start);
}

struct outcome gateway_stop(struct gateway *g, const struct lent *lent, uint32_t address)
{
    return happen(g, lent, address, do_stop);
}

struct outcome gateway_tick(struct gateway *g, const struct lent *lent, uint32_t address)
{
    return happen(g, lent, address, do_tick);
}

/* Check 4. */
static bool home_is_good(const struct gateway *g, const uint32_t *home, size_t numbers)
{
    if (numbers % 3 || numbers > ROWS * 3)
        return false;
    const struct row *rows = (const struct row *)home;
    for (size_t i = 0; i < numbers / 3; i++)
        if (!is_net(rows[i].net) || !is_on(rows[i].gateway, g->net) || rows[i].distance > 255)
            return false;
    return numbers == 0 || rows[0].gateway == g->address;
}

/* 9 is answered only to a Request that is whole, and only in Idle. */
static struct outcome refuse_stranger(struct turn *t, const uint8_t *message, size_t length)
{
    enum kind kind;
    if (t->n->phase == IDLE && check_kind(message, length, &kind) == DONE && kind == REQUEST)
        send_short(t, REFUSE, PROHIBITED, get16(message + 8));
    t->o.answer = WRONG_AS;
    return t->o;
}

/* 10 to 12, 14, 15 and 21 are answered with an Error in Down and Up, unless the message is one itself. */
static struct outcome refuse_with_error(struct turn *t, enum answer answer, uint16_t reason, const uint8_t *message,
                                        size_t length)
{
    if (is_acquired(t->n) && message[1] != ERROR_TYPE)
        send_error(t, reason, message, length);
    t->o.answer = answer;
    return t->o;
}

/* What only a neighbour sends that thinks it is acquired. */
static bool is_stray(enum kind kind)
{
    switch (kind) {
    case CONFIRM:
    case REFUSE:
    case HELLO:
    case I_H_U:
    case POLL:
    case UPDATE: return true;
    default: return false;
    }
}

/* A message that passed its checks. */
static void receive(struct turn *t, enum kind kind, const uint8_t *message, const struct row *rows, unsigned count,
                    const struct row *home, size_t home_count)
{
    struct neighbour *n = t->n;
    bool was_acquired = is_acquired(n);
    enum mode mode = n->mode;
    uint16_t sequence = get16(message + 8);
    if (n->phase == IDLE && is_stray(kind)) {
        if (!t->g->quiet)
            send_short(t, CEASE_COMMAND, VIOLATION, 0);
        return;
    }
    bool is_command = kind == REQUEST || kind == CEASE_COMMAND || kind == HELLO || kind == POLL;
    if (is_command && n->phase != IDLE)
        n->r = sequence;
    switch (kind) {
    case REQUEST: receive_request(t, message); break;
    case CONFIRM: receive_confirm(t, message); break;
    case REFUSE:
        if (n->phase == ACQUISITION)
            enter_idle(t);
        break;
    case CEASE_COMMAND:
        send_short(t, CEASE_ACK, 0, sequence);
        enter_idle(t);
        break;
    case CEASE_ACK:
        if (n->phase == CEASE)
            enter_idle(t);
        break;
    case HELLO:
        if (was_acquired) {
            n->since_hello = 0;
            send_short(t, I_H_U, reach_status(n), sequence);
        }
        break;
    case POLL: receive_poll(t, message, home, home_count); break;
    case UPDATE:
        if (n->phase == UP)
            replace_rows(t, rows, count);
        break;
    default: break; /* an I-H-U is an indication at most, and an Error changes nothing */
    }
    if (was_acquired && is_indication(mode, kind, message[3])) {
        n->heard = 1;
        n->t3 = P4;
    }
}

struct outcome gateway_message(struct gateway *g, const struct lent *lent, uint32_t address, const uint8_t *message,
                               size_t length, const uint32_t *home, size_t numbers)
{
    struct turn t;
    struct row rows[ROWS];
    unsigned count = 0;
    enum kind kind;
    enum answer answer = check_lent(g, lent);
    if (answer)
        return answered(answer);
    if (!home_is_good(g, home, numbers))
        return answered(BAD_HOME_LIST);
    if (!take_turn(&t, g, lent, address))
        return answered(UNKNOWN_ADDRESS);
    answer = check_frame(message, length);
    if (answer)
        return answered(answer);
    if (get16(message + 6) != t.n->as)
        return refuse_stranger(&t, message, length);
    answer = check_kind(message, length, &kind);
    if (answer)
        return refuse_with_error(&t, answer, BAD_HEADER, message, length);
    if (t.n->phase != IDLE && must_carry_s(kind) && get16(message + 8) != t.n->s)
        return answered(OUT_OF_SEQUENCE);
    if (is_too_quick(t.n, kind))
        return refuse_with_error(&t, TOO_QUICK, EXCESSIVE_RATE, message, length);
    if (kind == UPDATE && t.n->phase == UP) {
        answer = read_rows(message, length, g->net, rows, &count);
        if (answer)
            return refuse_with_error(&t, answer, answer == BAD_UPDATE ? BAD_DATA : UNSPECIFIED, message, length);
    }
    receive(&t, kind, message, rows, count, (const struct row *)home, numbers / 3);
    return t.o;
}
