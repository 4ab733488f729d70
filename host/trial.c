#include "trial.h"

#include "egp.h"
#include "lent.h"

#include <inttypes.h>
#include <string.h>

const char *const kind_names[KINDS] = {"fresh", "add",     "remove",  "start", "stop",
                                       "tick",  "message", "listing", "read",  "write"};
static const char *const part_names[PARTS] = {"block", "table", "buffer", "rows", "octets"};
static const char *const placing_names[PLACINGS] = {"in guards", "in the heap", "before a wall", "behind a wall"};

/* What a call was lent, as it left it, and what it returned. */
struct trial {
    struct lent parts[PARTS];
    uint64_t result;
};

bool takes(unsigned kind, unsigned part)
{
    switch (part) {
    case BLOCK: return kind <= LISTING;
    case TABLE: return START <= kind && kind <= LISTING;
    case BUFFER: return START <= kind;
    case ROWS: return kind == MESSAGE || kind == WRITE;
    default: return kind == MESSAGE || kind == READ || kind == WRITE;
    }
}

uint64_t archive_make(const struct host_case *c, uint8_t *const at[PARTS], const size_t lengths[PARTS])
{
    uint8_t *block = at[BLOCK], *table = at[TABLE], *buffer = at[BUFFER];
    const uint8_t *rows = at[ROWS], *octets = at[OCTETS];
    size_t block_len = lengths[BLOCK], table_len = lengths[TABLE], buffer_len = lengths[BUFFER];
    size_t rows_len = lengths[ROWS], octets_len = lengths[OCTETS];
    switch (c->kind) {
    case FRESH: return egp_fresh(block, block_len, c->as, c->address, c->capability, c->net, c->quiet);
    case ADD: return egp_add(block, block_len, c->address, c->as);
    case REMOVE: return egp_remove(block, block_len, c->address);
    case START: return egp_start(block, block_len, table, table_len, buffer, buffer_len, c->address);
    case STOP: return egp_stop(block, block_len, table, table_len, buffer, buffer_len, c->address);
    case TICK: return egp_tick(block, block_len, table, table_len, buffer, buffer_len, c->address);
    case MESSAGE:
        return egp_message(block, block_len, table, table_len, buffer, buffer_len, rows, rows_len, c->address, octets,
                           octets_len);
    case LISTING: return egp_listing(block, block_len, table, table_len, buffer, buffer_len);
    case READ: return egp_read(buffer, buffer_len, c->net, octets, octets_len);
    default: return egp_write(buffer, buffer_len, octets, octets_len, rows, rows_len);
    }
}

/* Two bits of salt choose the placing of each part, those above them its alignment and guards. */
static enum placing placing_of(unsigned part, uint64_t salt)
{
    return (enum placing)(salt >> 2 * part) % PLACINGS;
}

static struct trial make(const struct host_case *c, uint64_t salt)
{
    struct trial trial;
    uint8_t *at[PARTS];
    size_t lengths[PARTS];
    for (unsigned part = 0; part < PARTS; part++) {
        const struct octets *octets = &c->before[part];
        trial.parts[part] = lend(part, placing_of(part, salt), octets->at, octets->length, salt >> 16);
        at[part] = trial.parts[part].at;
        lengths[part] = octets->length;
    }
    trial.result = archive_make(c, at, lengths);
    return trial;
}

static void end(struct trial *trial)
{
    for (unsigned part = 0; part < PARTS; part++)
        take_back(&trial->parts[part]);
}

static bool is_as_expected(const struct lent *lent, const struct octets *expected)
{
    return is_guarded(lent) && (lent->length == 0 || !memcmp(lent->at, expected->at, lent->length));
}

static bool is_right(const struct host_case *c, const struct trial *trial)
{
    bool right = trial->result == c->result;
    for (unsigned part = 0; part < PARTS; part++)
        right = right && is_as_expected(&trial->parts[part], &c->after[part]);
    return right;
}

enum { LINE = 32, PERIOD = 256 };

static void print_line(FILE *to, const char *whose, size_t from, const uint8_t *at, size_t length)
{
    fprintf(to, "  %s%6zu ", whose, from);
    for (size_t i = from; i < length && i < from + LINE; i++)
        fprintf(to, "%02X", at[i]);
    fprintf(to, "\n");
}

static bool repeats(const uint8_t *at, size_t from, size_t behind)
{
    return from >= behind && !memcmp(at + from, at + from - behind, LINE);
}

/* Octets in hex, line by line; those that repeat what is a line or a period before them are one star. */
static void print_octets(FILE *to, const uint8_t *at, size_t length)
{
    bool starred = false;
    for (size_t from = 0; from < length; from += LINE) {
        bool repeated = from + LINE <= length && (repeats(at, from, LINE) || repeats(at, from, PERIOD));
        if (!repeated)
            print_line(to, "", from, at, length);
        else if (!starred)
            fprintf(to, "       *\n");
        starred = repeated;
    }
}

static void print_result(FILE *to, const char *whose, uint64_t result)
{
    fprintf(to, "%s: answer %u, lengths %u and %u, top %u\n", whose, (unsigned)(result & 0xffff),
            (unsigned)(result >> 16 & 0xffff), (unsigned)(result >> 32 & 0xffff), (unsigned)(result >> 48));
}

/* The lines of a part in which a side changed something. */
static void print_changes(FILE *to, const char *name, const struct octets *before, const struct octets *after,
                          const struct lent *lent)
{
    bool changed = false;
    for (size_t from = 0; from < lent->length; from += LINE) {
        size_t count = lent->length - from < LINE ? lent->length - from : LINE;
        if (memcmp(before->at + from, after->at + from, count) || memcmp(before->at + from, lent->at + from, count)) {
            if (!changed)
                fprintf(to, "%s after the call, where it changed:\n", name);
            changed = true;
            print_line(to, "before   ", from, before->at, lent->length);
            print_line(to, "reference", from, after->at, lent->length);
            print_line(to, "archive  ", from, lent->at, lent->length);
        }
    }
}

/* What became of a part, and the first octet in which the sides differ. */
static void print_part(FILE *to, const struct host_case *c, const struct trial *trial, unsigned part)
{
    const struct lent *lent = &trial->parts[part];
    const struct octets *before = &c->before[part], *after = &c->after[part];
    const char *name = part_names[part];
    size_t differing = 0, first = 0;
    for (size_t i = lent->length; i-- > 0;)
        if (lent->at[i] != after->at[i]) {
            differing++;
            first = i;
        }
    print_changes(to, name, before, after, lent);
    if (!is_guarded(lent))
        fprintf(to, "DIFFERENCE: guard octets around the %s are not as they were\n", name);
    if (differing > 0)
        fprintf(to,
                "DIFFERENCE: %s, octet %zu (%zu in all): %02X before, %02X by the reference, %02X by the archive\n",
                name, first, differing, before->at[first], after->at[first], lent->at[first]);
}

static void print_call(const struct host_case *c, uint64_t salt, FILE *to)
{
    fprintf(to, "call: %s (%.*s)\n", kind_names[c->kind], (int)c->aim.length, (const char *)c->aim.at);
    fprintf(to, "numbers: AS %u, address %08" PRIX32 ", capability %u, net %08" PRIX32 ", quiet %u\n", c->as,
            c->address, c->capability, c->net, c->quiet);
    for (unsigned part = 0; part < PARTS; part++)
        if (takes(c->kind, part)) {
            const struct octets *octets = &c->before[part];
            fprintf(to, "%s, %zu octets %s:\n", part_names[part], octets->length,
                    placing_names[placing_of(part, salt)]);
            print_octets(to, octets->at, octets->length);
        }
    /* What follows may not come. */
    fflush(to);
}

static void print_outcome(const struct host_case *c, const struct trial *trial, FILE *to)
{
    print_result(to, "reference", c->result);
    print_result(to, "archive", trial->result);
    if (trial->result != c->result)
        fprintf(to, "DIFFERENCE: what the call returns\n");
    for (unsigned part = 0; part < PARTS; part++)
        if (takes(c->kind, part))
            print_part(to, c, trial, part);
}

bool agrees(const struct host_case *c, uint64_t salt, FILE *to)
{
    struct trial trial = make(c, salt);
    bool right = is_right(c, &trial);
    if (!right) {
        print_call(c, salt, to);
        print_outcome(c, &trial, to);
    }
    end(&trial);
    return right;
}

void print_trial(const struct host_case *c, uint64_t salt, FILE *to)
{
    print_call(c, salt, to);
    struct trial trial = make(c, salt);
    print_outcome(c, &trial, to);
    end(&trial);
}
