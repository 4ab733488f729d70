/*
 * The reference as a library: calls of a host, what it returns for each and what that leaves. reference/src/ffi.rs is
 * its other side.
 */
#ifndef REFERENCE_H
#define REFERENCE_H

#include <stdbool.h>
#include <stddef.h>
#include <stdint.h>

enum kind { FRESH, ADD, REMOVE, START, STOP, TICK, MESSAGE, LISTING, READ, WRITE, KINDS };

/* What a call takes as octets. Rows: a home list, or rows to be written. Octets: a message, or a meaning. */
enum part { BLOCK, TABLE, BUFFER, ROWS, OCTETS, PARTS };

struct octets {
    const uint8_t *at;
    size_t length;
};

/* One call. A part that its kind does not take has no octets. All octets stay up to the next call. */
struct host_case {
    uint8_t kind, capability;
    uint16_t as;
    uint32_t address, net;
    uint8_t quiet;
    uint64_t result; /* as the reference has it, like what is after */
    struct octets before[PARTS], after[PARTS];
    struct octets aim; /* what it was made for, in words */
};

struct reference;

/* A list of calls by its seed. */
struct reference *reference_open(uint64_t seed);
void reference_close(struct reference *);
void reference_begin(struct reference *, uint64_t seed);
void reference_next(struct reference *, struct host_case *);

/* Counts which places the call at hand reached; prints how often each was reached since the reference was opened, and
   says whether all were reached often enough. */
void reference_count(struct reference *);
bool reference_report(const struct reference *);

/* The call that an input of a fuzzer stands for. */
void reference_input(struct reference *, const uint8_t *at, size_t length, struct host_case *);

/* Makes a call with the numbers of a case and these parts: what it returns. The first three are left as the call
   leaves them. */
uint64_t reference_make(const struct host_case *, const struct octets parts[PARTS]);

#endif
