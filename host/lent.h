/*
 * Memory that is lent to a call: exactly as many octets as it is told of, and around them what must not be touched.
 */
#ifndef LENT_H
#define LENT_H

#include <stdbool.h>
#include <stddef.h>
#include <stdint.h>

/* The largest piece that has a room of its own; larger ones are placed in the heap. */
enum { LARGEST = 90000 };

enum placing {
    IN_GUARDS,   /* guard octets on both sides, at any alignment */
    IN_HEAP,     /* exactly so many octets of the heap, in AddressSanitizer's red zones; NULL for none */
    BEFORE_WALL, /* the octet behind the last can be neither read nor written; guard octets before the first */
    BEHIND_WALL, /* the octet before the first, likewise; guard octets behind the last */
    PLACINGS
};

struct lent {
    uint8_t *at;
    size_t length;
    enum placing placing;
    uint8_t *before, *behind; /* guard octets, if any */
    uint8_t guard;
};

/* Lends these octets, in room number 0 to ROOMS - 1; salt chooses their alignment and the guard octets. */
enum { ROOMS = 5 };
struct lent lend(unsigned room, enum placing placing, const uint8_t *octets, size_t length, uint64_t salt);

/* Whether the guard octets are as they were. */
bool is_guarded(const struct lent *lent);

void take_back(struct lent *lent);

#endif
