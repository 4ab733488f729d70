/* For anonymous mappings. */
#define _DEFAULT_SOURCE

#include "lent.h"

#include <stdio.h>
#include <stdlib.h>
#include <string.h>
#include <sys/mman.h>
#include <unistd.h>

enum { GUARD = 128, ALIGNMENTS = 16 };

static void fail(const char *what)
{
    perror(what);
    exit(2);
}

/* The octets of a room, between two pages that nothing may touch. */
static uint8_t *room_of(unsigned number, size_t *size)
{
    static uint8_t *rooms[ROOMS];
    size_t page = (size_t)sysconf(_SC_PAGESIZE);
    *size = (LARGEST + 2 * GUARD + ALIGNMENTS + page - 1) / page * page;
    if (!rooms[number]) {
        uint8_t *walls = mmap(NULL, *size + 2 * page, PROT_NONE, MAP_PRIVATE | MAP_ANONYMOUS, -1, 0);
        if (walls == MAP_FAILED || mprotect(walls + page, *size, PROT_READ | PROT_WRITE))
            fail("no memory to lend");
        rooms[number] = walls + page;
    }
    return rooms[number];
}

static void place_in_room(struct lent *lent, unsigned number, uint64_t salt)
{
    size_t size;
    uint8_t *room = room_of(number, &size);
    switch (lent->placing) {
    case BEFORE_WALL: lent->at = room + size - lent->length; break;
    case BEHIND_WALL: lent->at = room; break;
    default: lent->at = room + GUARD + salt % ALIGNMENTS; break;
    }
    if (lent->placing != BEHIND_WALL)
        lent->before = lent->at - GUARD;
    if (lent->placing != BEFORE_WALL)
        lent->behind = lent->at + lent->length;
}

static void place_in_heap(struct lent *lent)
{
    lent->placing = IN_HEAP;
    lent->at = lent->length > 0 ? malloc(lent->length) : NULL;
    if (lent->length > 0 && !lent->at)
        fail("no memory to lend");
}

struct lent lend(unsigned room, enum placing placing, const uint8_t *octets, size_t length, uint64_t salt)
{
    struct lent lent = {NULL, length, placing, NULL, NULL, (uint8_t)(salt >> 8)};
    if (placing == IN_HEAP || length > LARGEST)
        place_in_heap(&lent);
    else
        place_in_room(&lent, room, salt);
    if (lent.before)
        memset(lent.before, lent.guard, GUARD);
    if (lent.behind)
        memset(lent.behind, lent.guard, GUARD);
    if (length > 0)
        memcpy(lent.at, octets, length);
    return lent;
}

static bool is_whole(const uint8_t *guards, uint8_t guard)
{
    return !guards || (guards[0] == guard && !memcmp(guards, guards + 1, GUARD - 1));
}

bool is_guarded(const struct lent *lent)
{
    return is_whole(lent->before, lent->guard) && is_whole(lent->behind, lent->guard);
}

void take_back(struct lent *lent)
{
    if (lent->placing == IN_HEAP)
        free(lent->at);
    lent->at = NULL;
}
