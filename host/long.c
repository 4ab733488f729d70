/* For anonymous mappings. */
#define _DEFAULT_SOURCE

#include "long.h"

#include "trial.h"

#include <stdlib.h>
#include <string.h>
#include <sys/mman.h>

/* What is compared of a piece so long; the rest is never touched, and takes no memory. */
enum { FRONT = 1 << 17 };
static const size_t TOO_LONG = (size_t)1 << 32;

/* One side of a comparison. */
struct side {
    uint8_t *at[PARTS];
    size_t lengths[PARTS];
    uint8_t *piece;
    uint64_t result;
};

static bool open_side(struct side *side)
{
    int flags = MAP_PRIVATE | MAP_ANONYMOUS | MAP_NORESERVE;
    void *piece = mmap(NULL, TOO_LONG + FRONT, PROT_READ | PROT_WRITE, flags, -1, 0);
    side->piece = piece == MAP_FAILED ? NULL : piece;
    return side->piece != NULL;
}

static void close_side(struct side *side)
{
    if (side->piece)
        munmap(side->piece, TOO_LONG + FRONT);
}

/* Gives a side the parts of a case, one of them too long. */
static void prepare(struct side *side, const struct host_case *c, unsigned which)
{
    memset(side->piece, 0, FRONT);
    for (unsigned part = 0; part < PARTS; part++) {
        size_t length = c->before[part].length;
        side->lengths[part] = length + (part == which ? TOO_LONG : 0);
        side->at[part] = part == which ? side->piece : malloc(length > 0 ? length : 1);
        if (!side->at[part])
            exit(2);
        if (length > 0)
            memcpy(side->at[part], c->before[part].at, length);
    }
}

static void drop(struct side *side, unsigned which)
{
    for (unsigned part = 0; part < PARTS; part++)
        if (part != which)
            free(side->at[part]);
}

static bool are_equal(const struct side *archive, const struct side *reference, unsigned which)
{
    bool equal = archive->result == reference->result && !memcmp(archive->piece, reference->piece, FRONT);
    for (unsigned part = 0; part < PARTS; part++)
        if (part != which && archive->lengths[part] > 0)
            equal = equal && !memcmp(archive->at[part], reference->at[part], archive->lengths[part]);
    return equal;
}

static bool length_agrees(const struct host_case *c, unsigned which, struct side *archive, struct side *reference)
{
    prepare(archive, c, which);
    prepare(reference, c, which);
    archive->result = archive_make(c, archive->at, archive->lengths);
    struct octets parts[PARTS];
    for (unsigned part = 0; part < PARTS; part++) {
        parts[part].at = reference->at[part];
        parts[part].length = reference->lengths[part];
    }
    reference->result = reference_make(c, parts);
    bool equal = are_equal(archive, reference, which);
    drop(archive, which);
    drop(reference, which);
    return equal;
}

/* The next call of this kind that is carried out. */
static void find(struct reference *reference, unsigned kind, struct host_case *c)
{
    do
        reference_next(reference, c);
    while (c->kind != kind || (c->result & 0xffff) != 0);
}

bool long_lengths_agree(struct reference *reference, FILE *to)
{
    struct side ours, theirs;
    bool agreed = true;
    unsigned count = 0;
    bool opened = open_side(&theirs);
    opened = open_side(&ours) && opened;
    for (unsigned kind = 0; opened && kind < KINDS; kind++) {
        struct host_case c;
        find(reference, kind, &c);
        for (unsigned part = 0; part < PARTS; part++) {
            if (!takes(kind, part))
                continue;
            count++;
            if (!length_agrees(&c, part, &theirs, &ours)) {
                fprintf(to,
                        "DIFFERENCE: %s, length %u too large by 2^32: %llX by the reference, %llX by the archive\n",
                        kind_names[kind], part, (unsigned long long)ours.result, (unsigned long long)theirs.result);
                agreed = false;
            }
        }
    }
    close_side(&ours);
    close_side(&theirs);
    if (opened)
        fprintf(to, "%u lengths above 32 bits%s\n", count, agreed ? ", no difference" : "");
    else
        fprintf(to, "lengths above 32 bits are not tried: no room for such addresses\n");
    return agreed;
}
