/*
 * The listing.
 */
#include "gateway.h"
#include "message.h"

static uint8_t *put_text(uint8_t *p, const char *text)
{
    size_t length = strlen(text);
    memcpy(p, text, length);
    return p + length;
}

static uint8_t *put_decimal(uint8_t *p, uint32_t number)
{
    uint8_t digits[10];
    unsigned count = 0;
    do {
        digits[count++] = (uint8_t)('0' + number % 10);
        number /= 10;
    } while (number > 0);
    while (count > 0)
        *p++ = digits[--count];
    return p;
}

static uint8_t *put_dotted(uint8_t *p, uint32_t address)
{
    for (int shift = 24; shift > 0; shift -= 8) {
        p = put_decimal(p, address >> shift & 255);
        *p++ = '.';
    }
    return put_decimal(p, address & 255);
}

static uint8_t *put_row(uint8_t *p, const struct row *row)
{
    p = put_dotted(put_text(p, "net="), row->net);
    p = put_dotted(put_text(p, "\ngw="), row->gateway);
    p = put_decimal(put_text(p, "\ndist="), row->distance % EXTERNAL);
    return put_text(p, row->distance < EXTERNAL ? "\nside=int\n" : "\nside=ext\n");
}

static uint8_t *put_neighbour(uint8_t *p, unsigned slot, const struct neighbour *n, const struct row *rows)
{
    static const char *const phases[] = {"idle", "acquisition", "down", "up", "cease"};
    static const char *const modes[] = {"none", "active", "passive"};
    static const char *const seconds[] = {"\nsidle=", "\nsacq=", "\nsdown=", "\nsup=", "\nscease="};
    p = put_decimal(put_text(p, "slot="), slot);
    p = put_dotted(put_text(p, "\naddr="), n->address);
    p = put_decimal(put_text(p, "\nas="), n->as);
    p = put_text(put_text(p, "\nstate="), phases[n->phase]);
    p = put_text(put_text(p, "\nmode="), modes[n->mode]);
    p = put_decimal(put_text(p, "\nrows="), n->rows);
    for (unsigned i = 0; i < PHASES; i++)
        p = put_decimal(put_text(p, seconds[i]), n->seconds[i]);
    *p++ = '\n';
    for (unsigned i = 0; i < n->rows; i++)
        p = put_row(p, &rows[i]);
    return p;
}

/* Check 2 of a listing, on a table of the right length. */
static bool rows_are_listable(const struct gateway *g, const struct row *table)
{
    for (unsigned slot = 0; slot < SLOTS; slot++)
        for (unsigned i = 0; i < g->slots[slot].rows; i++)
            if (table[slot * ROWS + i].distance > 511)
                return false;
    return true;
}

struct outcome gateway_listing(const struct gateway *g, const struct lent *lent)
{
    const struct row *table = (const struct row *)lent->table;
    if (!gateway_is_well_formed(g))
        return (struct outcome){BAD_STATE, 0, 0};
    if (lent->numbers != TABLE_NUMBERS || !rows_are_listable(g, table))
        return (struct outcome){BAD_TABLE, 0, 0};
    if (lent->room < LISTING_ROOM)
        return (struct outcome){SHORT_BUFFER, 0, 0};
    unsigned used = 0;
    for (unsigned slot = 0; slot < SLOTS; slot++)
        used += g->slots[slot].address != 0;
    uint8_t *p = put_decimal(put_text(lent->buffer, "neighbours="), used);
    *p++ = '\n';
    for (unsigned slot = 0; slot < SLOTS; slot++)
        if (g->slots[slot].address != 0)
            p = put_neighbour(p, slot, &g->slots[slot], table + slot * ROWS);
    return (struct outcome){DONE, (uint16_t)(p - lent->buffer), 0};
}
