/*
 * Messages: their kinds, the checks that need no state (6 to 8, 10 to 12, 14 and 15), and writing.
 */
#ifndef MESSAGE_H
#define MESSAGE_H

#include "gateway.h"
#include "octets.h"

enum { VERSION = 2, ERROR_TYPE = 8, EXTERNAL = 256, UNSOLICITED = 128 };

/* The ten kinds: type, code, length, and a bit for each status that is allowed. */
static const struct {
    uint8_t type, code, length, statuses;
} forms[] = {
    [REQUEST] = {3, 0, 14, 0x07},        [CONFIRM] = {3, 1, 14, 0x07},   [REFUSE] = {3, 2, 10, 0xf9},
    [CEASE_COMMAND] = {3, 3, 10, 0xf9},  [CEASE_ACK] = {3, 4, 10, 0xf9}, [HELLO] = {5, 0, 10, 0x07},
    [I_H_U] = {5, 1, 10, 0x07},          [POLL] = {2, 0, 16, 0x07},      [UPDATE] = {1, 0, 16, 0x07},
    [ERROR] = {ERROR_TYPE, 0, 24, 0x07},
};

static inline enum kind kind_of(uint8_t type, uint8_t code)
{
    switch (type << 8 | code) {
    case 0x300: return REQUEST;
    case 0x301: return CONFIRM;
    case 0x302: return REFUSE;
    case 0x303: return CEASE_COMMAND;
    case 0x304: return CEASE_ACK;
    case 0x500: return HELLO;
    case 0x501: return I_H_U;
    case 0x200: return POLL;
    case 0x100: return UPDATE;
    case ERROR_TYPE << 8: return ERROR;
    default: return NO_KIND;
    }
}

/* Updates and Errors may be unsolicited. */
static inline bool allows_status(enum kind kind, uint8_t status)
{
    if (kind == UPDATE || kind == ERROR)
        status &= ~UNSOLICITED;
    return status < 8 && forms[kind].statuses >> status & 1;
}

static inline bool allows_length(enum kind kind, size_t length)
{
    return kind == UPDATE ? length >= forms[kind].length : length == forms[kind].length;
}

static inline bool must_carry_s(enum kind kind)
{
    return kind == CONFIRM || kind == REFUSE || kind == CEASE_ACK || kind == I_H_U || kind == UPDATE;
}

/* Checks 6 to 8. */
static inline enum answer check_frame(const uint8_t *message, size_t length)
{
    if (length < SHORTEST || length > LONGEST)
        return BAD_SIZE;
    if (message[0] != VERSION)
        return BAD_VERSION;
    return get16(message + 4) == checksum(message, length) ? DONE : BAD_CHECKSUM;
}

/* Checks 10 to 12. */
static inline enum answer check_kind(const uint8_t *message, size_t length, enum kind *kind)
{
    *kind = kind_of(message[1], message[2]);
    if (*kind == NO_KIND)
        return UNKNOWN_KIND;
    if (!allows_status(*kind, message[3]))
        return BAD_STATUS;
    return allows_length(*kind, length) ? DONE : BAD_LENGTH;
}

/* The nets of one distance; where they end, or NULL if one is missing or of no class. Rows beyond the 128th are
   counted, not kept. */
static const uint8_t *read_nets(const uint8_t *p, const uint8_t *end, struct row row, unsigned nets, struct row *rows,
                                unsigned *count)
{
    for (; nets > 0; nets--) {
        if (p == end)
            return NULL;
        if (p[0] < 128) {
            row.net = (uint32_t)p[0] << 24;
            p += 1;
        } else if (p[0] < 192) {
            if (end - p < 2)
                return NULL;
            row.net = (uint32_t)get16(p) << 16;
            p += 2;
        } else {
            if (p[0] >= 224 || end - p < 3)
                return NULL;
            row.net = (uint32_t)get16(p) << 16 | (uint32_t)p[2] << 8;
            p += 3;
        }
        if (*count < ROWS)
            rows[*count] = row;
        ++*count;
    }
    return p;
}

/* Checks 14 and 15. A defect anywhere comes before too many rows, so the whole body is walked before either is
   decided; the rows stay the caller's until then. */
static inline enum answer read_rows(const uint8_t *message, size_t length, uint32_t net, struct row *rows,
                                    unsigned *count)
{
    if (!is_net(net) || get32(message + 12) != net)
        return BAD_UPDATE;
    unsigned host_octets = 4 - net_octets(net);
    unsigned internal = message[10], gateways = internal + message[11];
    const uint8_t *p = message + 16, *end = message + length;
    *count = 0;
    for (unsigned gateway = 0; gateway < gateways; gateway++) {
        if (end - p < host_octets + 1)
            return BAD_UPDATE;
        uint32_t host = 0;
        for (unsigned i = 0; i < host_octets; i++)
            host = host << 8 | *p++;
        for (unsigned distances = *p++; distances > 0; distances--) {
            if (end - p < 2)
                return BAD_UPDATE;
            struct row row = {0, net | host, p[0] + (gateway < internal ? 0 : EXTERNAL)};
            p = read_nets(p + 2, end, row, p[1], rows, count);
            if (!p)
                return BAD_UPDATE;
        }
    }
    if (p != end)
        return BAD_UPDATE;
    return *count <= ROWS ? DONE : TOO_MANY_ROWS;
}

/* Writes a net's own octets. */
static inline uint8_t *put_net(uint8_t *p, uint32_t net)
{
    *p++ = (uint8_t)(net >> 24);
    if (net >= 0x80000000)
        *p++ = (uint8_t)(net >> 16);
    if (net >= 0xc0000000)
        *p++ = (uint8_t)(net >> 8);
    return p;
}

/* Writes the body of an Update from octet 10 on: runs of equal gateways on one side, in each runs of equal distances.
   Where it ends. */
static inline uint8_t *put_rows(uint8_t *body, uint32_t net, const struct row *row, size_t count)
{
    const struct row *end = row + count;
    uint8_t gateways[2] = {0, 0};
    uint8_t *p = body + 6;
    while (row < end) {
        uint32_t gateway = row->gateway, side = row->distance / EXTERNAL;
        for (unsigned octets = 4 - net_octets(net); octets > 0; octets--)
            *p++ = (uint8_t)(gateway >> 8 * (octets - 1));
        uint8_t *distances_at = p++, distances = 0;
        while (row < end && row->gateway == gateway && row->distance / EXTERNAL == side) {
            uint32_t distance = row->distance;
            uint8_t *nets_at = p + 1, nets = 0;
            *p = (uint8_t)distance;
            for (p += 2; row < end && row->gateway == gateway && row->distance == distance; row++, nets++)
                p = put_net(p, row->net);
            *nets_at = nets;
            distances++;
        }
        *distances_at = distances;
        gateways[side]++;
    }
    body[0] = gateways[0];
    body[1] = gateways[1];
    put32(body + 2, net);
    return p;
}

static inline void put_header(uint8_t *to, enum kind kind, uint8_t status, uint16_t as, uint16_t sequence)
{
    to[0] = VERSION;
    to[1] = forms[kind].type;
    to[2] = forms[kind].code;
    to[3] = status;
    put16(to + 6, as);
    put16(to + 8, sequence);
}

static inline void seal(uint8_t *message, size_t length)
{
    put16(message + 4, checksum(message, length));
}

#endif
