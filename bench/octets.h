/*
 * Octets as RFC 904 has them: numbers, the checksum, nets and addresses.
 */
#ifndef OCTETS_H
#define OCTETS_H

#include <stdbool.h>
#include <stddef.h>
#include <stdint.h>
#include <string.h>

static inline uint16_t get16(const uint8_t *p)
{
    return (uint16_t)(p[0] << 8 | p[1]);
}

static inline uint32_t get32(const uint8_t *p)
{
    return (uint32_t)get16(p) << 16 | get16(p + 2);
}

static inline void put16(uint8_t *p, uint16_t number)
{
    p[0] = (uint8_t)(number >> 8);
    p[1] = (uint8_t)number;
}

static inline void put32(uint8_t *p, uint32_t number)
{
    put16(p, (uint16_t)(number >> 16));
    put16(p + 2, (uint16_t)number);
}

static inline uint64_t sum_words(const uint8_t *p, size_t length)
{
    uint64_t sum = 0;
    uint32_t word;
    for (; length >= sizeof word; p += sizeof word, length -= sizeof word) {
        memcpy(&word, p, sizeof word);
        sum += word;
    }
    word = 0;
    memcpy(&word, p, length);
    return sum + word;
}

/* A one's complement sum is the same in either order of octets, so words are taken as the machine has them, and the
   sum is folded and turned round at the end. The field itself, octets 4 and 5, is left out. */
static inline uint16_t checksum(const uint8_t *message, size_t length)
{
    uint64_t sum = sum_words(message, 4) + sum_words(message + 6, length - 6);
    while (sum >> 16)
        sum = (sum & 0xffff) + (sum >> 16);
    uint16_t folded = (uint16_t)~sum;
    uint8_t octets[2];
    memcpy(octets, &folded, 2);
    return get16(octets);
}

/* Ones where a net of this class has its number; 0 where there is no such class. */
static inline uint32_t net_mask(uint32_t net)
{
    if (net < 0x80000000)
        return 0xff000000;
    if (net < 0xc0000000)
        return 0xffff0000;
    return net < 0xe0000000 ? 0xffffff00 : 0;
}

static inline bool is_net(uint32_t net)
{
    uint32_t mask = net_mask(net);
    return mask && !(net & ~mask);
}

/* Whether an address is on a net that is good. */
static inline bool is_on(uint32_t address, uint32_t net)
{
    return (address & net_mask(net)) == net;
}

static inline unsigned net_octets(uint32_t net)
{
    return net < 0x80000000 ? 1 : net < 0xc0000000 ? 2 : 3;
}

static inline bool within(unsigned number, unsigned least, unsigned most)
{
    return least <= number && number <= most;
}

#endif
