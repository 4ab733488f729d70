/*
 * Makes the calls of records through the archive for C, so that these can be timed and counted too: docs/COMPARISON.md
 * has the format. Block and table stay octets from record to record; each call is a turn of the loop in repeat().
 */
#include "egp.h"

#include <stdbool.h>
#include <stdio.h>
#include <string.h>

enum { HEAD = 32, MOST = 4096, BUFFER = 70000 };
enum { FRESH, ADD, REMOVE, START, STOP, TICK, MESSAGE, LISTING, READ, WRITE, HAND_STATE, HAND_TABLE };
enum { NO_CALL = 255 };

struct head {
    uint8_t kind, octet;
    uint16_t as;
    uint32_t address, net, room, times, octets, numbers;
    uint8_t quiet;
};

static uint8_t block[EGP_STATE_SIZE], table[MOST * 4], numbers[MOST * 4], buffer[BUFFER], octets[MOST];
static size_t table_size = EGP_TABLE_SIZE;

static uint64_t call(const struct head *head)
{
    const size_t rows = (size_t)head->numbers * 4;
    switch (head->kind) {
    case FRESH: return egp_fresh(block, sizeof block, head->as, head->address, head->octet, head->net, head->quiet);
    case ADD: return egp_add(block, sizeof block, head->address, head->as);
    case REMOVE: return egp_remove(block, sizeof block, head->address);
    case START: return egp_start(block, sizeof block, table, table_size, buffer, head->room, head->address);
    case STOP: return egp_stop(block, sizeof block, table, table_size, buffer, head->room, head->address);
    case TICK: return egp_tick(block, sizeof block, table, table_size, buffer, head->room, head->address);
    case MESSAGE:
        return egp_message(block, sizeof block, table, table_size, buffer, head->room, numbers, rows, head->address, octets,
                           head->octets);
    case LISTING: return egp_listing(block, sizeof block, table, table_size, buffer, head->room);
    case READ: return egp_read(buffer, head->room, head->net, octets, head->octets);
    case WRITE: return egp_write(buffer, head->room, octets, EGP_MEANING_SIZE, numbers, rows);
    default: return NO_CALL;
    }
}

/* Made several times, a call starts from the same state each time. */
static uint64_t repeat(const struct head *head)
{
    uint8_t given[EGP_STATE_SIZE];
    uint64_t result = NO_CALL;
    memcpy(given, block, sizeof given);
    for (uint32_t times = head->times; times > 0; times--) {
        memcpy(block, given, sizeof block);
        result = call(head);
    }
    return result;
}

/* A record that makes no call hands in a state or a table. */
static uint64_t made(const struct head *head)
{
    if (head->kind == HAND_STATE) {
        memcpy(block, octets, sizeof block);
        return EGP_OK;
    }
    if (head->kind == HAND_TABLE) {
        table_size = (size_t)head->numbers * 4;
        return EGP_OK;
    }
    return repeat(head);
}

/* False where the input ends, or asks for more than there is room for. */
static bool read_record(struct head *head)
{
    uint8_t raw[HEAD];
    if (fread(raw, 1, HEAD, stdin) < HEAD)
        return false;
    head->kind = raw[0];
    head->octet = raw[1];
    head->as = egp_get16(raw + 2);
    head->address = egp_get32(raw + 4);
    head->net = egp_get32(raw + 8);
    head->room = egp_get32(raw + 12);
    head->times = egp_get32(raw + 16);
    head->octets = egp_get32(raw + 20);
    head->numbers = egp_get32(raw + 24);
    head->quiet = raw[31];
    if (head->octets > MOST || head->numbers > MOST || head->room > BUFFER)
        return false;
    if (fread(octets, 1, head->octets, stdin) < head->octets)
        return false;
    memset(octets + head->octets, 0, MOST - head->octets);
    memset(buffer, head->octet, head->room);
    return fread(head->kind == HAND_TABLE ? table : numbers, 4, head->numbers, stdin) == head->numbers;
}

/* The answer, the state's block, the whole buffer and the whole table. Of a reading, a record tells how many rows. */
static bool write_answer(const struct head *head, uint64_t result)
{
    uint8_t front[16] = {0};
    const bool read = head->kind == READ;
    egp_put16(front, egp_answer(result));
    egp_put16(front + 2, read ? egp_second_length(result) / EGP_ROW_SIZE : egp_first_length(result));
    egp_put16(front + 4, read ? 0 : egp_second_length(result));
    egp_put32(front + 8, head->room);
    egp_put32(front + 12, (uint32_t)(table_size / 4));
    fwrite(front, 1, sizeof front, stdout);
    fwrite(block, 1, sizeof block, stdout);
    fwrite(buffer, 1, head->room, stdout);
    fwrite(table, 1, table_size, stdout);
    return fflush(stdout) == 0;
}

int main(void)
{
    struct head head;
    while (read_record(&head))
        if (!write_answer(&head, made(&head)))
            return 1;
    return 0;
}
