/*
 * Reading alone and writing: compared, not timed.
 */
#include "message.h"

struct outcome message_read(uint32_t net, const uint8_t *message, size_t length, struct meaning *m, struct row *rows)
{
    enum kind kind;
    unsigned count = 0;
    enum answer answer = check_frame(message, length);
    if (!answer)
        answer = check_kind(message, length, &kind);
    if (!answer && kind == UPDATE)
        answer = read_rows(message, length, net, rows, &count);
    if (answer)
        return (struct outcome){answer, 0, 0};
    *m = (struct meaning){
        .kind = kind, .status = message[3], .as = get16(message + 6), .sequence = get16(message + 8)};
    if (kind == REQUEST || kind == CONFIRM) {
        m->hello = get16(message + 10);
        m->poll = get16(message + 12);
    } else if (kind == POLL || kind == UPDATE) {
        m->net = get32(message + 12);
    } else if (kind == ERROR) {
        m->reason = get16(message + 10);
        memcpy(m->quote, message + 12, 12);
    }
    return (struct outcome){DONE, (uint16_t)count, 0};
}

/* Whether reading could give these rows, at most 128 and no internal one behind an external one. */
static bool rows_can_be_written(uint32_t net, const uint32_t *numbers, size_t count)
{
    const struct row *rows = (const struct row *)numbers;
    if (!is_net(net) || count % 3 || count > ROWS * 3)
        return false;
    for (size_t i = 0; i < count / 3; i++) {
        if (!is_net(rows[i].net) || !is_on(rows[i].gateway, net) || rows[i].distance > 511)
            return false;
        if (i > 0 && rows[i - 1].distance >= EXTERNAL && rows[i].distance < EXTERNAL)
            return false;
    }
    return true;
}

struct outcome message_write(const struct meaning *m, const uint32_t *rows, size_t numbers, uint8_t *to, size_t room)
{
    if (room < REPLY_ROOM)
        return (struct outcome){SHORT_BUFFER, 0, 0};
    bool has_rows = m->kind == UPDATE;
    if (!allows_status(m->kind, m->status) || !(has_rows ? rows_can_be_written(m->net, rows, numbers) : numbers == 0))
        return (struct outcome){BAD_SETTING, 0, 0};
    size_t length = 10;
    put_header(to, m->kind, m->status, m->as, m->sequence);
    if (m->kind == REQUEST || m->kind == CONFIRM) {
        put16(to + 10, m->hello);
        put16(to + 12, m->poll);
        length = 14;
    } else if (m->kind == POLL) {
        put16(to + 10, 0);
        put32(to + 12, m->net);
        length = 16;
    } else if (m->kind == UPDATE) {
        length = (size_t)(put_rows(to + 10, m->net, (const struct row *)rows, numbers / 3) - to);
    } else if (m->kind == ERROR) {
        put16(to + 10, m->reason);
        memcpy(to + 12, m->quote, 12);
        length = 24;
    }
    seal(to, length);
    return (struct outcome){DONE, (uint16_t)length, 0};
}
