/*
 * An EGP gateway (RFC 904) for a host in C, C99 or later, or in C++: the calls of libegp.a. docs/HOST.md is the guide:
 * layouts octet by octet, a main loop, saving and restoring, what is proved.
 *
 * Memory is the host's: the library keeps nothing between calls, allocates nothing, and does no input or output. Each
 * pointer goes with its length and has so many octets behind it; a pointer may be NULL where the length is 0. Blocks
 * lent to one call do not overlap. Nothing else is asked: whatever the octets and numbers are, a call answers them.
 *
 * Addresses and nets are numbers: 128.9.0.5 is 0x80090005. Inside blocks all numbers are big-endian.
 *
 * A call returns four 16-bit numbers in one, from the top: 0, second length, first length, answer. Its checks run in
 * the order of its list below; the first that fails is the answer. A refused call, one with another answer than 0,
 * leaves every octet of block and table as it was. It writes nothing and its lengths are 0; only a refused egp_message
 * may name a reply.
 */
#ifndef EGP_H
#define EGP_H

#include <stddef.h>
#include <stdint.h>

#define EGP_VERSION "1.7"

/* Lengths in octets. */
#define EGP_STATE_SIZE 404     /* the state block, exactly: EGP_OWN_SIZE + EGP_SLOTS * EGP_SLOT_SIZE */
#define EGP_OWN_SIZE 12        /* its first part, our own settings */
#define EGP_SLOT_SIZE 49       /* one slot of it */
#define EGP_TABLE_SIZE 12288   /* the table, exactly: EGP_SLOTS * EGP_ROWS * EGP_ROW_SIZE; all zero at first */
#define EGP_ROW_SIZE 12        /* net, gateway, distance, four each */
#define EGP_REPLY_SIZE 2048    /* a reply buffer, at least */
#define EGP_LISTING_SIZE 65536 /* a listing's buffer, at least */
#define EGP_READ_SIZE 1560     /* the buffer of egp_read, at least: a meaning and EGP_ROWS rows */
#define EGP_MEANING_SIZE 24    /* a message's meaning, exactly */
#define EGP_MESSAGE_MIN 10     /* a message */
#define EGP_MESSAGE_MAX 2048

#define EGP_SLOTS 8         /* neighbours */
#define EGP_ROWS 128        /* rows of one neighbour, of a home list, of an Update */
#define EGP_EXTERNAL 256    /* added to a row's distance if its gateway is external */
#define EGP_UNSOLICITED 128 /* added to the status of an Update or Error that was not asked for */

/* The number of an address or net, from its four octets. */
#define EGP_ADDRESS(a, b, c, d) ((uint32_t)(a) << 24 | (uint32_t)(b) << 16 | (uint32_t)(c) << 8 | (uint32_t)(d))

/* The answers; of one call's checks, 20 is the first, 21 follows 13, 22 follows 5, and the others go by their numbers.
   19 is not used here. */
enum egp_answer {
    EGP_OK = 0,                /* carried out, even where nothing changes */
    EGP_BAD_STATE = 1,         /* the state block is not well formed */
    EGP_BAD_TABLE = 2,         /* table_len is not EGP_TABLE_SIZE; in a listing, also a used row's distance above 511 */
    EGP_SHORT_BUFFER = 3,      /* the buffer is too short */
    EGP_BAD_HOME_LIST = 4,     /* the home list is no list of nets that we can report */
    EGP_UNKNOWN_NEIGHBOUR = 5, /* no neighbour has this address */
    EGP_BAD_SIZE = 6,          /* a message below 10 or above 2,048 octets */
    EGP_BAD_VERSION = 7,       /* its version is not 2 */
    EGP_BAD_CHECKSUM = 8,      /* its checksum field is wrong */
    EGP_WRONG_AS = 9,          /* its AS is not this neighbour's */
    EGP_UNKNOWN_KIND = 10,     /* its type and code are none of the ten kinds */
    EGP_BAD_STATUS = 11,       /* its kind does not have this status */
    EGP_BAD_LENGTH = 12,       /* its kind does not have this length */
    EGP_OUT_OF_SEQUENCE = 13,  /* a response whose sequence number is not the one we sent */
    EGP_BAD_UPDATE = 14,       /* an Update with a bad body, or about another net than the common net */
    EGP_TOO_MANY_ROWS = 15,    /* an Update, otherwise good, of more than 128 rows */
    EGP_BAD_SETTING = 16,      /* settings or a neighbour that may not be; egp_write: a meaning that may not be */
    EGP_NO_FREE_SLOT = 17,     /* there are eight neighbours already */
    EGP_NOT_IDLE = 18,         /* the neighbour to be removed is not in Idle */
    EGP_BAD_STATE_LENGTH = 20, /* block_len is not EGP_STATE_SIZE: the block of another version, perhaps */
    EGP_TOO_QUICK = 21,        /* a Hello less than 30 seconds, or a Poll less than 120, after the last one */
    EGP_NO_MORE_SECONDS = 22   /* a tick after 4,294,967,295 of them, which are as many as can be counted */
};

/* What a neighbour can be in (octet EGP_SLOT_STATE), and the mode in Down and Up (EGP_SLOT_MODE). */
enum egp_state { EGP_STATE_IDLE, EGP_STATE_ACQUISITION, EGP_STATE_DOWN, EGP_STATE_UP, EGP_STATE_CEASE };
enum egp_mode { EGP_MODE_NONE, EGP_MODE_ACTIVE, EGP_MODE_PASSIVE };

/* The modes that an end can take: ours for egp_fresh, and the status of a Request or Confirm. */
enum egp_capability { EGP_CAPABILITY_EITHER, EGP_CAPABILITY_ACTIVE, EGP_CAPABILITY_PASSIVE };

/* What a neighbour in Idle gets that thinks it is still acquired: a Cease, or nothing. For egp_fresh. */
enum egp_quiet { EGP_NOT_QUIET, EGP_QUIET };

/* The status of a Hello, I-H-U, Poll, Update or Error. */
enum egp_status { EGP_STATUS_INDETERMINATE, EGP_STATUS_UP, EGP_STATUS_DOWN };

/* The ten kinds of message, octet EGP_MEANING_KIND of a meaning. */
enum egp_kind {
    EGP_REQUEST,
    EGP_CONFIRM,
    EGP_REFUSE,
    EGP_CEASE,
    EGP_CEASE_ACK,
    EGP_HELLO,
    EGP_I_H_U,
    EGP_POLL,
    EGP_UPDATE,
    EGP_ERROR
};

/* Where a field begins: in the block, in a slot of it, in a meaning. A field has two octets where no other number is
   named first in its comment. */
enum egp_own_field {
    EGP_OWN_AS = 0,
    EGP_OWN_ADDRESS = 2,    /* 4 */
    EGP_OWN_CAPABILITY = 6, /* 1 */
    EGP_OWN_NET = 7,        /* 4 */
    EGP_OWN_QUIET = 11      /* 1 */
};
enum egp_slot_field {
    EGP_SLOT_ADDRESS = 0, /* 4; 0 if the slot is free */
    EGP_SLOT_AS = 4,
    EGP_SLOT_S = 6,   /* the sequence number of our commands */
    EGP_SLOT_R = 8,   /* and that of our responses */
    EGP_SLOT_T1 = 10, /* T1 and T2: the intervals agreed on, in seconds */
    EGP_SLOT_T2 = 12,
    EGP_SLOT_TIMER1 = 14, /* t1, t2 and t3: the seconds left */
    EGP_SLOT_TIMER2 = 16,
    EGP_SLOT_TIMER3 = 18,
    EGP_SLOT_ROWS = 20,                /* how many of its rows are used */
    EGP_SLOT_STATE = 22,               /* 1 */
    EGP_SLOT_MODE = 23,                /* 1 */
    EGP_SLOT_REGISTER = 24,            /* 1; the last four evaluations of reachability */
    EGP_SLOT_HEARD = 25,               /* 1 */
    EGP_SLOT_CAUSE = 26,               /* 1; the status of our Cease */
    EGP_SLOT_SINCE_HELLO = 27,         /* 1; ticks since its last Hello in this acquisition, 120 at most */
    EGP_SLOT_SINCE_POLL = 28,          /* 1; and since its last Poll */
    EGP_SLOT_SECONDS_IDLE = 29,        /* 4; how many seconds it was in each state since it was added */
    EGP_SLOT_SECONDS_ACQUISITION = 33, /* 4 */
    EGP_SLOT_SECONDS_DOWN = 37,        /* 4 */
    EGP_SLOT_SECONDS_UP = 41,          /* 4 */
    EGP_SLOT_SECONDS_CEASE = 45        /* 4 */
};
enum egp_meaning_field {
    EGP_MEANING_KIND = 0,   /* 1 */
    EGP_MEANING_STATUS = 1, /* 1 */
    EGP_MEANING_AS = 2,
    EGP_MEANING_SEQUENCE = 4,
    EGP_MEANING_HELLO = 6,  /* of a Request or Confirm: hello interval */
    EGP_MEANING_REASON = 6, /* of an Error, in the same place */
    EGP_MEANING_POLL = 8,   /* of a Request or Confirm: poll interval */
    EGP_MEANING_NET = 12,   /* 4; of a Poll or Update */
    EGP_MEANING_WORDS = 12  /* 12; of an Error: the first octets of the message it is about */
};

#ifdef __cplusplus
extern "C" {
#endif

/*
 * Makes the first state, without neighbours: our AS, our address, our capability (enum egp_capability), the net that we
 * share with our neighbours, and whether stray messages in Idle draw no Cease (enum egp_quiet; egp_message has them).
 * No later call changes these. The block may hold anything. A table of zeros belongs to it.
 * Answers: 20 block_len is not EGP_STATE_SIZE; 16 own_as is 0, capability is above 2, net is no left-justified net of
 * class A, B or C, own is not on it, or quiet is above 1.
 * On 0 the whole block is written; refused, nothing.
 */
uint64_t egp_fresh(uint8_t *block, size_t block_len, uint16_t own_as, uint32_t own, uint8_t capability, uint32_t net,
                   uint8_t quiet);

/*
 * Adds a neighbour, in Idle, in the lowest free slot: its address, which need not be on the common net, and its AS.
 * Answers: 20 block_len; 1 the block is not well formed; 16 as is 0 or ours, or address is 0, ours or present already;
 * 17 no slot is free.
 * On 0 that slot's octets of the block are written; refused, nothing.
 */
uint64_t egp_add(uint8_t *block, size_t block_len, uint32_t address, uint16_t as);

/*
 * Removes a neighbour that is in Idle, its seconds with it; its slot is free again.
 * Answers: 20 block_len; 1 the block is not well formed; 5 no neighbour has this address; 18 it is not in Idle.
 * On 0 that slot's octets of the block are zeroed; refused, nothing.
 */
uint64_t egp_remove(uint8_t *block, size_t block_len, uint32_t address);

/*
 * RFC 904's Start, by the operator: acquire this neighbour. Outside Cease a Request goes out.
 * Answers: 20 block_len; 1 the block is not well formed; 2 table_len is not EGP_TABLE_SIZE; 3 reply_len is below
 * EGP_REPLY_SIZE; 5 no neighbour has this address.
 * On 0 the neighbour's slot is written, its 128 rows of the table are zeroed if it left Up, and the reply begins with
 * up to two messages to send to it: the first length's octets, and straight behind them the second length's. A length
 * of 0 is no message. Octets of the reply behind them are not touched. Refused, nothing is written.
 */
uint64_t egp_start(uint8_t *block, size_t block_len, uint8_t *table, size_t table_len, uint8_t *reply, size_t reply_len,
                   uint32_t address);

/*
 * RFC 904's Stop, by the operator: let this neighbour go. In Down and Up a Cease goes out, and Idle comes with the
 * neighbour's Cease-ack or after 120 seconds; a Stop in Acquisition or Cease goes to Idle at once.
 * Answers and what is written: as egp_start.
 */
uint64_t egp_stop(uint8_t *block, size_t block_len, uint8_t *table, size_t table_len, uint8_t *reply, size_t reply_len,
                  uint32_t address);

/*
 * A second has passed for this neighbour. Once a second for each neighbour, whatever its state: Hello, Poll and all
 * repeats are sent by it. On 0 it is counted among the seconds of the state that the neighbour was in before; these
 * stay until the neighbour is removed.
 * Answers and what is written: as egp_start, and after 5, 22 the neighbour's five counts of seconds add up to
 * 4,294,967,295.
 */
uint64_t egp_tick(uint8_t *block, size_t block_len, uint8_t *table, size_t table_len, uint8_t *reply, size_t reply_len,
                  uint32_t address);

/*
 * A message came from this address: the payload of an IP datagram of protocol 8, without the IP header, and the
 * datagram's source. The home list is what we report when polled: rows of EGP_ROW_SIZE octets, net, gateway, distance;
 * it may be empty.
 * Answers: 20 block_len; 1 the block is not well formed; 2 table_len is not EGP_TABLE_SIZE; 3 reply_len is below
 * EGP_REPLY_SIZE; 4 the home list is not whole rows or has more than 128, a net of it is no left-justified net of
 * class A, B or C, a gateway is not on the common net, a distance is above 255, or the first gateway is not our own
 * address; 5 no neighbour has this address; 6 message_len is not 10 to 2,048; 7 version; 8 checksum; 9 AS; 10 type and
 * code; 11 status; 12 the length is wrong for the type; 13 out of sequence; 21 in Down and Up, a Hello less than 30
 * ticks after the last one that was carried out in this acquisition, or a Poll less than 120; and of an Update in Up,
 * 14 bad body or another net than the common one, 15 more than 128 rows.
 * On 0 the neighbour's slot is written; its 128 rows of the table if this was an Update in Up (its rows, then zeros)
 * or the neighbour left Up (zeros); and the reply as by egp_start. In Idle a Confirm, Refuse, Hello, I-H-U, Poll or
 * Update, of whatever body and sequence number, draws a Cease of status 7 and sequence number 0, unless the state is
 * quiet; the neighbour stays in Idle.
 * Refused, block and table are not touched, but there may be a reply of one message, which the host sends as any other:
 *     9           a Refuse, 10 octets, if the neighbour is in Idle and this is a Request of 14 octets, status 0 to 2
 *     10, 11, 12  an Error of reason 1, 24 octets, in Down and Up, but never to a message of type 8
 *     14, 15      an Error, 24 octets, of reason 2 and of reason 0
 *     21          an Error, 24 octets, of reason 4
 */
uint64_t egp_message(uint8_t *block, size_t block_len, uint8_t *table, size_t table_len, uint8_t *reply,
                     size_t reply_len, const uint8_t *home, size_t home_len, uint32_t address, const uint8_t *message,
                     size_t message_len);

/*
 * The neighbours and their nets as text: lines of a name, '=' and a value, each ending in octet 10, with no 0 behind.
 * It also tells whether a block and table that were kept elsewhere can be used: it checks both and writes neither.
 * Answers: 20 block_len; 1 the block is not well formed; 2 table_len is not EGP_TABLE_SIZE, or a used row's distance is
 * above 511; 3 text_len is below EGP_LISTING_SIZE.
 * On 0 the first length's octets of text are written, the second length is 0; refused, nothing.
 */
uint64_t egp_listing(const uint8_t *block, size_t block_len, const uint8_t *table, size_t table_len, uint8_t *text,
                     size_t text_len);

/*
 * What a message says, without any state: as a neighbour in Up would read it, the common net being this one.
 * Answers: 3 buffer_len is below EGP_READ_SIZE; 6 message_len is not 10 to 2,048; 7 version; 8 checksum; 10 type and
 * code; 11 status; 12 the length is wrong for the type; of an Update, 14 bad body or another net than this, or this is
 * no left-justified net of class A, B or C; 15 more than 128 rows.
 * On 0 the buffer begins with the meaning (the first length, EGP_MEANING_SIZE; a field that the kind has not is 0), and
 * straight behind it an Update's rows (the second length, EGP_ROW_SIZE times their number; a distance has EGP_EXTERNAL
 * added if the gateway is external). Octets behind them are not touched. Refused, nothing is written.
 */
uint64_t egp_read(uint8_t *buffer, size_t buffer_len, uint32_t net, const uint8_t *message, size_t message_len);

/*
 * The octets of a message, its checksum among them, from its meaning and, of an Update, its rows as egp_read gives
 * them. For tests and tools: the calls above write what they send themselves.
 * Answers: 3 buffer_len is below EGP_REPLY_SIZE; 16 meaning_len is not EGP_MEANING_SIZE, the kind is unknown, the
 * status is not one that the kind has, or a field that the kind has not is not 0; rows are not whole, more than 128, or
 * beside another kind than Update; an Update's net or a row's net is no left-justified net of class A, B
 * or C, a gateway is not on the Update's net, a distance is above 511, or an internal row follows an external one.
 * On 0 the first length's octets of the buffer are written, the second length is 0; refused, nothing.
 */
uint64_t egp_write(uint8_t *buffer, size_t buffer_len, const uint8_t *meaning, size_t meaning_len, const uint8_t *rows,
                   size_t rows_len);

#ifdef __cplusplus
}
#endif

/* ---- the result of a call, taken apart */

/* One of enum egp_answer. */
static inline int egp_answer(uint64_t result)
{
    return (int)(result & 0xffff);
}

static inline size_t egp_first_length(uint64_t result)
{
    return (size_t)(result >> 16 & 0xffff);
}

static inline size_t egp_second_length(uint64_t result)
{
    return (size_t)(result >> 32 & 0xffff);
}

/* The rule that an answer stands for, in some words; of any number. */
static inline const char *egp_answer_text(int answer)
{
    switch (answer) {
    case EGP_OK: return "carried out";
    case EGP_BAD_STATE: return "state block not well formed";
    case EGP_BAD_TABLE: return "table of a wrong length, or a bad row in it";
    case EGP_SHORT_BUFFER: return "buffer too short";
    case EGP_BAD_HOME_LIST: return "bad home list";
    case EGP_UNKNOWN_NEIGHBOUR: return "no neighbour has this address";
    case EGP_BAD_SIZE: return "message too short or too long";
    case EGP_BAD_VERSION: return "version not 2";
    case EGP_BAD_CHECKSUM: return "wrong checksum";
    case EGP_WRONG_AS: return "AS not this neighbour's";
    case EGP_UNKNOWN_KIND: return "unknown type and code";
    case EGP_BAD_STATUS: return "status not allowed";
    case EGP_BAD_LENGTH: return "length wrong for the type";
    case EGP_OUT_OF_SEQUENCE: return "response out of sequence";
    case EGP_BAD_UPDATE: return "Update with a bad body or another net";
    case EGP_TOO_MANY_ROWS: return "Update of more than 128 rows";
    case EGP_BAD_SETTING: return "bad setting or meaning";
    case EGP_NO_FREE_SLOT: return "no free slot";
    case EGP_NOT_IDLE: return "neighbour not in Idle";
    case EGP_BAD_STATE_LENGTH: return "state block of a wrong length";
    case EGP_TOO_QUICK: return "Hello or Poll too soon after the last one";
    case EGP_NO_MORE_SECONDS: return "no more seconds can be counted";
    default: return "no answer of this version";
    }
}

/* ---- numbers in octets, big-endian */

static inline uint16_t egp_get16(const uint8_t *octets)
{
    return (uint16_t)((unsigned)octets[0] << 8 | octets[1]);
}

static inline uint32_t egp_get32(const uint8_t *octets)
{
    return (uint32_t)egp_get16(octets) << 16 | egp_get16(octets + 2);
}

static inline void egp_put16(uint8_t *octets, uint16_t number)
{
    octets[0] = (uint8_t)(number >> 8);
    octets[1] = (uint8_t)(number & 0xff);
}

static inline void egp_put32(uint8_t *octets, uint32_t number)
{
    egp_put16(octets, (uint16_t)(number >> 16));
    egp_put16(octets + 2, (uint16_t)(number & 0xffff));
}

/* ---- a look into a block of EGP_STATE_SIZE octets and a table of EGP_TABLE_SIZE; slots are 0 to 7 */

/* The octets of a slot; enum egp_slot_field says what is where. */
static inline const uint8_t *egp_slot(const uint8_t *block, unsigned slot)
{
    return block + EGP_OWN_SIZE + slot * EGP_SLOT_SIZE;
}

/* 0 if the slot is free. */
static inline uint32_t egp_slot_address(const uint8_t *block, unsigned slot)
{
    return egp_get32(egp_slot(block, slot) + EGP_SLOT_ADDRESS);
}

/* One of enum egp_state. */
static inline int egp_slot_state(const uint8_t *block, unsigned slot)
{
    return egp_slot(block, slot)[EGP_SLOT_STATE];
}

/* How many seconds the neighbour was in this state (enum egp_state) since it was added. */
static inline uint32_t egp_slot_seconds(const uint8_t *block, unsigned slot, int state)
{
    return egp_get32(egp_slot(block, slot) + EGP_SLOT_SECONDS_IDLE + 4 * state);
}

/* The number of the slot's rows; only these are in use. */
static inline unsigned egp_slot_rows(const uint8_t *block, unsigned slot)
{
    return egp_get16(egp_slot(block, slot) + EGP_SLOT_ROWS);
}

/* The octets of a row, 0 to 127, of a slot: net, gateway, distance, four each. */
static inline const uint8_t *egp_row(const uint8_t *table, unsigned slot, unsigned row)
{
    return table + (slot * EGP_ROWS + row) * EGP_ROW_SIZE;
}

#endif
