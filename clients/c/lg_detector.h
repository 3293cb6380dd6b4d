/* The failure detector of lg for C: one member's detector, with no clock, no socket and no thread.
 *
 * You hand it events with their moments, in milliseconds from whenever you like, and each gives a reply: the datagrams
 * to send, the records that changed, the names that were forgotten, and the moment at which the next tick is due.
 * README.md says how to build and link it, and what is proved of it.
 *
 * Each call answers a status. LG_OK is 0. After any other status the detector and the reply are as they were before.
 * Structs are copied in and out, and no call keeps a pointer. No two arguments of a call may overlap. A detector may be
 * used by one thread at a time.
 */
#ifndef LG_DETECTOR_H
#define LG_DETECTOR_H

#include <stdbool.h>
#include <stddef.h>
#include <stdint.h>

#ifdef __cplusplus
extern "C" {
#endif

enum {
    LG_MOST_NAME = 32,     /* bytes of a name */
    LG_MOST_BYTES = 1207,  /* bytes of a datagram */
    LG_MOST_SEEDS = 16,    /* seeds of a configuration */
    LG_MOST_MEMBERS = 256, /* members that a detector knows */
    LG_MOST_SENDS = 8,     /* datagrams of a reply */
    LG_MOST_CHANGED = 12,  /* changed records of a reply, and forgotten names of one */
    LG_WORDS = 8           /* random words of a tick or a leave */
};

/* What a call answers. */
enum lg_status {
    LG_OK = 0,
    LG_CLOSED = 1,     /* the detector is closed */
    LG_OPEN = 2,       /* the detector is open already */
    LG_BAD_VALUE = 3,  /* a name, an address, a moment or a count is out of its form or range */
    LG_BAD_PACKET = 4, /* the bytes of a datagram are no packet */
    LG_BAD_CONFIG = 5, /* the configuration doesn't pass its check */
    LG_NO_MEMORY = 6,  /* memory was refused */
    LG_ENDED = 7,      /* the detector has accepted 4,000,000,000 events, and takes no more */
    LG_NO_ROOM = 8,    /* there are more records than you have room for */
    LG_NULL = 9        /* a pointer is null */
};

/* The status of a record. */
enum lg_standing { LG_ALIVE = 1, LG_SUSPECT = 2, LG_FAILED = 3, LG_LEFT = 4 };

/* What a timer that fired was for. */
enum lg_timer {
    LG_NOTHING_FIRED = 0,
    LG_ROUND_END = 1,
    LG_SUSPICION = 2, /* of the member `name` */
    LG_DIRECT = 3,
    LG_RELAY_NACK = 4, /* of the relay `number` */
    LG_RELAY_END = 5,  /* of the relay `number` */
    LG_ROUND_START = 6,
    LG_FORGET = 7, /* the member `name` */
    LG_GOSSIP = 8
};

/* What an answer tells. */
enum lg_told { LG_NOT_ASKED = 0, LG_UNKNOWN = 1, LG_RECORD = 2, LG_HEALTH = 3 };

/* A name: 1 to 32 bytes of A-Z a-z 0-9 . _ -, with no zero at the end. The length 0 is no name. */
typedef struct lg_name {
    uint8_t bytes[LG_MOST_NAME];
    uint8_t length;
} lg_name;

/* An address. The bytes of the IP address are in the order of the network: four, or sixteen. The port is a number. */
typedef struct lg_address {
    uint8_t bytes[16];
    uint16_t port;
    uint8_t family; /* 4 or 6 */
} lg_address;

/* The record of a member. */
typedef struct lg_record {
    lg_name name;
    lg_name accuser; /* of a suspect, and else no name */
    lg_address address;
    uint32_t incarnation;
    uint8_t status; /* an lg_standing */
} lg_record;

/* A member that is known from the start. */
typedef struct lg_seed {
    lg_name name;
    lg_address address;
} lg_seed;

/* The configuration of a member; docs/FORMATS.md has the ranges and the meanings of its numbers. */
typedef struct lg_config {
    uint64_t interval_ms, timeout_ms, indirect, max_score, alpha, beta, confirmations, lambda, nack_thousandths;
    uint64_t history_limit, wire, forget_ms, gossip_ms, gossip_to, first;
    uint64_t seeds_count; /* at most 16 */
    lg_seed seeds[LG_MOST_SEEDS];
    lg_name group; /* or no name */
    lg_name name;
    lg_address address;
} lg_config;

/* A datagram to be sent. */
typedef struct lg_send {
    uint8_t bytes[LG_MOST_BYTES];
    uint32_t length;
    lg_address to;
} lg_send;

/* The timer that fired. */
typedef struct lg_fired {
    uint8_t kind; /* an lg_timer */
    uint32_t number;
    lg_name name;
} lg_fired;

/* The answer to lg_detector_ask or lg_detector_health. */
typedef struct lg_answer {
    uint8_t kind; /* an lg_told */
    uint32_t incarnation;
    uint64_t score, members;
    lg_record record;
} lg_answer;

/* A reply. Places behind the first so many count for nothing. */
typedef struct lg_reply {
    uint64_t next; /* the moment at which the next tick is due */
    bool ousted;   /* a claim has come that nothing can refute: open a new detector under another name */
    uint32_t sends_count, changed_count, forgotten_count;
    lg_fired fired;
    lg_answer answer;
    lg_send sends[LG_MOST_SENDS];
    lg_record changed[LG_MOST_CHANGED];
    lg_name forgotten[LG_MOST_CHANGED];
} lg_reply;

/* A detector, closed or open. Make it of zeros, which is closed. Don't read, change or copy what it holds. */
typedef struct lg_detector {
    void *held;
    bool is_open;
} lg_detector;

/* The symbols of the library. Each takes no null pointer; call the functions below, which refuse them. */
uint32_t lg_c_defaults(lg_config *config, const lg_name *name, const lg_address *address);
uint32_t lg_c_open(lg_detector *detector, const lg_config *config, uint64_t now, lg_reply *reply);
void lg_c_close(lg_detector *detector);
uint32_t lg_c_heard(lg_detector *detector, const uint8_t *bytes, size_t length, const lg_address *source, uint64_t now,
                    lg_reply *reply);
uint32_t lg_c_tick(lg_detector *detector, const uint32_t *words, uint64_t now, lg_reply *reply);
uint32_t lg_c_ask(lg_detector *detector, const lg_name *name, uint64_t now, lg_reply *reply);
uint32_t lg_c_health(lg_detector *detector, uint64_t now, lg_reply *reply);
uint32_t lg_c_pull(lg_detector *detector, const lg_address *peer, uint64_t now, lg_reply *reply);
uint32_t lg_c_leave(lg_detector *detector, const uint32_t *words, uint64_t now, lg_reply *reply);
uint32_t lg_c_members(lg_detector *detector, lg_record *records, size_t room, uint64_t *count);
uint32_t lg_c_next(lg_detector *detector, uint64_t *next);

/* Makes a configuration with the default numbers, no group and no seeds. */
static inline uint32_t lg_config_defaults(lg_config *config, const lg_name *name, const lg_address *address) {
    return config && name && address ? lg_c_defaults(config, name, address) : (uint32_t)LG_NULL;
}

/* Opens a detector that is closed. */
static inline uint32_t lg_detector_new(lg_detector *detector, const lg_config *config, uint64_t now, lg_reply *reply) {
    return detector && config && reply ? lg_c_open(detector, config, now, reply) : (uint32_t)LG_NULL;
}

/* Closes a detector, and frees what it holds. One that is closed stays so. */
static inline void lg_detector_free(lg_detector *detector) {
    if (detector) lg_c_close(detector);
}

/* A datagram came from an address. */
static inline uint32_t lg_detector_heard(lg_detector *detector, const uint8_t *bytes, size_t length,
                                         const lg_address *source, uint64_t now, lg_reply *reply) {
    if (!detector || !bytes || !source || !reply) return LG_NULL;
    return lg_c_heard(detector, bytes, length, source, now, reply);
}

/* Time has passed: at most one timer fires. Call it again while the reply's `next` isn't after `now`. The eight words
 * are random, and fresh each time. */
static inline uint32_t lg_detector_tick(lg_detector *detector, const uint32_t words[LG_WORDS], uint64_t now,
                                        lg_reply *reply) {
    return detector && words && reply ? lg_c_tick(detector, words, now, reply) : (uint32_t)LG_NULL;
}

/* Asks for the record of a name: the reply's `answer`. */
static inline uint32_t lg_detector_ask(lg_detector *detector, const lg_name *name, uint64_t now, lg_reply *reply) {
    return detector && name && reply ? lg_c_ask(detector, name, now, reply) : (uint32_t)LG_NULL;
}

/* Asks for the health score, this member's incarnation and how many members aren't gone: the reply's `answer`. */
static inline uint32_t lg_detector_health(lg_detector *detector, uint64_t now, lg_reply *reply) {
    return detector && reply ? lg_c_health(detector, now, reply) : (uint32_t)LG_NULL;
}

/* Asks the member at an address for its table. */
static inline uint32_t lg_detector_pull(lg_detector *detector, const lg_address *peer, uint64_t now, lg_reply *reply) {
    return detector && peer && reply ? lg_c_pull(detector, peer, now, reply) : (uint32_t)LG_NULL;
}

/* This member leaves its group, for good. */
static inline uint32_t lg_detector_leave(lg_detector *detector, const uint32_t words[LG_WORDS], uint64_t now,
                                         lg_reply *reply) {
    return detector && words && reply ? lg_c_leave(detector, words, now, reply) : (uint32_t)LG_NULL;
}

/* Writes the records of all members, in the order of their names, and how many there are. With LG_NO_ROOM only the
 * count is written. */
static inline uint32_t lg_detector_members(lg_detector *detector, lg_record *records, size_t room, uint64_t *count) {
    return detector && records && count ? lg_c_members(detector, records, room, count) : (uint32_t)LG_NULL;
}

/* Writes the moment at which the next tick is due. */
static inline uint32_t lg_detector_next(lg_detector *detector, uint64_t *next) {
    return detector && next ? lg_c_next(detector, next) : (uint32_t)LG_NULL;
}

#ifdef __cplusplus
}
#endif

#endif
