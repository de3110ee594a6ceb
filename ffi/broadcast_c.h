/* The functions of libbroadcast_c.a: a store, which caches messages that the caller keeps; the wire
 * format of a message; the log of an author, which a relay keeps; coverages, which say what a relay has
 * had; buckets, which say what a rate allows; counters; and SHA-256.
 *
 * `make install PREFIX=..` installs the library, and its file of pkg-config says how a program is
 * linked. Without that compile ffi/heap.c with the program, by which the library allocates, and name
 * rust/broadcast-node/lib/TARGET/libbroadcast_c.a. On x86-64 the library needs x86-64-v2 (processors
 * from 2009 on).
 *
 * Nothing checks a call from C. A caller makes sure of this:
 *  - A `broadcast_store` or `broadcast_log` is all zeros before its first call, and is read and written
 *    by these functions only. It may be moved, and is never copied: two copies free twice.
 *  - No pointer is NULL, except one whose count is 0. Nothing changes what a pointer to const leads to
 *    during the call. Any other pointer leads to something initialised (a buffer `out` need not be:
 *    no function reads one), which nothing else uses during the call, and which overlaps nothing. A
 *    `bool` is 0 or 1.
 *  - There is one call at a time for each store and each log. Calls may come from several threads.
 *  - There is no call from a signal handler, or in the forked child of a process with threads.
 *
 * A length `x_len` is the number of elements of the array `x`: of bytes only if `x` points to bytes,
 * else of tickets, handles, keys, digests, stamps or spans, as each comment says.
 *
 * A function that fills the buffer `out` of `out_len` elements copies what there is to the front of
 * the buffer, as far as there is room, and leaves the rest of it. The function sets `needed` to the
 * number of elements that there are, and returns SHORT if that is more than `out_len`.
 */
#ifndef BROADCAST_C_H
#define BROADCAST_C_H

#include <stdbool.h>
#include <stddef.h>
#include <stdint.h>

#ifdef __cplusplus
extern "C" {
#endif

/* The version of these functions. It changes whenever one of them does, so a caller compares it with
 * `broadcast_c_version()` once. */
#define BROADCAST_VERSION 9

/* The status that a call returns. After any other than OK and WAITS the store or log is as it was. After
 * EMPTY, MEMORY, NONE, TOO_LONG and NO_COVERAGE so is each variable that the call could have set, and
 * after SHORT of the functions of a log each but `needed`. */
enum {
    BROADCAST_OK = 0,
    BROADCAST_MEMORY = 1,         /* an allocation failed */
    BROADCAST_EMPTY = 2,          /* there is no store or log: it was not made, or was freed */
    BROADCAST_NONE = 3,           /* no message of the digest is cached, the stamp was not had, there is no
                                   * stamp or message of the kind, or tokens are never there */
    BROADCAST_SHORT = 4,          /* the buffer is too short */
    BROADCAST_WAITS = 5,          /* the ticket waits */
    BROADCAST_TOO_LONG = 6,       /* the message has more than 4,294,967,295 bytes */
    BROADCAST_END_OF_BUFFER = 7,  /* the packet ends too early */
    BROADCAST_INVALID_LENGTH = 8, /* the packet's message is longer than allowed */
    BROADCAST_EXTRA_DATA = 9,     /* bytes follow the packet's message */
    BROADCAST_NO_COVERAGE = 10    /* the spans are no coverage */
};

/* The outcome of taking a message under a key. */
enum {
    BROADCAST_INSERTED = 0,   /* its digest was inserted at the front of the key's list */
    BROADCAST_DUPLICATE = 1,  /* its digest was on the list, and was moved to the front */
    BROADCAST_INELIGIBLE = 2, /* the key is not primary; no list changed */
    BROADCAST_OVERSIZE = 3    /* it is charged more than the byte budget; no list changed */
};

/* What becomes of a message that arrives at a log. */
enum {
    BROADCAST_LISTED = 0,       /* it is new, and on the list */
    BROADCAST_PASSED = 1,       /* it is new, but has no room beside the later ones: it and all earlier
                                 * ones are up to the floor now */
    BROADCAST_REFUSED = 2,      /* its stamp is up to the floor or listed, or no later than `prev` */
    BROADCAST_ABOVE_BUDGET = 3, /* it is charged more than the budget by itself */
    BROADCAST_UNTIMELY = 4      /* its stamp is later than `latest` */
};

/* What is counted beside the outcomes. */
enum {
    BROADCAST_INVALID = 4 /* a payload that does not decode */
};

typedef struct {
    void *at;
    bool full;
} broadcast_store;

typedef struct {
    void *at;
    bool full;
} broadcast_log;

/* A key of up to 64 bytes: its bytes, then zeros, and its length in the last byte. */
typedef struct {
    uint8_t bytes[65];
} broadcast_name;

typedef struct {
    size_t cached;  /* cached messages */
    size_t awaited; /* digests that have waiters */
} broadcast_counts;

typedef struct {
    uint32_t outcome;
    bool kept;     /* whether the message is cached, and no message of its digest was */
    size_t served; /* how many tickets `broadcast_store_served` copies */
    size_t cached; /* cached messages */
    size_t left;   /* evicted messages whose handles were not moved out */
} broadcast_stored;

/* The numbers of payloads by what happened to them. Each stops at UINT64_MAX. */
typedef struct {
    uint64_t inserted;
    uint64_t duplicate;
    uint64_t ineligible;
    uint64_t oversize;
    uint64_t invalid;
} broadcast_counters;

/* Where the message of a packet is. */
typedef struct {
    size_t offset; /* the bytes in front of the message */
    size_t length; /* the bytes of the message */
} broadcast_place;

/* The stamps after `from` and up to `to`. */
typedef struct {
    uint64_t from;
    uint64_t to;
} broadcast_span;

/* A message of an author, as a log keeps it. A log charges it `bytes` and 64 more. */
typedef struct {
    uint64_t prev;   /* the stamp of the author's message before it */
    uint64_t stamp;  /* its own stamp */
    uint64_t bytes;  /* its size */
    uint64_t handle; /* the caller's name for it */
} broadcast_message;

/* What a bucket lacks to be full, counted in billionths of a token, is `high` times 2 to the 64th, and
 * `low`. All values of the fields are buckets: {rate, burst, now, 0, 0} is a full one. */
typedef struct {
    uint64_t rate;  /* the tokens that it gains in a second */
    uint64_t burst; /* the most tokens that it has */
    uint64_t at;    /* the time at which it lacked that */
    uint64_t low;
    uint64_t high;
} broadcast_bucket;

/* Returns the version of these functions. */
uint32_t broadcast_c_version(void);
/* Computes the SHA-256 of `bytes_len` bytes. */
void broadcast_sha256(const uint8_t *bytes, size_t bytes_len, uint8_t out[32]);

/* ---- The wire format: the length of the message in four bytes, highest first, and then the message.
 * Neither call allocates. ---- */

/* Reads a packet of `bytes_len` bytes whose message has at most `max_len` bytes. OK: the message is the
 * `out.length` bytes at `out.offset`. INVALID_LENGTH: `out.length` is the length that the packet has in front.
 * EXTRA_DATA: `out.length` is the number of bytes that follow the message. END_OF_BUFFER: `out` is
 * unchanged. Of several errors the first in reading order is returned: INVALID_LENGTH also if the
 * message is not complete. */
uint32_t broadcast_packet_read(const uint8_t *bytes, size_t bytes_len, size_t max_len,
                               broadcast_place *out);
/* Writes the four bytes that stand in front of a message of `len` bytes: OK or TOO_LONG. */
uint32_t broadcast_packet_head(size_t len, uint8_t out[4]);

/* ---- A store. It knows a message by a handle, which the caller chooses, and by the number of bytes
 * that the caller charges for it. After any calls, of which those that failed do not count, a store has
 * what their history gives: this is proved (`store_law` in crates/broadcast_c/src/laws.rt). ---- */

/* Makes a store for the node `own`, which lists at most `deque_size` digests for each peer, charged
 * at most `byte_budget` together. Frees the store that was there. */
uint32_t broadcast_store_new(broadcast_store *store, const broadcast_name *own, size_t deque_size,
                             uint64_t byte_budget);
/* Frees the store. It is empty then, and freeing it again does nothing. */
void broadcast_store_free(broadcast_store *store);
/* Makes the `names_len` keys the primary ones. They may come in any order, and repeat. An empty set
 * never fails. */
uint32_t broadcast_store_peers(broadcast_store *store, const broadcast_name *names,
                               size_t names_len);
/* Takes the message of the handle under the key `peer`, charged `charge` bytes. The message is cached if a list has its
 * digest then and none had before. It is evicted when its digest leaves the last list. */
uint32_t broadcast_store_take(broadcast_store *store, const broadcast_name *peer,
                              const uint8_t digest[32], size_t charge, uint64_t handle,
                              broadcast_stored *out);
/* Takes the message as `broadcast_store_take` does, and counts its outcome in `counters`, which the
 * caller keeps for the peer. If the status is not OK, nothing is counted. */
uint32_t broadcast_store_receive(broadcast_store *store, const broadcast_name *peer,
                                 const uint8_t digest[32], size_t charge, uint64_t handle,
                                 broadcast_counters *counters, broadcast_stored *out);
/* Copies the tickets that the last taken message served, in the order of their subscribes. `out` has
 * room for `out_len` tickets. */
uint32_t broadcast_store_served(broadcast_store *store, uint64_t *out, size_t out_len,
                                size_t *needed);
/* Moves the handles of evicted messages to the front of `out`, which has room for `out_len` handles, and
 * sets `moved` to their number: OK. Those that were evicted last come first; of several that one call
 * evicted no order is promised. A take that was OK or a peer set evicts each message that was cached
 * before it and is not after it, once; a message that was never cached is not evicted. Never fails for
 * memory. */
uint32_t broadcast_store_left(broadcast_store *store, uint64_t *out, size_t out_len,
                              size_t *moved);
/* Sets `handle` to that of the cached message: OK or NONE. */
uint32_t broadcast_store_get(broadcast_store *store, const uint8_t digest[32], uint64_t *handle);
/* Lets the ticket wait: WAITS, or OK if the message is cached. */
uint32_t broadcast_store_subscribe(broadcast_store *store, uint64_t ticket,
                                   const uint8_t digest[32]);
/* Drops the waiters with these `tickets_len` tickets, and sets `removed` to their number. */
uint32_t broadcast_store_cleanup(broadcast_store *store, const uint64_t *tickets,
                                 size_t tickets_len, uint64_t *removed);
/* Drops the waiters of `digest` with these `tickets_len` tickets, and sets `removed` to their number.
 * Looks at the waiters of that digest only. */
uint32_t broadcast_store_cleanup_of(broadcast_store *store, const uint8_t digest[32],
                                    const uint64_t *tickets, size_t tickets_len,
                                    uint64_t *removed);
/* Sets `out` to whether the key is primary. */
uint32_t broadcast_store_is_primary(broadcast_store *store, const broadcast_name *peer, bool *out);
/* Sets `out` to the bytes that the list of `peer` is charged, at most the byte budget. */
uint32_t broadcast_store_bytes(broadcast_store *store, const broadcast_name *peer, uint64_t *out);
/* Copies the digests on the list of `peer`, newest first. `out` has room for `out_len` digests of 32
 * bytes each, and `needed` counts digests. */
uint32_t broadcast_store_list(broadcast_store *store, const broadcast_name *peer, uint8_t (*out)[32],
                              size_t out_len, size_t *needed);
/* Reports the sizes of the store. */
uint32_t broadcast_store_count(broadcast_store *store, broadcast_counts *out);

/* ---- Coverages: which stamps of an author a relay has had. A coverage has all stamps from 1 to
 * `floor`, and those of at most 63 spans: the first begins after `floor`, each other one after the end
 * of the one before it, and each has a stamp. A call returns NO_COVERAGE if and only if what is passed
 * is not so. `spans_len` and `others_len` count spans. No call allocates. ---- */

/* Reports whether the stamp was had: OK, NONE or NO_COVERAGE. The stamp 0 never was. */
uint32_t broadcast_coverage_has(uint64_t floor, const broadcast_span *spans, size_t spans_len,
                                uint64_t stamp);
/* Sets `stamp` to the least one after `above` and up to `upto` that the other coverage has and the
 * first lacks: OK, NONE or NO_COVERAGE. */
uint32_t broadcast_coverage_missing(uint64_t floor, const broadcast_span *spans, size_t spans_len,
                                    uint64_t other_floor, const broadcast_span *others,
                                    size_t others_len, uint64_t above, uint64_t upto,
                                    uint64_t *stamp);

/* ---- The log of an author: the newest of its messages that fit a budget of bytes, in whatever order,
 * how often and from whomever they come. Each message is charged its size and 64 bytes more. Up to the
 * floor nothing is listed any more, and above it all that came and fits together with all later ones.
 * The relays of a network need one budget. A call returns EMPTY if there is no log. `left_len` counts
 * handles, `in_flight_len` stamps, `spans_len` and `out_len` spans. ---- */

/* Makes the log of an author of whom nothing came: OK or MEMORY. Frees the log that was there. `budget`
 * is in bytes. */
uint32_t broadcast_log_new(broadcast_log *log, uint64_t budget);
/* Frees the log. It is empty then, and freeing it again does nothing. */
void broadcast_log_free(broadcast_log *log);
/* Takes a message that arrives, if its stamp is no later than `latest`: OK, SHORT, MEMORY or EMPTY. Sets
 * `arrived` to what becomes of the message, copies the handles of those that leave the list for it to
 * the front of `left`, the earliest first and its own among them if it is PASSED, and sets `needed` to
 * their number. If that is more than `left_len`, the status is SHORT, the log is as it was, and only
 * `needed` is set. */
uint32_t broadcast_log_arrive(broadcast_log *log, const broadcast_message *message, uint64_t latest,
                              uint64_t *left, size_t left_len, size_t *needed, uint32_t *arrived);
/* Reports whether the stamp is up to the floor, or listed, so that what comes of it is refused: OK or
 * NONE. */
uint32_t broadcast_log_has(broadcast_log *log, uint64_t stamp);
/* Sets `out` to the listed message at the index, from 0 on in order of stamps: OK or NONE. */
uint32_t broadcast_log_get(broadcast_log *log, size_t index, broadcast_message *out);
/* Sets `out` to the listed message of the stamp: OK or NONE. */
uint32_t broadcast_log_find(broadcast_log *log, uint64_t stamp, broadcast_message *out);
/* Sets `floor` to that of the log, `len` to the number of listed messages, and `bytes` to what they are
 * charged, at most the budget. */
uint32_t broadcast_log_count(broadcast_log *log, uint64_t *floor, size_t *len, uint64_t *bytes);
/* Sets `floor`, and copies the spans above it to `out`: the coverage that is reported to a peer. It has
 * only what the log's floor and its messages, each from `prev` on, cover, and of the messages exactly
 * those up to its top. Room for 63 spans is enough: OK or SHORT. After SHORT only `needed` is set. */
uint32_t broadcast_log_report(broadcast_log *log, uint64_t *floor, broadcast_span *out, size_t out_len,
                              size_t *needed);
/* Sets `out` to the message that a peer which reported this coverage is sent next, if the bytes `flying`
 * are less than `room`: the earliest that the peer lacks and whose stamp is not in flight. OK, NONE or
 * NO_COVERAGE. Up to the top of the coverage, the peer lacks what the coverage has not; above it, what
 * is later than `sent`: the greatest stamp above the top of a report that was sent on this connection,
 * at first 0. The stamps in flight may come in any order; if they rise, the call is fast. */
uint32_t broadcast_log_next(broadcast_log *log, uint64_t floor, const broadcast_span *spans,
                            size_t spans_len, uint64_t sent, const uint64_t *in_flight,
                            size_t in_flight_len, uint64_t flying, uint64_t room,
                            broadcast_message *out);
/* Sets `bytes` to what the listed messages are charged that the coverage has not: OK or NO_COVERAGE. */
uint32_t broadcast_log_lag(broadcast_log *log, uint64_t floor, const broadcast_span *spans,
                           size_t spans_len, uint64_t *bytes);

/* ---- Buckets: what a rate allows. Times are nanoseconds of one clock; one that is before `at` counts
 * as `at`. A bucket may be overdrawn: what it gains pays the debt first. A caller that charges only
 * while the level is above 0 spends in any period at most `burst`, `rate` for the period, and one
 * charge. No call allocates. ---- */

/* Returns the whole tokens that the bucket has at this time: 0 while it is overdrawn. */
uint64_t broadcast_bucket_level(const broadcast_bucket *bucket, uint64_t now);
/* Charges `cost` tokens at this time, also if the bucket does not have them. */
void broadcast_bucket_charge(broadcast_bucket *bucket, uint64_t now, uint64_t cost);
/* Sets `at` to the first time from `now` on at which the bucket has `cost` tokens, if none are charged
 * meanwhile: OK, or NONE if there is no such time before 2 to the 64th. */
uint32_t broadcast_bucket_ready(const broadcast_bucket *bucket, uint64_t now, uint64_t cost,
                                uint64_t *at);

/* ---- Counters, which are all zeros at first. ---- */

/* Counts what was not taken: `what` is an outcome or INVALID. Another number counts nothing. */
void broadcast_counters_count(broadcast_counters *counters, uint32_t what);
/* Adds the numbers of `more`. */
void broadcast_counters_add(broadcast_counters *counters, const broadcast_counters *more);

#ifdef __cplusplus
}
#endif

#endif
