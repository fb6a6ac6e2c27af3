/* Peers of the Data Distribution Service, for C, C++ and whatever calls C: docs/C.md says what is proved of them.
 *
 * A peer does no input and no output and knows no time: what comes to it is told by these calls, and what it sends is
 * fetched from it.
 *
 * What a caller owes; nothing checks it.
 *  - A cw_peer is as CW_PEER_NONE or as a call left it. It may be moved between calls, but is no copy of one that is still
 *    used. It may go from thread to thread.
 *  - Pointers are valid, aligned and not NULL, but for one that goes with a length of 0. What they point to is initialized
 *    for the whole length, also where it is only written to. No two pointers of a call overlap. A bool is 0 or 1.
 *  - malloc, realloc and free are of one allocator, which aligns as usual. No call comes from a signal handler, or from
 *    the forked child of a process with threads.
 *  - No prefix is used again. A peer that is opened under the prefix of an earlier one begins to count at 1, and the others
 *    take its changes for ones that they had: as many as the earlier one wrote are lost, with no code and no status. So a
 *    process that starts anew takes a new prefix, and the others meet it or open anew: examples/c/meeting.c, restart.c.
 * All else is answered by a code: a peer that is not open, or closed twice; a call while another thread's is under way; NULL
 * with a length above 0; a number, an index, a length, a mask or octets of any value; memory that is refused. */
#ifndef CINCHWALNUT_H
#define CINCHWALNUT_H

#include <stdbool.h>
#include <stddef.h>
#include <stdint.h>

#ifdef __cplusplus
extern "C" {
#endif

/* Asked of a compiler: which parameters are not NULL, by their numbers from 1. */
#if defined(__GNUC__)
#define CW_NONNULL(...) __attribute__((nonnull(__VA_ARGS__)))
#else
#define CW_NONNULL(...)
#endif

/* A peer that is open, or none, in the memory of the caller: CW_PEER_NONE at first, and from then on only its address is
 * handed on. */
typedef struct cw_peer {
    bool is_open;
    void *held;
    uint8_t is_busy; /* whether a call is under way; the library does not know of it, but this header */
} cw_peer;

#define CW_PEER_NONE {false, NULL, 0}

/* Times and leases are in units of 2^-32 second. CW_MS takes a number of milliseconds below 2^35, which is a year. */
#define CW_SECOND ((uint64_t)1 << 32)
#define CW_MS(n) (((uint64_t)(n) << 29) / 125)

/* Return codes: those of DDS 1.4, 2.3.3, CW_MEMORY and CW_BUSY. A call that answers another one than CW_OK has changed
 * nothing, but for what docs/C.md says of CW_NO_DATA and of CW_TIMEOUT. */
enum {
    CW_OK = 0,
    CW_BAD_PARAMETER = 3,
    CW_PRECONDITION_NOT_MET = 4, /* also: no peer is open */
    CW_OUT_OF_RESOURCES = 5,     /* of a fetch: the buffer is too short */
    CW_INCONSISTENT_POLICY = 8,
    CW_TIMEOUT = 10,
    CW_NO_DATA = 11,             /* of a fetch: the last answer has nothing of the kind */
    CW_MEMORY = 100,
    CW_BUSY = 102                /* another call of this peer is under way, in another thread; try again */
};

/* A code as it is spelt here. */
static inline const char *cw_code_name(uint8_t code) {
    switch (code) {
    case CW_OK: return "CW_OK";
    case CW_BAD_PARAMETER: return "CW_BAD_PARAMETER";
    case CW_PRECONDITION_NOT_MET: return "CW_PRECONDITION_NOT_MET";
    case CW_OUT_OF_RESOURCES: return "CW_OUT_OF_RESOURCES";
    case CW_INCONSISTENT_POLICY: return "CW_INCONSISTENT_POLICY";
    case CW_TIMEOUT: return "CW_TIMEOUT";
    case CW_NO_DATA: return "CW_NO_DATA";
    case CW_MEMORY: return "CW_MEMORY";
    case CW_BUSY: return "CW_BUSY";
    default: return "no code of cinchwalnut.h";
    }
}

/* The states of samples (DDS 1.4, 2.3.3). */
enum {
    CW_READ = 1,
    CW_NOT_READ = 2,
    CW_NEW = 1,
    CW_NOT_NEW = 2,
    CW_ALIVE = 1,
    CW_NOT_ALIVE_DISPOSED = 2,
    CW_NOT_ALIVE_NO_WRITERS = 4,
    CW_ANY = 65535
};

/* A peer of a configuration, numbered from 1 in their order: what its GUIDs begin with (RTPS 2.5, 8.2), not twelve zeros,
 * and no other peer's. */
typedef struct cw_peer_config {
    uint8_t prefix[12];
} cw_peer_config;

/* A writer of a configuration (DDS 1.4, 2.2.3). The writers of a peer are numbered from 1 in their order. */
typedef struct cw_writer_config {
    uint32_t peer;        /* the number of its peer */
    uint8_t entity[4];    /* three octets of a key, and 0x02 */
    bool is_exclusive;    /* OWNERSHIP: EXCLUSIVE, else SHARED */
    bool keeps_last;      /* HISTORY: KEEP_LAST with depth, else KEEP_ALL */
    bool has_lease;       /* LIVELINESS: lease, else without end */
    bool autodispose;     /* WRITER_DATA_LIFECYCLE */
    bool is_best_effort;  /* RELIABILITY: BEST_EFFORT, else RELIABLE */
    uint32_t topic;       /* writers and readers of equal numbers match */
    uint32_t depth;       /* from 1, where keeps_last */
    int32_t max_samples;  /* RESOURCE_LIMITS: positive, or -1 for no limit */
    int32_t strength;     /* OWNERSHIP_STRENGTH at first, where is_exclusive */
    uint32_t max_value;   /* how many octets a value has at most: 1 to 65,000, or 0 for 1,024 */
    uint64_t lease;       /* in units of 2^-32 second, from 1 to 2^63 - 1, where has_lease */
} cw_writer_config;

/* A reader of a configuration, likewise; its entity ends with 0x07, and it takes writers whose lease and whose max_value are
 * no greater, and reliable ones alone where it is reliable. */
typedef struct cw_reader_config {
    uint32_t peer;
    uint8_t entity[4];
    bool is_exclusive;
    bool keeps_last;
    bool has_lease;
    bool is_best_effort;   /* RELIABILITY: BEST_EFFORT, else RELIABLE */
    bool has_max_arrivals; /* how many changes it takes in its life: max_arrivals, else 2^31 - 2 */
    uint32_t topic;
    uint32_t depth;
    int32_t max_samples;
    int32_t max_instances; /* RESOURCE_LIMITS: positive, or -1 for no limit */
    uint32_t max_value;
    uint64_t lease;
    uint64_t max_arrivals; /* from 1 to 2^63, where has_max_arrivals */
} cw_reader_config;

/* DDS 1.4, 2.2.2.5 (SampleInfo), with the key of the sample. */
typedef struct cw_sample_info {
    uint8_t key[16];
    uint64_t source_timestamp; /* in units of 2^-32 second */
    uint64_t instance_handle; /* of the life of its instance: no handle is given to two, and it is unknown once that ended */
    uint64_t publication_handle;
    uint64_t disposed_generation_count;
    uint64_t no_writers_generation_count;
    uint64_t sample_rank;
    uint64_t generation_rank;
    uint64_t absolute_generation_rank;
    uint32_t sample_state;
    uint32_t view_state;
    uint32_t instance_state;
    bool valid_data;
} cw_sample_info;

/* DDS 1.4, 2.2.4.1: SAMPLE_LOST, LIVELINESS_LOST. */
typedef struct cw_total_status {
    uint64_t total_count;
    uint64_t total_count_change;
} cw_total_status;

/* DDS 1.4, 2.2.4.1: LIVELINESS_CHANGED. */
typedef struct cw_changed_status {
    int32_t alive_count;
    int32_t not_alive_count;
    int32_t alive_count_change;
    int32_t not_alive_count_change;
    uint64_t last_publication_handle; /* 0 for none */
} cw_changed_status;

/* DDS 1.4, 2.2.4.1: PUBLICATION_MATCHED of a writer, SUBSCRIPTION_MATCHED of a reader. */
typedef struct cw_matched_status {
    uint64_t total_count;
    uint64_t total_count_change;
    int64_t current_count;
    int64_t current_count_change;
    uint32_t last_peer;  /* the peer of the reader or writer with which the last match was made or ended, 0 for none */
    uint8_t last_number; /* its number there */
} cw_matched_status;

/* The participant, a writer or a reader: the kind of an entity. */
enum {
    CW_PARTICIPANT = 0, /* of number 0 */
    CW_WRITER = 1,
    CW_READER = 2
};

/* Communication statuses, as bits (DDS 1.4, 2.3.3). */
enum {
    CW_SAMPLE_LOST = 128,
    CW_DATA_AVAILABLE = 1024,
    CW_LIVELINESS_LOST = 2048,
    CW_LIVELINESS_CHANGED = 4096,
    CW_PUBLICATION_MATCHED = 8192,
    CW_SUBSCRIPTION_MATCHED = 16384
};

/* That a status of an entity was raised, with its values; those that the status does not have are 0. */
typedef struct cw_notice_info {
    uint8_t entity_kind;
    uint8_t entity_number;
    uint32_t status;
    cw_total_status total;
    cw_changed_status changed;
    cw_matched_status matched;
} cw_notice_info;

/* Opens a peer of a configuration, by its number; what was open before is closed. A refusal changes nothing. */
uint8_t cw_open(cw_peer *peer, const cw_peer_config *peers, size_t peers_len, const cw_writer_config *writers,
                size_t writers_len, const cw_reader_config *readers, size_t readers_len, uint32_t number);
/* The same of a configuration in lines "peer ..", "writer ..", "reader .." of docs/PIPE.md. */
uint8_t cw_open_text(cw_peer *peer, const uint8_t *text, size_t text_len, uint32_t number);
/* Frees what the peer holds: none is open then. Where none was, or another call is under way, it does nothing. */
void cw_close(cw_peer *peer);

/* Why a configuration is refused: the code, the rule that it breaks and what breaks it. */
typedef struct cw_fault {
    uint8_t code;    /* what cw_open answers */
    uint8_t rule;    /* one of CW_RULE_.. */
    uint8_t place;   /* one of CW_PLACE_.. */
    uint64_t peer;   /* its number, 0 for none */
    uint64_t number; /* that of the writer or the reader, 0 for none */
} cw_fault;

enum {
    CW_PLACE_WHOLE = 0,
    CW_PLACE_PEER = 1,
    CW_PLACE_WRITER = 2,
    CW_PLACE_READER = 3
};

enum {
    CW_RULE_NAMED_PEER = 0,            /* a writer or a reader names a peer that there is */
    CW_RULE_PEER_COUNT = 1,            /* there are 1 to 16 peers */
    CW_RULE_WRITER_COUNT = 2,          /* a peer has at most 16 writers */
    CW_RULE_READER_COUNT = 3,          /* a peer has at most 16 readers */
    CW_RULE_KNOWN_PREFIX = 4,          /* a prefix is not twelve zeros */
    CW_RULE_OWN_PREFIX = 5,            /* no two peers have one prefix */
    CW_RULE_OWN_ENTITY = 6,            /* no two ends of a peer have one entity */
    CW_RULE_ENTITY_KIND = 7,           /* a writer's entity ends with 0x02, a reader's with 0x07 */
    CW_RULE_DEPTH = 8,                 /* a depth is not 0 */
    CW_RULE_MAX_SAMPLES = 9,           /* max_samples is -1 or positive */
    CW_RULE_MAX_INSTANCES = 10,        /* max_instances is -1 or positive */
    CW_RULE_MAX_ARRIVALS = 11,         /* max_arrivals is from 1 to 2^63 */
    CW_RULE_LEASE = 12,                /* a lease is from 1 to 2^63 - 1 */
    CW_RULE_DEPTH_WITHIN_MAXIMUM = 13, /* a depth is at most max_samples */
    CW_RULE_SAME_OWNERSHIP = 14,       /* each matched writer has the reader's ownership */
    CW_RULE_OFFERED_LEASE = 15,        /* no matched writer has a longer lease than the reader asks for */
    CW_RULE_MAX_VALUE = 16,            /* max_value is at most 65,000 */
    CW_RULE_OFFERED_VALUE = 17,        /* no matched writer has a greater max_value than the reader */
    CW_RULE_OFFERED_RELIABILITY = 18   /* no matched writer of a reliable reader is best-effort */
};

/* Which rule a configuration breaks first, and where, and a sentence that says it, such as "reader 1 of peer 2: its depth is
 * 0": copied as a fetch copies it, *fault also where the buffer is too short. CW_NO_DATA where it breaks none. */
uint8_t cw_config_fault(const cw_peer_config *peers, size_t peers_len, const cw_writer_config *writers,
                        size_t writers_len, const cw_reader_config *readers, size_t readers_len, cw_fault *fault,
                        uint8_t *buffer, size_t buffer_len, size_t *needed);
/* Why cw_open_text refuses a text, whichever peer is asked for, and why cw_line takes a line for none: in words, likewise.
 * CW_NO_DATA where it is one. */
uint8_t cw_text_fault(const uint8_t *text, size_t text_len, uint8_t *buffer, size_t buffer_len, size_t *needed);
uint8_t cw_line_fault(const uint8_t *line, size_t line_len, uint8_t *buffer, size_t buffer_len, size_t *needed);
/* The sum of a configuration, equal of equal ones: for processes to compare before their peers talk, as no call fails where
 * their tables differ. CW_BAD_PARAMETER where a writer or a reader names no peer. */
uint8_t cw_config_sum(const cw_peer_config *peers, size_t peers_len, const cw_writer_config *writers,
                      size_t writers_len, const cw_reader_config *readers, size_t readers_len, uint64_t *sum);

/* What a datagram holds that would be nothing to a peer, as it stands before the datagram is delivered. */
typedef struct cw_observed {
    uint64_t old_data;       /* DATA whose number a reader is past, one for each such reader */
    uint64_t old_heartbeats; /* HEARTBEATs whose count is not later than that of the last one that a reader took, likewise */
    uint64_t to_nobody;      /* DATA, GAPs, HEARTBEATs and ACKNACKs for this peer that concern no reader and no writer of it */
} cw_observed;

/* Asked before cw_deliver, which changes the answer; it changes nothing itself. A process that opened its peer anew under its
 * old prefix sends old DATA and HEARTBEATs, as datagrams that come twice are; to nobody is what is sent by another table. */
uint8_t cw_observe(cw_peer *peer, const uint8_t *datagram, size_t datagram_len, cw_observed *observed);
/* The same, with the old DATA and HEARTBEATs of one writer alone, by its peer and its number there; what is to nobody is
 * counted as before. */
uint8_t cw_observe_writer(cw_peer *peer, uint32_t writer_peer, uint8_t writer, const uint8_t *datagram, size_t datagram_len,
                          cw_observed *observed);

/* Adds what one more datagram held: a count for each writer is such a sum. */
static inline void cw_observed_add(cw_observed *sum, const cw_observed *more) {
    sum->old_data += more->old_data;
    sum->old_heartbeats += more->old_heartbeats;
    sum->to_nobody += more->to_nobody;
}

/* What the topic of a writer carries: the datum of this project, or another type. */
enum {
    CW_DATUM = 0,
    CW_KEYLESS = 1, /* a type without a key: its key is sixteen zeros */
    CW_CDR = 2,     /* one with key fields, in CDR; of more than sixteen octets its key is their MD5 */
    CW_CDR2 = 3,    /* likewise in CDR2 */
    CW_PARAMETER_LIST = 4 /* a list of parameters: its key is the GUID that it names, of an endpoint or of a participant */
};

/* A key field of a type: it stands at one place in every value. */
typedef struct cw_key_field {
    uint32_t place; /* how many octets of the body, which follows the four of representation and options, stand before it */
    uint8_t size;   /* how many octets it takes: 1, 2, 4 or 8 */
} cw_key_field;

typedef struct cw_writer_kind {
    uint8_t prefix[12];
    uint8_t entity[4];
    uint8_t kind;         /* CW_DATUM, .. */
    uint32_t first_field; /* of CW_CDR and CW_CDR2: how many fields of the array stand before its own, */
    uint32_t field_count; /* and how many are its own, at least one */
    uint32_t max_value;   /* how many octets a value of it has at most: 1 to 65,000, or 0 for 1,024 */
} cw_writer_kind;

/* Values of other types, which a peer reads as a datum whose value is the payload: representation, options and body. A
 * datagram of the network goes through cw_inward before cw_deliver, one of cw_packet through cw_outward before it is sent.
 * What is to be handed on is copied to the start of the buffer, at most 65,507 octets; it is the datagram itself where the
 * answer is CW_NO_DATA. With gaps a GAP stands in place of the number of a DATA of another type than the datum whose payload
 * a peer could not read, and of a DATA_FRAG of any writer of the table: else it is asked for again and again.
 * CW_BAD_PARAMETER where the arrays are no table; CW_OUT_OF_RESOURCES with *needed = 0 where what is to be handed on would
 * be longer than a message may be: it is as one that was lost. */
uint8_t cw_inward(const cw_writer_kind *kinds, size_t kinds_len, const cw_key_field *fields, size_t fields_len, bool with_gaps,
                  const uint8_t *datagram, size_t datagram_len, uint8_t *buffer, size_t buffer_len, size_t *needed);
uint8_t cw_outward(const cw_writer_kind *kinds, size_t kinds_len, const cw_key_field *fields, size_t fields_len,
                   const uint8_t *datagram, size_t datagram_len, uint8_t *buffer, size_t buffer_len, size_t *needed);

/* Events. Each makes the last answer anew: its packets, its samples, its values and its text. Where there was none, for
 * want of memory for a copy of its value, or of an open peer, or as a line names none, the answer before stays.
 *
 * A datagram comes, whatever its octets are; the time goes on, in units of 2^-32 second; the places of a reader are tried
 * again, as after a take that made room: what it holds comes as far as there is room, and nothing is sent. */
uint8_t cw_deliver(cw_peer *peer, const uint8_t *datagram, size_t datagram_len);
uint8_t cw_tick(cw_peer *peer, uint64_t now);
uint8_t cw_resume(cw_peer *peer, uint8_t reader);

/* Calls of a writer, by its number (DDS 1.4, 2.2.2.4); a value has at most as many octets as
 * the max_value of its writer says. */
uint8_t cw_register(cw_peer *peer, uint8_t writer, const uint8_t key[16]);
uint8_t cw_write(cw_peer *peer, uint8_t writer, const uint8_t key[16], const uint8_t *value, size_t value_len);
uint8_t cw_dispose(cw_peer *peer, uint8_t writer, const uint8_t key[16]);
uint8_t cw_unregister(cw_peer *peer, uint8_t writer, const uint8_t key[16]);
uint8_t cw_assert_liveliness(cw_peer *peer, uint8_t writer);
uint8_t cw_set_strength(cw_peer *peer, uint8_t writer, int32_t strength);
uint8_t cw_get_liveliness_lost_status(cw_peer *peer, uint8_t writer);
/* The writer is told that it is matched with a reader from now on, or no longer, by the reader's peer and number there (RTPS
 * 2.5, 8.4.7.4). It waits for none that left, and sends a reader nothing that it wrote before their match. One that is
 * matched by cw_greet_reader is told no more than where it begins until it has answered: so a reader that takes the first
 * HEARTBEAT which it hears as its start, as those of other products do, misses nothing that is written after the match. */
uint8_t cw_match_reader(cw_peer *peer, uint8_t writer, uint32_t reader_peer, uint8_t reader);
uint8_t cw_greet_reader(cw_peer *peer, uint8_t writer, uint32_t reader_peer, uint8_t reader);
uint8_t cw_unmatch_reader(cw_peer *peer, uint8_t writer, uint32_t reader_peer, uint8_t reader);
/* The same of a reader that no configuration has to list: of another topic, or of a peer that came later. The caller gives the
 * number of its peer, from 1 in 32 bits, one for each GUID prefix, and its number there, from 1 in 8 bits: by them it is known
 * from then on, to cw_unmatch_reader too, and its packets are for that peer. Its entity ends with 0x07; it is reliable unless
 * is_best_effort, and that stays. is_greeted: as by cw_greet_reader. Whether it fits the writer the caller has to know.
 * CW_BAD_PARAMETER where there is no such writer, a number is 0, the prefix is twelve zeros, the entity is no reader's, or
 * numbers, GUID and RELIABILITY are not those that are known; CW_PRECONDITION_NOT_MET where the two are matched;
 * CW_OUT_OF_RESOURCES where the writer knows 16 other readers of that peer, or 2^31 - 1 others. */
uint8_t cw_meet_reader(cw_peer *peer, uint8_t writer, uint32_t reader_peer, uint8_t reader, const uint8_t prefix[12],
                       const uint8_t entity[4], bool is_best_effort, bool is_greeted);
uint8_t cw_get_publication_matched_status(cw_peer *peer, uint8_t writer);

/* Calls of a reader, by its number (DDS 1.4, 2.2.2.5). max is how many samples at most, -1 for all; the masks are sums of
 * states, or CW_ANY. Conditions are made by lines. */
uint8_t cw_read(cw_peer *peer, uint8_t reader, int32_t max, uint32_t samples, uint32_t views, uint32_t instances);
uint8_t cw_take(cw_peer *peer, uint8_t reader, int32_t max, uint32_t samples, uint32_t views, uint32_t instances);
uint8_t cw_read_instance(cw_peer *peer, uint8_t reader, int32_t max, uint64_t handle, uint32_t samples, uint32_t views,
                         uint32_t instances);
uint8_t cw_take_instance(cw_peer *peer, uint8_t reader, int32_t max, uint64_t handle, uint32_t samples, uint32_t views,
                         uint32_t instances);
uint8_t cw_read_next_instance(cw_peer *peer, uint8_t reader, int32_t max, uint64_t previous, uint32_t samples,
                              uint32_t views, uint32_t instances);
uint8_t cw_take_next_instance(cw_peer *peer, uint8_t reader, int32_t max, uint64_t previous, uint32_t samples,
                              uint32_t views, uint32_t instances);
uint8_t cw_read_next_sample(cw_peer *peer, uint8_t reader);
uint8_t cw_take_next_sample(cw_peer *peer, uint8_t reader);
uint8_t cw_read_w_condition(cw_peer *peer, uint8_t reader, int32_t max, uint32_t condition);
uint8_t cw_take_w_condition(cw_peer *peer, uint8_t reader, int32_t max, uint32_t condition);
uint8_t cw_read_next_instance_w_condition(cw_peer *peer, uint8_t reader, int32_t max, uint64_t previous,
                                          uint32_t condition);
uint8_t cw_take_next_instance_w_condition(cw_peer *peer, uint8_t reader, int32_t max, uint64_t previous,
                                          uint32_t condition);
uint8_t cw_get_key_value(cw_peer *peer, uint8_t reader, uint64_t handle);
uint8_t cw_lookup_instance(cw_peer *peer, uint8_t reader, const uint8_t key[16]);
uint8_t cw_get_sample_lost_status(cw_peer *peer, uint8_t reader);
uint8_t cw_get_liveliness_changed_status(cw_peer *peer, uint8_t reader);
/* The reader is told that it is matched with a writer from now on, or no longer (RTPS 2.5, 8.4.10.3). The instances of one that
 * is gone go to the next owner, or are without writers. */
uint8_t cw_match_writer(cw_peer *peer, uint8_t reader, uint32_t writer_peer, uint8_t writer);
uint8_t cw_unmatch_writer(cw_peer *peer, uint8_t reader, uint32_t writer_peer, uint8_t writer);
/* The same of a writer that no configuration has to list, with numbers as those of cw_meet_reader; its entity ends with 0x02,
 * strength is its OWNERSHIP_STRENGTH, and its lease, from 1, in units of 2^-32 second, counts where has_lease; else, and from
 * 2^31 - 1 seconds on, it has none. One that the reader knew keeps strength, lease and publication handle; another has the next
 * handle, which cw_handle fetches.
 * Codes as those of cw_meet_reader, and CW_BAD_PARAMETER for a lease of 0; CW_OUT_OF_RESOURCES where the reader knows 2^31 - 1
 * other writers. */
uint8_t cw_meet_writer(cw_peer *peer, uint8_t reader, uint32_t writer_peer, uint8_t writer, const uint8_t prefix[12],
                       const uint8_t entity[4], int32_t strength, bool has_lease, uint64_t lease);
uint8_t cw_get_subscription_matched_status(cw_peer *peer, uint8_t reader);

/* Any event, in a line of docs/PIPE.md without its line feed: "call ..", "tick M", "deliver HEX" or "resume R". */
uint8_t cw_line(cw_peer *peer, const uint8_t *line, size_t line_len);

/* A filter, which values pass that begin with these octets: query conditions, which are made by lines, name it by its
 * number. */
uint8_t cw_add_filter(cw_peer *peer, const uint8_t *octets, size_t octets_len, uint32_t *number);

/* Listeners are recorders (DDS 1.4, 2.2.4.3): each keeps the last notices of the statuses of its mask, at most as many as
 * there is room for, 1 to 65,536. To ask for them, set the recorder anew, or clear it: what the one before kept is then
 * fetched by cw_notice, from 0 and the oldest first. */
uint8_t cw_set_recorder(cw_peer *peer, uint8_t kind, uint8_t number, uint32_t mask, size_t room);
uint8_t cw_clear_recorder(cw_peer *peer, uint8_t kind, uint8_t number);
uint8_t cw_notice(cw_peer *peer, size_t at, cw_notice_info *notice);

/* How many octets a packet has at most: what UDP over IPv4 carries. Packets of writers whose max_value is 1,024 or less have
 * fewer than 10,000. */
enum {
    CW_LONGEST_PACKET = 65507
};

/* Fetches of the last answer, which change nothing. Packets and samples count from 0; each is copied to the start of the
 * buffer, and *needed is how many octets it has. Where they don't fit, nothing is copied, the code is CW_OUT_OF_RESOURCES,
 * and *needed says how long the buffer has to be. With another code than these two and CW_OK nothing is written. */
uint8_t cw_packet(cw_peer *peer, size_t at, uint32_t *to, uint8_t *buffer, size_t buffer_len, size_t *needed);
uint8_t cw_sample(cw_peer *peer, size_t at, cw_sample_info *info, uint8_t *buffer, size_t buffer_len, size_t *needed);
uint8_t cw_key(cw_peer *peer, uint8_t key[16]);                 /* of cw_get_key_value */
uint8_t cw_handle(cw_peer *peer, uint64_t *handle);             /* of cw_lookup_instance; 0 where it is not known; of cw_match_writer and cw_meet_writer that of the publication */
uint8_t cw_number(cw_peer *peer, uint32_t *number);             /* of what a line made: a condition, a WaitSet */
uint8_t cw_total(cw_peer *peer, cw_total_status *total);        /* of a look at SAMPLE_LOST or LIVELINESS_LOST */
uint8_t cw_changed(cw_peer *peer, cw_changed_status *changed);  /* of a look at LIVELINESS_CHANGED */
uint8_t cw_matched(cw_peer *peer, cw_matched_status *matched);  /* of a look at PUBLICATION_MATCHED or SUBSCRIPTION_MATCHED */
/* How many packets found no memory, as if they were lost; 0 where another call is under way. */
uint64_t cw_unsent(cw_peer *peer);
/* The reply in words, and a line feed: what docs/PIPE.md has behind "reply". */
uint8_t cw_text(cw_peer *peer, uint8_t *buffer, size_t buffer_len, size_t *needed);

/* A participant of a domain (DDS 1.4, 2.2.2.2.1): discovery, and a peer whose writers and readers are matched with those that
 * discovery finds, of this library or of another product (RTPS 2.5, 8.5). It does no input and no output either: what comes is
 * told by these calls, and what is to be sent is fetched, with its address: cinchwalnut_udp.h has the sockets and the clock.
 *
 * One that is open, or none, as a cw_peer is. */
typedef struct cw_participant {
    bool is_open;
    void *held;
    uint8_t is_busy;
} cw_participant;

#define CW_PARTICIPANT_NONE {false, NULL, 0}

/* An address of IPv4 and a port of UDP. */
typedef struct cw_locator {
    uint8_t address[4];
    uint16_t port;
} cw_locator;

/* What a participant announces of itself. Its prefix is no other participant's, nor an earlier one's: twelve octets of chance,
 * of which the first two are zero, as there is no vendor. */
typedef struct cw_participant_settings {
    uint8_t prefix[12];
    uint8_t address[4]; /* where it is reached: no group's, and not 0.0.0.0; */
    uint16_t port;      /* its port there, not 0 */
    uint32_t domain;
    uint64_t lease;     /* for how long it is there once it was heard, in units of 2^-32 second, below 2^63; 0 for 8 seconds */
} cw_participant_settings;

/* A writer or a reader of a participant: volatile, automatic, without deadline, and KEEP_ALL without limits. Others match it
 * where topic, type and these policies fit. A name ends before the first octet that is zero, or with the last one. */
typedef struct cw_endpoint {
    uint8_t topic_name[256];
    uint8_t type_name[256];
    uint8_t kind;         /* CW_WRITER or CW_READER */
    uint8_t carries;      /* CW_DATUM, CW_KEYLESS, CW_CDR or CW_CDR2 */
    bool is_exclusive;    /* OWNERSHIP: EXCLUSIVE, else SHARED */
    bool is_best_effort;  /* RELIABILITY: BEST_EFFORT, else RELIABLE */
    int32_t strength;     /* OWNERSHIP_STRENGTH, where is_exclusive */
    uint32_t first_field; /* as in cw_writer_kind */
    uint32_t field_count;
    uint32_t max_value;   /* how many octets a value has at most: 1 to 65,000, or 0 for 1,024 */
} cw_endpoint;

/* What changed between a writer or a reader of a participant, by its GUID, and one of another one. */
enum {
    CW_MATCHED = 1,   /* they are matched, and were not */
    CW_UNMATCHED = 2, /* they were matched, and are not */
    CW_CHANGED = 3    /* they are still, and the other one announces something else */
};

typedef struct cw_told {
    uint8_t change;
    uint8_t own[16];
    uint8_t other[16];
} cw_told;

/* That another participant appeared, or is gone: it left, or was not heard for its lease. */
typedef struct cw_presence {
    bool is_there;
    uint8_t prefix[12];
} cw_presence;

/* Opens a participant; what was open before is closed. Its writers are numbered from 1 in their order, and so are its readers,
 * up to 16 of each. It announces itself to the addresses of told, as the group of the domain, and to who announces itself.
 * CW_BAD_PARAMETER where its address is none to be reached at, a lease has 2^31 seconds or more, or an endpoint is none; a
 * refusal changes nothing. */
uint8_t cw_participant_open(cw_participant *participant, const cw_participant_settings *settings, const cw_locator *told,
                            size_t told_len, const cw_endpoint *ends, size_t ends_len, const cw_key_field *fields,
                            size_t fields_len);
/* Frees what it holds, and tells nobody: cw_participant_leave does before. */
void cw_participant_close(cw_participant *participant);

/* Events. What comes of one takes the place of what came of the last: datagrams, a reply, and what changed. Each is fetched and
 * sent before the next event. Moments are of the caller's clock, in units of 2^-32 second, and never go back.
 *
 * A datagram comes from an address; the time goes on, by which the participant announces itself, repairs and finds who is gone,
 * so twice a second or more; it says that it leaves. CW_MEMORY: something was lost, as by a network, or is done later. */
uint8_t cw_participant_hear(cw_participant *participant, uint64_t now, const uint8_t address[4], const uint8_t *datagram,
                            size_t datagram_len);
uint8_t cw_participant_tick(cw_participant *participant, uint64_t now);
uint8_t cw_participant_leave(cw_participant *participant);
/* Calls, as those of a peer. A value is a payload, with representation and options, but where it is the datum; a key of a type
 * without a key is sixteen zeros. CW_BAD_PARAMETER where the value is none of the type or has another key, and where a key that
 * is said alone is none of the type, or an MD5. Of a packet that found no memory the code says nothing: it is as lost. A line is
 * a call. */
uint8_t cw_participant_register(cw_participant *participant, uint8_t writer, const uint8_t key[16]);
uint8_t cw_participant_write(cw_participant *participant, uint8_t writer, const uint8_t key[16], const uint8_t *value,
                             size_t value_len);
uint8_t cw_participant_dispose(cw_participant *participant, uint8_t writer, const uint8_t key[16]);
uint8_t cw_participant_unregister(cw_participant *participant, uint8_t writer, const uint8_t key[16]);
uint8_t cw_participant_read(cw_participant *participant, uint8_t reader, int32_t max, uint32_t samples, uint32_t views,
                            uint32_t instances);
uint8_t cw_participant_take(cw_participant *participant, uint8_t reader, int32_t max, uint32_t samples, uint32_t views,
                            uint32_t instances);
uint8_t cw_participant_line(cw_participant *participant, const uint8_t *line, size_t line_len);

/* Fetches of what came of the last event, from 0 on, as those of a peer. */
uint8_t cw_participant_datagram(cw_participant *participant, size_t at, uint8_t address[4], uint16_t *port, uint8_t *buffer,
                                size_t buffer_len, size_t *needed);
uint8_t cw_participant_sample(cw_participant *participant, size_t at, cw_sample_info *info, uint8_t *buffer, size_t buffer_len,
                              size_t *needed);
uint8_t cw_participant_told(cw_participant *participant, size_t at, cw_told *told);
uint8_t cw_participant_presence(cw_participant *participant, size_t at, cw_presence *presence);
uint8_t cw_participant_text(cw_participant *participant, uint8_t *buffer, size_t buffer_len, size_t *needed);
/* Looks. Of those of others with which its writer or reader (CW_WRITER, CW_READER) of a number is matched now: the GUID of one,
 * from 0 on. CW_NO_DATA behind the last, CW_BAD_PARAMETER where there is no such writer or reader. */
uint8_t cw_participant_matched(cw_participant *participant, uint8_t kind, uint8_t number, size_t at, uint8_t guid[16]);
/* Whether some matched reliable reader has not acknowledged all that was written: 1, else 0, as where none is open. */
uint8_t cw_participant_is_behind(cw_participant *participant);

/* The mark: each call above of a peer or a participant goes by a function of this header, which answers CW_BUSY where another
 * thread is in a call of the same one. It takes NULL with a length of 0, and answers CW_BAD_PARAMETER to NULL with another one. */
static inline bool cw_enters(uint8_t *is_busy) {
    return __atomic_exchange_n(is_busy, (uint8_t)1, __ATOMIC_ACQUIRE) == 0;
}

static inline void cw_leaves(uint8_t *is_busy) {
    __atomic_store_n(is_busy, (uint8_t)0, __ATOMIC_RELEASE);
}

static inline bool cw_is_array(const void *start, size_t len) {
    return start != NULL || len == 0;
}

/* What the library is given for NULL. */
static inline void *cw_array(const void *start) {
    static uint64_t nothing;
    return start != NULL ? (void *)(uintptr_t)start : &nothing;
}

#define CW_MARKED_OF(handle, is_valid, call, nonnull, parameters, arguments) \
    static inline nonnull uint8_t cw_marked_##call parameters {              \
        if (!(is_valid))                                                     \
            return CW_BAD_PARAMETER;                                         \
        if (!cw_enters(&(handle)->is_busy))                                  \
            return CW_BUSY;                                                  \
        uint8_t code = cw_##call arguments;                                  \
        cw_leaves(&(handle)->is_busy);                                       \
        return code;                                                         \
    }
#define CW_MARKED_IF(is_valid, call, nonnull, parameters, arguments) \
    CW_MARKED_OF(peer, is_valid, call, nonnull, parameters, arguments)
#define CW_CHECKED(is_valid, call, nonnull, parameters, arguments)   \
    static inline nonnull uint8_t cw_marked_##call parameters {      \
        if (!(is_valid))                                             \
            return CW_BAD_PARAMETER;                                 \
        return cw_##call arguments;                                  \
    }
#define CW_MARKED(call, parameters, arguments) CW_MARKED_IF(true, call, CW_NONNULL(), parameters, arguments)

CW_MARKED_IF(cw_is_array(peers, peers_len) && cw_is_array(writers, writers_len) && cw_is_array(readers, readers_len),
             open, CW_NONNULL(1),
             (cw_peer *peer, const cw_peer_config *peers, size_t peers_len, const cw_writer_config *writers,
              size_t writers_len, const cw_reader_config *readers, size_t readers_len, uint32_t number),
             (peer, (const cw_peer_config *)cw_array(peers), peers_len, (const cw_writer_config *)cw_array(writers),
              writers_len, (const cw_reader_config *)cw_array(readers), readers_len, number))
CW_MARKED_IF(cw_is_array(text, text_len), open_text, CW_NONNULL(1),
             (cw_peer *peer, const uint8_t *text, size_t text_len, uint32_t number),
             (peer, (const uint8_t *)cw_array(text), text_len, number))
CW_CHECKED(cw_is_array(peers, peers_len) && cw_is_array(writers, writers_len) && cw_is_array(readers, readers_len) &&
               cw_is_array(buffer, buffer_len),
           config_fault, CW_NONNULL(7, 10),
           (const cw_peer_config *peers, size_t peers_len, const cw_writer_config *writers, size_t writers_len,
            const cw_reader_config *readers, size_t readers_len, cw_fault *fault, uint8_t *buffer, size_t buffer_len,
            size_t *needed),
           ((const cw_peer_config *)cw_array(peers), peers_len, (const cw_writer_config *)cw_array(writers), writers_len,
            (const cw_reader_config *)cw_array(readers), readers_len, fault, (uint8_t *)cw_array(buffer), buffer_len,
            needed))
CW_CHECKED(cw_is_array(text, text_len) && cw_is_array(buffer, buffer_len), text_fault, CW_NONNULL(5),
           (const uint8_t *text, size_t text_len, uint8_t *buffer, size_t buffer_len, size_t *needed),
           ((const uint8_t *)cw_array(text), text_len, (uint8_t *)cw_array(buffer), buffer_len, needed))
CW_CHECKED(cw_is_array(line, line_len) && cw_is_array(buffer, buffer_len), line_fault, CW_NONNULL(5),
           (const uint8_t *line, size_t line_len, uint8_t *buffer, size_t buffer_len, size_t *needed),
           ((const uint8_t *)cw_array(line), line_len, (uint8_t *)cw_array(buffer), buffer_len, needed))
CW_CHECKED(cw_is_array(peers, peers_len) && cw_is_array(writers, writers_len) && cw_is_array(readers, readers_len),
           config_sum, CW_NONNULL(7),
           (const cw_peer_config *peers, size_t peers_len, const cw_writer_config *writers, size_t writers_len,
            const cw_reader_config *readers, size_t readers_len, uint64_t *sum),
           ((const cw_peer_config *)cw_array(peers), peers_len, (const cw_writer_config *)cw_array(writers), writers_len,
            (const cw_reader_config *)cw_array(readers), readers_len, sum))
CW_CHECKED(cw_is_array(kinds, kinds_len) && cw_is_array(fields, fields_len) && cw_is_array(datagram, datagram_len) &&
               cw_is_array(buffer, buffer_len),
           inward, CW_NONNULL(10),
           (const cw_writer_kind *kinds, size_t kinds_len, const cw_key_field *fields, size_t fields_len, bool with_gaps,
            const uint8_t *datagram, size_t datagram_len, uint8_t *buffer, size_t buffer_len, size_t *needed),
           ((const cw_writer_kind *)cw_array(kinds), kinds_len, (const cw_key_field *)cw_array(fields), fields_len,
            with_gaps, (const uint8_t *)cw_array(datagram), datagram_len, (uint8_t *)cw_array(buffer), buffer_len, needed))
CW_CHECKED(cw_is_array(kinds, kinds_len) && cw_is_array(fields, fields_len) && cw_is_array(datagram, datagram_len) &&
               cw_is_array(buffer, buffer_len),
           outward, CW_NONNULL(9),
           (const cw_writer_kind *kinds, size_t kinds_len, const cw_key_field *fields, size_t fields_len,
            const uint8_t *datagram, size_t datagram_len, uint8_t *buffer, size_t buffer_len, size_t *needed),
           ((const cw_writer_kind *)cw_array(kinds), kinds_len, (const cw_key_field *)cw_array(fields), fields_len,
            (const uint8_t *)cw_array(datagram), datagram_len, (uint8_t *)cw_array(buffer), buffer_len, needed))
CW_MARKED_IF(cw_is_array(datagram, datagram_len), deliver, CW_NONNULL(1),
             (cw_peer *peer, const uint8_t *datagram, size_t datagram_len),
             (peer, (const uint8_t *)cw_array(datagram), datagram_len))
CW_MARKED_IF(cw_is_array(datagram, datagram_len), observe, CW_NONNULL(1, 4),
             (cw_peer *peer, const uint8_t *datagram, size_t datagram_len, cw_observed *observed),
             (peer, (const uint8_t *)cw_array(datagram), datagram_len, observed))
CW_MARKED_IF(cw_is_array(datagram, datagram_len), observe_writer, CW_NONNULL(1, 6),
             (cw_peer *peer, uint32_t writer_peer, uint8_t writer, const uint8_t *datagram, size_t datagram_len,
              cw_observed *observed),
             (peer, writer_peer, writer, (const uint8_t *)cw_array(datagram), datagram_len, observed))
CW_MARKED(tick, (cw_peer *peer, uint64_t now), (peer, now))
CW_MARKED(resume, (cw_peer *peer, uint8_t reader), (peer, reader))
CW_MARKED(register, (cw_peer *peer, uint8_t writer, const uint8_t key[16]), (peer, writer, key))
CW_MARKED_IF(cw_is_array(value, value_len), write, CW_NONNULL(1, 3),
             (cw_peer *peer, uint8_t writer, const uint8_t key[16], const uint8_t *value, size_t value_len),
             (peer, writer, key, (const uint8_t *)cw_array(value), value_len))
CW_MARKED(dispose, (cw_peer *peer, uint8_t writer, const uint8_t key[16]), (peer, writer, key))
CW_MARKED(unregister, (cw_peer *peer, uint8_t writer, const uint8_t key[16]), (peer, writer, key))
CW_MARKED(assert_liveliness, (cw_peer *peer, uint8_t writer), (peer, writer))
CW_MARKED(set_strength, (cw_peer *peer, uint8_t writer, int32_t strength), (peer, writer, strength))
CW_MARKED(get_liveliness_lost_status, (cw_peer *peer, uint8_t writer), (peer, writer))
CW_MARKED(match_reader, (cw_peer *peer, uint8_t writer, uint32_t reader_peer, uint8_t reader),
          (peer, writer, reader_peer, reader))
CW_MARKED(greet_reader, (cw_peer *peer, uint8_t writer, uint32_t reader_peer, uint8_t reader),
          (peer, writer, reader_peer, reader))
CW_MARKED(unmatch_reader, (cw_peer *peer, uint8_t writer, uint32_t reader_peer, uint8_t reader),
          (peer, writer, reader_peer, reader))
CW_MARKED(meet_reader, (cw_peer *peer, uint8_t writer, uint32_t reader_peer, uint8_t reader, const uint8_t prefix[12],
           const uint8_t entity[4], bool is_best_effort, bool is_greeted),
          (peer, writer, reader_peer, reader, prefix, entity, is_best_effort, is_greeted))
CW_MARKED(get_publication_matched_status, (cw_peer *peer, uint8_t writer), (peer, writer))
CW_MARKED(read, (cw_peer *peer, uint8_t reader, int32_t max, uint32_t samples, uint32_t views, uint32_t instances),
          (peer, reader, max, samples, views, instances))
CW_MARKED(take, (cw_peer *peer, uint8_t reader, int32_t max, uint32_t samples, uint32_t views, uint32_t instances),
          (peer, reader, max, samples, views, instances))
CW_MARKED(read_instance, (cw_peer *peer, uint8_t reader, int32_t max, uint64_t handle, uint32_t samples, uint32_t views,
           uint32_t instances),
          (peer, reader, max, handle, samples, views, instances))
CW_MARKED(take_instance, (cw_peer *peer, uint8_t reader, int32_t max, uint64_t handle, uint32_t samples, uint32_t views,
           uint32_t instances),
          (peer, reader, max, handle, samples, views, instances))
CW_MARKED(read_next_instance, (cw_peer *peer, uint8_t reader, int32_t max, uint64_t previous, uint32_t samples, uint32_t views,
           uint32_t instances),
          (peer, reader, max, previous, samples, views, instances))
CW_MARKED(take_next_instance, (cw_peer *peer, uint8_t reader, int32_t max, uint64_t previous, uint32_t samples, uint32_t views,
           uint32_t instances),
          (peer, reader, max, previous, samples, views, instances))
CW_MARKED(read_next_sample, (cw_peer *peer, uint8_t reader), (peer, reader))
CW_MARKED(take_next_sample, (cw_peer *peer, uint8_t reader), (peer, reader))
CW_MARKED(read_w_condition, (cw_peer *peer, uint8_t reader, int32_t max, uint32_t condition),
          (peer, reader, max, condition))
CW_MARKED(take_w_condition, (cw_peer *peer, uint8_t reader, int32_t max, uint32_t condition),
          (peer, reader, max, condition))
CW_MARKED(read_next_instance_w_condition, (cw_peer *peer, uint8_t reader, int32_t max, uint64_t previous,
           uint32_t condition),
          (peer, reader, max, previous, condition))
CW_MARKED(take_next_instance_w_condition, (cw_peer *peer, uint8_t reader, int32_t max, uint64_t previous,
           uint32_t condition),
          (peer, reader, max, previous, condition))
CW_MARKED(get_key_value, (cw_peer *peer, uint8_t reader, uint64_t handle), (peer, reader, handle))
CW_MARKED(lookup_instance, (cw_peer *peer, uint8_t reader, const uint8_t key[16]), (peer, reader, key))
CW_MARKED(get_sample_lost_status, (cw_peer *peer, uint8_t reader), (peer, reader))
CW_MARKED(get_liveliness_changed_status, (cw_peer *peer, uint8_t reader), (peer, reader))
CW_MARKED(match_writer, (cw_peer *peer, uint8_t reader, uint32_t writer_peer, uint8_t writer),
          (peer, reader, writer_peer, writer))
CW_MARKED(unmatch_writer, (cw_peer *peer, uint8_t reader, uint32_t writer_peer, uint8_t writer),
          (peer, reader, writer_peer, writer))
CW_MARKED(meet_writer, (cw_peer *peer, uint8_t reader, uint32_t writer_peer, uint8_t writer, const uint8_t prefix[12],
           const uint8_t entity[4], int32_t strength, bool has_lease, uint64_t lease),
          (peer, reader, writer_peer, writer, prefix, entity, strength, has_lease, lease))
CW_MARKED(get_subscription_matched_status, (cw_peer *peer, uint8_t reader), (peer, reader))
CW_MARKED_IF(cw_is_array(line, line_len), line, CW_NONNULL(1),
             (cw_peer *peer, const uint8_t *line, size_t line_len),
             (peer, (const uint8_t *)cw_array(line), line_len))
CW_MARKED_IF(cw_is_array(octets, octets_len), add_filter, CW_NONNULL(1, 4),
             (cw_peer *peer, const uint8_t *octets, size_t octets_len, uint32_t *number),
             (peer, (const uint8_t *)cw_array(octets), octets_len, number))
CW_MARKED(set_recorder, (cw_peer *peer, uint8_t kind, uint8_t number, uint32_t mask, size_t room),
          (peer, kind, number, mask, room))
CW_MARKED(clear_recorder, (cw_peer *peer, uint8_t kind, uint8_t number), (peer, kind, number))
CW_MARKED(notice, (cw_peer *peer, size_t at, cw_notice_info *notice), (peer, at, notice))
CW_MARKED_IF(cw_is_array(buffer, buffer_len), packet, CW_NONNULL(1, 3, 6),
             (cw_peer *peer, size_t at, uint32_t *to, uint8_t *buffer, size_t buffer_len, size_t *needed),
             (peer, at, to, (uint8_t *)cw_array(buffer), buffer_len, needed))
CW_MARKED_IF(cw_is_array(buffer, buffer_len), sample, CW_NONNULL(1, 3, 6),
             (cw_peer *peer, size_t at, cw_sample_info *info, uint8_t *buffer, size_t buffer_len, size_t *needed),
             (peer, at, info, (uint8_t *)cw_array(buffer), buffer_len, needed))
CW_MARKED(key, (cw_peer *peer, uint8_t key[16]), (peer, key))
CW_MARKED(handle, (cw_peer *peer, uint64_t *handle), (peer, handle))
CW_MARKED(number, (cw_peer *peer, uint32_t *number), (peer, number))
CW_MARKED(total, (cw_peer *peer, cw_total_status *total), (peer, total))
CW_MARKED(changed, (cw_peer *peer, cw_changed_status *changed), (peer, changed))
CW_MARKED(matched, (cw_peer *peer, cw_matched_status *matched), (peer, matched))
CW_MARKED_IF(cw_is_array(buffer, buffer_len), text, CW_NONNULL(1, 4),
             (cw_peer *peer, uint8_t *buffer, size_t buffer_len, size_t *needed),
             (peer, (uint8_t *)cw_array(buffer), buffer_len, needed))

static inline CW_NONNULL() void cw_marked_close(cw_peer *peer) {
    if (!cw_enters(&peer->is_busy))
        return;
    cw_close(peer);
    cw_leaves(&peer->is_busy);
}

static inline CW_NONNULL() uint64_t cw_marked_unsent(cw_peer *peer) {
    if (!cw_enters(&peer->is_busy))
        return 0;
    uint64_t unsent = cw_unsent(peer);
    cw_leaves(&peer->is_busy);
    return unsent;
}

#define CW_PARTICIPANT_IF(is_valid, call, nonnull, parameters, arguments) \
    CW_MARKED_OF(participant, is_valid, participant_##call, nonnull, parameters, arguments)
#define CW_PARTICIPANT_CALL(call, parameters, arguments) CW_PARTICIPANT_IF(true, call, CW_NONNULL(), parameters, arguments)

CW_PARTICIPANT_IF(cw_is_array(told, told_len) && cw_is_array(ends, ends_len) && cw_is_array(fields, fields_len),
                  open, CW_NONNULL(1, 2),
                  (cw_participant *participant, const cw_participant_settings *settings, const cw_locator *told,
                   size_t told_len, const cw_endpoint *ends, size_t ends_len, const cw_key_field *fields, size_t fields_len),
                  (participant, settings, (const cw_locator *)cw_array(told), told_len, (const cw_endpoint *)cw_array(ends),
                   ends_len, (const cw_key_field *)cw_array(fields), fields_len))
CW_PARTICIPANT_IF(cw_is_array(datagram, datagram_len), hear, CW_NONNULL(1, 3),
                  (cw_participant *participant, uint64_t now, const uint8_t address[4], const uint8_t *datagram,
                   size_t datagram_len),
                  (participant, now, address, (const uint8_t *)cw_array(datagram), datagram_len))
CW_PARTICIPANT_CALL(tick, (cw_participant *participant, uint64_t now), (participant, now))
CW_PARTICIPANT_CALL(leave, (cw_participant *participant), (participant))
CW_PARTICIPANT_CALL(register, (cw_participant *participant, uint8_t writer, const uint8_t key[16]), (participant, writer, key))
CW_PARTICIPANT_IF(cw_is_array(value, value_len), write, CW_NONNULL(1, 3),
                  (cw_participant *participant, uint8_t writer, const uint8_t key[16], const uint8_t *value, size_t value_len),
                  (participant, writer, key, (const uint8_t *)cw_array(value), value_len))
CW_PARTICIPANT_CALL(dispose, (cw_participant *participant, uint8_t writer, const uint8_t key[16]), (participant, writer, key))
CW_PARTICIPANT_CALL(unregister, (cw_participant *participant, uint8_t writer, const uint8_t key[16]),
                    (participant, writer, key))
CW_PARTICIPANT_CALL(read, (cw_participant *participant, uint8_t reader, int32_t max, uint32_t samples, uint32_t views,
                     uint32_t instances),
                    (participant, reader, max, samples, views, instances))
CW_PARTICIPANT_CALL(take, (cw_participant *participant, uint8_t reader, int32_t max, uint32_t samples, uint32_t views,
                     uint32_t instances),
                    (participant, reader, max, samples, views, instances))
CW_PARTICIPANT_IF(cw_is_array(line, line_len), line, CW_NONNULL(1),
                  (cw_participant *participant, const uint8_t *line, size_t line_len),
                  (participant, (const uint8_t *)cw_array(line), line_len))
CW_PARTICIPANT_IF(cw_is_array(buffer, buffer_len), datagram, CW_NONNULL(1, 3, 4, 7),
                  (cw_participant *participant, size_t at, uint8_t address[4], uint16_t *port, uint8_t *buffer,
                   size_t buffer_len, size_t *needed),
                  (participant, at, address, port, (uint8_t *)cw_array(buffer), buffer_len, needed))
CW_PARTICIPANT_IF(cw_is_array(buffer, buffer_len), sample, CW_NONNULL(1, 3, 6),
                  (cw_participant *participant, size_t at, cw_sample_info *info, uint8_t *buffer, size_t buffer_len,
                   size_t *needed),
                  (participant, at, info, (uint8_t *)cw_array(buffer), buffer_len, needed))
CW_PARTICIPANT_CALL(told, (cw_participant *participant, size_t at, cw_told *told), (participant, at, told))
CW_PARTICIPANT_CALL(presence, (cw_participant *participant, size_t at, cw_presence *presence), (participant, at, presence))
CW_PARTICIPANT_IF(cw_is_array(buffer, buffer_len), text, CW_NONNULL(1, 4),
                  (cw_participant *participant, uint8_t *buffer, size_t buffer_len, size_t *needed),
                  (participant, (uint8_t *)cw_array(buffer), buffer_len, needed))
CW_PARTICIPANT_CALL(matched, (cw_participant *participant, uint8_t kind, uint8_t number, size_t at, uint8_t guid[16]),
                    (participant, kind, number, at, guid))

static inline CW_NONNULL() void cw_marked_participant_close(cw_participant *participant) {
    if (!cw_enters(&participant->is_busy))
        return;
    cw_participant_close(participant);
    cw_leaves(&participant->is_busy);
}

static inline CW_NONNULL() uint8_t cw_marked_participant_is_behind(cw_participant *participant) {
    if (!cw_enters(&participant->is_busy))
        return 0;
    uint8_t is_behind = cw_participant_is_behind(participant);
    cw_leaves(&participant->is_busy);
    return is_behind;
}

#define cw_open cw_marked_open
#define cw_open_text cw_marked_open_text
#define cw_close cw_marked_close
#define cw_config_fault cw_marked_config_fault
#define cw_text_fault cw_marked_text_fault
#define cw_line_fault cw_marked_line_fault
#define cw_config_sum cw_marked_config_sum
#define cw_inward cw_marked_inward
#define cw_outward cw_marked_outward
#define cw_deliver cw_marked_deliver
#define cw_observe cw_marked_observe
#define cw_observe_writer cw_marked_observe_writer
#define cw_tick cw_marked_tick
#define cw_resume cw_marked_resume
#define cw_register cw_marked_register
#define cw_write cw_marked_write
#define cw_dispose cw_marked_dispose
#define cw_unregister cw_marked_unregister
#define cw_assert_liveliness cw_marked_assert_liveliness
#define cw_set_strength cw_marked_set_strength
#define cw_get_liveliness_lost_status cw_marked_get_liveliness_lost_status
#define cw_match_reader cw_marked_match_reader
#define cw_greet_reader cw_marked_greet_reader
#define cw_unmatch_reader cw_marked_unmatch_reader
#define cw_meet_reader cw_marked_meet_reader
#define cw_get_publication_matched_status cw_marked_get_publication_matched_status
#define cw_read cw_marked_read
#define cw_take cw_marked_take
#define cw_read_instance cw_marked_read_instance
#define cw_take_instance cw_marked_take_instance
#define cw_read_next_instance cw_marked_read_next_instance
#define cw_take_next_instance cw_marked_take_next_instance
#define cw_read_next_sample cw_marked_read_next_sample
#define cw_take_next_sample cw_marked_take_next_sample
#define cw_read_w_condition cw_marked_read_w_condition
#define cw_take_w_condition cw_marked_take_w_condition
#define cw_read_next_instance_w_condition cw_marked_read_next_instance_w_condition
#define cw_take_next_instance_w_condition cw_marked_take_next_instance_w_condition
#define cw_get_key_value cw_marked_get_key_value
#define cw_lookup_instance cw_marked_lookup_instance
#define cw_get_sample_lost_status cw_marked_get_sample_lost_status
#define cw_get_liveliness_changed_status cw_marked_get_liveliness_changed_status
#define cw_match_writer cw_marked_match_writer
#define cw_unmatch_writer cw_marked_unmatch_writer
#define cw_meet_writer cw_marked_meet_writer
#define cw_get_subscription_matched_status cw_marked_get_subscription_matched_status
#define cw_line cw_marked_line
#define cw_add_filter cw_marked_add_filter
#define cw_set_recorder cw_marked_set_recorder
#define cw_clear_recorder cw_marked_clear_recorder
#define cw_notice cw_marked_notice
#define cw_packet cw_marked_packet
#define cw_sample cw_marked_sample
#define cw_key cw_marked_key
#define cw_handle cw_marked_handle
#define cw_number cw_marked_number
#define cw_total cw_marked_total
#define cw_changed cw_marked_changed
#define cw_matched cw_marked_matched
#define cw_unsent cw_marked_unsent
#define cw_text cw_marked_text
#define cw_participant_open cw_marked_participant_open
#define cw_participant_close cw_marked_participant_close
#define cw_participant_hear cw_marked_participant_hear
#define cw_participant_tick cw_marked_participant_tick
#define cw_participant_leave cw_marked_participant_leave
#define cw_participant_register cw_marked_participant_register
#define cw_participant_write cw_marked_participant_write
#define cw_participant_dispose cw_marked_participant_dispose
#define cw_participant_unregister cw_marked_participant_unregister
#define cw_participant_read cw_marked_participant_read
#define cw_participant_take cw_marked_participant_take
#define cw_participant_line cw_marked_participant_line
#define cw_participant_datagram cw_marked_participant_datagram
#define cw_participant_sample cw_marked_participant_sample
#define cw_participant_told cw_marked_participant_told
#define cw_participant_presence cw_marked_participant_presence
#define cw_participant_text cw_marked_participant_text
#define cw_participant_matched cw_marked_participant_matched
#define cw_participant_is_behind cw_marked_participant_is_behind

#ifdef __cplusplus
}
#endif
#endif
