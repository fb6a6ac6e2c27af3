/* A peer whose events are recorded: each is written as a line of docs/PIPE.md, with the packets and the reply that answer
 * it, as dds_pipe gives them. So a run of the field is played again at the desk, by dds_pipe, and looked at, by tools/draw.
 *
 * It is a layer over cinchwalnut.h, and nothing of it is proved. A cw_recording is as CW_RECORDING_NONE or as a call here
 * left it. Its events are the calls below, one at a time, and no others of its peer; its fetches are those of cinchwalnut.h,
 * of its peer: cw_packet(&recording.peer, ..).
 *
 * Not recorded is what changed nothing and may have been no event: an opening that is refused, a call that answers
 * CW_MEMORY or CW_BUSY, a line that answers CW_BAD_PARAMETER, NULL with a length, and a call while no peer is open. Where a report or a reply says that
 * memory was wanting (nomem, unsent), dds_pipe answers otherwise, if it has enough. */
#ifndef CINCHWALNUT_RECORD_H
#define CINCHWALNUT_RECORD_H

#include "cinchwalnut.h"
#include <inttypes.h>
#include <stdio.h>
#include <stdlib.h>

/* A peer, where its lines go, what is kept of its listeners, and whether a line could not be written. */
typedef struct cw_recording {
    cw_peer peer;
    FILE *to;
    bool has_failed;
    bool has_listener[3][256];
    uint8_t buffer[65536];
} cw_recording;

#define CW_RECORDING_NONE {CW_PEER_NONE, NULL, false, {{false}}, {0}}

#define CW_RECORDED_VALUE ((size_t)65001)     /* octets of a value that are written: one more than any that is taken */
#define CW_RECORDED_DATAGRAM ((size_t)65535)  /* a longer one is no message, and written as an empty one, which is none either */

/* Octets as digits, `-` for none, and what ends them. */
static inline void cw_recorded_octets(cw_recording *run, const uint8_t *octets, size_t len, const char *end) {
    static const char digits[] = "0123456789abcdef";
    if (len == 0)
        fputc('-', run->to);
    for (size_t at = 0; at < len; at++) {
        fputc(digits[octets[at] >> 4], run->to);
        fputc(digits[octets[at] & 15], run->to);
    }
    fputs(end, run->to);
}

/* The reply in words, which may be longer than the buffer. */
static inline void cw_recorded_text(cw_recording *run) {
    size_t len = 0;
    uint8_t *text = run->buffer;
    uint8_t code = cw_text(&run->peer, text, sizeof run->buffer, &len);
    if (code == CW_OUT_OF_RESOURCES) {
        text = (uint8_t *)calloc(len, 1);
        code = text == NULL ? (uint8_t)CW_MEMORY : cw_text(&run->peer, text, len, &len);
    }
    if (code == CW_OK) {
        fputs("reply ", run->to);
        fwrite(text, 1, len, run->to);
    } else {
        run->has_failed = true;
    }
    if (text != run->buffer)
        free(text);
}

/* What answers an event: a line for each packet, and the reply. */
static inline uint8_t cw_recorded_answer(cw_recording *run, uint8_t code) {
    uint32_t to = 0;
    size_t len = 0;
    for (size_t at = 0; cw_packet(&run->peer, at, &to, run->buffer, sizeof run->buffer, &len) == CW_OK; at++) {
        fprintf(run->to, "packet %u ", (unsigned)to);
        cw_recorded_octets(run, run->buffer, len, "\n");
    }
    cw_recorded_text(run);
    if (ferror(run->to))
        run->has_failed = true;
    return code;
}

static inline bool cw_recorded_is_event(const cw_recording *run, uint8_t code) {
    return run->peer.is_open && run->to != NULL && code != CW_MEMORY && code != CW_BUSY;
}

/* Whether all lines so far were handed on. */
static inline bool cw_recorded_is_whole(const cw_recording *run) {
    return !run->has_failed;
}

/* Openings. The lines go to this stream, which stays the caller's. */

static inline void cw_recorded_limits(cw_recording *run, bool is_exclusive, bool keeps_last, uint32_t depth, int32_t max, uint32_t topic) {
    fputs(is_exclusive ? " exclusive" : " shared", run->to);
    if (keeps_last)
        fprintf(run->to, " last=%" PRIu32, depth);
    else
        fputs(" all", run->to);
    fprintf(run->to, " max=%" PRId32 " topic=%" PRIu32, max, topic);
}

static inline void cw_recorded_writer(cw_recording *run, const cw_writer_config *it) {
    fputs("writer ", run->to);
    cw_recorded_octets(run, it->entity, 4, "");
    cw_recorded_limits(run, it->is_exclusive, it->keeps_last, it->depth, it->max_samples, it->topic);
    fprintf(run->to, " strength=%" PRId32, it->strength);
    if (it->has_lease)
        fprintf(run->to, " lease=%" PRIu64, it->lease);
    if (it->max_value)
        fprintf(run->to, " values=%" PRIu32, it->max_value);
    fputs(it->autodispose ? "" : " noauto", run->to);
    fputs(it->is_best_effort ? " besteffort\n" : "\n", run->to);
}

static inline void cw_recorded_reader(cw_recording *run, const cw_reader_config *it) {
    fputs("reader ", run->to);
    cw_recorded_octets(run, it->entity, 4, "");
    cw_recorded_limits(run, it->is_exclusive, it->keeps_last, it->depth, it->max_samples, it->topic);
    fprintf(run->to, " instances=%" PRId32, it->max_instances);
    if (it->has_lease)
        fprintf(run->to, " lease=%" PRIu64, it->lease);
    if (it->has_max_arrivals)
        fprintf(run->to, " arrivals=%" PRIu64, it->max_arrivals);
    if (it->max_value)
        fprintf(run->to, " values=%" PRIu32, it->max_value);
    fputs(it->is_best_effort ? " besteffort\n" : "\n", run->to);
}

static inline void cw_recorded_opened(cw_recording *run, uint32_t number) {
    for (size_t kind = 0; kind < 3; kind++)
        for (size_t at = 0; at < 256; at++)
            run->has_listener[kind][at] = false;
    fprintf(run->to, "open %u\nreply ok\n", (unsigned)number);
}

static inline uint8_t cw_recorded_open(cw_recording *run, FILE *to, const cw_peer_config *peers, size_t peers_len,
                                       const cw_writer_config *writers, size_t writers_len,
                                       const cw_reader_config *readers, size_t readers_len, uint32_t number) {
    uint8_t code = cw_open(&run->peer, peers, peers_len, writers, writers_len, readers, readers_len, number);
    if (code != CW_OK)
        return code;
    run->to = to;
    for (size_t peer = 0; peer < peers_len; peer++) {
        fputs("peer ", to);
        cw_recorded_octets(run, peers[peer].prefix, 12, "\n");
        for (size_t at = 0; at < writers_len; at++)
            if (writers[at].peer == peer + 1)
                cw_recorded_writer(run, &writers[at]);
        for (size_t at = 0; at < readers_len; at++)
            if (readers[at].peer == peer + 1)
                cw_recorded_reader(run, &readers[at]);
    }
    cw_recorded_opened(run, number);
    return code;
}

static inline uint8_t cw_recorded_open_text(cw_recording *run, FILE *to, const uint8_t *text, size_t text_len, uint32_t number) {
    uint8_t code = cw_open_text(&run->peer, text, text_len, number);
    if (code != CW_OK)
        return code;
    run->to = to;
    fwrite(text, 1, text_len, to);
    if (text_len > 0 && text[text_len - 1] != '\n')
        fputc('\n', to);
    cw_recorded_opened(run, number);
    return code;
}

static inline void cw_recorded_close(cw_recording *run) {
    cw_close(&run->peer);
    run->to = NULL;
}

/* Events: those of cinchwalnut.h, which say what they do. */

static inline uint8_t cw_recorded_deliver(cw_recording *run, const uint8_t *datagram, size_t datagram_len) {
    uint8_t code = cw_deliver(&run->peer, datagram, datagram_len);
    if (!cw_recorded_is_event(run, code) || !cw_is_array(datagram, datagram_len))
        return code;
    fputs("deliver ", run->to);
    cw_recorded_octets(run, datagram, datagram_len > CW_RECORDED_DATAGRAM ? 0 : datagram_len, "\n");
    return cw_recorded_answer(run, code);
}

static inline uint8_t cw_recorded_tick(cw_recording *run, uint64_t now) {
    uint8_t code = cw_tick(&run->peer, now);
    if (!cw_recorded_is_event(run, code))
        return code;
    fprintf(run->to, "tick %" PRIu64 "\n", now);
    return cw_recorded_answer(run, code);
}

static inline uint8_t cw_recorded_resume(cw_recording *run, uint8_t reader) {
    uint8_t code = cw_resume(&run->peer, reader);
    if (!cw_recorded_is_event(run, code))
        return code;
    fprintf(run->to, "resume r%u\n", (unsigned)reader);
    return cw_recorded_answer(run, code);
}

static inline uint8_t cw_recorded_line(cw_recording *run, const uint8_t *line, size_t line_len) {
    uint8_t code = cw_line(&run->peer, line, line_len);
    if (!cw_recorded_is_event(run, code) || code == CW_BAD_PARAMETER)
        return code;
    fwrite(line, 1, line_len, run->to);
    fputc('\n', run->to);
    return cw_recorded_answer(run, code);
}

/* A call of a writer or a reader, by its word: w or r, and the number. */
static inline bool cw_recorded_call(cw_recording *run, uint8_t code, const char *word, char kind, uint8_t number) {
    bool is_event = cw_recorded_is_event(run, code);
    if (is_event)
        fprintf(run->to, "call %s %c%u", word, kind, (unsigned)number);
    return is_event;
}

static inline uint8_t cw_recorded_end(cw_recording *run, uint8_t code) {
    fputc('\n', run->to);
    return cw_recorded_answer(run, code);
}

static inline uint8_t cw_recorded_keyed(cw_recording *run, uint8_t code, const char *word, char kind, uint8_t number, const uint8_t key[16]) {
    if (!cw_recorded_call(run, code, word, kind, number))
        return code;
    fputc(' ', run->to);
    cw_recorded_octets(run, key, 16, "");
    return cw_recorded_end(run, code);
}

static inline uint8_t cw_recorded_register(cw_recording *run, uint8_t writer, const uint8_t key[16]) {
    return cw_recorded_keyed(run, cw_register(&run->peer, writer, key), "register", 'w', writer, key);
}

static inline uint8_t cw_recorded_write(cw_recording *run, uint8_t writer, const uint8_t key[16], const uint8_t *value, size_t value_len) {
    uint8_t code = cw_write(&run->peer, writer, key, value, value_len);
    if (!cw_is_array(value, value_len) || !cw_recorded_call(run, code, "write", 'w', writer))
        return code;
    fputc(' ', run->to);
    cw_recorded_octets(run, key, 16, " ");
    cw_recorded_octets(run, value, value_len > CW_RECORDED_VALUE ? CW_RECORDED_VALUE : value_len, "");
    return cw_recorded_end(run, code);
}

static inline uint8_t cw_recorded_dispose(cw_recording *run, uint8_t writer, const uint8_t key[16]) {
    return cw_recorded_keyed(run, cw_dispose(&run->peer, writer, key), "dispose", 'w', writer, key);
}

static inline uint8_t cw_recorded_unregister(cw_recording *run, uint8_t writer, const uint8_t key[16]) {
    return cw_recorded_keyed(run, cw_unregister(&run->peer, writer, key), "unregister", 'w', writer, key);
}

static inline uint8_t cw_recorded_lookup_instance(cw_recording *run, uint8_t reader, const uint8_t key[16]) {
    return cw_recorded_keyed(run, cw_lookup_instance(&run->peer, reader, key), "lookup", 'r', reader, key);
}

/* A call that says nothing else. */
static inline uint8_t cw_recorded_plain(cw_recording *run, uint8_t code, const char *word, char kind, uint8_t number) {
    return cw_recorded_call(run, code, word, kind, number) ? cw_recorded_end(run, code) : code;
}

static inline uint8_t cw_recorded_assert_liveliness(cw_recording *run, uint8_t writer) {
    return cw_recorded_plain(run, cw_assert_liveliness(&run->peer, writer), "assert", 'w', writer);
}

static inline uint8_t cw_recorded_get_liveliness_lost_status(cw_recording *run, uint8_t writer) {
    return cw_recorded_plain(run, cw_get_liveliness_lost_status(&run->peer, writer), "livelost", 'w', writer);
}

static inline uint8_t cw_recorded_get_sample_lost_status(cw_recording *run, uint8_t reader) {
    return cw_recorded_plain(run, cw_get_sample_lost_status(&run->peer, reader), "lost", 'r', reader);
}

static inline uint8_t cw_recorded_get_liveliness_changed_status(cw_recording *run, uint8_t reader) {
    return cw_recorded_plain(run, cw_get_liveliness_changed_status(&run->peer, reader), "changed", 'r', reader);
}

static inline uint8_t cw_recorded_read_next_sample(cw_recording *run, uint8_t reader) {
    return cw_recorded_plain(run, cw_read_next_sample(&run->peer, reader), "read_next_sample", 'r', reader);
}

static inline uint8_t cw_recorded_take_next_sample(cw_recording *run, uint8_t reader) {
    return cw_recorded_plain(run, cw_take_next_sample(&run->peer, reader), "take_next_sample", 'r', reader);
}

static inline uint8_t cw_recorded_set_strength(cw_recording *run, uint8_t writer, int32_t strength) {
    uint8_t code = cw_set_strength(&run->peer, writer, strength);
    if (!cw_recorded_call(run, code, "strength", 'w', writer))
        return code;
    fprintf(run->to, " %" PRId32, strength);
    return cw_recorded_end(run, code);
}

static inline uint8_t cw_recorded_get_publication_matched_status(cw_recording *run, uint8_t writer) {
    return cw_recorded_plain(run, cw_get_publication_matched_status(&run->peer, writer), "matched", 'w', writer);
}

static inline uint8_t cw_recorded_get_subscription_matched_status(cw_recording *run, uint8_t reader) {
    return cw_recorded_plain(run, cw_get_subscription_matched_status(&run->peer, reader), "matched", 'r', reader);
}

/* A match or a parting, with an end of the other kind. */
static inline uint8_t cw_recorded_told(cw_recording *run, uint8_t code, const char *word, char kind, uint8_t number, uint32_t other_peer,
                                       uint8_t other) {
    if (!cw_recorded_call(run, code, word, kind, number))
        return code;
    fprintf(run->to, " %u.%c%u", (unsigned)other_peer, kind == 'w' ? 'r' : 'w', (unsigned)other);
    return cw_recorded_end(run, code);
}

static inline uint8_t cw_recorded_greet_reader(cw_recording *run, uint8_t writer, uint32_t reader_peer, uint8_t reader) {
    uint8_t code = cw_greet_reader(&run->peer, writer, reader_peer, reader);
    if (!cw_recorded_call(run, code, "match", 'w', writer))
        return code;
    fprintf(run->to, " %u.r%u greeted", (unsigned)reader_peer, (unsigned)reader);
    return cw_recorded_end(run, code);
}

static inline uint8_t cw_recorded_match_reader(cw_recording *run, uint8_t writer, uint32_t reader_peer, uint8_t reader) {
    return cw_recorded_told(run, cw_match_reader(&run->peer, writer, reader_peer, reader), "match", 'w', writer, reader_peer, reader);
}

static inline uint8_t cw_recorded_unmatch_reader(cw_recording *run, uint8_t writer, uint32_t reader_peer, uint8_t reader) {
    return cw_recorded_told(run, cw_unmatch_reader(&run->peer, writer, reader_peer, reader), "part", 'w', writer, reader_peer, reader);
}

static inline uint8_t cw_recorded_match_writer(cw_recording *run, uint8_t reader, uint32_t writer_peer, uint8_t writer) {
    return cw_recorded_told(run, cw_match_writer(&run->peer, reader, writer_peer, writer), "match", 'r', reader, writer_peer, writer);
}

static inline uint8_t cw_recorded_unmatch_writer(cw_recording *run, uint8_t reader, uint32_t writer_peer, uint8_t writer) {
    return cw_recorded_told(run, cw_unmatch_writer(&run->peer, reader, writer_peer, writer), "part", 'r', reader, writer_peer, writer);
}

/* A meeting with an end of the other kind, without what is said of it. */
static inline bool cw_recorded_meeting(cw_recording *run, uint8_t code, char kind, uint8_t number, uint32_t other_peer, uint8_t other,
                                       const uint8_t prefix[12], const uint8_t entity[4]) {
    if (!cw_recorded_call(run, code, "meet", kind, number))
        return false;
    fprintf(run->to, " %" PRIu32 ".%c%u ", other_peer, kind == 'w' ? 'r' : 'w', (unsigned)other);
    cw_recorded_octets(run, prefix, 12, " ");
    cw_recorded_octets(run, entity, 4, "");
    return true;
}

static inline uint8_t cw_recorded_meet_reader(cw_recording *run, uint8_t writer, uint32_t reader_peer, uint8_t reader,
                                              const uint8_t prefix[12], const uint8_t entity[4], bool is_best_effort, bool is_greeted) {
    uint8_t code = cw_meet_reader(&run->peer, writer, reader_peer, reader, prefix, entity, is_best_effort, is_greeted);
    if (!cw_recorded_meeting(run, code, 'w', writer, reader_peer, reader, prefix, entity))
        return code;
    fprintf(run->to, "%s%s", is_best_effort ? " besteffort" : "", is_greeted ? " greeted" : "");
    return cw_recorded_end(run, code);
}

static inline uint8_t cw_recorded_meet_writer(cw_recording *run, uint8_t reader, uint32_t writer_peer, uint8_t writer,
                                              const uint8_t prefix[12], const uint8_t entity[4], int32_t strength, bool has_lease,
                                              uint64_t lease) {
    uint8_t code = cw_meet_writer(&run->peer, reader, writer_peer, writer, prefix, entity, strength, has_lease, lease);
    if (!cw_recorded_meeting(run, code, 'r', reader, writer_peer, writer, prefix, entity))
        return code;
    fprintf(run->to, " strength=%" PRId32, strength);
    if (has_lease)
        fprintf(run->to, " lease=%" PRIu64, lease);
    return cw_recorded_end(run, code);
}

/* A handle in a line has 32 bits; no instance is known by a greater one. */
static inline void cw_recorded_handle(cw_recording *run, uint64_t handle) {
    fprintf(run->to, " %" PRIu64, handle > UINT32_MAX ? (uint64_t)UINT32_MAX : handle);
}

static inline uint8_t cw_recorded_get_key_value(cw_recording *run, uint8_t reader, uint64_t handle) {
    uint8_t code = cw_get_key_value(&run->peer, reader, handle);
    if (!cw_recorded_call(run, code, "key", 'r', reader))
        return code;
    cw_recorded_handle(run, handle);
    return cw_recorded_end(run, code);
}

/* A read or a take by masks, of the instance of a handle where one is named. */
static inline uint8_t cw_recorded_access(cw_recording *run, uint8_t code, const char *word, uint8_t reader, const uint64_t *handle,
                                         int32_t max, uint32_t samples, uint32_t views, uint32_t instances) {
    if (!cw_recorded_call(run, code, word, 'r', reader))
        return code;
    if (handle != NULL)
        cw_recorded_handle(run, *handle);
    fprintf(run->to, " %" PRId32 " %" PRIu32 " %" PRIu32 " %" PRIu32, max, samples, views, instances);
    return cw_recorded_end(run, code);
}

static inline uint8_t cw_recorded_read(cw_recording *run, uint8_t reader, int32_t max, uint32_t samples, uint32_t views, uint32_t instances) {
    uint8_t code = cw_read(&run->peer, reader, max, samples, views, instances);
    return cw_recorded_access(run, code, "read", reader, NULL, max, samples, views, instances);
}

static inline uint8_t cw_recorded_take(cw_recording *run, uint8_t reader, int32_t max, uint32_t samples, uint32_t views, uint32_t instances) {
    uint8_t code = cw_take(&run->peer, reader, max, samples, views, instances);
    return cw_recorded_access(run, code, "take", reader, NULL, max, samples, views, instances);
}

static inline uint8_t cw_recorded_read_instance(cw_recording *run, uint8_t reader, int32_t max, uint64_t handle, uint32_t samples,
                                                uint32_t views, uint32_t instances) {
    uint8_t code = cw_read_instance(&run->peer, reader, max, handle, samples, views, instances);
    return cw_recorded_access(run, code, "read_instance", reader, &handle, max, samples, views, instances);
}

static inline uint8_t cw_recorded_take_instance(cw_recording *run, uint8_t reader, int32_t max, uint64_t handle, uint32_t samples,
                                                uint32_t views, uint32_t instances) {
    uint8_t code = cw_take_instance(&run->peer, reader, max, handle, samples, views, instances);
    return cw_recorded_access(run, code, "take_instance", reader, &handle, max, samples, views, instances);
}

static inline uint8_t cw_recorded_read_next_instance(cw_recording *run, uint8_t reader, int32_t max, uint64_t previous, uint32_t samples,
                                                     uint32_t views, uint32_t instances) {
    uint8_t code = cw_read_next_instance(&run->peer, reader, max, previous, samples, views, instances);
    return cw_recorded_access(run, code, "read_next_instance", reader, &previous, max, samples, views, instances);
}

static inline uint8_t cw_recorded_take_next_instance(cw_recording *run, uint8_t reader, int32_t max, uint64_t previous, uint32_t samples,
                                                     uint32_t views, uint32_t instances) {
    uint8_t code = cw_take_next_instance(&run->peer, reader, max, previous, samples, views, instances);
    return cw_recorded_access(run, code, "take_next_instance", reader, &previous, max, samples, views, instances);
}

/* A read or a take by a condition. */
static inline uint8_t cw_recorded_by_condition(cw_recording *run, uint8_t code, const char *word, uint8_t reader, const uint64_t *previous,
                                               int32_t max, uint32_t condition) {
    if (!cw_recorded_call(run, code, word, 'r', reader))
        return code;
    if (previous != NULL)
        cw_recorded_handle(run, *previous);
    fprintf(run->to, " %" PRId32 " %" PRIu32, max, condition);
    return cw_recorded_end(run, code);
}

static inline uint8_t cw_recorded_read_w_condition(cw_recording *run, uint8_t reader, int32_t max, uint32_t condition) {
    uint8_t code = cw_read_w_condition(&run->peer, reader, max, condition);
    return cw_recorded_by_condition(run, code, "read_w", reader, NULL, max, condition);
}

static inline uint8_t cw_recorded_take_w_condition(cw_recording *run, uint8_t reader, int32_t max, uint32_t condition) {
    uint8_t code = cw_take_w_condition(&run->peer, reader, max, condition);
    return cw_recorded_by_condition(run, code, "take_w", reader, NULL, max, condition);
}

static inline uint8_t cw_recorded_read_next_instance_w_condition(cw_recording *run, uint8_t reader, int32_t max, uint64_t previous,
                                                                 uint32_t condition) {
    uint8_t code = cw_read_next_instance_w_condition(&run->peer, reader, max, previous, condition);
    return cw_recorded_by_condition(run, code, "read_next_instance_w", reader, &previous, max, condition);
}

static inline uint8_t cw_recorded_take_next_instance_w_condition(cw_recording *run, uint8_t reader, int32_t max, uint64_t previous,
                                                                 uint32_t condition) {
    uint8_t code = cw_take_next_instance_w_condition(&run->peer, reader, max, previous, condition);
    return cw_recorded_by_condition(run, code, "take_next_instance_w", reader, &previous, max, condition);
}

/* Filters and listeners, which cinchwalnut.h calls recorders. */

static inline uint8_t cw_recorded_add_filter(cw_recording *run, const uint8_t *octets, size_t octets_len, uint32_t *number) {
    uint8_t code = cw_add_filter(&run->peer, octets, octets_len, number);
    if (code != CW_OK || run->to == NULL)
        return code;
    fputs("filter ", run->to);
    cw_recorded_octets(run, octets, octets_len, "\n");
    fprintf(run->to, "reply id %" PRIu32 "\n", *number);
    return code;
}

static inline void cw_recorded_matched(cw_recording *run, const cw_notice_info *it) {
    const cw_matched_status *matched = &it->matched;
    fprintf(run->to, " matched %" PRIu64 " %" PRIu64 " %" PRId64 " %" PRId64, matched->total_count, matched->total_count_change,
            matched->current_count, matched->current_count_change);
    if (matched->last_peer == 0)
        fputs(" -]", run->to);
    else
        fprintf(run->to, " %u.%c%u]", (unsigned)matched->last_peer, it->status == CW_PUBLICATION_MATCHED ? 'r' : 'w',
                (unsigned)matched->last_number);
}

static inline void cw_recorded_notice(cw_recording *run, const cw_notice_info *it) {
    fprintf(run->to, " [%c%u", it->entity_kind == CW_WRITER ? 'w' : 'r', (unsigned)it->entity_number);
    if (it->status == CW_DATA_AVAILABLE)
        fputs(" data]", run->to);
    else if (it->status == CW_LIVELINESS_CHANGED)
        fprintf(run->to, " changed %" PRId32 " %" PRId32 " %" PRId32 " %" PRId32 " %" PRIu64 "]", it->changed.alive_count,
                it->changed.not_alive_count, it->changed.alive_count_change, it->changed.not_alive_count_change,
                it->changed.last_publication_handle);
    else if (it->status == CW_PUBLICATION_MATCHED || it->status == CW_SUBSCRIPTION_MATCHED)
        cw_recorded_matched(run, it);
    else
        fprintf(run->to, " %s %" PRIu64 " %" PRIu64 "]", it->status == CW_SAMPLE_LOST ? "lost" : "livelost", it->total.total_count,
                it->total.total_count_change);
}

/* The reply to a listener that is set or taken away: what the one before it was told. */
static inline void cw_recorded_replaced(cw_recording *run, uint8_t kind, uint8_t number, bool has_listener) {
    cw_notice_info notice;
    fputs(run->has_listener[kind][number] ? "reply ok old" : "reply ok", run->to);
    for (size_t at = 0; cw_notice(&run->peer, at, &notice) == CW_OK; at++)
        cw_recorded_notice(run, &notice);
    fputc('\n', run->to);
    run->has_listener[kind][number] = has_listener;
}

static inline void cw_recorded_entity(cw_recording *run, uint8_t kind, uint8_t number) {
    if (kind == CW_PARTICIPANT)
        fputs(" p", run->to);
    else
        fprintf(run->to, " %c%u", kind == CW_WRITER ? 'w' : 'r', (unsigned)number);
}

static inline uint8_t cw_recorded_set_recorder(cw_recording *run, uint8_t kind, uint8_t number, uint32_t mask, size_t room) {
    uint8_t code = cw_set_recorder(&run->peer, kind, number, mask, room);
    if (code != CW_OK || run->to == NULL)
        return code;
    fputs("listener", run->to);
    cw_recorded_entity(run, kind, number);
    fprintf(run->to, " %" PRIu32 " %zu\n", mask, room);
    cw_recorded_replaced(run, kind, number, true);
    return code;
}

static inline uint8_t cw_recorded_clear_recorder(cw_recording *run, uint8_t kind, uint8_t number) {
    uint8_t code = cw_clear_recorder(&run->peer, kind, number);
    if (code != CW_OK || run->to == NULL)
        return code;
    fputs("unlisten", run->to);
    cw_recorded_entity(run, kind, number);
    fputc('\n', run->to);
    cw_recorded_replaced(run, kind, number, false);
    return code;
}

#endif
