/* What is misused is answered by a code, and changes nothing. */
#include "cinchwalnut.h"
#include <stdio.h>
#include <string.h>

static const cw_peer_config peers[] = {{{1, 1, 1, 1, 1, 1, 1, 1, 1, 1, 1, 1}}};
static const cw_writer_config writers[] = {
    {.peer = 1, .entity = {0, 0, 1, 2}, .max_samples = -1}, {.peer = 9, .entity = {0, 0, 2, 2}, .max_samples = -1}};
static const cw_reader_config readers[] = {
    {.peer = 1, .entity = {0, 0, 1, 7}, .keeps_last = true, .depth = 0, .max_samples = -1, .max_instances = -1}};

/* Readers of no change in their life, of one too many, and of as many as can be said. */
#define LIFE(changes) \
    {.peer = 1, .entity = {0, 0, 1, 7}, .max_samples = -1, .max_instances = -1, \
     .has_max_arrivals = true, .max_arrivals = (changes)}
static const cw_reader_config lives[] = {LIFE(0), LIFE(((uint64_t)1 << 63) + 1), LIFE((uint64_t)1 << 63)};

static void say(const char *what, uint8_t code) { printf("%s: %u, %s\n", what, code, cw_code_name(code)); }

static uint8_t open_with(cw_peer *peer, size_t writers_len, size_t readers_len, uint8_t number) {
    return cw_open(peer, peers, 1, writers, writers_len, readers, readers_len, number);
}

/* Which rule a configuration breaks, where, and the sentence that says it. */
static void say_fault(const char *what, const cw_writer_config *of_writers, size_t writers_len, size_t readers_len) {
    cw_fault fault = {0};
    uint8_t sentence[128] = {0};
    size_t len = 0;
    uint8_t code = cw_config_fault(peers, 1, of_writers, writers_len, readers, readers_len, &fault, sentence, sizeof sentence, &len);
    printf("%s: %s, rule %u at place %u, code %u: %.*s\n", what, cw_code_name(code), fault.rule, fault.place, fault.code,
           code == CW_OK ? (int)len : 0, (const char *)sentence);
}

/* Why a line, or a text, is none. */
static void say_words(const char *what, const char *text,
                      uint8_t (*fault)(const uint8_t *, size_t, uint8_t *, size_t, size_t *)) {
    uint8_t sentence[128] = {0};
    size_t len = 0;
    uint8_t code = fault((const uint8_t *)text, strlen(text), sentence, sizeof sentence, &len);
    printf("%s: %s, %.*s\n", what, cw_code_name(code), code == CW_OK ? (int)len : 0, (const char *)sentence);
}

static uint64_t sum_of(size_t readers_len) {
    uint64_t sum = 0;
    say("a sum", cw_config_sum(peers, 1, writers, 1, readers, readers_len, &sum));
    return sum;
}

/* What tells a writer, and what tells a reader, that it is matched, and that it is no longer. */
static const struct {
    const char *whom;
    uint8_t (*match)(cw_peer *, uint8_t, uint32_t, uint8_t), (*part)(cw_peer *, uint8_t, uint32_t, uint8_t);
} tellings[] = {{"a writer", cw_match_reader, cw_unmatch_reader}, {"a reader", cw_match_writer, cw_unmatch_writer}};

static void say_matches(cw_peer *peer) {
    cw_matched_status matched = {0};
    for (int at = 0; at < 2; at++) {
        printf("%s is told\n", tellings[at].whom);
        say("of a match that there is", tellings[at].match(peer, 1, 1, 1));
        say("of one with an end that there isn't", tellings[at].match(peer, 1, 1, 2));
        say("of a parting", tellings[at].part(peer, 1, 1, 1));
        say("of it once more", tellings[at].part(peer, 1, 1, 1));
        say("of one from an end that there isn't", tellings[at].part(peer, 1, 9, 1));
    }
    say("matches of an answer that has none", cw_matched(peer, &matched));
    say("those of a writer that there isn't", cw_get_publication_matched_status(peer, 2));
    say("those of a reader that there isn't", cw_get_subscription_matched_status(peer, 2));
    say("places of a reader that there isn't", cw_resume(peer, 2));
}

int main(void) {
    cw_peer peer = CW_PEER_NONE;
    const uint8_t key[16] = {1}, value[1025] = {0};
    uint8_t buffer[8] = {0};
    uint32_t to = 0;
    uint64_t handle = 0;
    size_t needed = 0;
    cw_observed seen = {0};
    say("a tick at a peer that is not open", cw_tick(&peer, 1));
    say("a packet of one that is not open", cw_packet(&peer, 0, &to, buffer, sizeof buffer, &needed));
    say("a look at a datagram of one that is not open", cw_observe_writer(&peer, 1, 1, value, 1, &seen));
    say("a writer of a peer that there isn't", open_with(&peer, 2, 0, 1));
    say("a peer that there isn't", open_with(&peer, 1, 0, 2));
    say("peer 0", open_with(&peer, 1, 0, 0));
    say("a depth of 0", open_with(&peer, 1, 1, 1));
    say_fault("why", writers, 1, 1);
    say_fault("why, of a writer of a peer that there isn't", writers, 2, 0);
    say_fault("why, of none that is wrong", writers, 1, 0);
    say_fault("why, of writers at NULL", NULL, 2, 0);
    printf("configurations that differ have %s sums\n", sum_of(0) == sum_of(1) ? "equal" : "other");
    say("the sum of one that names no peer", cw_config_sum(peers, 1, writers, 2, readers, 0, &handle));
    say("a reader that takes no change", cw_open(&peer, peers, 1, writers, 1, &lives[0], 1, 1));
    say("a reader that takes more than 2^63", cw_open(&peer, peers, 1, writers, 1, &lives[1], 1, 1));
    say("a reader that takes 2^63", cw_open(&peer, peers, 1, writers, 1, &lives[2], 1, 1));
    say_matches(&peer);
    cw_close(&peer);
    say("a configuration that is none", cw_open_text(&peer, (const uint8_t *)"nonsense", 8, 1));
    say_words("why", "nonsense", cw_text_fault);
    say_words("why, of no text", "", cw_text_fault);
    say("and now one that is", open_with(&peer, 1, 0, 1));
    say("a writer that there isn't", cw_write(&peer, 2, key, value, 1));
    say("a value of 1,025 octets", cw_write(&peer, 1, key, value, sizeof value));
    say("an instance that is not registered", cw_unregister(&peer, 1, key));
    say("a reader that there isn't", cw_take(&peer, 1, -1, CW_ANY, CW_ANY, CW_ANY));
    say("a line that is none", cw_line(&peer, (const uint8_t *)"take", 4));
    say_words("why", "take", cw_line_fault);
    say_words("why, of one that is", "tick 5", cw_line_fault);
    say("a moment", cw_tick(&peer, 5));
    say("an earlier one", cw_tick(&peer, 4));
    say("a moment that is too late", cw_tick(&peer, (uint64_t)1 << 63));
    say("a handle of an answer that has none", cw_handle(&peer, &handle));
    say("a packet that there isn't", cw_packet(&peer, 0, &to, buffer, sizeof buffer, &needed));
    say("octets that are no datagram", cw_deliver(&peer, value, sizeof value));
    say("no octets", cw_deliver(&peer, value, 0));
    say("a buffer that is too short", cw_text(&peer, buffer, 3, &needed));
    printf("it has to have %zu octets\n", needed);
    say("no buffer", cw_text(&peer, NULL, 0, &needed));
    printf("it has to have %zu octets\n", needed);
    say("NULL, and no octets", cw_deliver(&peer, NULL, 0));
    say("NULL, and some octets", cw_deliver(&peer, NULL, 1));
    say("a buffer of 8 octets at NULL", cw_text(&peer, NULL, 8, &needed));
    say("a look at a datagram, for a writer that there isn't", cw_observe_writer(&peer, 9, 9, value, sizeof value, &seen));
    say("a look at NULL, and no octets", cw_observe_writer(&peer, 1, 1, NULL, 0, &seen));
    say("a look at NULL, and some octets", cw_observe_writer(&peer, 1, 1, NULL, 1, &seen));
    say("a value at NULL without octets", cw_write(&peer, 1, key, NULL, 0));
    peer.is_busy = 1; /* as if another thread were in a call */
    say("a write while another call is under way", cw_write(&peer, 1, key, value, 1));
    say("a packet meanwhile", cw_packet(&peer, 0, &to, buffer, sizeof buffer, &needed));
    say("a look meanwhile", cw_observe(&peer, value, 1, &seen));
    printf("unsent packets meanwhile: %llu\n", (unsigned long long)cw_unsent(&peer));
    cw_close(&peer); /* does nothing: that call would go on in what was freed */
    peer.is_busy = 0;
    say("a write after it", cw_write(&peer, 1, key, value, 1));
    cw_close(&peer);
    cw_close(&peer);
    say("a write once it is closed, twice", cw_write(&peer, 1, key, value, 1));
    say("a configuration at NULL", cw_open(&peer, NULL, 0, NULL, 0, NULL, 0, 1));
    say("a code that there isn't", 99);
    return 0;
}
