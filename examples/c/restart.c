/* A process ends, and comes back. Under its old prefix it loses, silently, as many samples as it had written before: the
 * reader takes them for those that it had. cw_observe shows it, and cw_observe_writer of which writer: what comes is old. So a
 * session has prefixes of its own, and all peers open anew with them.
 *
 * Here both peers are in one process. Where they are in several, the number of the session comes from whoever starts them: a
 * count in a file, the time, or octets at random; and each takes what its readers hold before it opens anew. */
#include "cinchwalnut.h"
#include <stdio.h>
#include <stdlib.h>

#define CHECK(c) do { if (!(c)) { printf("line %d: not %s\n", __LINE__, #c); exit(1); } } while (0)

static const cw_writer_config writers[] = {{.peer = 1, .entity = {0, 0, 1, 2}, .max_samples = -1}};
static const cw_reader_config readers[] = {{.peer = 2, .entity = {0, 0, 1, 7}, .max_samples = -1, .max_instances = -1}};
static cw_peer writer = CW_PEER_NONE, reader = CW_PEER_NONE;
static uint64_t now;
static cw_observed old;           /* what came that was nothing to the peer that it came to */
static cw_observed old_of_writer; /* that of writer 1 of peer 1 */

/* Opens a peer of a session: its number is in each prefix, so no two sessions have one in common. */
static void open_in(cw_peer *peer, uint8_t session, uint8_t number) {
    const cw_peer_config peers[] = {{{session, 1}}, {{session, 2}}};
    CHECK(cw_open(peer, peers, 2, writers, 1, readers, 1, number) == CW_OK);
}

static void carry(cw_peer *from, cw_peer *to) {
    static uint8_t packet[65536];
    uint32_t whom = 0;
    size_t len = 0;
    for (size_t at = 0; cw_packet(from, at, &whom, packet, sizeof packet, &len) == CW_OK; at++) {
        cw_observed seen = {0};
        CHECK(cw_observe(to, packet, len, &seen) == CW_OK);
        cw_observed_add(&old, &seen);
        CHECK(cw_observe_writer(to, 1, 1, packet, len, &seen) == CW_OK);
        cw_observed_add(&old_of_writer, &seen);
        CHECK(cw_deliver(to, packet, len) == CW_OK);
    }
}

/* Writes so many values, lets the two peers repair what they can, and prints how many are taken. */
static void exchange(const char *what, int values) {
    const uint8_t key[16] = {7};
    cw_sample_info info = {0};
    cw_total_status lost = {0};
    uint8_t value[16] = {0};
    size_t len = 0, taken = 0;
    old = old_of_writer = (cw_observed){0};
    for (int at = 0; at < values; at++) {
        CHECK(cw_write(&writer, 1, key, value, 1) == CW_OK);
        carry(&writer, &reader);
    }
    CHECK(cw_tick(&writer, now += CW_MS(10)) == CW_OK);
    carry(&writer, &reader); /* a HEARTBEAT, where something is unacknowledged */
    carry(&reader, &writer); /* an ACKNACK */
    carry(&writer, &reader); /* the repair */
    if (cw_take(&reader, 1, -1, CW_ANY, CW_ANY, CW_ANY) == CW_OK)
        while (cw_sample(&reader, taken, &info, value, sizeof value, &len) == CW_OK)
            taken++;
    CHECK(cw_get_sample_lost_status(&reader, 1) == CW_OK && cw_total(&reader, &lost) == CW_OK);
    printf("%s: %zu of %d taken, %llu lost as it says; ", what, taken, values, (unsigned long long)lost.total_count);
    printf("old DATA: %llu, old HEARTBEATs: %llu, to nobody: %llu; ", (unsigned long long)old.old_data,
           (unsigned long long)old.old_heartbeats, (unsigned long long)old.to_nobody);
    printf("of the writer: %llu, %llu\n", (unsigned long long)old_of_writer.old_data,
           (unsigned long long)old_of_writer.old_heartbeats);
}

int main(void) {
    open_in(&writer, 1, 1);
    open_in(&reader, 1, 2);
    exchange("session 1", 3);
    open_in(&writer, 1, 1); /* wrong: the process comes back under its old prefix */
    exchange("under the old prefix", 5);
    open_in(&writer, 2, 1); /* right: a session of its own, in which all open anew */
    open_in(&reader, 2, 2);
    exchange("session 2", 5);
    cw_close(&writer);
    cw_close(&reader);
    return 0;
}
