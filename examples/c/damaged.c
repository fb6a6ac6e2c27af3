/* Damaged datagrams, as many as the first word says: a true one, of which some octets are others, or the end is missing.
 * Each is answered by a report, and what the peer then gives can be fetched. */
#include "cinchwalnut.h"
#include <stdio.h>
#include <stdlib.h>
#include <string.h>

static const cw_peer_config peers[] = {{{1}}, {{2}}};
static const cw_writer_config writers[] = {{.peer = 1, .entity = {0, 0, 1, 2}, .max_samples = -1}};
static const cw_reader_config readers[] = {{.peer = 2, .entity = {0, 0, 1, 7}, .max_samples = -1, .max_instances = -1}};

static uint64_t state = 88172645463325252u;

/* Numbers that are the same in each run. */
static uint32_t below(uint32_t bound) {
    state ^= state << 13;
    state ^= state >> 7;
    state ^= state << 17;
    return (uint32_t)(state >> 32) % bound;
}

static size_t damage(uint8_t *octets, size_t len) {
    for (uint32_t left = below(4); left > 0; left--)
        octets[below((uint32_t)len)] = below(2) ? (uint8_t)below(256) : (uint8_t)(below(2) * 255);
    return below(4) ? len : below((uint32_t)len + 1);
}

/* What the peer gave back is fetched; its packets are for nobody. */
static bool fetch_all(cw_peer *peer) {
    static uint8_t buffer[65536];
    uint32_t to = 0;
    size_t len = 0;
    if (cw_text(peer, buffer, sizeof buffer, &len) != CW_OK)
        return false;
    uint8_t code = CW_OK;
    for (size_t at = 0; code == CW_OK; at++)
        code = cw_packet(peer, at, &to, buffer, sizeof buffer, &len);
    return code == CW_NO_DATA;
}

static bool take_all(cw_peer *peer) {
    static uint8_t value[1024];
    cw_sample_info info = {0};
    size_t len = 0;
    uint8_t code = cw_take(peer, 1, -1, CW_ANY, CW_ANY, CW_ANY);
    for (size_t at = 0; code == CW_OK; at++)
        code = cw_sample(peer, at, &info, value, sizeof value, &len);
    return code == CW_NO_DATA;
}

int main(int count_of_words, char **words) {
    long count = count_of_words > 1 ? atol(words[1]) : 10000;
    static uint8_t packet[65536], damaged[65536];
    cw_peer writer = CW_PEER_NONE, reader = CW_PEER_NONE;
    uint8_t key[16] = {0};
    uint32_t to = 0;
    size_t len = 0;
    if (cw_open(&writer, peers, 2, writers, 1, readers, 1, 1) || cw_open(&reader, peers, 2, writers, 1, readers, 1, 2))
        return 1;
    for (long done = 0; done < count; done++) {
        /* a DATA, or a HEARTBEAT; and now and then the session begins anew */
        key[15] = (uint8_t)below(8);
        uint8_t code = below(4) ? cw_write(&writer, 1, key, packet, below(64)) : cw_tick(&writer, (uint64_t)done << 20);
        if (code != CW_OK || (done % 500 == 499 && cw_open(&writer, peers, 2, writers, 1, readers, 1, 1) != CW_OK) ||
            (done % 700 == 699 && cw_open(&reader, peers, 2, writers, 1, readers, 1, 2) != CW_OK))
            return 2;
        if (cw_packet(&writer, 0, &to, packet, sizeof packet, &len) != CW_OK)
            continue;
        memcpy(damaged, packet, len);
        if (cw_deliver(&reader, damaged, damage(damaged, len)) != CW_OK || !fetch_all(&reader))
            return 3;
        if (below(8) == 0 && !take_all(&reader))
            return 4;
    }
    cw_close(&writer);
    cw_close(&reader);
    printf("damaged datagrams: each is answered, and the peers close\n");
    return 0;
}
