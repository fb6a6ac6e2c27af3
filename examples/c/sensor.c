/* A best-effort writer of a sensor at the first peer, and a best-effort reader of it at the second. Of three values the
 * second is lost on its way: the reader goes on with the third, and counts what it missed; nothing is asked for or kept. */
#include "cinchwalnut.h"
#include <stdio.h>
#include <stdlib.h>
#include <string.h>

#define CHECK(c) do { if (!(c)) { printf("line %d: not %s\n", __LINE__, #c); exit(1); } } while (0)

static const cw_peer_config peers[] = {{{1, 1, 1, 1, 1, 1, 1, 1, 1, 1, 1, 1}}, {{2, 2, 2, 2, 2, 2, 2, 2, 2, 2, 2, 2}}};
static const cw_writer_config writers[] = {
    {.peer = 1, .entity = {0, 0, 1, 2}, .is_best_effort = true, .max_samples = 1}};
static const cw_reader_config readers[] = {
    {.peer = 2, .entity = {0, 0, 1, 7}, .is_best_effort = true, .max_samples = -1, .max_instances = -1}};

/* Carries the packets of the sensor's last answer to the reader's peer, or loses them, and says how many there were. */
static size_t carry(cw_peer *sensor, cw_peer *reader, bool is_lost) {
    static uint8_t packet[65536];
    uint32_t whom = 0;
    size_t len = 0, at = 0;
    for (; cw_packet(sensor, at, &whom, packet, sizeof packet, &len) == CW_OK; at++)
        if (!is_lost)
            CHECK(cw_deliver(reader, packet, len) == CW_OK);
    return at;
}

int main(void) {
    cw_peer sensor = CW_PEER_NONE, reader = CW_PEER_NONE;
    cw_sample_info info = {0};
    cw_total_status lost = {0};
    const uint8_t key[16] = {7};
    const char *values[] = {"20.5", "20.6", "20.9"};
    uint8_t value[1024] = {0};
    size_t len = 0;
    CHECK(cw_open(&sensor, peers, 2, writers, 1, readers, 1, 1) == CW_OK);
    CHECK(cw_open(&reader, peers, 2, writers, 1, readers, 1, 2) == CW_OK);
    for (int i = 0; i < 3; i++) {
        /* The writer has room for one sample, and never waits: it keeps none. */
        CHECK(cw_write(&sensor, 1, key, (const uint8_t *)values[i], strlen(values[i])) == CW_OK);
        CHECK(carry(&sensor, &reader, i == 1) == 1);
    }
    CHECK(cw_tick(&sensor, CW_SECOND) == CW_OK);
    printf("HEARTBEATs at the tick: %zu\n", carry(&sensor, &reader, false));
    CHECK(cw_take(&reader, 1, -1, CW_ANY, CW_ANY, CW_ANY) == CW_OK);
    for (size_t at = 0; cw_sample(&reader, at, &info, value, sizeof value, &len) == CW_OK; at++)
        printf("taken: %.*s\n", (int)len, (const char *)value);
    CHECK(cw_get_sample_lost_status(&reader, 1) == CW_OK);
    CHECK(cw_total(&reader, &lost) == CW_OK);
    printf("lost: %llu\n", (unsigned long long)lost.total_count);
    cw_close(&sensor);
    cw_close(&reader);
    return 0;
}
