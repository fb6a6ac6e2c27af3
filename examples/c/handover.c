/* Two controllers at the first peer set one valve, and the stronger one owns it. The standby is made the stronger while
 * both run: it owns the valve once a change of it with the new strength has come at the second peer. */
#include "cinchwalnut.h"
#include <stdio.h>
#include <stdlib.h>
#include <string.h>

#define CHECK(c) do { if (!(c)) { printf("line %d: not %s\n", __LINE__, #c); exit(1); } } while (0)

static const cw_peer_config peers[] = {{{1, 1, 1, 1, 1, 1, 1, 1, 1, 1, 1, 1}}, {{2, 2, 2, 2, 2, 2, 2, 2, 2, 2, 2, 2}}};
static const cw_writer_config writers[] = {
    {.peer = 1, .entity = {0, 0, 1, 2}, .is_exclusive = true, .max_samples = -1, .strength = 5},
    {.peer = 1, .entity = {0, 0, 2, 2}, .is_exclusive = true, .max_samples = -1, .strength = 3}};
static const cw_reader_config readers[] = {
    {.peer = 2, .entity = {0, 0, 1, 7}, .is_exclusive = true, .max_samples = -1, .max_instances = -1}};

/* A controller sets the valve, and the packet of it is delivered. */
static void set(cw_peer *plant, cw_peer *valve, uint8_t writer, const char *value) {
    static uint8_t packet[65536];
    const uint8_t key[16] = {7};
    uint32_t whom = 0;
    size_t len = 0;
    CHECK(cw_write(plant, writer, key, (const uint8_t *)value, strlen(value)) == CW_OK);
    CHECK(cw_packet(plant, 0, &whom, packet, sizeof packet, &len) == CW_OK);
    CHECK(cw_deliver(valve, packet, len) == CW_OK);
}

int main(void) {
    cw_peer plant = CW_PEER_NONE, valve = CW_PEER_NONE;
    cw_sample_info info = {0};
    uint8_t value[1024] = {0};
    size_t len = 0;
    CHECK(cw_open(&plant, peers, 2, writers, 2, readers, 1, 1) == CW_OK);
    CHECK(cw_open(&valve, peers, 2, writers, 2, readers, 1, 2) == CW_OK);
    set(&plant, &valve, 1, "open, says the first");
    set(&plant, &valve, 2, "shut, says the standby, which does not own it");
    CHECK(cw_set_strength(&plant, 2, 9) == CW_OK);
    set(&plant, &valve, 1, "half open, says the first, of which the standby is the stronger now, and nobody knows yet");
    set(&plant, &valve, 2, "shut, says the standby");
    set(&plant, &valve, 1, "open again, says the first, which does not own it any more");
    CHECK(cw_take(&valve, 1, -1, CW_ANY, CW_ANY, CW_ANY) == CW_OK);
    for (size_t at = 0; cw_sample(&valve, at, &info, value, sizeof value, &len) == CW_OK; at++)
        printf("taken, of writer %u: %.*s\n", (unsigned)info.publication_handle, (int)len, (const char *)value);
    printf("the strength of a writer that nobody has: %u\n", (unsigned)cw_set_strength(&plant, 3, 1));
    cw_close(&plant);
    cw_close(&valve);
    return 0;
}
