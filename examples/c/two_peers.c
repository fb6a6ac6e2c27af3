/* Two peers in one process: a writer at the first, a reader at the second. Of three changes the second is lost on its
 * way; a HEARTBEAT makes the reader ask for it, and it is repaired. */
#include "cinchwalnut.h"
#include <stdio.h>
#include <stdlib.h>
#include <string.h>

#define CHECK(c) do { if (!(c)) { printf("line %d: not %s\n", __LINE__, #c); exit(1); } } while (0)

static const cw_peer_config peers[] = {{{1, 1, 1, 1, 1, 1, 1, 1, 1, 1, 1, 1}}, {{2, 2, 2, 2, 2, 2, 2, 2, 2, 2, 2, 2}}};
static const cw_writer_config writers[] = {
    {.peer = 1, .entity = {0, 0, 1, 2}, .autodispose = true, .max_samples = -1}};
static const cw_reader_config readers[] = {
    {.peer = 2, .entity = {0, 0, 1, 7}, .max_samples = -1, .max_instances = -1}};

static void open_peer(cw_peer *peer, uint8_t number) {
    CHECK(cw_open(peer, peers, 2, writers, 1, readers, 1, number) == CW_OK);
}

/* Carries the packets of the last answer of one peer to the other; or loses them. */
static void carry(cw_peer *from, cw_peer *to, bool is_lost) {
    static uint8_t packet[65536];
    uint32_t whom = 0;
    size_t len = 0;
    for (size_t at = 0; cw_packet(from, at, &whom, packet, sizeof packet, &len) == CW_OK; at++) {
        printf("a packet for peer %u, %zu octets%s\n", whom, len, is_lost ? ": lost" : "");
        if (!is_lost)
            CHECK(cw_deliver(to, packet, len) == CW_OK);
    }
}

static void print_answer(cw_peer *peer, const char *of) {
    static uint8_t text[4096];
    size_t len = 0;
    CHECK(cw_text(peer, text, sizeof text, &len) == CW_OK);
    printf("%s: %.*s", of, (int)len, (const char *)text);
}

static void take_all(cw_peer *reader) {
    cw_sample_info info = {0};
    uint8_t value[1024] = {0};
    size_t len = 0;
    CHECK(cw_take(reader, 1, -1, CW_ANY, CW_ANY, CW_ANY) == CW_OK);
    for (size_t at = 0; cw_sample(reader, at, &info, value, sizeof value, &len) == CW_OK; at++)
        printf("sample %zu: %.*s, of instance %llu, rank %llu, %s\n", at, (int)len, (const char *)value,
               (unsigned long long)info.instance_handle, (unsigned long long)info.sample_rank,
               info.instance_state == CW_ALIVE ? "alive" : "not alive");
}

int main(void) {
    cw_peer writer = CW_PEER_NONE, reader = CW_PEER_NONE;
    const uint8_t key[16] = {7};
    const char *values[] = {"one", "two", "three"};
    open_peer(&writer, 1);
    open_peer(&reader, 2);
    for (int i = 0; i < 3; i++) {
        CHECK(cw_write(&writer, 1, key, (const uint8_t *)values[i], strlen(values[i])) == CW_OK);
        carry(&writer, &reader, i == 1);
    }
    print_answer(&reader, "the reader after change 3");
    CHECK(cw_tick(&writer, CW_SECOND) == CW_OK);
    carry(&writer, &reader, false); /* a HEARTBEAT */
    carry(&reader, &writer, false); /* an ACKNACK */
    carry(&writer, &reader, false); /* the repair */
    print_answer(&reader, "the reader after the repair");
    take_all(&reader);
    CHECK(cw_take(&reader, 1, -1, CW_ANY, CW_ANY, CW_ANY) == CW_NO_DATA);
    const char *line = "call lost r1";
    CHECK(cw_line(&reader, (const uint8_t *)line, strlen(line)) == CW_OK);
    print_answer(&reader, line);
    cw_close(&writer);
    cw_close(&reader);
    return 0;
}
