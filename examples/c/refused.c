/* Each growth of memory refused in turn: a call then answers CW_MEMORY, and once more it is done; or it says which packets
 * found no memory, and these are repaired as lost ones. Nothing leaks. */
#include "cinchwalnut.h"
#include <stdio.h>
#include <stdlib.h>
#include <string.h>

/* The heap that the library asks, in place of the kit's: it refuses the growth of one number, counted from 1. */
static long refused, asked, blocks;

struct tried {
    bool ok;
    void *memory;
};

static struct tried tried(void *memory) {
    static max_align_t nowhere;
    return (struct tried){memory != NULL, memory ? memory : (void *)&nowhere};
}

struct tried rattle_alloc(size_t size, size_t align) {
    struct tried got = tried(++asked == refused ? NULL : malloc(size ? size : align));
    blocks += got.ok;
    return got;
}

struct tried rattle_realloc(void *memory, size_t kept, size_t size, size_t align) {
    (void)kept;
    return tried(++asked == refused ? NULL : realloc(memory, size ? size : align));
}

void rattle_dealloc(void *memory) {
    blocks--;
    free(memory);
}

static const char config[] = "peer 010101010101010101010101\nwriter 00000102 all\n"
                             "peer 020202020202020202020202\nreader 00000107 all\n";

static int again;

/* A call, and once more where its memory was refused. */
#define AGAIN(call)                                                                                                    \
    do {                                                                                                               \
        uint8_t code = (call);                                                                                         \
        if (code == CW_MEMORY) {                                                                                       \
            again++;                                                                                                   \
            code = (call);                                                                                             \
        }                                                                                                              \
        if (code != CW_OK) {                                                                                           \
            printf("line %d: code %u at refusal %ld\n", __LINE__, code, refused);                                      \
            return false;                                                                                              \
        }                                                                                                              \
    } while (0)

static bool repair(cw_peer *writer, cw_peer *reader, uint64_t now) {
    static uint8_t packet[1024];
    uint32_t to = 0;
    size_t len = 0;
    AGAIN(cw_tick(writer, now));
    if (cw_packet(writer, 0, &to, packet, sizeof packet, &len) != CW_OK)
        return true;
    AGAIN(cw_deliver(reader, packet, len));
    if (cw_packet(reader, 0, &to, packet, sizeof packet, &len) != CW_OK)
        return true;
    AGAIN(cw_deliver(writer, packet, len));
    for (size_t at = 0; cw_packet(writer, at, &to, packet, sizeof packet, &len) == CW_OK; at++)
        AGAIN(cw_deliver(reader, packet, len));
    return true;
}

static bool session(cw_peer *writer, cw_peer *reader) {
    static uint8_t packet[1024];
    uint8_t key[16] = {1};
    uint32_t to = 0;
    size_t len = 0;
    AGAIN(cw_open_text(writer, (const uint8_t *)config, strlen(config), 1));
    AGAIN(cw_open_text(reader, (const uint8_t *)config, strlen(config), 2));
    for (int i = 0; i < 3; i++) {
        AGAIN(cw_write(writer, 1, key, (const uint8_t *)"value", 5));
        if (cw_packet(writer, 0, &to, packet, sizeof packet, &len) == CW_OK)
            AGAIN(cw_deliver(reader, packet, len));
    }
    AGAIN(cw_text(reader, packet, sizeof packet, &len));
    for (uint64_t now = 1; now < 4; now++)
        if (!repair(writer, reader, now << 32))
            return false;
    AGAIN(cw_take(reader, 1, -1, CW_ANY, CW_ANY, CW_ANY));
    cw_sample_info info = {0};
    if (cw_sample(reader, 2, &info, packet, sizeof packet, &len) == CW_OK && len == 5)
        return true;
    printf("a sample is missing at refusal %ld\n", refused);
    return false;
}

int main(void) {
    do {
        cw_peer writer = CW_PEER_NONE, reader = CW_PEER_NONE;
        asked = 0;
        bool is_done = session(&writer, &reader);
        cw_close(&writer);
        cw_close(&reader);
        if (!is_done)
            return 1;
        if (blocks != 0) {
            printf("%ld blocks are lost at refusal %ld\n", blocks, refused);
            return 1;
        }
        refused++;
    } while (refused <= asked + 1);
    printf("each growth refused in turn: all samples came each time, and no block is lost\n");
    return again == 0;
}
