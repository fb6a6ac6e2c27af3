/* A reader dies while its writer is full. The writer is told that it is gone, and goes on; then it comes back, and goes on too:
 * what was written meanwhile is not lost. It has room for one sample, and the next comes once that is taken. */
#include "cinchwalnut.h"
#include <stdio.h>
#include <stdlib.h>
#include <string.h>

#define CHECK(c) do { if (!(c)) { printf("line %d: not %s\n", __LINE__, #c); exit(1); } } while (0)

static const cw_peer_config peers[] = {{{1, 1, 1, 1, 1, 1, 1, 1, 1, 1, 1, 1}}, {{2, 2, 2, 2, 2, 2, 2, 2, 2, 2, 2, 2}}};
static const cw_writer_config writers[] = {{.peer = 1, .entity = {0, 0, 1, 2}, .max_samples = 2}};
static const cw_reader_config readers[] = {{.peer = 2, .entity = {0, 0, 1, 7}, .max_samples = 1, .max_instances = -1}};
static cw_peer writer = CW_PEER_NONE, reader = CW_PEER_NONE;

static uint8_t write_text(const char *text) {
    const uint8_t key[16] = {7};
    return cw_write(&writer, 1, key, (const uint8_t *)text, strlen(text));
}

/* Carries the packets of the last answer of one peer to the other one, and says how many there were. */
static size_t carry(cw_peer *from, cw_peer *to) {
    static uint8_t packet[65536];
    uint32_t whom = 0;
    size_t len = 0, at = 0;
    for (; cw_packet(from, at, &whom, packet, sizeof packet, &len) == CW_OK; at++)
        CHECK(cw_deliver(to, packet, len) == CW_OK);
    return at;
}

static void take(void) {
    cw_sample_info info = {0};
    uint8_t value[1024] = {0};
    size_t len = 0;
    CHECK(cw_take(&reader, 1, -1, CW_ANY, CW_ANY, CW_ANY) == CW_OK);
    for (size_t at = 0; cw_sample(&reader, at, &info, value, sizeof value, &len) == CW_OK; at++)
        printf("taken: %.*s\n", (int)len, (const char *)value);
}

static void show(const char *whose, const cw_matched_status *it) {
    printf("%s: %llu matches were made, %lld of them stand; the last one with %u of peer %u\n", whose, (unsigned long long)it->total_count,
           (long long)it->current_count, (unsigned)it->last_number, (unsigned)it->last_peer);
}

int main(void) {
    cw_matched_status matched = {0};
    cw_notice_info notice = {0};
    cw_total_status lost = {0};
    uint64_t handle = 0;
    CHECK(cw_open(&writer, peers, 2, writers, 1, readers, 1, 1) == CW_OK);
    CHECK(cw_open(&reader, peers, 2, writers, 1, readers, 1, 2) == CW_OK);
    CHECK(cw_set_recorder(&writer, CW_WRITER, 1, CW_PUBLICATION_MATCHED, 4) == CW_OK);
    CHECK(write_text("first") == CW_OK && write_text("second") == CW_OK);
    printf("a third, to a reader that answers nothing: %s\n", cw_code_name(write_text("third")));
    CHECK(cw_unmatch_reader(&writer, 1, 2, 1) == CW_OK);
    printf("once more: %s\n", cw_code_name(cw_unmatch_reader(&writer, 1, 2, 1)));
    printf("the third, once it is gone: %s\n", cw_code_name(write_text("third")));
    CHECK(cw_clear_recorder(&writer, CW_WRITER, 1) == CW_OK && cw_notice(&writer, 0, &notice) == CW_OK);
    CHECK(notice.status == CW_PUBLICATION_MATCHED && notice.matched.current_count_change == -1);
    CHECK(cw_get_publication_matched_status(&writer, 1) == CW_OK && cw_matched(&writer, &matched) == CW_OK);
    show("the writer", &matched);

    CHECK(cw_unmatch_writer(&reader, 1, 1, 1) == CW_OK);
    CHECK(cw_match_reader(&writer, 1, 2, 1) == CW_OK);
    CHECK(cw_match_writer(&reader, 1, 1, 1) == CW_OK && cw_handle(&reader, &handle) == CW_OK && handle == 1);
    CHECK(write_text("fourth") == CW_OK && carry(&writer, &reader) == 1);
    CHECK(write_text("fifth") == CW_OK && carry(&writer, &reader) == 1);
    CHECK(cw_tick(&writer, CW_SECOND) == CW_OK && carry(&writer, &reader) == 1);
    CHECK(carry(&reader, &writer) == 1 && carry(&writer, &reader) == 1);
    take();
    CHECK(cw_resume(&reader, 1) == CW_OK);
    take();
    CHECK(cw_get_sample_lost_status(&reader, 1) == CW_OK && cw_total(&reader, &lost) == CW_OK);
    printf("lost: %llu\n", (unsigned long long)lost.total_count);
    CHECK(cw_get_subscription_matched_status(&reader, 1) == CW_OK && cw_matched(&reader, &matched) == CW_OK);
    show("the reader", &matched);
    cw_close(&writer);
    cw_close(&reader);
    return 0;
}
