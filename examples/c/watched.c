/* A query condition whose filter passes some samples, and a recorder at a reader that is asked for what it was told. */
#include "cinchwalnut.h"
#include <stdio.h>
#include <stdlib.h>
#include <string.h>

#define CHECK(c) do { if (!(c)) { printf("line %d: not %s\n", __LINE__, #c); exit(1); } } while (0)

static const cw_peer_config peers[] = {{{1}}, {{2}}};
static const cw_writer_config writers[] = {{.peer = 1, .entity = {0, 0, 1, 2}, .max_samples = -1}};
static const cw_reader_config readers[] = {{.peer = 2, .entity = {0, 0, 1, 7}, .max_samples = -1, .max_instances = -1}};

static void write_and_carry(cw_peer *writer, cw_peer *reader, const char *value) {
    static uint8_t packet[2048];
    const uint8_t key[16] = {0};
    uint32_t to = 0;
    size_t len = 0;
    CHECK(cw_write(writer, 1, key, (const uint8_t *)value, strlen(value)) == CW_OK);
    CHECK(cw_packet(writer, 0, &to, packet, sizeof packet, &len) == CW_OK && to == 2);
    CHECK(cw_deliver(reader, packet, len) == CW_OK);
}

/* Sets the recorder anew, and prints what the one before kept. */
static void print_notices(cw_peer *reader) {
    cw_notice_info notice = {0};
    CHECK(cw_set_recorder(reader, CW_READER, 1, CW_DATA_AVAILABLE | CW_LIVELINESS_CHANGED, 3) == CW_OK);
    for (size_t at = 0; cw_notice(reader, at, &notice) == CW_OK; at++) {
        if (notice.status == CW_DATA_AVAILABLE)
            printf("reader %u: data\n", notice.entity_number);
        else
            printf("reader %u: %d writers are alive\n", notice.entity_number, notice.changed.alive_count);
    }
}

int main(void) {
    cw_peer writer = CW_PEER_NONE, reader = CW_PEER_NONE;
    uint32_t filter = 0, condition = 0;
    char line[64];
    CHECK(cw_add_filter(&reader, (const uint8_t *)"hot", 3, &filter) == CW_PRECONDITION_NOT_MET);
    CHECK(cw_open(&writer, peers, 2, writers, 1, readers, 1, 1) == CW_OK);
    CHECK(cw_open(&reader, peers, 2, writers, 1, readers, 1, 2) == CW_OK);
    CHECK(cw_set_recorder(&reader, CW_READER, 2, CW_ANY, 3) == CW_BAD_PARAMETER);
    CHECK(cw_set_recorder(&reader, 3, 1, CW_ANY, 3) == CW_BAD_PARAMETER);
    CHECK(cw_set_recorder(&reader, CW_READER, 1, CW_ANY, 0) == CW_BAD_PARAMETER);
    print_notices(&reader);
    CHECK(cw_add_filter(&reader, (const uint8_t *)"hot", 3, &filter) == CW_OK);
    int len = snprintf(line, sizeof line, "call querycond r1 any any any %u", filter);
    CHECK(cw_line(&reader, (const uint8_t *)line, (size_t)len) == CW_OK);
    CHECK(cw_number(&reader, &condition) == CW_OK);
    write_and_carry(&writer, &reader, "cold, 3");
    write_and_carry(&writer, &reader, "hot, 41");
    write_and_carry(&writer, &reader, "cold, 4");
    print_notices(&reader);
    CHECK(cw_take_w_condition(&reader, 1, -1, condition) == CW_OK);
    uint8_t value[16] = {0};
    cw_sample_info info = {0};
    size_t value_len = 0;
    for (size_t at = 0; cw_sample(&reader, at, &info, value, sizeof value, &value_len) == CW_OK; at++)
        printf("taken by the condition: %.*s\n", (int)value_len, (const char *)value);
    CHECK(cw_clear_recorder(&reader, CW_READER, 1) == CW_OK);
    CHECK(cw_notice(&reader, 0, &(cw_notice_info){0}) == CW_NO_DATA);
    cw_close(&writer);
    cw_close(&reader);
    return 0;
}
