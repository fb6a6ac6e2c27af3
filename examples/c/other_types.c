/* A type of the application's own: struct reading { long sensor; double value; } with the key sensor, in CDR. A value is the
 * payload as the wire has it: representation and options, then the body. A peer keeps it whole, cw_outward puts it on the
 * wire in the form that other products read, and cw_inward turns it back. */
#include "cinchwalnut.h"
#include <stdio.h>
#include <stdlib.h>
#include <string.h>

#define CHECK(c) do { if (!(c)) { printf("line %d: not %s\n", __LINE__, #c); exit(1); } } while (0)

enum { PAYLOAD = 20 };

static const cw_peer_config peers[] = {{{1}}, {{2}}};
static const cw_writer_config writers[] = {{.peer = 1, .entity = {0, 0, 1, 2}, .max_samples = -1}};
static const cw_reader_config readers[] = {{.peer = 2, .entity = {0, 0, 1, 7}, .max_samples = -1, .max_instances = -1}};
/* The key field stands at the front of the body, and takes four octets. */
static const cw_key_field fields[] = {{.place = 0, .size = 4}};
static const cw_writer_kind kinds[] = {
    {.prefix = {1}, .entity = {0, 0, 1, 2}, .kind = CW_CDR, .first_field = 0, .field_count = 1}};
static cw_peer writer = CW_PEER_NONE, reader = CW_PEER_NONE;

/* CDR_LE: the sensor, four octets up to a multiple of 8, the value. */
static void reading(uint8_t payload[PAYLOAD], uint8_t sensor, const uint8_t value[8]) {
    memset(payload, 0, PAYLOAD);
    payload[1] = 1;
    payload[4] = sensor;
    memcpy(payload + 12, value, 8);
}

/* The packet of the last answer, as the network carries it. */
static size_t sent(uint8_t packet[65535], uint8_t wire[65535]) {
    uint32_t whom = 0;
    size_t packet_len = 0, len = 0;
    CHECK(cw_packet(&writer, 0, &whom, packet, 65535, &packet_len) == CW_OK);
    CHECK(cw_outward(kinds, 1, fields, 1, packet, packet_len, wire, 65535, &len) == CW_OK);
    return len;
}

static void print_octets(const char *what, const uint8_t *octets, size_t len) {
    printf("%s: ", what);
    for (size_t at = 0; at < len; at++)
        printf("%02x", octets[at]);
    printf("\n");
}

int main(void) {
    static uint8_t packet[65535], wire[65535], back[65535];
    const uint8_t one_and_a_half[8] = {0, 0, 0, 0, 0, 0, 0xf8, 0x3f}; /* 1.5 */
    const uint8_t key[16] = {0, 0, 0, 7};                            /* sensor 7, big-endian, and zeros */
    uint8_t payload[PAYLOAD], value[64] = {0};
    cw_sample_info info = {0};
    cw_total_status lost = {0};
    size_t len = 0, back_len = 0, value_len = 0;
    CHECK(cw_open(&writer, peers, 2, writers, 1, readers, 1, 1) == CW_OK);
    CHECK(cw_open(&reader, peers, 2, writers, 1, readers, 1, 2) == CW_OK);

    reading(payload, 7, one_and_a_half);
    CHECK(cw_write(&writer, 1, key, payload, PAYLOAD) == CW_OK);
    len = sent(packet, wire);
    print_octets("on the wire", wire + len - PAYLOAD, PAYLOAD);
    CHECK(cw_inward(kinds, 1, fields, 1, true, wire, len, back, sizeof back, &back_len) == CW_OK);
    CHECK(cw_deliver(&reader, back, back_len) == CW_OK);
    CHECK(cw_take(&reader, 1, -1, CW_ANY, CW_ANY, CW_ANY) == CW_OK);
    CHECK(cw_sample(&reader, 0, &info, value, sizeof value, &value_len) == CW_OK);
    print_octets("key", info.key, 16);
    print_octets("value", value, value_len);

    /* A payload of a representation that the type does not have: its number stands in a GAP, and is lost. */
    CHECK(cw_write(&writer, 1, key, payload, PAYLOAD) == CW_OK);
    len = sent(packet, wire);
    wire[len - PAYLOAD + 1] = 9;
    CHECK(cw_inward(kinds, 1, fields, 1, true, wire, len, back, sizeof back, &back_len) == CW_OK);
    CHECK(cw_deliver(&reader, back, back_len) == CW_OK);
    CHECK(cw_get_sample_lost_status(&reader, 1) == CW_OK && cw_total(&reader, &lost) == CW_OK);
    printf("lost: %llu\n", (unsigned long long)lost.total_count);

    /* Nothing has to be turned of what concerns no writer of the table; and what is none is refused. */
    printf("another writer's: %s\n", cw_code_name(cw_inward(kinds, 0, fields, 1, true, wire, len, back, sizeof back, &back_len)));
    const cw_key_field three[] = {{.place = 0, .size = 3}};
    printf("a field of three octets: %s\n", cw_code_name(cw_inward(kinds, 1, three, 1, true, wire, len, back, sizeof back, &back_len)));
    printf("a kind without its fields: %s\n", cw_code_name(cw_outward(kinds, 1, fields, 0, packet, len, back, sizeof back, &back_len)));
    printf("a short buffer: %s\n", cw_code_name(cw_inward(kinds, 1, fields, 1, true, wire, len, back, 8, &back_len)));
    cw_close(&writer);
    cw_close(&reader);
    return 0;
}
