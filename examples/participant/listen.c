/* Prints what writers of a topic on domain 0 write, found over UDP: of this library, of Cyclone DDS, of Fast DDS. The type
 * has no key; --keyed says that it has one, at its first four octets. It ends after ten seconds.
 *   listen [--keyed] TOPIC TYPE */
#define _DEFAULT_SOURCE
#include "cinchwalnut_udp.h"
#include <stdlib.h>

static void take_all(cw_participant *participant) {
    static uint8_t value[65000];
    cw_sample_info info = {0};
    size_t len = 0;
    if (cw_participant_take(participant, 1, -1, CW_ANY, CW_ANY, CW_ANY) != CW_OK)
        return;
    for (size_t at = 0; cw_participant_sample(participant, at, &info, value, sizeof value, &len) == CW_OK; at++) {
        printf("%s ", info.instance_state == CW_ALIVE ? "alive" : "not alive");
        for (size_t octet = 0; octet < len; octet++)
            printf("%02x", value[octet]);
        printf("\n");
    }
}

int main(int count, char **words) {
    static uint8_t datagram[65536];
    const cw_key_field field = {.place = 0, .size = 4};
    const cw_locator group = cw_udp_group(0);
    bool has_key = count > 1 && strcmp(words[1], "--keyed") == 0;
    cw_endpoint reader = {.kind = CW_READER, .carries = has_key ? CW_CDR : CW_KEYLESS, .field_count = has_key, .max_value = 65000};
    cw_participant_settings settings = {.domain = 0};
    cw_participant participant = CW_PARTICIPANT_NONE;
    cw_udp udp = CW_UDP_NONE;
    if (count != 3 + has_key || !cw_udp_prefix(settings.prefix) || !cw_udp_own_address(0, settings.address) ||
        !cw_udp_open(&udp, 0, settings.address))
        return 1;
    settings.port = udp.here.port;
    strncpy((char *)reader.topic_name, words[1 + has_key], 255);
    strncpy((char *)reader.type_name, words[2 + has_key], 255);
    if (cw_participant_open(&participant, &settings, &group, 1, &reader, 1, &field, 1) != CW_OK)
        return 1;
    for (uint64_t start = cw_udp_now(), now = start, next = start; now - start < 10 * CW_SECOND; now = cw_udp_now()) {
        uint8_t from[4] = {0};
        ssize_t len = cw_udp_receive(&udp, 20, from, datagram, sizeof datagram);
        if (len >= 0) { /* a datagram, within 20 milliseconds */
            cw_participant_hear(&participant, cw_udp_now(), from, datagram, (size_t)len); /* an event */
            cw_udp_send_all(&udp, &participant); /* what answers it */
            take_all(&participant); /* a call of reader 1 */
        }
        if (now >= next) {
            cw_participant_tick(&participant, cw_udp_now()); /* an event: announcements, HEARTBEATs, leases */
            cw_udp_send_all(&udp, &participant);
            next = now + CW_MS(100);
        }
        fflush(stdout);
    }
    cw_participant_leave(&participant);
    cw_udp_send_all(&udp, &participant);
    cw_participant_close(&participant);
    cw_udp_close(&udp);
    return 0;
}
