/* For bench/compare: two peers of dds_c in one process, a writer and a reader, with the packets between them, and a
   HEARTBEAT and its ACKNACK each 256 samples. Its words are how many samples, the keys, the octets of a value, and the depth
   of the history, 0 for KEEP_ALL. It prints nanoseconds of processor time a sample, of those after the first tenth: where
   each is written, delivered and taken before the next; then where 256 are written, these delivered, and these taken. */
#include "cinchwalnut.h"
#include <stdio.h>
#include <stdlib.h>
#include <string.h>
#include <time.h>

#define BURST 256
#define LONGEST 2048

static const cw_peer_config peers[] = {{{1}}, {{2}}};
static uint8_t packets[BURST][LONGEST], value[LONGEST];
static size_t packet_lens[BURST];
static uint64_t now;

static long long processor_time(void) {
    struct timespec time;
    clock_gettime(CLOCK_PROCESS_CPUTIME_ID, &time);
    return time.tv_sec * 1000000000LL + time.tv_nsec;
}

static void made(uint8_t code) {
    if (code != CW_OK) {
        fprintf(stderr, "library: code %u\n", code);
        exit(1);
    }
}

static void open_pair(cw_peer *writer, cw_peer *reader, uint32_t depth) {
    const cw_writer_config writers[] = {
        {.peer = 1, .entity = {0, 0, 1, 2}, .keeps_last = depth > 0, .depth = depth, .autodispose = true, .max_samples = -1}};
    const cw_reader_config readers[] = {{.peer = 2, .entity = {0, 0, 1, 7}, .keeps_last = depth > 0, .depth = depth,
                                         .max_samples = -1, .max_instances = -1}};
    made(cw_open(writer, peers, 2, writers, 1, readers, 1, 1));
    made(cw_open(reader, peers, 2, writers, 1, readers, 1, 2));
}

static void write_one(cw_peer *writer, unsigned long number, size_t octets, size_t at) {
    uint8_t key[16] = {0};
    uint32_t to = 0;
    memcpy(key, &number, sizeof number);
    made(cw_write(writer, 1, key, value, octets));
    made(cw_packet(writer, 0, &to, packets[at], LONGEST, &packet_lens[at]));
}

static void deliver_one(cw_peer *reader, size_t at) { made(cw_deliver(reader, packets[at], packet_lens[at])); }

static void take_all(cw_peer *reader) {
    static cw_sample_info info;
    static uint8_t buffer[LONGEST];
    size_t len = 0;
    made(cw_take(reader, 1, -1, CW_ANY, CW_ANY, CW_ANY));
    for (size_t at = 0; cw_sample(reader, at, &info, buffer, sizeof buffer, &len) == CW_OK; at++) {
    }
}

static void carry(cw_peer *from, cw_peer *to) {
    static uint8_t packet[65536];
    uint32_t whom = 0;
    size_t len = 0;
    for (size_t at = 0; cw_packet(from, at, &whom, packet, sizeof packet, &len) == CW_OK; at++)
        made(cw_deliver(to, packet, len));
}

static void acknowledge(cw_peer *writer, cw_peer *reader) {
    made(cw_tick(writer, now += (uint64_t)1 << 32));
    carry(writer, reader);
    carry(reader, writer);
}

static double turns(unsigned long samples, unsigned long keys, size_t octets, uint32_t depth) {
    cw_peer writer = CW_PEER_NONE, reader = CW_PEER_NONE;
    long long start = 0;
    open_pair(&writer, &reader, depth);
    for (unsigned long at = 0; at < samples; at++) {
        if (at == samples / 10)
            start = processor_time();
        write_one(&writer, at % keys, octets, 0);
        deliver_one(&reader, 0);
        take_all(&reader);
        if (at % BURST == BURST - 1)
            acknowledge(&writer, &reader);
    }
    double spent = (double)(processor_time() - start) / (double)(samples - samples / 10);
    cw_close(&writer);
    cw_close(&reader);
    return spent;
}

static void bursts(unsigned long samples, unsigned long keys, size_t octets, uint32_t depth, double spent[3]) {
    cw_peer writer = CW_PEER_NONE, reader = CW_PEER_NONE;
    unsigned long number = 0, count = samples / BURST, first = count / 10;
    open_pair(&writer, &reader, depth);
    for (unsigned long burst = 0; burst < count; burst++) {
        long long times[4] = {processor_time()};
        for (size_t at = 0; at < BURST; at++)
            write_one(&writer, number++ % keys, octets, at);
        times[1] = processor_time();
        for (size_t at = 0; at < BURST; at++)
            deliver_one(&reader, at);
        times[2] = processor_time();
        take_all(&reader);
        times[3] = processor_time();
        for (int at = 0; burst >= first && at < 3; at++)
            spent[at] += (double)(times[at + 1] - times[at]) / (double)((count - first) * BURST);
        acknowledge(&writer, &reader);
    }
    cw_close(&writer);
    cw_close(&reader);
}

int main(int count, char **words) {
    unsigned long numbers[4] = {0};
    double spent[3] = {0};
    for (int at = 1; at < count && at <= 4; at++)
        numbers[at - 1] = strtoul(words[at], NULL, 10);
    if (numbers[0] < 10 * BURST || numbers[1] == 0 || numbers[2] > 1024)
        made(CW_BAD_PARAMETER);
    double turn = turns(numbers[0], numbers[1], numbers[2], (uint32_t)numbers[3]);
    now = 0;
    bursts(numbers[0], numbers[1], numbers[2], (uint32_t)numbers[3], spent);
    printf("%.0f %.0f %.0f %.0f\n", turn, spent[0], spent[1], spent[2]);
    return 0;
}
