/* For bench/compare: Cyclone DDS writes samples and takes them, in one process, which makes no packet. Its words are how many,
   the keys, the octets of a value, and the depth of the history, 0 for KEEP_ALL. It prints nanoseconds of processor time a
   sample, of those after the first tenth: where each is taken before the next is written; then where 256 are written, and
   these taken. */
#include "Sample.h"
#include "dds/dds.h"
#include <stdio.h>
#include <stdlib.h>
#include <string.h>
#include <time.h>

#define BURST 256

static long long processor_time(void) {
    struct timespec time;
    clock_gettime(CLOCK_PROCESS_CPUTIME_ID, &time);
    return time.tv_sec * 1000000000LL + time.tv_nsec;
}

static dds_entity_t made(dds_entity_t entity) {
    if (entity < 0) {
        fprintf(stderr, "cyclone: %s\n", dds_strretcode(-entity));
        exit(1);
    }
    return entity;
}

static void write_one(dds_entity_t writer, bench_Sample *sample, unsigned long key) {
    memcpy(sample->key, &key, sizeof key);
    made(dds_write(writer, sample));
}

static void take_all(dds_entity_t reader) {
    static void *taken[BURST];
    static dds_sample_info_t info[BURST];
    if (made(dds_take(reader, taken, info, BURST, BURST)) == 0)
        made(DDS_RETCODE_ERROR);
    made(dds_return_loan(reader, taken, BURST));
    memset(taken, 0, sizeof taken);
}

static double turns(dds_entity_t writer, dds_entity_t reader, bench_Sample *sample, unsigned long samples, unsigned long keys) {
    long long start = 0;
    for (unsigned long at = 0; at < samples; at++) {
        if (at == samples / 10)
            start = processor_time();
        write_one(writer, sample, at % keys);
        void *taken[1] = {NULL};
        dds_sample_info_t info[1];
        if (made(dds_take(reader, taken, info, 1, 1)) != 1)
            made(DDS_RETCODE_ERROR);
        made(dds_return_loan(reader, taken, 1));
    }
    return (double)(processor_time() - start) / (double)(samples - samples / 10);
}

static void bursts(dds_entity_t writer, dds_entity_t reader, bench_Sample *sample, unsigned long samples, unsigned long keys,
                   double spent[2]) {
    unsigned long number = 0, count = samples / BURST, first = count / 10;
    for (unsigned long burst = 0; burst < count; burst++) {
        long long times[3] = {processor_time()};
        for (int at = 0; at < BURST; at++)
            write_one(writer, sample, number++ % keys);
        times[1] = processor_time();
        take_all(reader);
        times[2] = processor_time();
        for (int at = 0; burst >= first && at < 2; at++)
            spent[at] += (double)(times[at + 1] - times[at]) / (double)((count - first) * BURST);
    }
}

int main(int count, char **words) {
    unsigned long numbers[4] = {0};
    for (int at = 1; at < count && at <= 4; at++)
        numbers[at - 1] = strtoul(words[at], NULL, 10);
    unsigned long samples = numbers[0], keys = numbers[1], depth = numbers[3];
    dds_entity_t peer = made(dds_create_participant(DDS_DOMAIN_DEFAULT, NULL, NULL));
    dds_qos_t *qos = dds_create_qos();
    dds_qset_reliability(qos, DDS_RELIABILITY_RELIABLE, DDS_INFINITY);
    dds_qset_history(qos, depth ? DDS_HISTORY_KEEP_LAST : DDS_HISTORY_KEEP_ALL, depth ? (int)depth : 1);
    dds_entity_t topic = made(dds_create_topic(peer, &bench_Sample_desc, "bench", qos, NULL));
    dds_entity_t reader = made(dds_create_reader(peer, topic, qos, NULL));
    dds_entity_t writer = made(dds_create_writer(peer, topic, qos, NULL));
    bench_Sample sample = {0};
    sample.value._buffer = calloc(numbers[2] + 1, 1);
    sample.value._length = sample.value._maximum = (unsigned)numbers[2];
    double spent[2] = {0}, turn = turns(writer, reader, &sample, samples, keys);
    bursts(writer, reader, &sample, samples, keys, spent);
    printf("%.0f %.0f %.0f\n", turn, spent[0], spent[1]);
    dds_delete_qos(qos);
    made(dds_delete(peer));
    free(sample.value._buffer);
    return 0;
}
