/* cyclone COUNT OCTETS ROUNDS: what samples of Cyclone DDS take over UDP, to compare with what peers here take. Two processes have
   a participant each, of which the near one writes COUNT samples of so many octets, RELIABLE and KEEP_ALL, which the listener of
   the far one takes; then ROUNDS are written one by one, each of which the far listener answers and the near listener takes. It
   prints `cyclone count=C received=R ns=N`, from before the first write until the last take, and a line `round ns=N` for each
   round. The samples are of ../Sample.idl; the environment says by CYCLONEDDS_URI over which network they go. */
#include "Sample.h"
#include "dds/dds.h"
#include <stdatomic.h>
#include <stdio.h>
#include <stdlib.h>
#include <string.h>
#include <sys/wait.h>
#include <time.h>
#include <unistd.h>

enum { AT_ONCE = 64, PATIENCE_SECONDS = 20 };

/* What one process has: its writer, how many samples its listener took, and when the last one was. */
static dds_entity_t writer;
static atomic_long taken, last;
static long answered_from;
static bench_Sample sample;

static long now(void) {
    struct timespec time;
    clock_gettime(CLOCK_MONOTONIC, &time);
    return time.tv_sec * 1000000000L + time.tv_nsec;
}

static dds_entity_t made(dds_entity_t entity) {
    if (entity < 0) {
        fprintf(stderr, "cyclone: %s\n", dds_strretcode(-entity));
        exit(1);
    }
    return entity;
}

/* Takes what is there, and answers each sample from a number on; that a writer is gone is none. A reader that is being
 * deleted gives nothing. */
static void take_all(dds_entity_t reader, void *unused) {
    void *samples[AT_ONCE] = {NULL};
    dds_sample_info_t infos[AT_ONCE];
    int count;
    (void)unused;
    while ((count = dds_take(reader, samples, infos, AT_ONCE, AT_ONCE)) > 0) {
        dds_return_loan(reader, samples, count);
        memset(samples, 0, sizeof samples);
        for (int at = 0; at < count; at++)
            if (infos[at].valid_data && atomic_fetch_add(&taken, 1) >= answered_from)
                made(dds_write(writer, &sample));
        atomic_store(&last, now());
    }
}

/* A participant that writes one topic and reads the other, once both are matched. */
static dds_entity_t joined(const char *written, const char *read) {
    dds_entity_t peer = made(dds_create_participant(DDS_DOMAIN_DEFAULT, NULL, NULL));
    dds_qos_t *qos = dds_create_qos();
    dds_qset_reliability(qos, DDS_RELIABILITY_RELIABLE, DDS_INFINITY);
    dds_qset_history(qos, DDS_HISTORY_KEEP_ALL, 1);
    dds_listener_t *listener = dds_create_listener(NULL);
    dds_lset_data_available(listener, take_all);
    dds_entity_t own = made(dds_create_topic(peer, &bench_Sample_desc, written, qos, NULL));
    dds_entity_t other = made(dds_create_topic(peer, &bench_Sample_desc, read, qos, NULL));
    writer = made(dds_create_writer(peer, own, qos, NULL));
    dds_entity_t reader = made(dds_create_reader(peer, other, qos, listener));
    for (long start = now(); now() - start < PATIENCE_SECONDS * 1000000000L; dds_sleepfor(DDS_MSECS(1))) {
        dds_publication_matched_status_t of_writer;
        dds_subscription_matched_status_t of_reader;
        made(dds_get_publication_matched_status(writer, &of_writer));
        made(dds_get_subscription_matched_status(reader, &of_reader));
        if (of_writer.current_count && of_reader.current_count)
            return peer;
    }
    fprintf(stderr, "cyclone: nobody was matched\n");
    exit(1);
}

/* Looks again and again whether so many were taken. */
static int comes(long count) {
    for (long start = now(); atomic_load(&taken) < count;)
        if (now() - start > PATIENCE_SECONDS * 1000000000L)
            return 0;
    return 1;
}

/* Takes all samples, tells when the last one came, answers the rounds, and stays until it is told that all is done. */
static int far_process(long count, long rounds, int told, int done) {
    char octet;
    answered_from = count;
    dds_entity_t peer = joined("bench_far", "bench_near");
    comes(count);
    long received = atomic_load(&taken), when = atomic_load(&last), said[2] = {received, when};
    if (write(told, said, sizeof said) != sizeof said || (received == count && !comes(count + rounds)))
        return 1;
    if (read(done, &octet, 1) < 0)
        return 1;
    dds_delete(peer);
    return 0;
}

static void near_process(long count, long rounds, int told, int done) {
    long said[2];
    answered_from = count + rounds;
    dds_entity_t peer = joined("bench_near", "bench_far");
    dds_sleepfor(DDS_MSECS(200));
    long start = now();
    for (long at = 0; at < count; at++)
        made(dds_write(writer, &sample));
    if (read(told, said, sizeof said) == sizeof said)
        printf("cyclone count=%ld received=%ld ns=%ld\n", count, said[0], said[1] - start);
    for (long at = 0; at < rounds; at++) {
        start = now();
        made(dds_write(writer, &sample));
        if (!comes(at + 1))
            break;
        printf("round ns=%ld\n", now() - start);
    }
    if (write(done, "", 1) != 1)
        exit(1);
    dds_delete(peer);
}

int main(int argc, char **argv) {
    int told[2], done[2], status = 0;
    if (argc != 4 || pipe(told) || pipe(done))
        return 2;
    long count = atol(argv[1]), octets = atol(argv[2]), rounds = atol(argv[3]);
    sample.value._buffer = calloc(octets + 1, 1);
    sample.value._length = sample.value._maximum = (unsigned)octets;
    fflush(stdout);
    pid_t far_end = fork();
    if (far_end < 0)
        return 1;
    if (far_end == 0)
        return far_process(count, rounds, told[1], done[0]);
    near_process(count, rounds, told[0], done[1]);
    waitpid(far_end, &status, 0);
    return WEXITSTATUS(status);
}
