/* Four threads call one peer. While one is in a call the others are answered CW_BUSY, and nothing else happens: each tries
 * again until its value is written. The writer has room for as many values as all write, and for no other one.
 *
 * Where what an event gave back is fetched, another thread's event may come between: these take a lock for both calls. */
#include "cinchwalnut.h"
#include <pthread.h>
#include <sched.h>
#include <stdio.h>

#define THREADS 4
#define WRITES 20000

static const cw_peer_config peers[] = {{{1}}, {{2}}};
static const cw_writer_config writers[] = {{.peer = 1, .entity = {0, 0, 1, 2}, .max_samples = THREADS * WRITES}};
static const cw_reader_config readers[] = {{.peer = 2, .entity = {0, 0, 1, 7}, .max_samples = -1, .max_instances = -1}};
static cw_peer peer = CW_PEER_NONE;
static uint8_t keys[THREADS][16] = {{1}, {2}, {3}, {4}};

static uint8_t write_one(const uint8_t key[16]) {
    uint8_t code = cw_write(&peer, 1, key, key, 16);
    for (; code == CW_BUSY; code = cw_write(&peer, 1, key, key, 16))
        sched_yield();
    return code;
}

/* Writes values of one instance: NULL, or its key where one was refused. */
static void *write_all(void *key) {
    uint8_t code = CW_OK;
    for (int done = 0; done < WRITES && code == CW_OK; done++)
        code = write_one((const uint8_t *)key);
    return code == CW_OK ? NULL : key;
}

int main(void) {
    pthread_t threads[THREADS];
    void *failed = NULL;
    if (cw_open(&peer, peers, 2, writers, 1, readers, 1, 1) != CW_OK)
        return 1;
    for (int at = 0; at < THREADS; at++)
        if (pthread_create(&threads[at], NULL, write_all, keys[at]) != 0)
            return 2;
    for (int at = 0; at < THREADS; at++)
        if (pthread_join(threads[at], &failed) != 0 || failed != NULL)
            return 3;
    printf("%d threads wrote %d values each; one more: %s\n", THREADS, WRITES, cw_code_name(write_one(keys[0])));
    cw_close(&peer);
    return 0;
}
