/* Two peers, each in a thread of its own with a UDP socket of the loopback, and one datagram of five lost: a loop that serves
 * a peer, as docs/C.md explains it. The writer ends once all is acknowledged. */
#define _POSIX_C_SOURCE 200809L
#include "cinchwalnut.h"
#include <arpa/inet.h>
#include <poll.h>
#include <pthread.h>
#include <stdatomic.h>
#include <stdio.h>
#include <stdlib.h>
#include <string.h>
#include <sys/socket.h>
#include <time.h>
#include <unistd.h>

#define CHECK(c) do { if (!(c)) { printf("line %d: not %s\n", __LINE__, #c); exit(1); } } while (0)
#define PERIOD CW_MS(10)
#define VALUES 1000

struct side {
    cw_peer peer;
    int socket;
    struct sockaddr_in other;
    uint64_t next_tick;
    uint32_t chance;
    bool is_acknowledged;
};

static const cw_peer_config peers[] = {{{1}}, {{2}}};
static const cw_writer_config writers[] = {{.peer = 1, .entity = {0, 0, 1, 2}, .max_samples = 64}};
static const cw_reader_config readers[] = {{.peer = 2, .entity = {0, 0, 1, 7}, .max_samples = -1, .max_instances = -1}};
static struct side writer, reader;
static atomic_bool has_ended;
static struct timespec start;

/* The time since the start. */
static uint64_t now(void) {
    struct timespec time;
    clock_gettime(CLOCK_MONOTONIC, &time);
    uint64_t nanoseconds = (uint64_t)(time.tv_sec - start.tv_sec) * 1000000000 + (uint64_t)time.tv_nsec - (uint64_t)start.tv_nsec;
    return nanoseconds / 1000000000 * CW_SECOND + nanoseconds % 1000000000 * CW_SECOND / 1000000000;
}

/* One of five, by numbers that are the same in each run: each fifth one could be the same packet again and again. */
static bool is_lost(struct side *it) {
    it->chance = it->chance * 1664525 + 1013904223;
    return (it->chance >> 16) % 5 == 0;
}

/* Sends what the last event gave, and says how many packets that were. */
static size_t send_all(struct side *it) {
    uint8_t packet[65536];
    uint32_t to = 0;
    size_t at = 0, len = 0;
    for (; cw_packet(&it->peer, at, &to, packet, sizeof packet, &len) == CW_OK; at++)
        if (!is_lost(it))
            sendto(it->socket, packet, len, 0, (struct sockaddr *)&it->other, sizeof it->other);
    return at;
}

/* Waits till a datagram comes or a tick is due, and serves both. */
static void turn(struct side *it) {
    uint8_t datagram[65536];
    struct pollfd waits = {.fd = it->socket, .events = POLLIN};
    uint64_t moment = now();
    poll(&waits, 1, moment < it->next_tick ? (int)((it->next_tick - moment) / CW_MS(1)) + 1 : 0);
    ssize_t len = recv(it->socket, datagram, sizeof datagram, MSG_DONTWAIT);
    for (int left = 64; len >= 0 && left > 0; left--) {
        CHECK(cw_deliver(&it->peer, datagram, (size_t)len) == CW_OK);
        send_all(it);
        len = recv(it->socket, datagram, sizeof datagram, MSG_DONTWAIT);
    }
    moment = now();
    if (moment >= it->next_tick) {
        it->next_tick = moment + PERIOD;
        CHECK(cw_tick(&it->peer, moment) == CW_OK);
        it->is_acknowledged = send_all(it) == 0; /* a HEARTBEAT is due as long as something is unacknowledged */
    }
}

static void *write_all(void *unused) {
    const uint8_t key[16] = {7};
    for (uint32_t number = 0; number < VALUES;) {
        uint8_t code = cw_write(&writer.peer, 1, key, (const uint8_t *)&number, sizeof number);
        CHECK(code == CW_OK || code == CW_TIMEOUT); /* no room: once acknowledgements have come there is some */
        if (code == CW_OK) {
            number++;
            send_all(&writer);
        }
        if (code == CW_TIMEOUT || number % 16 == 0)
            turn(&writer);
    }
    for (writer.is_acknowledged = false; !writer.is_acknowledged;)
        turn(&writer);
    return unused;
}

static uint32_t take_all(uint32_t next) {
    cw_sample_info info = {0};
    uint32_t number = 0;
    size_t len = 0;
    if (cw_take(&reader.peer, 1, -1, CW_ANY, CW_ANY, CW_ANY) == CW_OK)
        for (size_t at = 0; cw_sample(&reader.peer, at, &info, (uint8_t *)&number, sizeof number, &len) == CW_OK; at++)
            CHECK(number == next++);
    return next;
}

static void *read_all(void *unused) {
    uint32_t next = 0;
    while (!has_ended) {
        turn(&reader);
        next = take_all(next);
    }
    printf("%u values came, each in its order\n", (unsigned)next);
    return unused;
}

static void open_side(struct side *it, uint8_t number) {
    socklen_t len = sizeof it->other;
    struct sockaddr_in here = {.sin_family = AF_INET, .sin_addr.s_addr = htonl(INADDR_LOOPBACK)};
    CHECK(cw_open(&it->peer, peers, 2, writers, 1, readers, 1, number) == CW_OK);
    it->socket = socket(AF_INET, SOCK_DGRAM, 0);
    CHECK(it->socket >= 0 && bind(it->socket, (struct sockaddr *)&here, sizeof here) == 0);
    CHECK(getsockname(it->socket, (struct sockaddr *)&(it == &writer ? &reader : &writer)->other, &len) == 0);
}

int main(void) {
    pthread_t thread;
    clock_gettime(CLOCK_MONOTONIC, &start);
    open_side(&writer, 1);
    open_side(&reader, 2);
    CHECK(pthread_create(&thread, NULL, read_all, NULL) == 0);
    write_all(NULL);
    has_ended = true;
    CHECK(pthread_join(thread, NULL) == 0);
    cw_close(&writer.peer);
    cw_close(&reader.peer);
    close(writer.socket);
    close(reader.socket);
    return 0;
}
