/* Two peers of one process, each behind a socket of the loopback. Each has a writer, whose topic the other one's reader has. */
#define _POSIX_C_SOURCE 200809L
#include "cinchwalnut.h"
#include <arpa/inet.h>
#include <poll.h>
#include <stdio.h>
#include <stdlib.h>
#include <string.h>
#include <sys/socket.h>
#include <unistd.h>

#define CHECK(c) do { if (!(c)) { printf("line %d: not %s\n", __LINE__, #c); exit(1); } } while (0)

struct side {
    cw_peer peer;
    int fd;
    struct sockaddr_in other;
};

static const cw_peer_config peers[] = {{{1}}, {{2}}};
static const cw_writer_config writers[] = {{.peer = 1, .entity = {0, 0, 1, 2}, .topic = 1, .max_samples = -1},
                                           {.peer = 2, .entity = {0, 0, 1, 2}, .topic = 2, .max_samples = -1}};
static const cw_reader_config readers[] = {
    {.peer = 1, .entity = {0, 0, 1, 7}, .topic = 2, .max_samples = -1, .max_instances = -1},
    {.peer = 2, .entity = {0, 0, 1, 7}, .topic = 1, .max_samples = -1, .max_instances = -1}};
static struct side first, second;

static void open_side(struct side *it, uint8_t number) {
    struct sockaddr_in here = {.sin_family = AF_INET, .sin_addr.s_addr = htonl(INADDR_LOOPBACK)};
    socklen_t len = sizeof here;
    CHECK(cw_open(&it->peer, peers, 2, writers, 2, readers, 2, number) == CW_OK);
    it->fd = socket(AF_INET, SOCK_DGRAM, 0);
    CHECK(it->fd >= 0 && bind(it->fd, (struct sockaddr *)&here, sizeof here) == 0);
    CHECK(getsockname(it->fd, (struct sockaddr *)&(it == &first ? &second : &first)->other, &len) == 0);
}

/* Sends the packets that the last event gave. One that the system does not take is lost, and repaired as any other. */
static void send_all(struct side *it) {
    uint8_t packet[CW_LONGEST_PACKET];
    uint32_t to = 0;
    size_t len = 0;
    for (size_t at = 0; cw_packet(&it->peer, at, &to, packet, sizeof packet, &len) == CW_OK; at++)
        sendto(it->fd, packet, len, 0, (struct sockaddr *)&it->other, sizeof it->other);
}

/* One turn of a peer behind a socket: CW_OK where its reader 1 then gives something. */
static uint8_t turn(struct side *it, uint64_t now) {
    uint8_t datagram[65536];
    struct pollfd waits = {.fd = it->fd, .events = POLLIN};
    if (poll(&waits, 1, 1) > 0) { /* a datagram came, within a millisecond */
        ssize_t len = recv(it->fd, datagram, sizeof datagram, 0);
        CHECK(len >= 0 && cw_deliver(&it->peer, datagram, (size_t)len) == CW_OK); /* an event: what came, whatever it is */
        send_all(it); /* what it gave */
    }
    CHECK(cw_tick(&it->peer, now) == CW_OK); /* an event: the time since the opening */
    send_all(it); /* HEARTBEATs */
    return cw_take(&it->peer, 1, -1, CW_ANY, CW_ANY, CW_ANY); /* an event: a call */
}

static void write_text(struct side *it, const char *text) {
    const uint8_t key[16] = {7};
    CHECK(cw_write(&it->peer, 1, key, (const uint8_t *)text, strlen(text)) == CW_OK);
    send_all(it);
}

static bool has_taken(struct side *it, const char *name, uint64_t now) {
    cw_sample_info info = {0};
    uint8_t value[1024] = {0};
    size_t len = 0;
    bool is_taken = turn(it, now) == CW_OK;
    for (size_t at = 0; is_taken && cw_sample(&it->peer, at, &info, value, sizeof value, &len) == CW_OK; at++)
        printf("the %s took: %.*s\n", name, (int)len, (const char *)value);
    return is_taken;
}

int main(void) {
    bool is_first_done = false, is_second_done = false;
    open_side(&first, 1);
    open_side(&second, 2);
    write_text(&first, "from the first");
    write_text(&second, "from the second");
    for (uint64_t number = 0; number < 1000 && !(is_first_done && is_second_done); number++) {
        uint64_t now = number * CW_MS(10); /* of a clock that this program makes up */
        is_first_done |= has_taken(&first, "first", now);
        is_second_done |= has_taken(&second, "second", now);
    }
    cw_close(&first.peer);
    cw_close(&second.peer);
    close(first.fd);
    close(second.fd);
    return 0;
}
