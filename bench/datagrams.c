/* datagrams COUNT OCTETS ROUNDS: bare datagrams over 127.0.0.1, to compare with what peers take. A thread sends COUNT
   datagrams of so many octets to another, which receives them; then ROUNDS are sent one by one, each of which is answered
   before the next. It prints `bare count=C received=R ns=N`, from the first send to the last receive, and a line
   `round ns=N` for each round. Built by `cc -O2 -pthread`. */
#define _GNU_SOURCE
#include <arpa/inet.h>
#include <pthread.h>
#include <stdio.h>
#include <stdlib.h>
#include <sys/socket.h>
#include <time.h>

enum { LONGEST = 65507, ROOM = 1 << 26, QUIET_MICROSECONDS = 500000 };

static int near_end, far_end;
static long count, octets, rounds, received, last;

static long now(void) {
    struct timespec time;
    clock_gettime(CLOCK_MONOTONIC, &time);
    return time.tv_sec * 1000000000L + time.tv_nsec;
}

/* A socket of the loopback. Its receives end after half a second without a datagram. */
static int opened(struct sockaddr_in *own) {
    int end = socket(AF_INET, SOCK_DGRAM, 0), room = ROOM;
    struct timeval quiet = {0, QUIET_MICROSECONDS};
    socklen_t length = sizeof *own;
    *own = (struct sockaddr_in){.sin_family = AF_INET, .sin_addr.s_addr = htonl(INADDR_LOOPBACK)};
    if (end < 0 || bind(end, (struct sockaddr *)own, sizeof *own) || getsockname(end, (struct sockaddr *)own, &length)) {
        perror("datagrams");
        exit(1);
    }
    if (setsockopt(end, SOL_SOCKET, SO_RCVBUFFORCE, &room, sizeof room))
        setsockopt(end, SOL_SOCKET, SO_RCVBUF, &room, sizeof room);
    setsockopt(end, SOL_SOCKET, SO_RCVTIMEO, &quiet, sizeof quiet);
    return end;
}

static void *receive_all(void *unused) {
    static char space[LONGEST];
    while (received < count && recv(far_end, space, sizeof space, 0) >= 0) {
        received++;
        last = now();
    }
    return unused;
}

static void *answer_all(void *unused) {
    static char space[LONGEST];
    for (long at = 0; at < rounds; at++) {
        ssize_t length = recv(far_end, space, sizeof space, 0);
        if (length >= 0)
            send(far_end, space, length, 0);
    }
    return unused;
}

static void send_all(const char *datagram) {
    pthread_t receiver;
    pthread_create(&receiver, NULL, receive_all, NULL);
    long start = now();
    for (long at = 0; at < count; at++)
        send(near_end, datagram, octets, 0);
    pthread_join(receiver, NULL);
    printf("bare count=%ld received=%ld ns=%ld\n", count, received, last - start);
}

static void ask_all(const char *datagram) {
    static char space[LONGEST];
    pthread_t answerer;
    pthread_create(&answerer, NULL, answer_all, NULL);
    for (long at = 0; at < rounds; at++) {
        long start = now();
        send(near_end, datagram, octets, 0);
        if (recv(near_end, space, sizeof space, 0) >= 0)
            printf("round ns=%ld\n", now() - start);
    }
    pthread_join(answerer, NULL);
}

int main(int argc, char **argv) {
    static char datagram[LONGEST];
    struct sockaddr_in near_address, far_address;
    if (argc != 4)
        return 2;
    count = atol(argv[1]), octets = atol(argv[2]), rounds = atol(argv[3]);
    if (octets < 0 || octets > LONGEST)
        return 2;
    near_end = opened(&near_address), far_end = opened(&far_address);
    connect(near_end, (struct sockaddr *)&far_address, sizeof far_address);
    connect(far_end, (struct sockaddr *)&near_address, sizeof near_address);
    send_all(datagram);
    ask_all(datagram);
    return 0;
}
