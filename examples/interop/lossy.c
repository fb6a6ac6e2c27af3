/* For examples/interop/participant: a library that is loaded before a product (LD_PRELOAD), and loses datagrams of RTPS on its
 * way out and in, LOSSY_PERCENT of a hundred, by the seed LOSSY_SEED. One that it loses on its way in is given without its name
 * "RTPS", so that the product passes over it, and no thread waits longer than it would. What else a product says to itself
 * over UDP comes. At the end it says on standard error how many were lost. */
#define _GNU_SOURCE
#include <dlfcn.h>
#include <stdatomic.h>
#include <stdint.h>
#include <stdio.h>
#include <stdlib.h>
#include <string.h>
#include <sys/socket.h>

#define REAL(name) ((__typeof__(&name))dlsym(RTLD_NEXT, #name))

static atomic_uint_fast64_t seen, lost;

static uint64_t number(const char *name) {
    const char *word = getenv(name);
    return word ? strtoull(word, NULL, 10) : 0;
}

/* The splitmix64 generator, at the place of this datagram among all. */
static int is_lost_by_chance(void) {
    uint64_t of = (number("LOSSY_SEED") << 32) + atomic_fetch_add(&seen, 1) + 1;
    of *= 0x9e3779b97f4a7c15u;
    of = (of ^ of >> 30) * 0xbf58476d1ce4e5b9u;
    of = (of ^ of >> 27) * 0x94d049bb133111ebu;
    if ((of ^ of >> 31) % 100 >= number("LOSSY_PERCENT"))
        return 0;
    atomic_fetch_add(&lost, 1);
    return 1;
}

static int is_udp(int socket) {
    int domain = 0, type = 0;
    socklen_t size = sizeof domain;
    if (getsockopt(socket, SOL_SOCKET, SO_DOMAIN, &domain, &size) || domain != AF_INET)
        return 0;
    return getsockopt(socket, SOL_SOCKET, SO_TYPE, &type, &size) == 0 && type == SOCK_DGRAM;
}

static int is_lost(int socket, const void *octets, size_t count) {
    return count >= 20 && memcmp(octets, "RTPS", 4) == 0 && is_udp(socket) && is_lost_by_chance();
}

static ssize_t length_of(const struct msghdr *message) {
    size_t sum = 0;
    for (size_t at = 0; at < message->msg_iovlen; at++)
        sum += message->msg_iov[at].iov_len;
    return (ssize_t)sum;
}

static int is_message_lost(int socket, const struct msghdr *message) {
    return message->msg_iovlen && is_lost(socket, message->msg_iov[0].iov_base, message->msg_iov[0].iov_len);
}

static void take_in(int socket, void *octets, ssize_t count) {
    if (count > 0 && is_lost(socket, octets, (size_t)count))
        memset(octets, 0, 4);
}

static void take_message_in(int socket, const struct msghdr *message, ssize_t count) {
    if (message->msg_iovlen)
        take_in(socket, message->msg_iov[0].iov_base, count);
}

ssize_t sendto(int socket, const void *octets, size_t count, int flags, const struct sockaddr *to, socklen_t size) {
    return is_lost(socket, octets, count) ? (ssize_t)count : REAL(sendto)(socket, octets, count, flags, to, size);
}

ssize_t sendmsg(int socket, const struct msghdr *message, int flags) {
    return is_message_lost(socket, message) ? length_of(message) : REAL(sendmsg)(socket, message, flags);
}

int sendmmsg(int socket, struct mmsghdr *messages, unsigned count, int flags) {
    for (unsigned at = 0; at < count; at++) {
        ssize_t sent = sendmsg(socket, &messages[at].msg_hdr, flags);
        if (sent < 0)
            return at ? (int)at : -1;
        messages[at].msg_len = (unsigned)sent;
    }
    return (int)count;
}

ssize_t recvfrom(int socket, void *octets, size_t room, int flags, struct sockaddr *from, socklen_t *size) {
    ssize_t count = REAL(recvfrom)(socket, octets, room, flags, from, size);
    take_in(socket, octets, count);
    return count;
}

ssize_t recvmsg(int socket, struct msghdr *message, int flags) {
    ssize_t count = REAL(recvmsg)(socket, message, flags);
    take_message_in(socket, message, count);
    return count;
}

int recvmmsg(int socket, struct mmsghdr *messages, unsigned room, int flags, struct timespec *most) {
    int count = REAL(recvmmsg)(socket, messages, room, flags, most);
    for (int at = 0; at < count; at++)
        take_message_in(socket, &messages[at].msg_hdr, messages[at].msg_len);
    return count;
}

__attribute__((destructor)) static void say(void) {
    fprintf(stderr, "lossy: %llu of %llu lost\n", (unsigned long long)lost, (unsigned long long)seen);
}
