/* A participant of cinchwalnut.h over UDP, by POSIX: its sockets at the well-known ports of a domain (RTPS 2.5, 9.6.2), the
 * clock, and a prefix of chance. A layer of which nothing is proved. In strict C it wants _DEFAULT_SOURCE or _GNU_SOURCE. */
#ifndef CINCHWALNUT_UDP_H
#define CINCHWALNUT_UDP_H

#include "cinchwalnut.h"
#include <arpa/inet.h>
#include <errno.h>
#include <netinet/in.h>
#include <poll.h>
#include <stdio.h>
#include <string.h>
#include <sys/socket.h>
#include <time.h>
#include <unistd.h>

/* The socket of a participant, where it is, and a second one, which hears the group of its domain; -1 for none. */
typedef struct cw_udp {
    int own;
    int group;
    cw_locator here;
} cw_udp;

#define CW_UDP_NONE {-1, -1, {{0}, 0}}

/* The port of the group of a domain, 0 to 232, and of its participant of an index, 0 to 119 on a machine. */
static inline uint16_t cw_udp_group_port(uint32_t domain) {
    return (uint16_t)(7400 + 250 * domain);
}

static inline uint16_t cw_udp_port(uint32_t domain, uint32_t index) {
    return (uint16_t)(cw_udp_group_port(domain) + 10 + 2 * index);
}

/* The group of all participants. */
static inline cw_locator cw_udp_group(uint32_t domain) {
    cw_locator group = {{239, 255, 0, 1}, 0};
    group.port = cw_udp_group_port(domain);
    return group;
}

static inline struct sockaddr_in cw_udp_address(const uint8_t address[4], uint16_t port) {
    struct sockaddr_in made;
    memset(&made, 0, sizeof made);
    made.sin_family = AF_INET;
    made.sin_port = htons(port);
    memcpy(&made.sin_addr.s_addr, address, 4);
    return made;
}

static inline void cw_udp_close(cw_udp *udp) {
    if (udp->own >= 0)
        close(udp->own);
    if (udp->group >= 0)
        close(udp->group);
    udp->own = udp->group = -1;
}

/* The address from which the system sends to the group, that of the interface which others reach; 127.0.0.1 where there is no
 * network. Whether the system has a socket. */
static inline bool cw_udp_own_address(uint32_t domain, uint8_t address[4]) {
    cw_locator group = cw_udp_group(domain);
    struct sockaddr_in to = cw_udp_address(group.address, group.port), from;
    socklen_t len = sizeof from;
    int probe = socket(AF_INET, SOCK_DGRAM, 0);
    bool is_known = probe >= 0 && connect(probe, (struct sockaddr *)&to, sizeof to) == 0 &&
                    getsockname(probe, (struct sockaddr *)&from, &len) == 0 && from.sin_addr.s_addr != 0;
    if (!is_known)
        from.sin_addr.s_addr = htonl(INADDR_LOOPBACK);
    memcpy(address, &from.sin_addr.s_addr, 4);
    if (probe >= 0)
        close(probe);
    return probe >= 0;
}

/* The group's port may be another process's too. */
static inline int cw_udp_join(uint32_t domain, const uint8_t interface[4]) {
    cw_locator group = cw_udp_group(domain);
    struct sockaddr_in at = cw_udp_address(group.address, group.port);
    struct ip_mreq joined;
    int shared = 1, made = socket(AF_INET, SOCK_DGRAM, 0);
    memcpy(&joined.imr_multiaddr.s_addr, group.address, 4);
    memcpy(&joined.imr_interface.s_addr, interface, 4);
    if (made >= 0 && setsockopt(made, SOL_SOCKET, SO_REUSEADDR, &shared, sizeof shared) == 0 &&
        bind(made, (struct sockaddr *)&at, sizeof at) == 0 &&
        setsockopt(made, IPPROTO_IP, IP_ADD_MEMBERSHIP, &joined, sizeof joined) == 0)
        return made;
    if (made >= 0)
        close(made);
    return -1;
}

/* Opens the sockets, at an address of this machine and the first port of the domain that is free there: *udp says where. The
 * group is sent to from there, and heard. False where that can't be; then none is open. */
static inline bool cw_udp_open(cw_udp *udp, uint32_t domain, const uint8_t address[4]) {
    struct in_addr interface;
    memcpy(&interface.s_addr, address, 4);
    memcpy(udp->here.address, address, 4);
    udp->group = -1;
    udp->own = socket(AF_INET, SOCK_DGRAM, 0);
    for (uint32_t index = 0; udp->own >= 0 && index < 120; index++) {
        struct sockaddr_in here = cw_udp_address(address, cw_udp_port(domain, index));
        udp->here.port = cw_udp_port(domain, index);
        if (bind(udp->own, (struct sockaddr *)&here, sizeof here) == 0) {
            udp->group = cw_udp_join(domain, address);
            break;
        }
        if (errno != EADDRINUSE)
            break;
    }
    if (udp->group >= 0 && setsockopt(udp->own, IPPROTO_IP, IP_MULTICAST_IF, &interface, sizeof interface) == 0)
        return true;
    cw_udp_close(udp);
    return false;
}

/* Sends a datagram. What the system does not take is lost, and repaired as any other. */
static inline void cw_udp_send(const cw_udp *udp, const uint8_t address[4], uint16_t port, const uint8_t *octets, size_t len) {
    struct sockaddr_in to = cw_udp_address(address, port);
    ssize_t sent = sendto(udp->own, octets, len, 0, (struct sockaddr *)&to, sizeof to);
    (void)sent;
}

/* Sends all that came of the last event of a participant. */
static inline void cw_udp_send_all(const cw_udp *udp, cw_participant *participant) {
    uint8_t octets[CW_LONGEST_PACKET], address[4] = {0};
    uint16_t port = 0;
    size_t len = 0;
    for (size_t at = 0; cw_participant_datagram(participant, at, address, &port, octets, sizeof octets, &len) == CW_OK; at++)
        cw_udp_send(udp, address, port, octets, len);
}

/* Waits for a datagram, so many milliseconds at most, and takes it, with the address that it came from. How many octets it
 * has; -1 where none came. */
static inline ssize_t cw_udp_receive(const cw_udp *udp, int milliseconds, uint8_t address[4], uint8_t *buffer, size_t len) {
    struct pollfd waits[2] = {{udp->own, POLLIN, 0}, {udp->group, POLLIN, 0}};
    struct sockaddr_in from;
    socklen_t from_len = sizeof from;
    if (poll(waits, 2, milliseconds) <= 0)
        return -1;
    ssize_t came = recvfrom(waits[0].revents != 0 ? udp->own : udp->group, buffer, len, MSG_DONTWAIT,
                            (struct sockaddr *)&from, &from_len);
    if (came >= 0)
        memcpy(address, &from.sin_addr.s_addr, 4);
    return came;
}

/* The moment, in units of 2^-32 second, of a clock that never goes back. */
static inline uint64_t cw_udp_now(void) {
    struct timespec now = {0, 0};
    clock_gettime(CLOCK_MONOTONIC, &now);
    return ((uint64_t)now.tv_sec << 32) + (((uint64_t)now.tv_nsec << 32) / 1000000000);
}

/* A prefix that nobody has: two zeros and ten octets of chance. Whether the system gave them. */
static inline bool cw_udp_prefix(uint8_t prefix[12]) {
    FILE *chance = fopen("/dev/urandom", "rb");
    memset(prefix, 0, 12);
    bool is_made = chance != NULL && fread(prefix + 2, 1, 10, chance) == 10;
    if (chance != NULL)
        fclose(chance);
    return is_made;
}

#endif
