// Two peers, each in a thread of its own with a UDP socket of the loopback, and one datagram of five lost: a loop that serves
// a peer, as docs/C.md explains it. The writer ends once all is acknowledged.
#include "cinchwalnut.hpp"
#include <arpa/inet.h>
#include <atomic>
#include <chrono>
#include <cstdio>
#include <cstdlib>
#include <cstring>
#include <poll.h>
#include <random>
#include <sys/socket.h>
#include <thread>
#include <unistd.h>

using cinchwalnut::Peer;
using Clock = std::chrono::steady_clock;

static constexpr std::uint64_t PERIOD = CW_MS(10);
static constexpr std::uint32_t VALUES = 1000;
static const Clock::time_point START = Clock::now();

static void check(bool is_so, const char *what) {
    if (!is_so) {
        std::printf("not %s\n", what);
        std::exit(1);
    }
}

// The time since the start.
static std::uint64_t now() {
    std::uint64_t ns = std::chrono::duration_cast<std::chrono::nanoseconds>(Clock::now() - START).count();
    return ns / 1000000000 * CW_SECOND + ns % 1000000000 * CW_SECOND / 1000000000;
}

static cinchwalnut::Config two_peers() {
    cinchwalnut::Config config{{{{1}}, {{2}}}, std::vector<cw_writer_config>(1), std::vector<cw_reader_config>(1)};
    auto &writer = config.writers[0];
    writer.peer = 1, writer.entity[3] = 2, writer.max_samples = 64;
    auto &reader = config.readers[0];
    reader.peer = 2, reader.entity[3] = 7, reader.max_samples = reader.max_instances = -1;
    return config;
}

// A peer, its socket, and the address of the other one.
struct Side {
    Peer peer;
    int socket = ::socket(AF_INET, SOCK_DGRAM, 0);
    sockaddr_in here{}, other{};
    std::uint64_t next_tick = 0;
    std::minstd_rand chance;
    bool is_acknowledged = false;

    explicit Side(std::uint8_t number) {
        socklen_t len = sizeof here;
        here.sin_family = AF_INET, here.sin_addr.s_addr = htonl(INADDR_LOOPBACK);
        check(peer.open(two_peers(), number) == CW_OK, "open");
        check(bind(socket, reinterpret_cast<sockaddr *>(&here), sizeof here) == 0, "bound");
        getsockname(socket, reinterpret_cast<sockaddr *>(&here), &len);
    }
    ~Side() { close(socket); }

    // Sends what the last event gave, and says how many packets that were.
    std::size_t send_all() {
        std::size_t packets = 0;
        peer.for_each_packet([&](std::uint32_t, const std::uint8_t *octets, std::size_t len) {
            packets++;
            if (chance() % 5 != 0) // one of five is lost
                sendto(socket, octets, len, 0, reinterpret_cast<sockaddr *>(&other), sizeof other);
        });
        return packets;
    }

    // Waits till a datagram comes or a tick is due, and serves both.
    void turn() {
        std::uint8_t datagram[65536];
        pollfd waits{socket, POLLIN, 0};
        std::uint64_t moment = now();
        poll(&waits, 1, moment < next_tick ? static_cast<int>((next_tick - moment) / CW_MS(1)) + 1 : 0);
        ssize_t len = recv(socket, datagram, sizeof datagram, MSG_DONTWAIT);
        for (int left = 64; len >= 0 && left > 0; left--) {
            peer.deliver(datagram, static_cast<std::size_t>(len));
            send_all();
            len = recv(socket, datagram, sizeof datagram, MSG_DONTWAIT);
        }
        moment = now();
        if (moment >= next_tick) {
            next_tick = moment + PERIOD;
            peer.tick(moment);
            is_acknowledged = send_all() == 0; // a HEARTBEAT is due as long as something is unacknowledged
        }
    }
};

static void write_all(Side &side) {
    for (std::uint32_t number = 0; number < VALUES;) {
        auto code = side.peer.write(1, {7}, reinterpret_cast<const std::uint8_t *>(&number), sizeof number);
        check(code == CW_OK || code == CW_TIMEOUT, "written"); // no room: once acknowledgements have come there is some
        if (code == CW_OK)
            number++, side.send_all();
        if (code == CW_TIMEOUT || number % 16 == 0)
            side.turn();
    }
    for (side.is_acknowledged = false; !side.is_acknowledged;)
        side.turn();
}

static void read_all(Side &side, const std::atomic<bool> &has_ended) {
    std::uint32_t next = 0, number = 0;
    while (!has_ended) {
        side.turn();
        if (side.peer.take(1) == CW_OK)
            side.peer.for_each_sample([&](const cw_sample_info &, const std::uint8_t *value, std::size_t) {
                std::memcpy(&number, value, sizeof number);
                check(number == next++, "in its order");
            });
    }
    std::printf("%u values came, each in its order\n", static_cast<unsigned>(next));
}

int main() {
    Side writer(1), reader(2);
    writer.other = reader.here, reader.other = writer.here;
    std::atomic<bool> has_ended{false};
    std::thread thread(read_all, std::ref(reader), std::cref(has_ended));
    write_all(writer);
    has_ended = true;
    thread.join();
    return 0;
}
