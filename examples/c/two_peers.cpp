// Two peers in one process: of three changes the second is lost, and repaired; the third finds room once these are taken. Then
// both ends part, and are matched again.
#include "cinchwalnut.hpp"
#include <cstdio>
#include <string_view>

using cinchwalnut::Octets, cinchwalnut::Peer;

static cinchwalnut::Config two_peers() {
    cinchwalnut::Config config;
    for (std::uint8_t number : {1, 2}) {
        cw_peer_config peer{};
        peer.prefix[0] = number;
        config.peers.push_back(peer);
    }
    cw_writer_config writer{};
    writer.peer = 1, writer.entity[3] = 2, writer.max_samples = -1;
    config.writers.push_back(writer);
    cw_reader_config reader{};
    reader.peer = 2, reader.entity[3] = 7, reader.max_samples = 2, reader.max_instances = -1;
    config.readers.push_back(reader);
    return config;
}

static void carry(Peer &from, Peer &to) {
    for (const auto &packet : from.packets())
        to.deliver(packet.octets);
}

static void show(const char *whose, Peer &peer) {
    cw_matched_status matched{};
    if (cw_matched(peer.get(), &matched) == CW_OK)
        std::printf("%s: %llu matches, %lld of them stand\n", whose, static_cast<unsigned long long>(matched.total_count),
                    static_cast<long long>(matched.current_count));
}

int main() {
    const auto config = two_peers();
    auto wrong = config;
    wrong.readers[0].keeps_last = true;
    std::printf("%s\n", cinchwalnut::fault_of(wrong).c_str());
    Peer writer, opened, reader;
    if (opened.open(config, 1) || reader.open(config, 2))
        return 1;
    writer = std::move(opened);
    for (std::string_view value : {"one", "two", "three"}) {
        if (writer.write(1, {7}, Octets(value.begin(), value.end())))
            return 2;
        if (value != "two")
            carry(writer, reader);
    }
    writer.tick(std::uint64_t{1} << 32);
    carry(writer, reader); // a HEARTBEAT
    carry(reader, writer); // an ACKNACK
    carry(writer, reader); // the repair
    for (int turn = 0; turn < 2; turn++) {
        if (reader.take(1))
            return 3;
        for (const auto &sample : reader.samples())
            std::printf("%.*s, rank %llu\n", static_cast<int>(sample.value.size()),
                        reinterpret_cast<const char *>(sample.value.data()),
                        static_cast<unsigned long long>(sample.info.sample_rank));
        if (reader.resume(1))
            return 4;
    }
    if (cw_unmatch_reader(writer.get(), 1, 2, 1) || cw_unmatch_writer(reader.get(), 1, 1, 1) ||
        cw_greet_reader(writer.get(), 1, 2, 1) || cw_match_writer(reader.get(), 1, 1, 1) ||
        cw_get_publication_matched_status(writer.get(), 1) || cw_get_subscription_matched_status(reader.get(), 1))
        return 5;
    show("the writer", writer);
    show("the reader", reader);
    return 0;
}
