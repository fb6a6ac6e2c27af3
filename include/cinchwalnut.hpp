// A peer and a participant that close themselves, for C++17, over cinchwalnut.h.
#ifndef CINCHWALNUT_HPP
#define CINCHWALNUT_HPP

#include "cinchwalnut.h"
#include <algorithm>
#include <array>
#include <cstddef>
#include <cstdint>
#include <string>
#include <utility>
#include <vector>

namespace cinchwalnut {

using Octets = std::vector<std::uint8_t>;
using Key = std::array<std::uint8_t, 16>;
using Guid = std::array<std::uint8_t, 16>;

/// Octets that are to be sent, and the number of the peer that they are for.
struct Packet {
    std::uint32_t to;
    Octets octets;
};

struct Sample {
    cw_sample_info info;
    Octets value;
};

/// Peers, writers and readers, from which each peer is opened by its number.
struct Config {
    std::vector<cw_peer_config> peers;
    std::vector<cw_writer_config> writers;
    std::vector<cw_reader_config> readers;
};

/// Why a configuration is refused, in words: empty where it is not, or where there is no memory.
inline std::string fault_of(const Config &config) {
    cw_fault fault{};
    std::string sentence(256, 0);
    std::size_t needed = 0;
    auto code = static_cast<std::uint8_t>(CW_OUT_OF_RESOURCES);
    for (int tries = 0; tries < 2 && code == CW_OUT_OF_RESOURCES; tries++) {
        sentence.resize(std::max(needed, sentence.size()));
        code = cw_config_fault(config.peers.data(), config.peers.size(), config.writers.data(), config.writers.size(),
                               config.readers.data(), config.readers.size(), &fault,
                               reinterpret_cast<std::uint8_t *>(&sentence[0]), sentence.size(), &needed);
    }
    sentence.resize(code == CW_OK ? needed : 0);
    return sentence;
}

/// A buffer into which fetches copy: it is made at the first fetch, and grows where that is asked for.
class Fetched {
public:
    /// Hands each thing that is there to `give`, by how many octets stand in the buffer: fetch(at, buffer, len, needed) copies it.
    template <class Fetch, class Give> void each(Fetch fetch, Give give) {
        if (buffer_.empty())
            buffer_.resize(std::size_t{1} << 16);
        for (std::size_t at = 0;; at++) {
            std::size_t needed = 0;
            std::uint8_t code = fetch(at, buffer_.data(), buffer_.size(), &needed);
            if (code == CW_OUT_OF_RESOURCES) {
                buffer_.resize(needed);
                code = fetch(at, buffer_.data(), buffer_.size(), &needed);
            }
            if (code != CW_OK)
                return;
            give(static_cast<const std::uint8_t *>(buffer_.data()), needed);
        }
    }

private:
    Octets buffer_;
};

/// A peer, with a buffer for its fetches.
class Peer {
public:
    Peer() = default;
    Peer(const Peer &) = delete;
    Peer &operator=(const Peer &) = delete;
    Peer(Peer &&other) noexcept
        : peer_(std::exchange(other.peer_, cw_peer CW_PEER_NONE)), fetched_(std::move(other.fetched_)) {}
    Peer &operator=(Peer &&other) noexcept {
        std::swap(peer_, other.peer_);
        std::swap(fetched_, other.fetched_);
        return *this;
    }
    ~Peer() { cw_close(&peer_); }

    /// Each of these answers a code, CW_OK where it was done.
    std::uint8_t open(const Config &config, std::uint32_t number) {
        return cw_open(&peer_, config.peers.data(), config.peers.size(), config.writers.data(), config.writers.size(),
                       config.readers.data(), config.readers.size(), number);
    }
    std::uint8_t write(std::uint8_t writer, const Key &key, const std::uint8_t *value, std::size_t value_len) {
        return cw_write(&peer_, writer, key.data(), value, value_len);
    }
    std::uint8_t write(std::uint8_t writer, const Key &key, const Octets &value) {
        return write(writer, key, value.data(), value.size());
    }
    std::uint8_t dispose(std::uint8_t writer, const Key &key) { return cw_dispose(&peer_, writer, key.data()); }
    std::uint8_t unregister(std::uint8_t writer, const Key &key) { return cw_unregister(&peer_, writer, key.data()); }
    std::uint8_t deliver(const std::uint8_t *datagram, std::size_t datagram_len) {
        return cw_deliver(&peer_, datagram, datagram_len);
    }
    std::uint8_t deliver(const Octets &datagram) { return deliver(datagram.data(), datagram.size()); }
    std::uint8_t tick(std::uint64_t now) { return cw_tick(&peer_, now); }
    std::uint8_t resume(std::uint8_t reader) { return cw_resume(&peer_, reader); }
    std::uint8_t read(std::uint8_t reader, std::int32_t max = -1) {
        return cw_read(&peer_, reader, max, CW_ANY, CW_ANY, CW_ANY);
    }
    std::uint8_t take(std::uint8_t reader, std::int32_t max = -1) {
        return cw_take(&peer_, reader, max, CW_ANY, CW_ANY, CW_ANY);
    }

    /// For all other calls of cinchwalnut.h.
    cw_peer *get() { return &peer_; }

    /// Hands each packet of the last answer to f(to, octets, len), without a copy: the octets stand there until f returns, and
    /// f makes no call of this peer.
    template <class F> void for_each_packet(F &&f) {
        std::uint32_t to = 0;
        fetched_.each([&](std::size_t at, std::uint8_t *buffer, std::size_t room, std::size_t *needed) {
            return cw_packet(&peer_, at, &to, buffer, room, needed);
        }, [&](const std::uint8_t *octets, std::size_t len) { f(to, octets, len); });
    }

    /// Hands each sample of the last answer to f(info, value, len), likewise.
    template <class F> void for_each_sample(F &&f) {
        cw_sample_info info{};
        fetched_.each([&](std::size_t at, std::uint8_t *buffer, std::size_t room, std::size_t *needed) {
            return cw_sample(&peer_, at, &info, buffer, room, needed);
        }, [&](const std::uint8_t *value, std::size_t len) { f(static_cast<const cw_sample_info &>(info), value, len); });
    }

    /// The packets of the last answer, copied.
    std::vector<Packet> packets() {
        std::vector<Packet> got;
        for_each_packet([&](std::uint32_t to, const std::uint8_t *octets, std::size_t len) {
            got.push_back({to, Octets(octets, octets + len)});
        });
        return got;
    }

    /// The samples of the last answer, copied.
    std::vector<Sample> samples() {
        std::vector<Sample> got;
        for_each_sample([&](const cw_sample_info &info, const std::uint8_t *value, std::size_t len) {
            got.push_back({info, Octets(value, value + len)});
        });
        return got;
    }

private:
    cw_peer peer_ = CW_PEER_NONE;
    Fetched fetched_;
};

/// A writer or a reader of a participant, whose names have up to 256 octets; else they are cut.
inline cw_endpoint endpoint(std::uint8_t kind, const std::string &topic_name, const std::string &type_name,
                            std::uint8_t carries = CW_KEYLESS) {
    cw_endpoint made{};
    std::copy_n(topic_name.begin(), std::min(topic_name.size(), sizeof made.topic_name), made.topic_name);
    std::copy_n(type_name.begin(), std::min(type_name.size(), sizeof made.type_name), made.type_name);
    made.kind = kind;
    made.carries = carries;
    return made;
}

/// A participant of a domain, with a buffer for its fetches. It leaves only where it is told to.
class Participant {
public:
    Participant() = default;
    Participant(const Participant &) = delete;
    Participant &operator=(const Participant &) = delete;
    Participant(Participant &&other) noexcept
        : held_(std::exchange(other.held_, cw_participant CW_PARTICIPANT_NONE)), fetched_(std::move(other.fetched_)) {}
    Participant &operator=(Participant &&other) noexcept {
        std::swap(held_, other.held_);
        std::swap(fetched_, other.fetched_);
        return *this;
    }
    ~Participant() { cw_participant_close(&held_); }

    /// Each of these answers a code, CW_OK where it was done.
    std::uint8_t open(const cw_participant_settings &settings, const std::vector<cw_locator> &told,
                      const std::vector<cw_endpoint> &ends, const std::vector<cw_key_field> &fields = {}) {
        return cw_participant_open(&held_, &settings, told.data(), told.size(), ends.data(), ends.size(), fields.data(),
                                   fields.size());
    }
    std::uint8_t hear(std::uint64_t now, const std::uint8_t address[4], const std::uint8_t *datagram, std::size_t datagram_len) {
        return cw_participant_hear(&held_, now, address, datagram, datagram_len);
    }
    std::uint8_t tick(std::uint64_t now) { return cw_participant_tick(&held_, now); }
    std::uint8_t leave() { return cw_participant_leave(&held_); }
    std::uint8_t write(std::uint8_t writer, const Key &key, const Octets &value) {
        return cw_participant_write(&held_, writer, key.data(), value.data(), value.size());
    }
    std::uint8_t dispose(std::uint8_t writer, const Key &key) { return cw_participant_dispose(&held_, writer, key.data()); }
    std::uint8_t read(std::uint8_t reader, std::int32_t max = -1) {
        return cw_participant_read(&held_, reader, max, CW_ANY, CW_ANY, CW_ANY);
    }
    std::uint8_t take(std::uint8_t reader, std::int32_t max = -1) {
        return cw_participant_take(&held_, reader, max, CW_ANY, CW_ANY, CW_ANY);
    }
    bool is_behind() { return cw_participant_is_behind(&held_) != 0; }

    /// Those of others with which the writer or the reader (CW_WRITER, CW_READER) of a number is matched now.
    std::vector<Guid> matched(std::uint8_t kind, std::uint8_t number) {
        std::vector<Guid> got;
        for (Guid one{}; cw_participant_matched(&held_, kind, number, got.size(), one.data()) == CW_OK;)
            got.push_back(one);
        return got;
    }

    /// For all other calls of cinchwalnut.h.
    cw_participant *get() { return &held_; }

    /// Hands each datagram of the last event to f(to, octets, len), without a copy: the octets stand there until f returns, and
    /// f makes no call of this participant.
    template <class F> void for_each_datagram(F &&f) {
        cw_locator to{};
        fetched_.each([&](std::size_t at, std::uint8_t *buffer, std::size_t room, std::size_t *needed) {
            return cw_participant_datagram(&held_, at, to.address, &to.port, buffer, room, needed);
        }, [&](const std::uint8_t *octets, std::size_t len) { f(static_cast<const cw_locator &>(to), octets, len); });
    }

    /// Hands each sample of the last read or take to f(info, value, len), likewise.
    template <class F> void for_each_sample(F &&f) {
        cw_sample_info info{};
        fetched_.each([&](std::size_t at, std::uint8_t *buffer, std::size_t room, std::size_t *needed) {
            return cw_participant_sample(&held_, at, &info, buffer, room, needed);
        }, [&](const std::uint8_t *value, std::size_t len) { f(static_cast<const cw_sample_info &>(info), value, len); });
    }

    /// What changed of matches, and who appeared or is gone.
    std::vector<cw_told> told() { return all<cw_told>(cw_participant_told); }
    std::vector<cw_presence> presences() { return all<cw_presence>(cw_participant_presence); }

private:
    template <class Element> std::vector<Element> all(std::uint8_t (*fetch)(cw_participant *, std::size_t, Element *)) {
        std::vector<Element> got;
        for (Element one{}; fetch(&held_, got.size(), &one) == CW_OK;)
            got.push_back(one);
        return got;
    }

    cw_participant held_ = CW_PARTICIPANT_NONE;
    Fetched fetched_;
};

} // namespace cinchwalnut
#endif
