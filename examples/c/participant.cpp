// Two participants in one process, which find each other: what one sends is handed to the other in memory, and the moments are
// made up. The first writes words, the second takes them, and the first leaves.
#include "cinchwalnut.hpp"
#include <cstdio>
#include <deque>
#include <utility>

using cinchwalnut::Octets;

namespace {

struct side {
    const char *name;
    cw_locator here;
    cinchwalnut::Participant it;
};

side first{"first", {{127, 0, 0, 1}, 7410}, {}}, second{"second", {{127, 0, 0, 1}, 7412}, {}};
std::deque<std::pair<side *, Octets>> under_way;
std::uint64_t now = 0;

/// What came of the last event of a side: what changed, and what it sends.
void send_all(side &from) {
    for (const cw_presence &it : from.it.presences())
        std::printf("%s: participant %d %s\n", from.name, it.prefix[2], it.is_there ? "appeared" : "is gone");
    for (const cw_told &it : from.it.told())
        std::printf("%s: end %d %s end %d\n", from.name, it.own[14], it.change == CW_MATCHED ? "is matched with" : "parts from",
                    it.other[14]);
    from.it.for_each_datagram([](const cw_locator &to, const std::uint8_t *octets, std::size_t len) {
        under_way.emplace_back(to.port == first.here.port ? &first : &second, Octets(octets, octets + len));
    });
}

/// All that is on its way comes, and so does what is answered.
void arrive() {
    for (; !under_way.empty(); under_way.pop_front()) {
        auto &[to, octets] = under_way.front();
        to->it.hear(now, to->here.address, octets.data(), octets.size());
        send_all(*to);
    }
}

bool open(side &it, std::uint8_t number, std::uint8_t kind, const side &other) {
    cw_participant_settings settings{};
    settings.prefix[2] = number;
    std::copy_n(it.here.address, 4, settings.address);
    settings.port = it.here.port;
    return it.it.open(settings, {other.here}, {cinchwalnut::endpoint(kind, "Words", "word")}) == CW_OK;
}

} // namespace

int main() {
    if (!open(first, 1, CW_WRITER, second) || !open(second, 2, CW_READER, first))
        return 1;
    for (int turn = 0; turn < 4; turn++) {
        now += CW_SECOND / 2;
        for (side *it : {&first, &second})
            if (it->it.tick(now) == CW_OK)
                send_all(*it);
        arrive();
    }
    for (const cinchwalnut::Guid &it : first.it.matched(CW_WRITER, 1))
        std::printf("first: writer 1 has reader %d\n", it[14]);
    const Octets word = {0, 1, 0, 0, 6, 0, 0, 0, 'h', 'e', 'l', 'l', 'o', 0}; // CDR_LE: "hello"
    std::printf("written: %s\n", cw_code_name(first.it.write(1, {}, word)));
    send_all(first);
    arrive();
    std::printf("taken: %s\n", cw_code_name(second.it.take(1)));
    second.it.for_each_sample([](const cw_sample_info &info, const std::uint8_t *value, std::size_t len) {
        std::printf("%.*s, %s\n", static_cast<int>(len - 9), reinterpret_cast<const char *>(value + 8),
                    info.instance_state == CW_ALIVE ? "alive" : "not alive");
    });
    std::printf("left: %s\n", cw_code_name(first.it.leave()));
    send_all(first);
    arrive();
    return 0;
}
