/* Two peers that are told of ends that no configuration matches with theirs. A process with a writer comes back under a new prefix,
 * and the reader meets it, by a number that nobody had, and is not opened anew. Then a reader of another topic meets the same
 * writer. At last both kinds of meeting are recorded. */
#include "cinchwalnut_record.h"

#define CHECK(c) do { if (!(c)) { printf("line %d: not %s\n", __LINE__, #c); exit(1); } } while (0)

static const cw_writer_config writers[] = {{.peer = 1, .entity = {0, 0, 1, 2}, .max_samples = -1}};
static const cw_reader_config readers[] = {
    {.peer = 2, .entity = {0, 0, 1, 7}, .max_samples = -1, .max_instances = -1},
    {.peer = 2, .entity = {0, 0, 2, 7}, .max_samples = -1, .max_instances = -1, .topic = 1}};
static const uint8_t first[12] = {1, 1}, second[12] = {2, 1}, other[12] = {1, 2};
static cw_peer writer = CW_PEER_NONE, reader = CW_PEER_NONE;
static uint64_t now;

/* Opens a peer of a configuration in which the writer's peer has this prefix. */
static void open_with(cw_peer *peer, const uint8_t prefix[12], uint8_t number) {
    cw_peer_config peers[2] = {{{0}}, {{0}}};
    for (int at = 0; at < 12; at++) {
        peers[0].prefix[at] = prefix[at];
        peers[1].prefix[at] = other[at];
    }
    CHECK(cw_open(peer, peers, 2, writers, 1, readers, 2, number) == CW_OK);
}

static void carry(cw_peer *from, cw_peer *to) {
    static uint8_t packet[65536];
    uint32_t whom = 0;
    size_t len = 0;
    for (size_t at = 0; cw_packet(from, at, &whom, packet, sizeof packet, &len) == CW_OK; at++)
        CHECK(cw_deliver(to, packet, len) == CW_OK);
}

/* Writes so many values, lets the two peers repair what they can, and prints how many a reader has then. */
static void exchange(const char *what, int values, uint8_t number) {
    const uint8_t key[16] = {7};
    cw_sample_info info = {0};
    cw_total_status lost = {0};
    uint8_t value[16] = {0};
    size_t len = 0, taken = 0;
    for (int at = 0; at < values; at++) {
        CHECK(cw_write(&writer, 1, key, value, 1) == CW_OK);
        carry(&writer, &reader);
    }
    for (int round = 0; round < 2; round++) {
        CHECK(cw_tick(&writer, now += CW_MS(10)) == CW_OK);
        carry(&writer, &reader); /* HEARTBEATs, where something is unacknowledged */
        carry(&reader, &writer); /* ACKNACKs */
        carry(&writer, &reader); /* the repair */
    }
    if (cw_take(&reader, number, -1, CW_ANY, CW_ANY, CW_ANY) == CW_OK)
        for (size_t at = 0; cw_sample(&reader, at, &info, value, sizeof value, &len) == CW_OK; at++)
            taken += info.valid_data; /* an instance whose writer left has a sample without data */
    CHECK(cw_get_sample_lost_status(&reader, number) == CW_OK && cw_total(&reader, &lost) == CW_OK);
    printf("%s: %zu of %d taken, %llu lost, of publication %llu\n", what, taken, values, (unsigned long long)lost.total_count,
           (unsigned long long)info.publication_handle);
}

static void meet_writer(uint8_t number) {
    uint64_t handle = 0;
    CHECK(cw_meet_writer(&reader, number, 3, 1, second, writers[0].entity, 0, false, 0) == CW_OK);
    CHECK(cw_handle(&reader, &handle) == CW_OK);
    printf("reader %u meets publication %llu\n", (unsigned)number, (unsigned long long)handle);
}

static void say(const char *what, uint8_t code) {
    printf("%s: %s\n", what, cw_code_name(code));
}

static void print_recorded(cw_recording *run) {
    CHECK(cw_recorded_is_whole(run));
    rewind(run->to);
    for (int it = fgetc(run->to); it != EOF; it = fgetc(run->to))
        putchar(it);
}

/* A peer that has no other in its configuration. */
static void record(void) {
    static cw_recording run = CW_RECORDING_NONE;
    const cw_peer_config peers[] = {{{1, 1}}};
    const cw_reader_config own[] = {{.peer = 1, .entity = {0, 0, 1, 7}, .max_samples = -1, .max_instances = -1, .topic = 1}};
    FILE *to = tmpfile();
    CHECK(to != NULL);
    CHECK(cw_recorded_open(&run, to, peers, 1, writers, 1, own, 1, 1) == CW_OK);
    CHECK(cw_recorded_meet_reader(&run, 1, 2, 1, other, readers[0].entity, true, false) == CW_OK);
    CHECK(cw_recorded_meet_reader(&run, 1, 2, 2, other, readers[1].entity, false, true) == CW_OK);
    CHECK(cw_recorded_meet_writer(&run, 1, 3, 1, second, writers[0].entity, -7, true, CW_SECOND) == CW_OK);
    CHECK(cw_recorded_meet_writer(&run, 1, 3, 1, second, writers[0].entity, 0, false, 0) == CW_PRECONDITION_NOT_MET);
    print_recorded(&run);
    cw_recorded_close(&run);
    fclose(to);
}

int main(void) {
    open_with(&writer, first, 1);
    open_with(&reader, first, 2);
    exchange("under the first prefix", 3, 1);
    open_with(&writer, second, 1); /* the process comes back, under a prefix of its own */
    CHECK(cw_unmatch_writer(&reader, 1, 1, 1) == CW_OK);
    meet_writer(1);
    exchange("under the second", 5, 1);
    say("once more", cw_meet_writer(&reader, 1, 3, 1, second, writers[0].entity, 0, false, 0));
    say("by another name", cw_meet_writer(&reader, 1, 4, 1, second, writers[0].entity, 0, false, 0));
    say("with another GUID", cw_meet_writer(&reader, 1, 3, 1, second, (const uint8_t[4]){0, 0, 9, 2}, 0, false, 0));
    say("with a lease of 0", cw_meet_writer(&reader, 2, 3, 1, second, writers[0].entity, 0, true, 0));
    say("as a reader", cw_meet_reader(&writer, 1, 4, 1, (const uint8_t[12]){4}, writers[0].entity, false, false));
    say("as a best-effort one", cw_meet_reader(&writer, 1, 2, 2, other, readers[1].entity, true, false));
    meet_writer(2);
    say("a reader of another topic", cw_meet_reader(&writer, 1, 2, 2, other, readers[1].entity, false, true));
    exchange("what it has", 2, 2);
    record();
    cw_close(&writer);
    cw_close(&reader);
    return 0;
}
