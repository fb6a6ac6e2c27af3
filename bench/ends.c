/* For bench/ends: what ends that came and left cost those that stay, and what many readers cost their writer.

     ends readers one|new N          one reader of a writer comes and leaves N times: under one name, or each time under a new one
     ends writers one|new|heard N    the same of a writer of a reader; one that is heard sends a value each time, under a new name
     ends many PEERS EACH            so many readers of each of so many participants at a writer

   It prints nanoseconds of processor time, the least of several runs, and octets that stay resident. */
#include "cinchwalnut.h"
#include <stdio.h>
#include <stdlib.h>
#include <string.h>
#include <time.h>
#include <unistd.h>

#define RUNS 5
#define BURST 64
#define LONGEST 2048

static const uint8_t own_prefix[12] = {1}, writer_id[4] = {0, 0, 1, 2}, key[16] = {1}, value[8] = {0};
static uint64_t now;
static int32_t count;

static long long processor_time(void) {
    struct timespec time;
    clock_gettime(CLOCK_PROCESS_CPUTIME_ID, &time);
    return time.tv_sec * 1000000000LL + time.tv_nsec;
}

static long resident(void) {
    long total = 0, pages = 0;
    FILE *file = fopen("/proc/self/statm", "r");
    if (file == NULL || fscanf(file, "%ld %ld", &total, &pages) != 2)
        exit(1);
    fclose(file);
    return pages * sysconf(_SC_PAGESIZE);
}

static void made(uint8_t code) {
    if (code != CW_OK) {
        fprintf(stderr, "library: code %u\n", code);
        exit(1);
    }
}

/* The prefix of the participant of this number. */
static void name_of(uint32_t peer, uint8_t prefix[12]) {
    memset(prefix, 0, 12);
    prefix[0] = 2;
    memcpy(prefix + 4, &peer, sizeof peer);
}

static void open_one(cw_peer *peer, const uint8_t prefix[12], bool writes) {
    cw_peer_config peers[1];
    const cw_writer_config writers[] = {
        {.peer = 1, .entity = {0, 0, 1, 2}, .keeps_last = true, .depth = 1, .autodispose = true, .max_samples = -1}};
    const cw_reader_config readers[] = {
        {.peer = 1, .entity = {0, 0, 1, 7}, .keeps_last = true, .depth = 1, .max_samples = -1, .max_instances = -1}};
    memcpy(peers[0].prefix, prefix, 12);
    made(cw_open(peer, peers, 1, writers, writes, readers, !writes, 1));
}

static void reader_comes(cw_peer *peer, uint32_t of, uint8_t number) {
    uint8_t prefix[12];
    const uint8_t entity[4] = {0, 0, number, 7};
    name_of(of, prefix);
    made(cw_meet_reader(peer, 1, of, number, prefix, entity, false, false));
}

static void writer_comes(cw_peer *peer, uint32_t of) {
    uint8_t prefix[12];
    name_of(of, prefix);
    made(cw_meet_writer(peer, 1, of, 1, prefix, writer_id, 0, false, 0));
}

/* The ACKNACK of a reader for all below a number. */
static size_t acknack(uint8_t *to, uint32_t of, uint8_t number, uint32_t base) {
    const uint8_t begins[] = {'R', 'T', 'P', 'S', 2, 5, 0, 0}, names[] = {14, 1, 12, 0};
    const uint8_t said[] = {6, 3, 24, 0, 0, 0, number, 7, 0, 0, 1, 2};
    const uint32_t set[] = {0, base, 0, (uint32_t)++count};
    memcpy(to, begins, 8);
    name_of(of, to + 8);
    memcpy(to + 20, names, 4);
    memcpy(to + 24, own_prefix, 12);
    memcpy(to + 36, said, 12);
    memcpy(to + 48, set, 16);
    return 64;
}

static uint32_t written;

static void write_one(cw_peer *peer) {
    made(cw_write(peer, 1, key, value, sizeof value));
    written++;
}

static void tick_one(cw_peer *peer) { made(cw_tick(peer, now += (uint64_t)1 << 28)); }

/* The least of several runs of so many calls. */
static double least(void (*call)(cw_peer *), cw_peer *peer, int calls) {
    double best = 1e18;
    for (int run = 0; run < RUNS; run++) {
        long long start = processor_time();
        for (int at = 0; at < calls; at++)
            call(peer);
        double spent = (double)(processor_time() - start) / calls;
        best = spent < best ? spent : best;
    }
    return best;
}

/* What an ACKNACK takes, of each reader of so many participants: then nobody waits, and no tick sends anything. */
static double answers(cw_peer *peer, uint32_t peers, uint32_t each) {
    uint8_t packet[64];
    uint32_t to = 0;
    size_t len = 0;
    double best = 1e18;
    for (int run = 0; run < RUNS; run++) {
        long long spent = 0;
        for (uint32_t at = 0; at < peers * each; at++) {
            len = acknack(packet, 2 + at / each, (uint8_t)(1 + at % each), written + 1);
            long long start = processor_time();
            made(cw_deliver(peer, packet, len));
            spent += processor_time() - start;
        }
        double one = (double)spent / (peers * each);
        best = one < best ? one : best;
    }
    tick_one(peer);
    if (cw_packet(peer, 0, &to, packet, sizeof packet, &len) != CW_NO_DATA)
        made(CW_PRECONDITION_NOT_MET);
    return best;
}

/* So many come and leave, numbered from the first. */
static void come_and_go(void (*comes)(cw_peer *, uint32_t), cw_peer *peer, bool same, uint32_t first, uint32_t comings) {
    for (uint32_t at = 0; at < comings; at++)
        comes(peer, same ? 3 : first + at);
}

/* What one of some more takes. */
static double one_more(void (*comes)(cw_peer *, uint32_t), cw_peer *peer, bool same, uint32_t first) {
    double best = 1e18;
    for (uint32_t run = 0; run < RUNS; run++) {
        long long start = processor_time();
        come_and_go(comes, peer, same, first + 10 * run, 10);
        double spent = (double)(processor_time() - start) / 10;
        best = spent < best ? spent : best;
    }
    return best;
}

static void reader_comes_and_goes(cw_peer *peer, uint32_t of) {
    reader_comes(peer, of, 1);
    made(cw_unmatch_reader(peer, 1, of, 1));
}

static void of_readers(const char *names, uint32_t comings) {
    bool same = strcmp(names, "one") == 0;
    cw_peer peer = CW_PEER_NONE;
    open_one(&peer, own_prefix, true);
    reader_comes(&peer, 2, 1);
    least(write_one, &peer, 100);
    long before = resident();
    come_and_go(reader_comes_and_goes, &peer, same, 3, comings);
    long grown = resident() - before;
    double write = least(write_one, &peer, 1000), tick = least(tick_one, &peer, 1000), acknack = answers(&peer, 1, 1);
    double coming = one_more(reader_comes_and_goes, &peer, same, comings + 3);
    printf("of=readers names=%s comings=%u coming=%.0f write=%.0f tick=%.0f acknack=%.0f octets_each=%.0f\n", names, comings, coming,
           write, tick, acknack, (double)grown / comings);
    cw_close(&peer);
}

/* A writer that stays, as a peer of its own, and what it sent. */
static struct {
    cw_peer peer;
    uint8_t packets[BURST][LONGEST];
    size_t lens[BURST];
} other;
/* The HEARTBEAT and the DATA by which it begins. */
static uint8_t first[2][LONGEST];
static size_t first_lens[2];

static void send(size_t at) {
    uint32_t to = 0;
    made(cw_packet(&other.peer, 0, &to, other.packets[at], LONGEST, &other.lens[at]));
}

static void other_begins(cw_peer *peer, uint32_t of) {
    writer_comes(peer, of);
    uint8_t prefix[12];
    const uint8_t reader_id[4] = {0, 0, 1, 7};
    name_of(of, prefix);
    open_one(&other.peer, prefix, true);
    made(cw_meet_reader(&other.peer, 1, 2, 1, own_prefix, reader_id, false, false));
    made(cw_write(&other.peer, 1, key, value, sizeof value));
    send(1);
    made(cw_tick(&other.peer, 1));
    send(0);
    for (size_t at = 0; at < 2; at++)
        made(cw_deliver(peer, other.packets[at], other.lens[at]));
    made(cw_take(peer, 1, -1, CW_ANY, CW_ANY, CW_ANY));
}

/* What each of some DATA takes, of one key or of a new one each, and the take of them together. */
static double data(cw_peer *peer, bool new_keys, double *take) {
    static uint32_t fresh = 1;
    double best = 1e18;
    *take = 1e18;
    for (int run = 0; run < RUNS; run++) {
        for (size_t at = 0; at < BURST; at++) {
            uint8_t of[16] = {1};
            if (new_keys) {
                fresh++;
                memcpy(of + 4, &fresh, sizeof fresh);
            }
            made(cw_write(&other.peer, 1, of, value, sizeof value));
            send(at);
        }
        long long start = processor_time();
        for (size_t at = 0; at < BURST; at++)
            made(cw_deliver(peer, other.packets[at], other.lens[at]));
        double spent = (double)(processor_time() - start) / BURST;
        best = spent < best ? spent : best;
        start = processor_time();
        made(cw_take(peer, 1, -1, CW_ANY, CW_ANY, CW_ANY));
        double taken = (double)(processor_time() - start);
        *take = taken < *take ? taken : *take;
    }
    return best;
}

/* What each of some HEARTBEATs takes. */
static double heartbeats(cw_peer *peer) {
    double best = 1e18;
    for (int run = 0; run < RUNS; run++) {
        for (size_t at = 0; at < BURST; at++) {
            made(cw_tick(&other.peer, 2));
            send(at);
        }
        long long start = processor_time();
        for (size_t at = 0; at < BURST; at++)
            made(cw_deliver(peer, other.packets[at], other.lens[at]));
        double spent = (double)(processor_time() - start) / BURST;
        best = spent < best ? spent : best;
    }
    return best;
}

static void writer_comes_and_goes(cw_peer *peer, uint32_t of) {
    writer_comes(peer, of);
    made(cw_unmatch_writer(peer, 1, of, 1));
}

static void writer_is_heard(cw_peer *peer, uint32_t of) {
    writer_comes(peer, of);
    for (size_t at = 0; at < 2; at++) {
        name_of(of, first[at] + 8);
        made(cw_deliver(peer, first[at], first_lens[at]));
    }
    made(cw_unmatch_writer(peer, 1, of, 1));
    made(cw_take(peer, 1, -1, CW_ANY, CW_ANY, CW_ANY));
}

/* After them one more comes and stays: what it sends is measured. */
static void of_writers(const char *names, uint32_t comings) {
    const uint32_t begins = 2, stays = 1u << 24;
    bool same = strcmp(names, "one") == 0;
    void (*comes)(cw_peer *, uint32_t) = strcmp(names, "heard") == 0 ? writer_is_heard : writer_comes_and_goes;
    cw_peer peer = CW_PEER_NONE;
    open_one(&peer, own_prefix, false);
    other_begins(&peer, begins);
    memcpy(first, other.packets, sizeof first);
    memcpy(first_lens, other.lens, sizeof first_lens);
    made(cw_unmatch_writer(&peer, 1, begins, 1));
    made(cw_take(&peer, 1, -1, CW_ANY, CW_ANY, CW_ANY));
    cw_close(&other.peer);
    long before = resident();
    come_and_go(comes, &peer, same, 3, comings);
    long grown = resident() - before;
    double tick = least(tick_one, &peer, 1000);
    before = resident();
    other_begins(&peer, stays);
    double take = 0, take_of_keys = 0;
    double one_key = data(&peer, false, &take), heartbeat = heartbeats(&peer);
    long heard = resident() - before;
    before = resident();
    double new_key = data(&peer, true, &take_of_keys);
    long keys = resident() - before;
    made(cw_unmatch_writer(&peer, 1, stays, 1));
    while (cw_take(&peer, 1, -1, CW_ANY, CW_ANY, CW_ANY) == CW_OK) {
    }
    double coming = one_more(comes, &peer, same, comings + 3);
    printf("of=writers names=%s comings=%u coming=%.0f tick=%.0f data=%.0f take=%.0f heartbeat=%.0f new_key=%.0f octets_each=%.0f heard_octets=%ld key_octets=%ld\n",
           names, comings, coming, tick, one_key, take, heartbeat, new_key, (double)grown / comings, heard, keys / (RUNS * BURST));
    cw_close(&other.peer);
    cw_close(&peer);
}

static void many(uint32_t peers, uint32_t each) {
    cw_peer peer = CW_PEER_NONE;
    open_one(&peer, own_prefix, true);
    least(write_one, &peer, 100);
    long before = resident();
    long long start = processor_time();
    for (uint32_t of = 2; of < peers + 2; of++)
        for (uint32_t number = 1; number <= each; number++)
            reader_comes(&peer, of, (uint8_t)number);
    double match = (double)(processor_time() - start) / (peers * each);
    long grown = resident() - before;
    double idle = least(tick_one, &peer, 10);
    double write = least(write_one, &peer, 10), tick = least(tick_one, &peer, 10);
    double acknack = answers(&peer, peers, each), more = one_more(reader_comes_and_goes, &peer, false, peers + 2);
    printf("peers=%u each=%u match=%.0f write=%.0f tick=%.0f tick_idle=%.0f acknack=%.0f coming=%.0f octets_each=%.0f\n", peers, each, match,
           write, tick, idle, acknack, more, (double)grown / (peers * each));
    cw_close(&peer);
}

int main(int words, char **word) {
    if (words != 4)
        made(CW_BAD_PARAMETER);
    uint32_t number = (uint32_t)strtoul(word[3], NULL, 10);
    if (strcmp(word[1], "readers") == 0)
        of_readers(word[2], number);
    else if (strcmp(word[1], "writers") == 0)
        of_writers(word[2], number);
    else
        many((uint32_t)strtoul(word[2], NULL, 10), number);
    return 0;
}
