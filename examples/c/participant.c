/* Two participants in one process, which find each other: what one sends is handed to the other in memory, and the moments
 * are made up. Their writers and readers are matched by topic and type; the first writes readings of sensors and words, the
 * second takes them, and the first leaves. */
#include "cinchwalnut.h"
#include <stdio.h>
#include <stdlib.h>
#include <string.h>

#define CHECK(c) do { if (!(c)) { printf("line %d: not %s\n", __LINE__, #c); exit(1); } } while (0)

struct side {
    cw_participant it;
    const char *name;
    uint16_t port;
};

/* struct reading { long sensor; long value; } with the key sensor, in CDR; and a string. */
static const cw_key_field fields[] = {{.place = 0, .size = 4}};
static const cw_endpoint writers[] = {
    {.topic_name = "Readings", .type_name = "reading", .kind = CW_WRITER, .carries = CW_CDR, .field_count = 1},
    {.topic_name = "Words", .type_name = "word", .kind = CW_WRITER, .carries = CW_KEYLESS}};
static const cw_endpoint readers[] = {
    {.topic_name = "Words", .type_name = "word", .kind = CW_READER, .carries = CW_KEYLESS},
    {.topic_name = "Readings", .type_name = "reading", .kind = CW_READER, .carries = CW_CDR, .field_count = 1}};
static struct side first = {CW_PARTICIPANT_NONE, "first", 7410}, second = {CW_PARTICIPANT_NONE, "second", 7412};
static uint8_t here[4] = {127, 0, 0, 1};
static uint64_t now;

static void open_side(struct side *side, uint8_t number, const cw_endpoint *ends, uint16_t other) {
    cw_participant_settings settings = {.prefix = {0, 0, number}, .address = {127, 0, 0, 1}, .port = side->port};
    const cw_locator told = {{127, 0, 0, 1}, other};
    CHECK(cw_participant_open(&side->it, &settings, &told, 1, ends, 2, fields, 1) == CW_OK);
}

static void print_octets(const char *what, const uint8_t *octets, size_t len, const char *end) {
    printf("%s", what);
    for (size_t at = 0; at < len; at++)
        printf("%02x", octets[at]);
    printf("%s", end);
}

/* What changed: who is there, and which writers and readers are matched. */
static void print_changes(struct side *side) {
    static const char *const changes[] = {"", " is matched with", " is no longer matched with", " knows anew"};
    cw_presence presence = {0};
    cw_told told = {0};
    for (size_t at = 0; cw_participant_presence(&side->it, at, &presence) == CW_OK; at++)
        printf("%s: participant %d %s\n", side->name, presence.prefix[2], presence.is_there ? "appeared" : "is gone");
    for (size_t at = 0; cw_participant_told(&side->it, at, &told) == CW_OK; at++) {
        printf("%s: ", side->name);
        print_octets("", told.own + 12, 4, changes[told.change]);
        print_octets(" ", told.other + 12, 4, "\n");
    }
}

/* What is on its way, the oldest first. */
static struct {
    struct side *to;
    size_t len;
    uint8_t octets[1500];
} under_way[64];
static size_t begin, end;

/* What came of the last event of a side: what changed, and what it sends. */
static void send_all(struct side *from) {
    uint8_t address[4] = {0};
    uint16_t port = 0;
    size_t len = 0;
    print_changes(from);
    for (size_t at = 0; end < 64; at++, end++) {
        if (cw_participant_datagram(&from->it, at, address, &port, under_way[end].octets, 1500, &len) != CW_OK)
            return;
        under_way[end].to = port == first.port ? &first : &second;
        under_way[end].len = len;
    }
}

/* All that is on its way comes, and so does what is answered. */
static void arrive(void) {
    for (; begin < end; begin++) {
        struct side *to = under_way[begin].to;
        CHECK(cw_participant_hear(&to->it, now, here, under_way[begin].octets, under_way[begin].len) == CW_OK);
        send_all(to);
    }
    begin = end = 0;
}

static void tick(void) {
    now += CW_SECOND / 2;
    CHECK(cw_participant_tick(&first.it, now) == CW_OK);
    send_all(&first);
    CHECK(cw_participant_tick(&second.it, now) == CW_OK);
    send_all(&second);
    arrive();
}

/* With whom the writer of a number is matched now. */
static void print_matched(uint8_t writer) {
    uint8_t guid[16] = {0};
    printf("writer %d is matched with:", writer);
    for (size_t at = 0; cw_participant_matched(&first.it, CW_WRITER, writer, at, guid) == CW_OK; at++)
        print_octets(" ", guid + 12, 4, "");
    printf("\n");
}

static void write_one(uint8_t writer, const uint8_t key[16], const uint8_t *value, size_t len) {
    CHECK(cw_participant_write(&first.it, writer, key, value, len) == CW_OK);
    send_all(&first);
    arrive();
}

static void take_all(uint8_t reader) {
    cw_sample_info info = {0};
    uint8_t value[64] = {0};
    size_t len = 0;
    printf("reader %d: %s\n", reader, cw_code_name(cw_participant_take(&second.it, reader, -1, CW_ANY, CW_ANY, CW_ANY)));
    for (size_t at = 0; cw_participant_sample(&second.it, at, &info, value, sizeof value, &len) == CW_OK; at++) {
        print_octets("  key ", info.key, 4, info.valid_data ? ", value " : ", no value");
        print_octets("", value, len, info.instance_state == CW_ALIVE ? ", alive\n" : ", not alive\n");
    }
}

int main(void) {
    const uint8_t key[16] = {0, 0, 0, 7}, none[16] = {0};
    const uint8_t reading[] = {0, 1, 0, 0, 7, 0, 0, 0, 21, 0, 0, 0};          /* CDR_LE: sensor 7, value 21 */
    const uint8_t word[] = {0, 1, 0, 0, 6, 0, 0, 0, 'h', 'e', 'l', 'l', 'o', 0}; /* CDR_LE: "hello" */
    open_side(&first, 1, writers, second.port);
    open_side(&second, 2, readers, first.port);
    for (int turn = 0; turn < 4; turn++)
        tick();
    print_matched(1);
    write_one(1, key, reading, sizeof reading);
    write_one(2, none, word, sizeof word);
    CHECK(cw_participant_dispose(&first.it, 1, key) == CW_OK);
    send_all(&first);
    arrive();
    printf("behind: %d\n", cw_participant_is_behind(&first.it));
    tick();
    printf("behind: %d\n", cw_participant_is_behind(&first.it));
    take_all(1);
    take_all(2);
    CHECK(cw_participant_leave(&first.it) == CW_OK);
    send_all(&first);
    arrive();
    cw_participant_close(&first.it);
    cw_participant_close(&second.it);
    return 0;
}
