/* Two peers that are recorded: of three changes the second is lost on its way, and repaired; the third finds room once these
 * are taken, and the value of a fourth is longer than 1,024 octets. Then both ends part, and are matched again. What is
 * printed are the recordings of both, one after the other: dds_pipe answers each the same, and tools/draw draws both as one
 * run. */
#include "cinchwalnut_record.h"
#include <string.h>

#define CHECK(c) do { if (!(c)) { printf("line %d: not %s\n", __LINE__, #c); exit(1); } } while (0)

static const cw_peer_config peers[] = {{{1, 1, 1, 1, 1, 1, 1, 1, 1, 1, 1, 1}}, {{2, 2, 2, 2, 2, 2, 2, 2, 2, 2, 2, 2}}};
static const cw_writer_config writers[] = {
    {.peer = 1, .entity = {0, 0, 1, 2}, .autodispose = true, .max_samples = -1, .max_value = 1100}};
static const cw_reader_config readers[] = {
    {.peer = 2, .entity = {0, 0, 1, 7}, .max_samples = 2, .max_instances = -1, .max_value = 1100}};
static cw_recording writer = CW_RECORDING_NONE, reader = CW_RECORDING_NONE;

static void open_recorded(cw_recording *run, uint8_t number) {
    FILE *to = tmpfile();
    CHECK(to != NULL);
    CHECK(cw_recorded_open(run, to, peers, 2, writers, 1, readers, 1, number) == CW_OK);
}

/* Carries the packets of the last answer of one peer to the other. */
static void carry(cw_recording *from, cw_recording *to) {
    static uint8_t packet[65536];
    uint32_t whom = 0;
    size_t len = 0;
    for (size_t at = 0; cw_packet(&from->peer, at, &whom, packet, sizeof packet, &len) == CW_OK; at++)
        CHECK(cw_recorded_deliver(to, packet, len) == CW_OK);
}

static void print_recorded(cw_recording *run) {
    FILE *from = run->to;
    CHECK(cw_recorded_is_whole(run));
    cw_recorded_close(run);
    rewind(from);
    for (int it = fgetc(from); it != EOF; it = fgetc(from))
        putchar(it);
    fclose(from);
}

int main(void) {
    const uint8_t key[16] = {7}, longest[1100] = {1};
    const char *values[] = {"one", "two", "three"};
    const char *line = "call take r2";
    open_recorded(&writer, 1);
    open_recorded(&reader, 2);
    CHECK(cw_recorded_set_recorder(&writer, CW_WRITER, 1, CW_PUBLICATION_MATCHED, 4) == CW_OK);
    CHECK(cw_recorded_set_recorder(&reader, CW_READER, 1, CW_LIVELINESS_CHANGED | CW_SUBSCRIPTION_MATCHED, 4) == CW_OK);
    for (int i = 0; i < 3; i++) {
        CHECK(cw_recorded_write(&writer, 1, key, (const uint8_t *)values[i], strlen(values[i])) == CW_OK);
        if (i != 1)
            carry(&writer, &reader);
    }
    CHECK(cw_recorded_tick(&writer, CW_SECOND) == CW_OK);
    carry(&writer, &reader); /* a HEARTBEAT */
    carry(&reader, &writer); /* an ACKNACK */
    carry(&writer, &reader); /* the repair */
    CHECK(cw_recorded_take(&reader, 1, -1, CW_ANY, CW_ANY, CW_ANY) == CW_OK);
    CHECK(cw_recorded_resume(&reader, 1) == CW_OK);
    CHECK(cw_recorded_take(&reader, 1, -1, CW_ANY, CW_ANY, CW_ANY) == CW_OK);
    CHECK(cw_recorded_get_sample_lost_status(&reader, 1) == CW_OK);
    CHECK(cw_recorded_write(&writer, 1, key, longest, sizeof longest) == CW_OK);
    carry(&writer, &reader);
    CHECK(cw_recorded_take(&reader, 1, -1, CW_ANY, CW_ANY, CW_ANY) == CW_OK);
    CHECK(cw_recorded_unmatch_reader(&writer, 1, 2, 1) == CW_OK && cw_recorded_unmatch_writer(&reader, 1, 1, 1) == CW_OK);
    CHECK(cw_recorded_match_reader(&writer, 1, 2, 1) == CW_OK && cw_recorded_match_writer(&reader, 1, 1, 1) == CW_OK);
    CHECK(cw_recorded_match_writer(&reader, 1, 1, 1) == CW_PRECONDITION_NOT_MET);
    CHECK(cw_recorded_greet_reader(&writer, 1, 2, 1) == CW_PRECONDITION_NOT_MET);
    CHECK(cw_recorded_get_publication_matched_status(&writer, 1) == CW_OK);
    CHECK(cw_recorded_get_subscription_matched_status(&reader, 1) == CW_OK);
    CHECK(cw_recorded_clear_recorder(&writer, CW_WRITER, 1) == CW_OK);
    CHECK(cw_recorded_clear_recorder(&reader, CW_READER, 1) == CW_OK);
    CHECK(cw_recorded_dispose(&writer, 2, key) == CW_BAD_PARAMETER);
    CHECK(cw_recorded_line(&reader, (const uint8_t *)line, strlen(line)) == CW_BAD_PARAMETER); /* not recorded */
    print_recorded(&writer);
    print_recorded(&reader);
    return 0;
}
