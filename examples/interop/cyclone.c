/* For examples/interop/exchange: a participant of Cyclone DDS with a writer and a reader, each of a topic of its own.
 *
 * Its words are a domain, a type of Types.idl or Pose.idl, "reliable" or "default" for the policies of its reader, and a file
 * of lines "write KEY VALUE", "dispose KEY" and "unregister KEY". Once both are matched it makes these changes, and prints in
 * lines of the same form what it takes, each as it comes, until its standard input ends. A key is a number, 0 of a type
 * without one. A value is a word: of a datum its octets in hexadecimal digits, of a pose X,Y, else NUMBER,WORDS,VALUE,VALUE..
 *
 * For examples/interop/participant the file is "-": then the changes are lines of its standard input, made as they come, and
 * how many ends each of its own is matched with is printed, "matched writer N", and who does not fit, "misfit writer N POLICY". */
#include "Pose.h"
#include "Types.h"
#include "dds/dds.h"
#include "dds/version.h"
#include <stdio.h>
#include <stdlib.h>
#include <string.h>

#define LONGEST 65536
#define PAUSE DDS_MSECS(2) /* between two changes */
#define LONGEST_WAIT DDS_SECS(5) /* for what was not acknowledged yet */
#define LINGERING DDS_SECS(1) /* for what is on its way to a reader that acknowledges nothing */

typedef union sample {
    interop_Datum datum;
    interop_Text text;
    interop_Reading reading;
    robot_Pose pose;
} sample;

typedef struct type {
    const char *name;
    const dds_topic_descriptor_t *descriptor;
    void (*read)(sample *into, unsigned key, char *value);
    unsigned (*key)(const sample *taken);
    void (*print)(const sample *taken);
} type;

static const type *chosen;

static dds_entity_t made(dds_entity_t entity) {
    if (entity < 0) {
        fprintf(stderr, "cyclone: %s\n", dds_strretcode(-entity));
        exit(1);
    }
    return entity;
}

static uint32_t octets_of(const char *digits, uint8_t *octets) {
    uint32_t len = 0;
    for (unsigned octet; sscanf(digits + 2 * len, "%2x", &octet) == 1; len++)
        octets[len] = (uint8_t)octet;
    return len;
}

static void read_datum(sample *into, unsigned key, char *value) {
    static uint8_t octets[LONGEST];
    into->datum.id[15] = (uint8_t)key;
    into->datum.value._buffer = octets;
    into->datum.value._length = into->datum.value._maximum = octets_of(value, octets);
}

static unsigned key_of_datum(const sample *taken) {
    return taken->datum.id[15];
}

static void print_datum(const sample *taken) {
    for (uint32_t at = 0; at < taken->datum.value._length; at++)
        printf("%02x", taken->datum.value._buffer[at]);
}

static void read_words(interop_Text *into, char *value) {
    static double values[LONGEST];
    into->number = (int32_t)strtol(value, &value, 10);
    into->words = *value ? ++value : value;
    into->values._buffer = values;
    while ((value = strchr(value, ','))) {
        *value++ = 0;
        values[into->values._length++] = strtod(value, NULL);
    }
    into->values._maximum = into->values._length;
}

static void print_words(const interop_Text *taken) {
    printf("%d,%s", taken->number, taken->words);
    for (uint32_t at = 0; at < taken->values._length; at++)
        printf(",%.17g", taken->values._buffer[at]);
}

static void read_text(sample *into, unsigned key, char *value) {
    (void)key;
    read_words(&into->text, value);
}

static unsigned no_key(const sample *taken) {
    (void)taken;
    return 0;
}

static void print_text(const sample *taken) {
    print_words(&taken->text);
}

static void read_reading(sample *into, unsigned key, char *value) {
    into->reading.sensor = (int32_t)key;
    read_words(&into->reading.said, value);
}

static unsigned key_of_reading(const sample *taken) {
    return (unsigned)taken->reading.sensor;
}

static void print_reading(const sample *taken) {
    print_words(&taken->reading.said);
}

static void read_pose(sample *into, unsigned key, char *value) {
    into->pose.robot = (int32_t)key;
    into->pose.x = strtod(value, &value);
    into->pose.y = *value ? strtod(value + 1, NULL) : 0;
}

static unsigned key_of_pose(const sample *taken) {
    return (unsigned)taken->pose.robot;
}

static void print_pose(const sample *taken) {
    printf("%.17g,%.17g", taken->pose.x, taken->pose.y);
}

static const type types[] = {
    {"datum", &interop_Datum_desc, read_datum, key_of_datum, print_datum},
    {"text", &interop_Text_desc, read_text, no_key, print_text},
    {"reading", &interop_Reading_desc, read_reading, key_of_reading, print_reading},
    {"pose", &robot_Pose_desc, read_pose, key_of_pose, print_pose},
};

static void print_taken(const sample *taken, const dds_sample_info_t *info) {
    const char *gone = info->instance_state == DDS_NOT_ALIVE_DISPOSED_INSTANCE_STATE ? "dispose" : "unregister";
    printf("%s %u", info->valid_data ? "write" : gone, chosen->key(taken));
    if (info->valid_data) {
        printf(" ");
        chosen->print(taken);
    }
    printf("\n");
    fflush(stdout);
}

/* A sample without a value is replaced by the next one of its instance: so each is taken in the call that tells of it. */
static void take_all(dds_entity_t reader, void *context) {
    (void)context;
    void *taken[1] = {NULL};
    dds_sample_info_t info[1];
    while (made(dds_take(reader, taken, info, 1, 1)) == 1) {
        print_taken(taken[0], info);
        made(dds_return_loan(reader, taken, 1));
        taken[0] = NULL;
    }
}

static void print_matched(const char *end, uint32_t count) {
    printf("matched %s %u\n", end, count);
    fflush(stdout);
}

static void reader_matched(dds_entity_t reader, const dds_subscription_matched_status_t status, void *context) {
    (void)reader;
    (void)context;
    print_matched("reader", status.current_count);
}

static void writer_matched(dds_entity_t writer, const dds_publication_matched_status_t status, void *context) {
    (void)writer;
    (void)context;
    print_matched("writer", status.current_count);
}

static void writer_misfits(dds_entity_t writer, const dds_offered_incompatible_qos_status_t status, void *context) {
    (void)writer;
    (void)context;
    printf("misfit writer %u %u\n", status.total_count, status.last_policy_id);
    fflush(stdout);
}

static dds_listener_t *made_listener(bool tells_matches) {
    dds_listener_t *listener = dds_create_listener(NULL);
    dds_lset_data_available(listener, take_all);
    if (tells_matches) {
        dds_lset_subscription_matched(listener, reader_matched);
        dds_lset_publication_matched(listener, writer_matched);
        dds_lset_offered_incompatible_qos(listener, writer_misfits);
    }
    return listener;
}

static void make_change(dds_entity_t writer, const char *kind, const sample *of) {
    if (strcmp(kind, "write") == 0)
        made(dds_write(writer, of));
    else if (strcmp(kind, "dispose") == 0)
        made(dds_dispose(writer, of));
    else
        made(dds_unregister_instance(writer, of));
}

static FILE *opened(const char *path) {
    FILE *file = fopen(path, "r");
    if (!file)
        made(DDS_RETCODE_BAD_PARAMETER);
    return file;
}

static void make_changes(dds_entity_t writer, FILE *changes) {
    static char line[2 * LONGEST + 64], kind[16], value[2 * LONGEST + 1];
    while (fgets(line, sizeof line, changes)) {
        sample of;
        unsigned key = 0;
        value[0] = 0;
        if (sscanf(line, "%15s %u %131072s", kind, &key, value) < 2)
            made(DDS_RETCODE_BAD_PARAMETER);
        memset(&of, 0, sizeof of);
        chosen->read(&of, key, value);
        make_change(writer, kind, &of);
        dds_sleepfor(PAUSE);
    }
}

static dds_entity_t made_topic(dds_entity_t peer, const char *name) {
    return made(dds_create_topic(peer, chosen->descriptor, name, NULL, NULL));
}

static void wait_for_matches(dds_entity_t writer, dds_entity_t reader) {
    dds_publication_matched_status_t of_writer = {0};
    dds_subscription_matched_status_t of_reader = {0};
    while (of_writer.current_count == 0 || of_reader.current_count == 0) {
        dds_sleepfor(DDS_MSECS(10));
        made(dds_get_publication_matched_status(writer, &of_writer));
        made(dds_get_subscription_matched_status(reader, &of_reader));
    }
}

static void make_all_changes(dds_entity_t writer, dds_entity_t reader, const char *path) {
    wait_for_matches(writer, reader);
    FILE *changes = opened(path);
    make_changes(writer, changes);
    fclose(changes);
    while (getchar() != EOF) {
    }
}

static void make_those_asked(dds_entity_t writer) {
    make_changes(writer, stdin);
    dds_wait_for_acks(writer, LONGEST_WAIT);
}

static void exchange(const char *domain, bool is_reliable, const char *changes) {
    const bool is_asked = strcmp(changes, "-") == 0;
    const dds_data_representation_id_t representation = DDS_DATA_REPRESENTATION_XCDR1;
    dds_entity_t peer = made(dds_create_participant((dds_domainid_t)strtoul(domain, NULL, 10), NULL, NULL));
    dds_qos_t *qos = dds_create_qos();
    dds_qset_reliability(qos, DDS_RELIABILITY_RELIABLE, DDS_INFINITY);
    dds_qset_history(qos, DDS_HISTORY_KEEP_ALL, 1);
    dds_qset_writer_data_lifecycle(qos, false);
    dds_qset_data_representation(qos, 1, &representation);
    dds_listener_t *listener = made_listener(is_asked);
    const bool is_turned = getenv("TURNED_TOPICS") != NULL;
    const char *from = is_turned ? "to_product" : "from_product", *to = is_turned ? "from_product" : "to_product";
    dds_entity_t writer = made(dds_create_writer(peer, made_topic(peer, from), qos, is_asked ? listener : NULL));
    dds_qos_t *of_reader = is_reliable ? qos : NULL;
    dds_entity_t reader = made(dds_create_reader(peer, made_topic(peer, to), of_reader, listener));
    if (is_asked)
        make_those_asked(writer);
    else
        make_all_changes(writer, reader, changes);
    if (!is_reliable)
        dds_sleepfor(LINGERING);
    made(dds_set_listener(reader, NULL)); /* which could else take from a reader that is gone */
    made(dds_delete(peer));
    dds_delete_listener(listener);
    dds_delete_qos(qos);
}

int main(int count, char **words) {
    for (size_t at = 0; count == 5 && at < sizeof types / sizeof *types; at++)
        if (strcmp(types[at].name, words[2]) == 0)
            chosen = &types[at];
    if (!chosen) {
        fprintf(stderr, "usage: cyclone DOMAIN datum|text|reading|pose reliable|default CHANGES\n");
        return 2;
    }
    printf("version %s\n", DDS_VERSION);
    fflush(stdout);
    exchange(words[1], strcmp(words[3], "default") != 0, words[4]);
    return 0;
}
