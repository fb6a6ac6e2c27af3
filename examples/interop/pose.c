/* For examples/interop/pose: a program of Cyclone DDS with a type of its own. Once it is matched it writes five poses of robot 1,
 * and for two seconds it prints what it takes. Its word is a domain. */
#include "Pose.h"
#include "dds/dds.h"
#include <stdio.h>
#include <stdlib.h>

static dds_entity_t made(dds_entity_t entity) {
    if (entity < 0) {
        fprintf(stderr, "pose: %s\n", dds_strretcode(-entity));
        exit(1);
    }
    return entity;
}

static dds_entity_t topic(dds_entity_t peer, const char *name) {
    return made(dds_create_topic(peer, &robot_Pose_desc, name, NULL, NULL));
}

static void wait_for_match(dds_entity_t writer) {
    dds_publication_matched_status_t status = {0};
    for (; status.current_count == 0; dds_sleepfor(DDS_MSECS(20)))
        made(dds_get_publication_matched_status(writer, &status));
}

static void take_all(dds_entity_t reader) {
    void *taken[1] = {NULL};
    dds_sample_info_t info[1];
    while (made(dds_take(reader, taken, info, 1, 1)) == 1) {
        const robot_Pose *pose = taken[0];
        if (info[0].valid_data)
            printf("Cyclone DDS took robot %d at %g, %g\n", pose->robot, pose->x, pose->y);
        made(dds_return_loan(reader, taken, 1));
        taken[0] = NULL;
    }
}

int main(int count, char **words) {
    dds_entity_t peer = made(dds_create_participant(count > 1 ? (dds_domainid_t)strtoul(words[1], NULL, 10) : 0, NULL, NULL));
    dds_qos_t *qos = dds_create_qos();
    dds_qset_reliability(qos, DDS_RELIABILITY_RELIABLE, DDS_SECS(1)); /* a writer has this by default, a reader has not */
    dds_qset_history(qos, DDS_HISTORY_KEEP_ALL, 1);
    dds_entity_t writer = made(dds_create_writer(peer, topic(peer, "from_product"), qos, NULL));
    dds_entity_t reader = made(dds_create_reader(peer, topic(peer, "to_product"), qos, NULL));
    wait_for_match(writer);
    for (int at = 0; at < 5; at++) {
        robot_Pose pose = {.robot = 1, .x = at, .y = 2 * at};
        made(dds_write(writer, &pose));
    }
    for (int turn = 0; turn < 100; turn++, dds_sleepfor(DDS_MSECS(20)))
        take_all(reader);
    dds_delete_qos(qos);
    made(dds_delete(peer));
    return 0;
}
