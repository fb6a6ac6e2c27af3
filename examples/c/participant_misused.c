/* What is misused of a participant is answered by a code, and changes nothing. */
#include "cinchwalnut.h"
#include <stdio.h>
#include <string.h>

static const cw_endpoint writer = {.topic_name = "Words", .type_name = "word", .kind = CW_WRITER, .carries = CW_KEYLESS};
static const cw_key_field fields[] = {{.place = 0, .size = 4}, {.place = 0, .size = 3}};
static cw_participant it = CW_PARTICIPANT_NONE;

static void say(const char *what, uint8_t code) { printf("%s: %u, %s\n", what, code, cw_code_name(code)); }

static cw_participant_settings usual(void) {
    cw_participant_settings made = {.prefix = {0, 0, 1}, .address = {127, 0, 0, 1}, .port = 7410};
    return made;
}

static void say_settings(const char *what, cw_participant_settings settings) {
    say(what, cw_participant_open(&it, &settings, NULL, 0, &writer, 1, NULL, 0));
}

static void say_end(const char *what, cw_endpoint end, size_t fields_len) {
    cw_participant_settings settings = usual();
    say(what, cw_participant_open(&it, &settings, NULL, 0, &end, 1, fields, fields_len));
}

static void say_settings_that_are_none(void) {
    cw_participant_settings settings = usual();
    settings.port = 0;
    say_settings("port 0", settings);
    settings = usual();
    settings.address[0] = 239;
    say_settings("the address of a group", settings);
    settings = usual();
    settings.lease = (uint64_t)1 << 63;
    say_settings("a lease of 2^31 seconds", settings);
    settings.lease = ((uint64_t)1 << 63) - 1;
    say_settings("a shorter one", settings);
}

static void say_ends_that_are_none(void) {
    static cw_endpoint many[17];
    cw_participant_settings settings = usual();
    cw_endpoint end = writer;
    end.kind = CW_PARTICIPANT;
    say_end("neither a writer nor a reader", end, 0);
    end = writer;
    end.carries = CW_PARAMETER_LIST;
    say_end("a writer of lists of parameters", end, 0);
    end.carries = CW_CDR;
    say_end("a type without its fields", end, 1);
    end.field_count = 2;
    say_end("one with a field that there isn't", end, 1);
    end.field_count = 1;
    say_end("one with a field beside another of three octets", end, 2);
    say_end("one with its field", end, 1);
    end = writer;
    end.max_value = 65001;
    say_end("values of 65,001 octets", end, 0);
    memset(end.topic_name, 'a', sizeof end.topic_name);
    end.max_value = 65000;
    say_end("a name of 256 octets", end, 0);
    for (size_t at = 0; at < 17; at++)
        many[at] = writer;
    say("17 writers", cw_participant_open(&it, &settings, NULL, 0, many, 17, NULL, 0));
    say("16 writers", cw_participant_open(&it, &settings, NULL, 0, many, 16, NULL, 0));
    say("endpoints at NULL", cw_participant_open(&it, &settings, NULL, 0, NULL, 1, NULL, 0));
}

int main(void) {
    const uint8_t key[16] = {0}, other[16] = {1}, value[1025] = {0}, here[4] = {127, 0, 0, 1};
    uint8_t buffer[8] = {0}, address[4] = {0}, guid[16] = {0};
    uint16_t port = 0;
    size_t needed = 0;
    cw_told told = {0};
    cw_sample_info info = {0};
    say("a tick at a participant that is not open", cw_participant_tick(&it, 1));
    say("a datagram of one that is not open", cw_participant_datagram(&it, 0, address, &port, buffer, 8, &needed));
    printf("one that is not open is behind: %u\n", cw_participant_is_behind(&it));
    say_settings_that_are_none();
    say_ends_that_are_none();
    say("after a refusal the one that was open stays", cw_participant_tick(&it, 1));
    say("an earlier moment", cw_participant_tick(&it, 0));
    say("a value of 1,025 octets", cw_participant_write(&it, 1, key, value, sizeof value));
    say("a value that is no payload", cw_participant_write(&it, 1, key, value, 3));
    say("a key of a type without one", cw_participant_write(&it, 1, other, value, 8));
    say("a dispose by it", cw_participant_dispose(&it, 1, other));
    say("a registration by it", cw_participant_register(&it, 1, other));
    say("a value of the type", cw_participant_write(&it, 1, key, value, 8));
    say("a writer that there isn't", cw_participant_write(&it, 17, key, value, 1));
    say("a reader that there isn't", cw_participant_take(&it, 1, -1, CW_ANY, CW_ANY, CW_ANY));
    say("a sample of an answer that has none", cw_participant_sample(&it, 0, &info, buffer, 8, &needed));
    say("a change of matches that there isn't", cw_participant_told(&it, 0, &told));
    say("a match that there isn't", cw_participant_matched(&it, CW_WRITER, 1, 0, guid));
    say("those of a writer that there isn't", cw_participant_matched(&it, CW_WRITER, 17, 0, guid));
    say("those of a participant", cw_participant_matched(&it, CW_PARTICIPANT, 1, 0, guid));
    say("octets that are no datagram", cw_participant_hear(&it, 2, here, value, sizeof value));
    say("NULL, and no octets", cw_participant_hear(&it, 2, here, NULL, 0));
    say("NULL, and some octets", cw_participant_hear(&it, 2, here, NULL, 1));
    say("a line that is no call", cw_participant_line(&it, (const uint8_t *)"tick 5", 6));
    say("a line that is one", cw_participant_line(&it, (const uint8_t *)"call matched w1", 15));
    say("a buffer that is too short", cw_participant_text(&it, buffer, 3, &needed));
    printf("it has to have %zu octets\n", needed);
    it.is_busy = 1; /* as if another thread were in a call */
    say("a tick while another call is under way", cw_participant_tick(&it, 3));
    cw_participant_close(&it); /* does nothing */
    it.is_busy = 0;
    say("a tick after it", cw_participant_tick(&it, 3));
    cw_participant_close(&it);
    cw_participant_close(&it);
    say("a tick once it is closed, twice", cw_participant_tick(&it, 4));
    return 0;
}
