/* A plain reader of the messages that rtps_wire reads, for bench/wire/run. It takes the same input, reads it in the same
   loop, and prints the same line with the same sum, which src/sum.rt.txt describes. Each field is bounds checked, and what
   is not valid is passed over as an other submessage. A value is lent by the datagram. The submessages of a message stand in
   one array, which has room for the longest message, so reading asks for no memory. */
#include <stdint.h>
#include <stdio.h>
#include <stdlib.h>
#include <string.h>
#include <time.h>

enum { PAD = 0x01, ACKNACK = 0x06, HEARTBEAT = 0x07, GAP = 0x08, INFO_TS = 0x09, INFO_DST = 0x0e, DATA = 0x15 };
enum { LITTLE = 1, INVALIDATE = 2, FINAL = 2, LIVELINESS = 4, HAS_PARAMETERS = 2, HAS_DATUM = 4, HAS_KEY = 8, NON_STANDARD = 16 };
enum { SENTINEL = 0x01, STRENGTH = 0x06, KEY_HASH = 0x70, STATUS_INFO = 0x71, DISPOSED = 1, UNREGISTERED = 2 };
enum { LONGEST = 65507, LONGEST_VALUE = 65000, MOST_BITS = 256, MOST = (LONGEST - 20) / 4 };
static const uint64_t GREATEST = (uint64_t)1 << 62;

/* What is not read yet, and in which order of bytes. */
struct cursor {
    const uint8_t *at, *end;
    int little;
};

struct ids {
    uint8_t reader[4], writer[4];
};

struct number_set {
    uint64_t base;
    uint32_t words[MOST_BITS / 32]; /* as in the message: the highest bit comes first */
};

enum change { WRITE, DISPOSE, UNREGISTER, DISPOSE_UNREGISTER };

struct data {
    struct ids ids;
    uint64_t number;
    enum change change;
    uint8_t key[16];
    const uint8_t *value;
    uint32_t value_len;
    int has_strength;
    int32_t strength;
};

struct heartbeat {
    struct ids ids;
    uint64_t first, last;
    int32_t count;
    int final, liveliness;
};

struct acknack {
    struct ids ids;
    struct number_set missing;
    int32_t count;
    int final;
};

struct gap {
    struct ids ids;
    uint64_t start;
    struct number_set list;
};

struct info_ts {
    int has_moment;
    uint64_t moment;
};

enum kind { IS_OTHER, IS_PAD, IS_INFO_DST, IS_INFO_TS, IS_DATA, IS_HEARTBEAT, IS_ACKNACK, IS_GAP };

struct submessage {
    enum kind kind;
    union {
        uint8_t other;
        uint8_t info_dst[12];
        struct info_ts info_ts;
        struct data data;
        struct heartbeat heartbeat;
        struct acknack acknack;
        struct gap gap;
    } of;
};

struct message {
    uint8_t prefix[12];
    size_t stop, count;
    struct submessage submessages[MOST];
};

struct parameters {
    int has_key, has_status, has_strength;
    uint8_t key[16], status;
    int32_t strength;
};

static size_t left(const struct cursor *from) { return (size_t)(from->end - from->at); }

static int take_octets(struct cursor *from, void *to, size_t count) {
    if (left(from) < count)
        return 0;
    memcpy(to, from->at, count);
    from->at += count;
    return 1;
}

static int take_u16(struct cursor *from, uint16_t *number) {
    if (left(from) < 2)
        return 0;
    const uint8_t *o = from->at;
    *number = from->little ? (uint16_t)(o[0] | o[1] << 8) : (uint16_t)(o[1] | o[0] << 8);
    from->at += 2;
    return 1;
}

static int take_u32(struct cursor *from, uint32_t *number) {
    if (left(from) < 4)
        return 0;
    const uint8_t *o = from->at;
    *number = from->little ? o[0] | (uint32_t)o[1] << 8 | (uint32_t)o[2] << 16 | (uint32_t)o[3] << 24
                           : o[3] | (uint32_t)o[2] << 8 | (uint32_t)o[1] << 16 | (uint32_t)o[0] << 24;
    from->at += 4;
    return 1;
}

static int take_count(struct cursor *from, int32_t *count) {
    uint32_t number;
    if (!take_u32(from, &number))
        return 0;
    *count = (int32_t)number;
    return 1;
}

/* A sequence number of at most 2^62: the high half first. */
static int take_number(struct cursor *from, uint64_t *number) {
    uint32_t high, low;
    if (!take_u32(from, &high) || !take_u32(from, &low))
        return 0;
    *number = (uint64_t)high << 32 | low;
    return *number <= GREATEST;
}

static int take_ids(struct cursor *from, struct ids *ids) {
    return take_octets(from, ids->reader, 4) && take_octets(from, ids->writer, 4);
}

/* An empty set of base 0 is one of base 1 where it is an ACKNACK's. */
static int take_set(struct cursor *from, int is_acknack, struct number_set *set) {
    uint32_t bits;
    if (!take_number(from, &set->base) || !take_u32(from, &bits) || bits > MOST_BITS)
        return 0;
    if (is_acknack && set->base == 0 && bits == 0)
        set->base = 1;
    if (set->base < 1)
        return 0;
    memset(set->words, 0, sizeof set->words);
    for (uint32_t at = 0; at < (bits + 31) / 32; at++)
        if (!take_u32(from, &set->words[at]))
            return 0;
    if (bits % 32)
        set->words[bits / 32] &= ~(UINT32_MAX >> bits % 32);
    return 1;
}

static int note(struct parameters *found, uint16_t id, struct cursor value) {
    if (left(&value) % 4)
        return 0;
    if (id == KEY_HASH) {
        if (left(&value) != 16)
            return 0;
        if (!found->has_key)
            memcpy(found->key, value.at, 16);
        found->has_key = 1;
    } else if (id == STATUS_INFO) {
        if (left(&value) != 4)
            return 0;
        if (!found->has_status)
            found->status = value.at[3];
        found->has_status = 1;
    } else if (id == STRENGTH) {
        int32_t strength;
        if (left(&value) != 4 || !take_count(&value, &strength))
            return 0;
        if (!found->has_strength)
            found->strength = strength;
        found->has_strength = 1;
    }
    return 1;
}

/* Up to the sentinel. */
static int take_parameters(struct cursor *from, struct parameters *found) {
    uint16_t id, len;
    while (take_u16(from, &id) && take_u16(from, &len)) {
        if (id == SENTINEL)
            return 1;
        if (left(from) < len || !note(found, id, (struct cursor){from->at, from->at + len, from->little}))
            return 0;
        from->at += len;
    }
    return 0;
}

/* The key of a key form, and the order of bytes of what follows. */
static int take_key(struct cursor *from, uint8_t key[16]) {
    if (left(from) < 4 || from->at[0] != 0 || from->at[1] > 1)
        return 0;
    from->little = from->at[1];
    from->at += 4;
    return take_octets(from, key, 16);
}

static int take_datum(struct cursor *from, struct data *data) {
    if (!take_key(from, data->key) || !take_u32(from, &data->value_len))
        return 0;
    if (data->value_len > LONGEST_VALUE || left(from) < data->value_len)
        return 0;
    data->value = from->at;
    return 1;
}

/* The key of a change that is no write. */
static int take_shown_key(uint8_t flags, const struct parameters *found, struct cursor *from, struct data *data) {
    switch (flags & (HAS_DATUM | HAS_KEY)) {
    case HAS_DATUM:
        return take_datum(from, data);
    case HAS_KEY:
        return take_key(from, data->key);
    case 0:
        memcpy(data->key, found->key, 16);
        return found->has_key;
    default:
        return 0;
    }
}

static int read_data(uint8_t flags, struct cursor from, struct data *data) {
    uint16_t extra, skip;
    struct parameters found = {0};
    if (flags & NON_STANDARD || !take_u16(&from, &extra) || !take_u16(&from, &skip))
        return 0;
    if (!take_ids(&from, &data->ids) || !take_number(&from, &data->number) || data->number < 1)
        return 0;
    if (skip < 16 || left(&from) < (size_t)skip - 16)
        return 0;
    from.at += skip - 16;
    if (flags & HAS_PARAMETERS && !take_parameters(&from, &found))
        return 0;
    data->has_strength = found.has_strength;
    data->strength = found.strength;
    uint8_t status = found.status & (DISPOSED | UNREGISTERED);
    if (!status) {
        data->change = WRITE;
        return (flags & (HAS_DATUM | HAS_KEY)) == HAS_DATUM && take_datum(&from, data);
    }
    if (!take_shown_key(flags, &found, &from, data))
        return 0;
    data->change = status == DISPOSED ? DISPOSE : status == UNREGISTERED ? UNREGISTER : DISPOSE_UNREGISTER;
    data->value = NULL;
    data->value_len = 0;
    return 1;
}

static int read_heartbeat(uint8_t flags, struct cursor from, struct heartbeat *heartbeat) {
    if (!take_ids(&from, &heartbeat->ids) || !take_number(&from, &heartbeat->first))
        return 0;
    if (!take_number(&from, &heartbeat->last) || !take_count(&from, &heartbeat->count))
        return 0;
    heartbeat->final = (flags & FINAL) != 0;
    heartbeat->liveliness = (flags & LIVELINESS) != 0;
    return heartbeat->first >= 1 && heartbeat->last + 1 >= heartbeat->first;
}

static int read_acknack(uint8_t flags, struct cursor from, struct acknack *acknack) {
    acknack->final = (flags & FINAL) != 0;
    return take_ids(&from, &acknack->ids) && take_set(&from, 1, &acknack->missing) && take_count(&from, &acknack->count);
}

static int read_gap(struct cursor from, struct gap *gap) {
    return take_ids(&from, &gap->ids) && take_number(&from, &gap->start) && gap->start >= 1 && take_set(&from, 0, &gap->list);
}

static int read_info_ts(uint8_t flags, struct cursor from, struct info_ts *info) {
    uint32_t seconds, fraction;
    info->has_moment = !(flags & INVALIDATE);
    if (!info->has_moment)
        return 1;
    if (!take_u32(&from, &seconds) || !take_u32(&from, &fraction))
        return 0;
    info->moment = (uint64_t)seconds << 32 | fraction;
    return 1;
}

static enum kind read_known(uint8_t id, uint8_t flags, struct cursor body, struct submessage *to) {
    switch (id) {
    case PAD:
        return IS_PAD;
    case INFO_DST:
        return take_octets(&body, to->of.info_dst, 12) ? IS_INFO_DST : IS_OTHER;
    case INFO_TS:
        return read_info_ts(flags, body, &to->of.info_ts) ? IS_INFO_TS : IS_OTHER;
    case DATA:
        return read_data(flags, body, &to->of.data) ? IS_DATA : IS_OTHER;
    case HEARTBEAT:
        return read_heartbeat(flags, body, &to->of.heartbeat) ? IS_HEARTBEAT : IS_OTHER;
    case ACKNACK:
        return read_acknack(flags, body, &to->of.acknack) ? IS_ACKNACK : IS_OTHER;
    case GAP:
        return read_gap(body, &to->of.gap) ? IS_GAP : IS_OTHER;
    default:
        return IS_OTHER;
    }
}

/* The body of the submessage at the front: 0 where reading ends. */
static int take_frame(struct cursor *from, uint8_t *id, uint8_t *flags, struct cursor *body) {
    if (left(from) < 4)
        return 0;
    uint16_t said = 0;
    struct cursor rest = {from->at + 2, from->end, from->at[1] & LITTLE};
    *id = from->at[0];
    *flags = from->at[1];
    if (!take_u16(&rest, &said))
        return 0;
    size_t len = said || *id == PAD || *id == INFO_TS ? said : left(&rest);
    if (left(&rest) < len)
        return 0;
    *body = (struct cursor){rest.at, rest.at + len, rest.little};
    from->at = rest.at + len;
    return 1;
}

/* Whether the octets are a message. */
__attribute__((noinline, noclone)) static int read_message(const uint8_t *octets, size_t len, struct message *message) {
    if (len > LONGEST || len < 20 || memcmp(octets, "RTPS\2", 5) != 0)
        return 0;
    struct cursor from = {octets + 20, octets + len, 0}, body;
    uint8_t id, flags;
    memcpy(message->prefix, octets + 8, 12);
    message->count = 0;
    while (message->count < MOST && take_frame(&from, &id, &flags, &body)) {
        struct submessage *to = &message->submessages[message->count++];
        to->kind = read_known(id, flags, body, to);
        if (to->kind == IS_OTHER)
            to->of.other = id;
    }
    message->stop = (size_t)(from.at - octets);
    return 1;
}

static uint64_t of_ids(const struct ids *ids) { return (uint64_t)ids->reader[3] + ids->writer[3]; }

/* The base, and one more than the place of the last member. */
static uint64_t of_set(const struct number_set *set) {
    for (int at = MOST_BITS / 32 - 1; at >= 0; at--)
        if (set->words[at])
            return set->base + 32 * (uint64_t)at + 32 - (uint64_t)__builtin_ctz(set->words[at]);
    return set->base;
}

static uint64_t of_data(const struct data *data) {
    uint64_t strength = data->has_strength ? (uint32_t)data->strength : 0;
    return of_ids(&data->ids) + data->number + data->key[15] + data->change + data->value_len + strength;
}

static uint64_t of_submessage(const struct submessage *it) {
    const struct heartbeat *heartbeat = &it->of.heartbeat;
    const struct acknack *acknack = &it->of.acknack;
    const struct gap *gap = &it->of.gap;
    switch (it->kind) {
    case IS_PAD:
        return 1;
    case IS_INFO_DST:
        return it->of.info_dst[11];
    case IS_INFO_TS:
        return it->of.info_ts.has_moment ? it->of.info_ts.moment : 2;
    case IS_DATA:
        return of_data(&it->of.data);
    case IS_HEARTBEAT:
        return of_ids(&heartbeat->ids) + heartbeat->first + heartbeat->last + (uint32_t)heartbeat->count +
               (uint64_t)heartbeat->final + (uint64_t)heartbeat->liveliness;
    case IS_ACKNACK:
        return of_ids(&acknack->ids) + of_set(&acknack->missing) + (uint32_t)acknack->count + (uint64_t)acknack->final;
    case IS_GAP:
        return of_ids(&gap->ids) + gap->start + of_set(&gap->list);
    default:
        return it->of.other;
    }
}

static uint64_t of_message(const struct message *message) {
    uint64_t sum = message->prefix[11] + (uint64_t)message->stop;
    for (size_t at = 0; at < message->count; at++)
        sum += of_submessage(&message->submessages[at]);
    return sum;
}

struct datagram {
    uint8_t *octets;
    size_t len;
};

/* The datagrams of the input, which has one on a line, in hexadecimal digits; how many. */
static size_t read_input(struct datagram **datagrams) {
    static char line[4 * LONGEST];
    size_t count = 0, room = 0;
    while (fgets(line, sizeof line, stdin)) {
        size_t len = strcspn(line, "\r\n") / 2;
        if (count == room)
            *datagrams = realloc(*datagrams, (room = room ? 2 * room : 64) * sizeof **datagrams);
        uint8_t *octets = malloc(len ? len : 1);
        if (!*datagrams || !octets)
            exit(1);
        for (size_t at = 0; at < len; at++)
            if (sscanf(line + 2 * at, "%2hhx", &octets[at]) != 1)
                exit(1);
        (*datagrams)[count++] = (struct datagram){octets, len};
    }
    return count;
}

static uint64_t now(void) {
    struct timespec time;
    clock_gettime(CLOCK_MONOTONIC, &time);
    return (uint64_t)time.tv_sec * 1000000000 + (uint64_t)time.tv_nsec;
}

int main(int count_of_words, char **words) {
    static struct message message;
    struct datagram *datagrams = NULL;
    size_t count = read_input(&datagrams);
    long rounds = count_of_words > 1 ? atol(words[1]) : 1;
    uint64_t read = 0, sum = 0, start = now();
    for (long round = 0; round < rounds; round++)
        for (size_t at = 0; at < count; at++)
            if (read_message(datagrams[at].octets, datagrams[at].len, &message)) {
                read++;
                sum += of_message(&message);
            }
    printf("step=read count=%llu sum=%llu spent=%llu\n", (unsigned long long)read, (unsigned long long)sum,
           (unsigned long long)(now() - start));
    return 0;
}
