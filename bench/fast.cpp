/* For bench/compare: Fast DDS writes samples and takes each before the next, in one process, which makes no packet. Its words
   are how many, the keys, the octets of a value, and the depth of the history, 0 for KEEP_ALL. It prints the nanoseconds
   of processor time that a sample took, of those after the first tenth. */
#include <cstdio>
#include <cstdlib>
#include <cstring>
#include <ctime>
#include <fastdds/dds/domain/DomainParticipant.hpp>
#include <fastdds/dds/domain/DomainParticipantFactory.hpp>
#include <fastdds/dds/publisher/DataWriter.hpp>
#include <fastdds/dds/publisher/Publisher.hpp>
#include <fastdds/dds/subscriber/DataReader.hpp>
#include <fastdds/dds/subscriber/SampleInfo.hpp>
#include <fastdds/dds/subscriber/Subscriber.hpp>
#include <fastdds/dds/topic/TopicDataType.hpp>
#include <vector>

using namespace eprosima::fastdds::dds;
using eprosima::fastrtps::rtps::InstanceHandle_t;
using eprosima::fastrtps::rtps::SerializedPayload_t;

struct Sample {
    unsigned char key[16] = {};
    std::vector<unsigned char> value;
};

/* A sample as octets: the encapsulation, the key, the length and the value. */
struct SampleType : TopicDataType {
    SampleType() {
        setName("bench");
        m_typeSize = 4 + 16 + 4 + 1024;
        m_isGetKeyDefined = true;
    }
    bool serialize(void *data, SerializedPayload_t *to) override {
        auto sample = static_cast<Sample *>(data);
        unsigned length = sample->value.size();
        memcpy(to->data, "\0\1\0\0", 4);
        memcpy(to->data + 4, sample->key, 16);
        memcpy(to->data + 20, &length, 4);
        memcpy(to->data + 24, sample->value.data(), length);
        to->encapsulation = CDR_LE;
        to->length = 24 + length;
        return true;
    }
    bool deserialize(SerializedPayload_t *from, void *data) override {
        auto sample = static_cast<Sample *>(data);
        unsigned length;
        memcpy(sample->key, from->data + 4, 16);
        memcpy(&length, from->data + 20, 4);
        sample->value.assign(from->data + 24, from->data + 24 + length);
        return true;
    }
    std::function<uint32_t()> getSerializedSizeProvider(void *data) override {
        return [data] { return uint32_t(24 + static_cast<Sample *>(data)->value.size()); };
    }
    bool getKey(void *data, InstanceHandle_t *handle, bool) override {
        for (int at = 0; at < 16; at++)
            handle->value[at] = static_cast<Sample *>(data)->key[at];
        return true;
    }
    void *createData() override { return new Sample; }
    void deleteData(void *data) override { delete static_cast<Sample *>(data); }
};

static long long processor_time() {
    timespec time;
    clock_gettime(CLOCK_PROCESS_CPUTIME_ID, &time);
    return time.tv_sec * 1000000000LL + time.tv_nsec;
}

template <class Qos> static Qos with(Qos qos, int depth) {
    qos.reliability().kind = RELIABLE_RELIABILITY_QOS;
    qos.durability().kind = VOLATILE_DURABILITY_QOS;
    qos.history().kind = depth ? KEEP_LAST_HISTORY_QOS : KEEP_ALL_HISTORY_QOS;
    qos.history().depth = depth ? depth : 1;
    qos.resource_limits().max_samples = qos.resource_limits().max_samples_per_instance = 0;
    qos.resource_limits().max_instances = 0;
    return qos;
}

static void turn(DataWriter *writer, DataReader *reader, Sample &sample, Sample &taken, unsigned long key) {
    SampleInfo info;
    memcpy(sample.key, &key, sizeof key);
    while (!writer->write(&sample)) {
    }
    while (reader->take_next_sample(&taken, &info) != ReturnCode_t::RETCODE_OK) {
    }
}

int main(int count, char **words) {
    unsigned long numbers[4] = {};
    for (int at = 1; at < count && at <= 4; at++)
        numbers[at - 1] = strtoul(words[at], nullptr, 10);
    unsigned long samples = numbers[0], keys = numbers[1];
    int depth = int(numbers[3]);
    auto peer = DomainParticipantFactory::get_instance()->create_participant(0, PARTICIPANT_QOS_DEFAULT);
    TypeSupport type(new SampleType);
    type.register_type(peer);
    auto topic = peer->create_topic("bench", "bench", TOPIC_QOS_DEFAULT);
    auto reader = peer->create_subscriber(SUBSCRIBER_QOS_DEFAULT)->create_datareader(topic, with(DATAREADER_QOS_DEFAULT, depth));
    auto writer = peer->create_publisher(PUBLISHER_QOS_DEFAULT)->create_datawriter(topic, with(DATAWRITER_QOS_DEFAULT, depth));
    Sample sample, taken;
    sample.value.resize(numbers[2]);
    long long start = 0;
    for (unsigned long at = 0; at < samples; at++) {
        if (at == samples / 10)
            start = processor_time();
        turn(writer, reader, sample, taken, at % keys);
    }
    printf("%.0f\n", double(processor_time() - start) / double(samples - samples / 10));
    fflush(stdout);
    _Exit(0);
}
