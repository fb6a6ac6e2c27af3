/* For examples/interop/participant and who: a participant of Fast DDS with a writer of "from_product" and a reader of
 * "to_product", both RELIABLE and KEEP_ALL.
 *
 * Its words are a domain, "reading", "text" or "pose" for a type of Types.idl or Pose.idl, and "reliable", or "default" where
 * its reader has its default policies. It makes the changes that lines of its standard input say, as they come, and prints
 * those that it takes, how many ends each of its own is matched with, and who does not fit: all as cyclone.c does, where the
 * lines are explained. It ends with its standard input. */
#include <cstdlib>
#include <cstdio>
#include <cstring>
#include <fastcdr/Cdr.h>
#include <fastdds/dds/domain/DomainParticipant.hpp>
#include <fastdds/dds/domain/DomainParticipantFactory.hpp>
#include <fastdds/dds/publisher/DataWriter.hpp>
#include <fastdds/dds/publisher/DataWriterListener.hpp>
#include <fastdds/dds/publisher/Publisher.hpp>
#include <fastdds/dds/subscriber/DataReader.hpp>
#include <fastdds/dds/subscriber/DataReaderListener.hpp>
#include <fastdds/dds/subscriber/SampleInfo.hpp>
#include <fastdds/dds/subscriber/Subscriber.hpp>
#include <fastdds/dds/topic/TopicDataType.hpp>
#include <iostream>
#include <sstream>
#include <string>
#include <unistd.h>
#include <vector>

using namespace eprosima::fastdds::dds;
using eprosima::fastcdr::Cdr;
using eprosima::fastcdr::FastBuffer;
using eprosima::fastrtps::Duration_t;
using eprosima::fastrtps::rtps::InstanceHandle_t;
using eprosima::fastrtps::rtps::SerializedPayload_t;

static const uint32_t LONGEST = 65536;
static const useconds_t PAUSE = 2000; // between two changes, in microseconds
static const Duration_t LONGEST_WAIT{5, 0}; // for what was not acknowledged yet

/* Of a pose the values alone, of a text no key. */
struct Sample {
    int32_t key = 0, number = 0;
    std::string words;
    std::vector<double> values;
};

/* All numbers with seventeen digits, as cyclone.c prints them. */
static std::string word_of(double value) {
    char word[32];
    std::snprintf(word, sizeof word, "%.17g", value);
    return word;
}

class Type : public TopicDataType {
public:
    const bool has_key, is_pose;

    explicit Type(const std::string &word) : has_key(word != "text"), is_pose(word == "pose") {
        setName(is_pose ? "robot::Pose" : has_key ? "interop::Reading" : "interop::Text");
        m_typeSize = LONGEST;
        m_isGetKeyDefined = has_key;
    }

    bool serialize(void *data, SerializedPayload_t *payload) override {
        const Sample &sample = *static_cast<Sample *>(data);
        FastBuffer buffer(reinterpret_cast<char *>(payload->data), payload->max_size);
        Cdr cdr(buffer, Cdr::DEFAULT_ENDIAN, Cdr::DDS_CDR);
        payload->encapsulation = cdr.endianness() == Cdr::BIG_ENDIANNESS ? CDR_BE : CDR_LE;
        cdr.serialize_encapsulation();
        if (has_key)
            cdr << sample.key;
        if (is_pose)
            cdr << sample.values.at(0) << sample.values.at(1);
        else
            cdr << sample.number << sample.words << sample.values;
        payload->length = static_cast<uint32_t>(cdr.getSerializedDataLength());
        return true;
    }

    bool deserialize(SerializedPayload_t *payload, void *data) override {
        Sample &sample = *static_cast<Sample *>(data);
        FastBuffer buffer(reinterpret_cast<char *>(payload->data), payload->length);
        Cdr cdr(buffer, Cdr::DEFAULT_ENDIAN, Cdr::DDS_CDR);
        cdr.read_encapsulation();
        if (has_key)
            cdr >> sample.key;
        sample.values.resize(2);
        if (is_pose)
            cdr >> sample.values[0] >> sample.values[1];
        else
            cdr >> sample.number >> sample.words >> sample.values;
        return true;
    }

    std::function<uint32_t()> getSerializedSizeProvider(void *data) override {
        const Sample *sample = static_cast<Sample *>(data);
        return [sample] { return static_cast<uint32_t>(64 + sample->words.size() + 8 * sample->values.size()); };
    }
    void *createData() override { return new Sample; }
    void deleteData(void *data) override { delete static_cast<Sample *>(data); }

    /* RTPS 2.5, 9.6.4.8: the key's octets, the greatest first. */
    bool getKey(void *data, InstanceHandle_t *handle, bool) override {
        const uint32_t key = static_cast<uint32_t>(static_cast<Sample *>(data)->key);
        for (int at = 0; at < 16; at++)
            handle->value[at] = at < 4 ? static_cast<uint8_t>(key >> (24 - 8 * at)) : 0;
        return has_key;
    }

    /* A key is where its instance is known by, as a sample without a value has no other. */
    uint32_t key_of(const SampleInfo &info) const {
        uint32_t key = 0;
        for (int at = 0; at < 4 && has_key; at++)
            key = key << 8 | info.instance_handle.value[at];
        return key;
    }

    std::string word_of_value(const Sample &sample) const {
        std::string word = is_pose ? "" : std::to_string(sample.number) + "," + sample.words;
        for (double value : sample.values)
            word += (word.empty() ? "" : ",") + word_of(value);
        return word;
    }

    Sample sample_of(int32_t key, const std::string &word) const {
        Sample sample;
        std::istringstream left(word);
        std::string part;
        sample.key = key;
        if (!is_pose && std::getline(left, part, ','))
            sample.number = std::stoi(part);
        if (!is_pose)
            std::getline(left, sample.words, ',');
        while (std::getline(left, part, ','))
            sample.values.push_back(std::stod(part));
        return sample;
    }
};

class OfReader : public DataReaderListener {
public:
    const Type &type;
    explicit OfReader(const Type &type) : type(type) {}

    void print(const Sample &sample, const SampleInfo &info) {
        const bool is_disposed = info.instance_state == NOT_ALIVE_DISPOSED_INSTANCE_STATE;
        const char *kind = info.valid_data ? "write " : is_disposed ? "dispose " : "unregister ";
        std::cout << kind << type.key_of(info);
        if (info.valid_data)
            std::cout << " " << type.word_of_value(sample);
        std::cout << std::endl;
    }

    void on_data_available(DataReader *reader) override {
        for (;;) {
            Sample sample;
            SampleInfo info;
            if (reader->take_next_sample(&sample, &info) != ReturnCode_t::RETCODE_OK)
                return;
            print(sample, info);
        }
    }

    void on_subscription_matched(DataReader *, const SubscriptionMatchedStatus &status) override {
        std::cout << "matched reader " + std::to_string(status.current_count) + "\n" << std::flush;
    }
};

class OfWriter : public DataWriterListener {
public:
    void on_publication_matched(DataWriter *, const PublicationMatchedStatus &status) override {
        std::cout << "matched writer " + std::to_string(status.current_count) + "\n" << std::flush;
    }

    void on_offered_incompatible_qos(DataWriter *, const OfferedIncompatibleQosStatus &status) override {
        std::cout << "misfit writer " + std::to_string(status.total_count) + " " + std::to_string(status.last_policy_id) + "\n"
                  << std::flush;
    }
};

static bool make_change(DataWriter *writer, const std::string &kind, Sample &sample) {
    if (kind == "write")
        return writer->write(&sample);
    const auto code = kind == "dispose" ? writer->dispose(&sample, HANDLE_NIL) : writer->unregister_instance(&sample, HANDLE_NIL);
    return code == ReturnCode_t::RETCODE_OK;
}

static void make_those_asked(const Type &type, DataWriter *writer) {
    std::string line, kind, word;
    while (std::getline(std::cin, line)) {
        std::istringstream left(line);
        int32_t key = 0;
        word.clear();
        left >> kind >> key >> word;
        Sample sample = type.sample_of(key, word);
        sample.values.resize(type.is_pose ? 2 : sample.values.size());
        if (!make_change(writer, kind, sample))
            std::cerr << "fast: no " << kind << std::endl;
        usleep(PAUSE);
    }
    writer->wait_for_acknowledgments(LONGEST_WAIT);
}

int main(int count, char **words) {
    if (count != 4) {
        std::cerr << "usage: fast DOMAIN reading|text|pose reliable|default" << std::endl;
        return 2;
    }
    auto *peer = DomainParticipantFactory::get_instance()->create_participant(std::stoi(words[1]), PARTICIPANT_QOS_DEFAULT);
    if (!peer)
        return 1;
    Type *type = new Type(words[2]);
    TypeSupport support(type);
    support.register_type(peer);
    const bool is_turned = std::getenv("TURNED_TOPICS") != nullptr;
    auto *from = peer->create_topic(is_turned ? "to_product" : "from_product", support.get_type_name(), TOPIC_QOS_DEFAULT);
    auto *to = peer->create_topic(is_turned ? "from_product" : "to_product", support.get_type_name(), TOPIC_QOS_DEFAULT);
    DataWriterQos offered = DATAWRITER_QOS_DEFAULT;
    offered.history().kind = KEEP_ALL_HISTORY_QOS;
    offered.writer_data_lifecycle().autodispose_unregistered_instances = false;
    DataReaderQos asked = DATAREADER_QOS_DEFAULT;
    if (std::strcmp(words[3], "default") != 0) {
        asked.reliability().kind = RELIABLE_RELIABILITY_QOS;
        asked.history().kind = KEEP_ALL_HISTORY_QOS;
    }
    OfReader of_reader(*type);
    OfWriter of_writer;
    auto *writer = peer->create_publisher(PUBLISHER_QOS_DEFAULT)->create_datawriter(from, offered, &of_writer);
    auto *reader = peer->create_subscriber(SUBSCRIBER_QOS_DEFAULT)->create_datareader(to, asked, &of_reader);
    if (!writer || !reader)
        return 1;
    std::cout << "ready" << std::endl;
    make_those_asked(*type, writer);
    peer->delete_contained_entities();
    DomainParticipantFactory::get_instance()->delete_participant(peer);
}
