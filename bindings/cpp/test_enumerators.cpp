// Each enumerator has the number that the C headers give its name, and each status a text of its
// own. The last line is 'N checks, N failed'.
#include <set>
#include <string_view>

#include "check.hpp"
#include "iox2sd_config.hpp"

namespace {

using namespace iox2sd;

// The number of the C headers that each enumerator has. A switch that leaves one out does not
// compile, since the compiler's warnings are errors.

constexpr std::uint64_t none = UINT64_MAX;

#define IS(name, NAME) \
    case E::name: return IOX2SD_##NAME;
#define NUMBERS(Enum, each)                       \
    std::uint64_t of_header(Enum number) {        \
        using E = Enum;                           \
        switch (number) { each }                  \
        return none;                              \
    }

NUMBERS(Role, IS(Node, ROLE_NODE) IS(Publisher, ROLE_PUBLISHER) IS(Subscriber, ROLE_SUBSCRIBER)
        IS(Notifier, ROLE_NOTIFIER) IS(Listener, ROLE_LISTENER) IS(Client, ROLE_CLIENT)
        IS(Server, ROLE_SERVER) IS(Reader, ROLE_READER) IS(Writer, ROLE_WRITER))
NUMBERS(PatternKind, IS(PublishSubscribe, PATTERN_PUBLISH_SUBSCRIBE) IS(Event, PATTERN_EVENT)
        IS(RequestResponse, PATTERN_REQUEST_RESPONSE) IS(Blackboard, PATTERN_BLACKBOARD))
NUMBERS(DataSegmentType, IS(Dynamic, SEGMENT_DYNAMIC) IS(Static, SEGMENT_STATIC))
NUMBERS(TypeVariant, IS(FixedSize, VARIANT_FIXED_SIZE) IS(Dynamic, VARIANT_DYNAMIC))
NUMBERS(MessagePart, IS(Header, PART_HEADER) IS(UserHeader, PART_USER_HEADER)
        IS(Payload, PART_PAYLOAD))
NUMBERS(BackpressureStrategy, IS(RetryUntilDelivered, BACKPRESSURE_RETRY_UNTIL_DELIVERED)
        IS(DiscardData, BACKPRESSURE_DISCARD_DATA))
NUMBERS(AllocationStrategy, IS(BestFit, ALLOCATION_BEST_FIT) IS(PowerOfTwo, ALLOCATION_POWER_OF_TWO)
        IS(Static, ALLOCATION_STATIC))
NUMBERS(SettingsField, IS(BackpressureStrategy, FIELD_BACKPRESSURE_STRATEGY)
        IS(PublisherAllocationStrategy, FIELD_PUBLISHER_ALLOCATION_STRATEGY)
        IS(Deadline, FIELD_DEADLINE)
        IS(ClientBackpressureStrategy, FIELD_CLIENT_BACKPRESSURE_STRATEGY)
        IS(ServerBackpressureStrategy, FIELD_SERVER_BACKPRESSURE_STRATEGY)
        IS(ClientAllocationStrategy, FIELD_CLIENT_ALLOCATION_STRATEGY)
        IS(ServerAllocationStrategy, FIELD_SERVER_ALLOCATION_STRATEGY)
        IS(CreationTimeout, FIELD_CREATION_TIMEOUT) IS(MaxSubscribers, FIELD_MAX_SUBSCRIBERS)
        IS(MaxPublishers, FIELD_MAX_PUBLISHERS) IS(HistorySize, FIELD_HISTORY_SIZE)
        IS(SubscriberMaxBufferSize, FIELD_SUBSCRIBER_MAX_BUFFER_SIZE)
        IS(SubscriberMaxBorrowedSamples, FIELD_SUBSCRIBER_MAX_BORROWED_SAMPLES)
        IS(EnableSafeOverflow, FIELD_ENABLE_SAFE_OVERFLOW) IS(MaxNotifiers, FIELD_MAX_NOTIFIERS)
        IS(MaxListeners, FIELD_MAX_LISTENERS) IS(EventIdMaxValue, FIELD_EVENT_ID_MAX_VALUE)
        IS(NotifierCreatedEvent, FIELD_NOTIFIER_CREATED_EVENT)
        IS(NotifierDroppedEvent, FIELD_NOTIFIER_DROPPED_EVENT)
        IS(NotifierDeadEvent, FIELD_NOTIFIER_DEAD_EVENT)
        IS(EnableSafeOverflowForRequests, FIELD_ENABLE_SAFE_OVERFLOW_FOR_REQUESTS)
        IS(EnableSafeOverflowForResponses, FIELD_ENABLE_SAFE_OVERFLOW_FOR_RESPONSES)
        IS(EnableFireAndForgetRequests, FIELD_ENABLE_FIRE_AND_FORGET_REQUESTS)
        IS(MaxActiveRequestsPerClient, FIELD_MAX_ACTIVE_REQUESTS_PER_CLIENT)
        IS(MaxLoanedRequests, FIELD_MAX_LOANED_REQUESTS)
        IS(MaxResponseBufferSize, FIELD_MAX_RESPONSE_BUFFER_SIZE) IS(MaxServers, FIELD_MAX_SERVERS)
        IS(MaxClients, FIELD_MAX_CLIENTS)
        IS(MaxBorrowedResponsesPerPendingResponse,
           FIELD_MAX_BORROWED_RESPONSES_PER_PENDING_RESPONSE)
        IS(MaxReaders, FIELD_MAX_READERS) IS(MaxWriters, FIELD_MAX_WRITERS)
        IS(MaxNodes, FIELD_MAX_NODES))
NUMBERS(ConfigEntry, IS(RootPath, TEXT_ROOT_PATH) IS(Prefix, TEXT_PREFIX)
        IS(ServiceDirectory, TEXT_SERVICE_DIRECTORY) IS(DataSegmentSuffix, TEXT_DATA_SEGMENT_SUFFIX)
        IS(StaticConfigStorageSuffix, TEXT_STATIC_CONFIG_STORAGE_SUFFIX)
        IS(DynamicConfigStorageSuffix, TEXT_DYNAMIC_CONFIG_STORAGE_SUFFIX)
        IS(ConnectionSuffix, TEXT_CONNECTION_SUFFIX)
        IS(EventConnectionSuffix, TEXT_EVENT_CONNECTION_SUFFIX)
        IS(BlackboardMgmtSuffix, TEXT_BLACKBOARD_MGMT_SUFFIX)
        IS(BlackboardDataSuffix, TEXT_BLACKBOARD_DATA_SUFFIX) IS(NodeDirectory, TEXT_NODE_DIRECTORY)
        IS(MonitorSuffix, TEXT_MONITOR_SUFFIX)
        IS(NodeStaticConfigSuffix, TEXT_NODE_STATIC_CONFIG_SUFFIX)
        IS(ServiceTagSuffix, TEXT_SERVICE_TAG_SUFFIX) IS(PortTagSuffix, TEXT_PORT_TAG_SUFFIX)
        IS(GlobalMgmtSuffix, TEXT_GLOBAL_MGMT_SUFFIX) IS(ConfigFileName, TEXT_CONFIG_FILE_NAME)
        IS(ConfigFilePath, TEXT_CONFIG_FILE_PATH) IS(RelativeConfigPath, TEXT_RELATIVE_CONFIG_PATH)
        IS(UserConfigFilePath, TEXT_USER_CONFIG_FILE_PATH))
NUMBERS(ConfigTable, IS(Root, TABLE_ROOT) IS(Global, TABLE_GLOBAL) IS(Service, TABLE_SERVICE)
        IS(Node, TABLE_NODE) IS(Defaults, TABLE_DEFAULTS)
        IS(PublishSubscribe, TABLE_PUBLISH_SUBSCRIBE) IS(Event, TABLE_EVENT)
        IS(RequestResponse, TABLE_REQUEST_RESPONSE) IS(Blackboard, TABLE_BLACKBOARD))
NUMBERS(TomlType, IS(None, TOML_NONE) IS(String, TOML_STRING) IS(Integer, TOML_INTEGER)
        IS(Float, TOML_FLOAT) IS(Boolean, TOML_BOOLEAN) IS(Datetime, TOML_DATETIME)
        IS(Array, TOML_ARRAY) IS(Table, TOML_TABLE))
NUMBERS(SettingKind, IS(None, KIND_NONE) IS(Table, KIND_TABLE) IS(Number, KIND_NUMBER)
        IS(Flag, KIND_FLAG) IS(Path, KIND_PATH) IS(NameOfFile, KIND_FILE_NAME)
        IS(Backpressure, KIND_BACKPRESSURE) IS(Allocation, KIND_ALLOCATION)
        IS(Duration, KIND_DURATION))
NUMBERS(Likeness, IS(None, LIKENESS_NONE) IS(Spelling, LIKENESS_SPELLING)
        IS(OtherTable, LIKENESS_OTHER_TABLE) IS(Quoted, LIKENESS_QUOTED) IS(Near, LIKENESS_NEAR))

/// Each status, with what it says.
#define STATUSES(S)                                                                                \
    S(Done, DONE, "done")                                                                          \
    S(DoneLocked, DONE_LOCKED, "done, and the service is locked for good")                         \
    S(BufferTooShort, BUFFER_TOO_SHORT, "the buffer is too short")                                 \
    S(NoMemory, NO_MEMORY, "no memory")                                                            \
    S(NoService, NO_SERVICE, "the object holds no service")                                        \
    S(HasService, HAS_SERVICE, "the object holds a service already")                               \
    S(UnknownPattern, UNKNOWN_PATTERN, "unknown messaging pattern")                                \
    S(UnknownRole, UNKNOWN_ROLE, "unknown role")                                                   \
    S(NoNode, NO_NODE, "not the id of a node")                                                     \
    S(IsLocked, IS_LOCKED, "the service is locked for good")                                       \
    S(OutOfSpace, OUT_OF_SPACE, "no slot or no ticket is left")                                    \
    S(ForeignHandle, FOREIGN_HANDLE, "no entry has the handle")                                    \
    S(PortsStillAttached, PORTS_STILL_ATTACHED, "ports are still attached")                        \
    S(NodeNotRegistered, NODE_NOT_REGISTERED, "the node is not registered")                        \
    S(RoleNotInPattern, ROLE_NOT_IN_PATTERN, "the pattern has no ports of the role")               \
    S(UnknownSegment, UNKNOWN_SEGMENT, "unknown kind of data segment")                             \
    S(BadKey, BAD_KEY, "not a key of a pair")                                                      \
    S(BadValue, BAD_VALUE, "not a value of a pair")                                                \
    S(TooMany, TOO_MANY, "more than sixteen pairs")                                                \
    S(Null, NULL, "NULL")                                                                          \
    S(UnknownStatus, UNKNOWN_STATUS, "unknown status")                                             \
    S(Empty, EMPTY, "the text is empty")                                                           \
    S(TooLong, TOO_LONG, "the text is too long")                                                   \
    S(IllegalByte, ILLEGAL_BYTE, "a byte may not stand in the text")                               \
    S(NoFileName, NO_FILE_NAME, "not the name of a file")                                          \
    S(ReservedPrefix, RESERVED_PREFIX, "the name begins with a reserved prefix")                   \
    S(NotUtf8, NOT_UTF8, "not UTF-8")                                                              \
    S(BadServiceName, BAD_SERVICE_NAME, "not the name of a service")                               \
    S(BadPath, BAD_PATH, "not a path")                                                             \
    S(BadEntry, BAD_ENTRY, "the text may not be joined to a path")                                 \
    S(IllegalHash, ILLEGAL_HASH, "the hash text cannot be the name of a file")                     \
    S(BadRequiredKey, BAD_REQUIRED_KEY, "not a key of a required pair")                            \
    S(BadRequiredValue, BAD_REQUIRED_VALUE, "not a value of a required pair")                      \
    S(BadAskedKey, BAD_ASKED_KEY, "not a required key, nor one that may be searched for")          \
    S(TooManyRequired, TOO_MANY_REQUIRED, "more than sixteen pairs and keys are required")         \
    S(MissingPair, MISSING_PAIR, "a required pair is not in the set")                              \
    S(MissingKey, MISSING_KEY, "no pair of the set has a required key")                            \
    S(NoSuchValue, NO_SUCH_VALUE, "the key has no value of this index")                            \
    S(BadAlignment, BAD_ALIGNMENT, "an alignment is not a power of two")                           \
    S(TooLarge, TOO_LARGE, "the answer would pass its range")                                      \
    S(UnknownVariant, UNKNOWN_VARIANT, "unknown variant")                                          \
    S(OtherName, OTHER_NAME, "the types of a part have other names")                               \
    S(OtherVariant, OTHER_VARIANT, "the types of a part are of other variants")                    \
    S(OtherSize, OTHER_SIZE, "the types of a part have other sizes")                               \
    S(OtherAlignment, OTHER_ALIGNMENT, "the types of the headers have other alignments")           \
    S(GreaterAlignment, GREATER_ALIGNMENT,                                                         \
      "the opener's type has a greater alignment than the service's")                              \
    S(UnknownText, UNKNOWN_TEXT, "unknown text of the configuration")                              \
    S(BadLine, BAD_LINE, "a line of the script is not valid")                                      \
    S(UnknownStrategy, UNKNOWN_STRATEGY, "unknown strategy")                                       \
    S(BadDuration, BAD_DURATION, "the nanoseconds of a duration are a second or more")             \
    S(Unmet, UNMET, "a setting is not what the opener requires")                                   \
    S(OtherPattern, OTHER_PATTERN, "the service has another messaging pattern")                    \
    S(NotToml, NOT_TOML, "not TOML")                                                               \
    S(WrongType, WRONG_TYPE, "a value of another type is wanted")                                  \
    S(BelowZero, BELOW_ZERO, "the number is below 0")                                              \
    S(NoDuration, NO_DURATION, "not a duration: the integers secs and nanos")                      \
    S(NoTomlInteger, NO_TOML_INTEGER, "TOML has no integer above 2^63 - 1")                        \
    S(NoFile, NO_FILE, "the file cannot be read")                                                  \
    S(TooDeep, TOO_DEEP, "tables and arrays are nested too deeply")                                \
    S(NoOrder, NO_ORDER, "no order of the calls explains the reply")                               \
    S(NoServiceLine, NO_SERVICE_LINE, "the line of a service is expected")                         \
    S(NoCallLine, NO_CALL_LINE, "the line of a service, a call or an event is expected")           \
    S(NoReplyLine, NO_REPLY_LINE, "a reply is expected")                                           \
    S(TooManyConfigurations, TOO_MANY_CONFIGURATIONS,                                              \
      "orders of the calls lead to more than 4,096 configurations")                                \
    S(TooManyOpenCalls, TOO_MANY_OPEN_CALLS, "more than 64 calls are open")                        \
    S(CallerIsBusy, CALLER_IS_BUSY, "a caller without an open call is expected")                   \
    S(NoOpenCall, NO_OPEN_CALL, "a caller with an open call is expected")                          \
    S(CallerIsDead, CALLER_IS_DEAD, "a caller that has not died is expected")                      \
    S(UnknownCaller, UNKNOWN_CALLER, "a caller that has begun a call is expected")                 \
    S(NoNewline, NO_NEWLINE, "a newline is expected at the end of the line")                       \
    S(CarriageReturn, CARRIAGE_RETURN, "no carriage return is expected before the newline")        \
    S(NoStateLine, NO_STATE_LINE, "a state of the service is expected")

#define OF_HEADER(name, NAME, words) IS(name, STATUS_##NAME)
NUMBERS(Status, STATUSES(OF_HEADER))

/// Each of `count` numbers from `first` on is that of an enumerator of its own name.
template <class Enum>
void numbers(std::uint32_t first, std::uint32_t count) {
    for (std::uint32_t number = first; number < first + count; ++number) {
        CHECK(of_header(Enum{number}) == number);
    }
    CHECK(of_header(Enum{first + count}) == none);
}

void enumerators() {
    numbers<Role>(IOX2SD_ROLE_NODE, 9);
    numbers<PatternKind>(IOX2SD_PATTERN_PUBLISH_SUBSCRIBE, 4);
    numbers<DataSegmentType>(IOX2SD_SEGMENT_DYNAMIC, 2);
    numbers<TypeVariant>(IOX2SD_VARIANT_FIXED_SIZE, 2);
    numbers<MessagePart>(IOX2SD_PART_HEADER, 3);
    numbers<BackpressureStrategy>(IOX2SD_BACKPRESSURE_RETRY_UNTIL_DELIVERED, 2);
    numbers<AllocationStrategy>(IOX2SD_ALLOCATION_BEST_FIT, 3);
    numbers<SettingsField>(IOX2SD_FIELD_BACKPRESSURE_STRATEGY, 32);
    numbers<ConfigEntry>(IOX2SD_TEXT_ROOT_PATH, 20);
    numbers<ConfigTable>(IOX2SD_TABLE_ROOT, 9);
    numbers<TomlType>(IOX2SD_TOML_NONE, 8);
    numbers<SettingKind>(IOX2SD_KIND_NONE, 9);
    numbers<Likeness>(IOX2SD_LIKENESS_NONE, 5);
    // Some numbers are those of no status. C has a text for each status.
    std::size_t statuses = 0;
    for (std::uint32_t number = 0; number < 1000; ++number) {
        const std::uint64_t found = of_header(Status{number});
        const bool is_status = number == IOX2SD_STATUS_UNKNOWN_STATUS ||
                               std::string_view(iox2sd_status_str(number)) != "unknown status";
        CHECK(found == (is_status ? number : none));
        statuses += is_status;
    }
    std::set<std::string_view> texts;
#define SAYS(name, NAME, words) \
    CHECK(text(Status::name) == words && texts.insert(words).second);
    STATUSES(SAYS)
    CHECK(statuses == texts.size());
    CHECK(text(Status{4000000000}) == "unknown status");
}

}  // namespace

int main() {
    enumerators();
    return end_of_checks();
}
