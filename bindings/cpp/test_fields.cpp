// Each field counts: a value with one field changed is unequal, ordered and hashed otherwise, and
// each field of a struct of C is read and written by its own name. The linker puts the functions
// `__wrap_..` below in the place of the library's, which alone see settings and tickets. The last
// line is 'N checks, N failed'.
#include <string>
#include <vector>

#include "check.hpp"
#include "iox2sd_config.hpp"

namespace {

using namespace iox2sd;
using std::string;

AttributeKey key(std::string_view text) { return AttributeKey::create(text).value(); }
AttributeValue value(std::string_view text) { return AttributeValue::create(text).value(); }
UniqueNodeId node(std::uint32_t counter) { return UniqueNodeId::create(1, 2, 3, counter).value(); }
TypeDetail type(std::string_view name, std::size_t size = 4, std::size_t alignment = 2,
                TypeVariant variant = TypeVariant::FixedSize) {
    return TypeDetail::create(variant, name, size, alignment).value();
}
MessageTypeDetails message(std::string_view name) { return {type("h"), type("u"), type(name)}; }

// ---- What differs ----

template <class T, class = void>
constexpr bool is_hashed = false;
template <class T>
constexpr bool is_hashed<T, std::void_t<decltype(std::hash<T>()(std::declval<const T&>()))>> = true;

template <class T>
void differ(const T& one, const T& other) {
    CHECK(one == one && !(one != one) && !(one < one));
    CHECK(one != other && other != one && !(one == other));
    CHECK((one < other) != (other < one));
    if constexpr (is_hashed<T>) {
        CHECK(std::hash<T>()(one) == std::hash<T>()(T(one)));
        CHECK(std::hash<T>()(one) != std::hash<T>()(other));
    }
}

/// Each value differs from each other one.
template <class T>
void all_differ(const std::vector<T>& values) {
    for (std::size_t i = 0; i < values.size(); ++i) {
        for (std::size_t j = 0; j < i; ++j) differ(values[i], values[j]);
    }
}

void change(bool& field) { field = !field; }
template <class T>
std::enable_if_t<std::is_integral_v<T>> change(T& field) {
    ++field;
}
template <class T>
std::enable_if_t<std::is_enum_v<T>> change(T& field) {
    field = T{static_cast<std::underlying_type_t<T>>(
        static_cast<std::underlying_type_t<T>>(field) ^ 1u)};
}
void change(DeregisterNodeState& field) { field = DeregisterNodeState::NoMoreOwners; }
template <class Kind>
void change(UniqueId<Kind>& id) {
    id = UniqueId<Kind>(id.process(), id.seconds(), id.nanoseconds(), id.counter() + 1);
}
void change(UniqueNodeId& id) { id = node(id.counter() + 1); }
void change(AttributeKey& text) { text = key("changed"); }
void change(AttributeValue& text) { text = value("changed"); }
void change(Duration& span) { ++span.nanoseconds; }
void change(EventId& id) { ++id.value; }
void change(TypeDetail& detail) { detail = type("changed"); }
void change(MessageTypeDetails& details) { change(details.payload); }
void change(std::string_view& text) { text = "changed"; }
template <std::size_t Capacity>
void change(Text<Capacity>& text) {
    text = Text<Capacity>::written_by(iox2sd_version).value();
}
void change(Path& text) { text = Path::create("changed").value(); }
void change(FileName& text) { text = FileName::create("changed").value(); }
void change(ConfigTexts& texts) { change(texts.prefix); }
void change(GlobalSettings& settings) { change(settings.creation_timeout); }
template <class T>
auto change(T& settings) -> decltype(static_cast<void>(settings.max_nodes)) {
    ++settings.max_nodes;
}

template <class T>
constexpr bool is_optional = false;
template <class T>
constexpr bool is_optional<std::optional<T>> = true;

/// A value with this member changed in each way differs from the whole one.
template <class T, class Member>
void counts(const T& whole, T& value, Member& member) {
    const Member kept = member;
    if constexpr (is_optional<Member>) {
        change(*member);
        differ(whole, value);
        member.reset();
    } else {
        change(member);
    }
    differ(whole, value);
    member = kept;
    CHECK(value == whole);
}

/// Changes each member in turn. The callers name all members by a structured binding, which does
/// not compile where one is left out.
template <class T, class... Members>
void each_counts(T& value, Members&... members) {
    const T whole = value;
    (counts(whole, value, members), ...);
}

/// The members of a value by names, each of which counts.
#define EACH_COUNTS(value, ...)          \
    {                                    \
        auto& [__VA_ARGS__] = value;     \
        each_counts(value, __VA_ARGS__); \
    }

void plain_values() {
    TextError text_error{Status::TooLong, 3};
    EACH_COUNTS(text_error, status, at);
    AttributeVerificationError missing{Status::MissingPair, key("k"), value("v")};
    EACH_COUNTS(missing, status, missing_key, missing_value);
    Layout layout{8, 4};
    EACH_COUNTS(layout, size, alignment);
    MessagePlaces places{8, 16};
    EACH_COUNTS(places, user_header, payload);
    IncompatibleTypes incompatible{Status::OtherName, MessagePart::Header};
    EACH_COUNTS(incompatible, status, part);
    Duration duration{1, 2};
    EACH_COUNTS(duration, seconds, nanoseconds);
    EventId event{1};
    EACH_COUNTS(event, number);
    SettingsError invalid{Status::BadDuration, SettingsField::Deadline};
    EACH_COUNTS(invalid, status, field);
    ContainerHandle handle{7, Role::Node, 1, 2};
    EACH_COUNTS(handle, service, role, slot, ticket);
    Capacities capacities{1, 2, 3};
    EACH_COUNTS(capacities, nodes, first, second);
    PortRoles roles{Role::Listener, Role::Notifier};
    EACH_COUNTS(roles, first, second);
    DeadNodeRemoval removal{DeregisterNodeState::HasOwners, 1, 2};
    EACH_COUNTS(removal, state, first, second);
    MessageTypeDetails details = message("p");
    EACH_COUNTS(details, header, user_header, payload);
}

void settings() {
    GlobalSettings global{{1, 2}, true, false, true};
    EACH_COUNTS(global, timeout, open, creation, destruction);
    PublishSubscribeSettings samples = PublishSubscribeSettings::defaults();
    EACH_COUNTS(samples, a, b, c, d, e, f, g, h, i, j, k);
    EventSettings events{1, 2, 3, 4, Duration{5, 6}, EventId{7}, EventId{8}, EventId{9}};
    EACH_COUNTS(events, a, b, c, d, e, f, g, h);
    RequestResponseSettings requests = RequestResponseSettings::defaults();
    EACH_COUNTS(requests, a, b, c, d, e, f, g, h, i, j, k, l, m, n, o, p, q);
    BlackboardSettings boards{1, 2};
    EACH_COUNTS(boards, readers, nodes);
    PublishSubscribeStaticConfig fixed_samples(samples, message("p"));
    EACH_COUNTS(fixed_samples, a, b, c, d, e, f, g, h);
    RequestResponseStaticConfig fixed_requests(requests, message("p"), message("q"));
    EACH_COUNTS(fixed_requests, a, b, c, d, e, f, g, h, i, j, k, l);
    BlackboardStaticConfig fixed_boards(boards, type("k"));
    EACH_COUNTS(fixed_boards, readers, writers, nodes, key_type);
}

void config_files() {
    ConfigFault fault{"file", 1, 2, Status::WrongType, ConfigTable::Event, TomlType::Float,
                      SettingKind::Number, {}, {}};
    EACH_COUNTS(fault, a, b, c, d, e, f, g, h, i);
    ConfigWriteError unwritten{Status::BadDuration, SettingsField::Deadline, {}};
    EACH_COUNTS(unwritten, status, field, written_key);
    UnknownKey unknown{"file", 1, 2, ConfigTable::Event, "key", Likeness::Near, {}, {}};
    EACH_COUNTS(unknown, file, line, column, table, unknown_key, likeness, meant, reason);
    Config config = Config::from_toml("").value().config;
    EACH_COUNTS(config.texts, a, b, c, d, e, f, g, h, i, j, k, l, m, n, o, p);
    EACH_COUNTS(config, global, texts, samples, events, requests, boards);
}

template <class Id>
void parts() {
    all_differ<Id>({Id(1, 1, 1, 1), Id(2, 1, 1, 1), Id(1, 2, 1, 1), Id(1, 1, 2, 1), Id(1, 1, 1, 2)});
}

void checked_values() {
    parts<UniquePublisherId>(), parts<UniqueSubscriberId>(), parts<UniqueNotifierId>();
    parts<UniqueListenerId>(), parts<UniqueClientId>(), parts<UniqueServerId>();
    parts<UniqueReaderId>(), parts<UniqueWriterId>(), parts<UniqueServiceId>();
    const auto id = [](std::uint32_t p, std::uint32_t s, std::uint32_t n, std::uint32_t c) {
        return UniqueNodeId::create(p, s, n, c).value();
    };
    all_differ<UniqueNodeId>({id(1, 1, 1, 1), id(2, 1, 1, 1), id(1, 2, 1, 1), id(1, 1, 2, 1),
                              id(1, 1, 1, 2)});
    all_differ<UniquePortId>(
        {UniquePublisherId(1, 1, 1, 1), UniqueSubscriberId(1, 1, 1, 1),
         UniqueNotifierId(1, 1, 1, 1), UniqueListenerId(1, 1, 1, 1), UniqueClientId(1, 1, 1, 1),
         UniqueServerId(1, 1, 1, 1), UniqueReaderId(1, 1, 1, 1), UniqueWriterId(1, 1, 1, 1),
         UniqueWriterId(2, 1, 1, 1), UniqueWriterId(1, 2, 1, 1), UniqueWriterId(1, 1, 2, 1),
         UniqueWriterId(1, 1, 1, 2)});
    const TypeVariant many = TypeVariant::Dynamic;
    all_differ<TypeDetail>({type("t"), type("s"), type("t", 5), type("t", 4, 4),
                            type("t", 4, 2, many)});
    all_differ<Attribute>({{key("k"), value("v")}, {key("k"), value("w")}, {key("l"), value("v")}});
    all_differ<ServiceName>({ServiceName::create("a").value(), ServiceName::create("b").value(),
                             ServiceName::create("ab").value()});
}

/// The set of pairs whose keys and values are these letters, two a pair.
AttributeSet set_of(const string& letters) {
    AttributeSet set;
    for (std::size_t i = 0; i < letters.size(); i += 2) {
        CHECK(set.add(key(letters.substr(i, 1)), value(letters.substr(i + 1, 1))));
    }
    return set;
}

void sets() {
    const std::vector<AttributeSet> all = {set_of(""),     set_of("av"),     set_of("aw"),
                                           set_of("bv"),   set_of("avav"),   set_of("avbv"),
                                           set_of("avavbv"), set_of("avbvbv")};
    all_differ(all);
    for (const AttributeSet& one : all) {
        for (const AttributeSet& other : all) {
            CHECK((one > other) == (other < one) && (one <= other) == !(other < one));
            CHECK((one >= other) == !(one < other));
        }
    }
    AttributeVerifier none, pair, twice, keyed, pair_and_key, other_order, order;
    CHECK(pair.require(key("a"), value("v")) && twice.require(key("a"), value("v")));
    CHECK(twice.require(key("a"), value("v")) && keyed.require_key(key("a")));
    CHECK(pair_and_key.require(key("a"), value("v")) && pair_and_key.require_key(key("a")));
    CHECK(order.require_key(key("a")) && order.require_key(key("b")));
    CHECK(other_order.require_key(key("b")) && other_order.require_key(key("a")));
    const AttributeVerifier verifiers[] = {none, pair, twice, keyed, pair_and_key, order,
                                           other_order};
    for (const AttributeVerifier& one : verifiers) {
        for (const AttributeVerifier& another : verifiers) {
            CHECK((one == another) == (&one == &another));
            CHECK((one != another) == (&one != &another));
        }
    }
}

void descriptions() {
    const ServiceName a = ServiceName::create("a").value(), b = ServiceName::create("b").value();
    const UniqueServiceId id(1, 2, 3, 4), other_id(1, 2, 3, 5);
    const auto made = [](const ServiceName& name, const UniqueServiceId& id, const AttributeSet& set,
                         const MessagingPattern& pattern) {
        return StaticConfig::create(name, id, set, pattern).value();
    };
    const EventSettings events = EventSettings::defaults();
    EventSettings fewer = events;
    --fewer.max_nodes;
    const BlackboardStaticConfig board(BlackboardSettings::defaults(), type("k"));
    const PublishSubscribeStaticConfig samples(PublishSubscribeSettings::defaults(), message("p"));
    const RequestResponseStaticConfig requests(RequestResponseSettings::defaults(), message("p"),
                                               message("q"));
    all_differ<StaticConfig>({made(a, id, set_of(""), events), made(b, id, set_of(""), events),
                              made(a, other_id, set_of(""), events),
                              made(a, id, set_of("av"), events), made(a, id, set_of(""), fewer),
                              made(a, id, set_of(""), board), made(a, id, set_of(""), samples),
                              made(a, id, set_of(""), requests)});
}

// ---- What crosses to C and back ----

/// A struct of C with a value of its own in each field.
iox2sd_port_details c_port(Role role) {
    return {static_cast<std::uint64_t>(role), {11, 12, 13, 14}, {21, 22, 23, 24}, 31, 32, 33, 34,
            35, 36, 37, IOX2SD_SEGMENT_DYNAMIC, 38};
}

bool is_same(const iox2sd_id& a, const iox2sd_id& b) {
    return UniqueServiceId(a) == UniqueServiceId(b);
}

/// What is read of a port is what is written of it, and fields that its kind lacks are 0.
template <class Details, class... Fields>
void port(const Details& expected, Fields iox2sd_port_details::*... own) {
    const iox2sd_port_details c = c_port(Details::role);
    const Details read = Details::from_c(c);
    CHECK(read == expected && is_same(read.port_id().parts(), c.port));
    CHECK(is_same(read.node_id.parts(), c.node));
    iox2sd_port_details wanted{};
    ((wanted.*own = c.*own), ...);
    const iox2sd_port_details written = read.as_c();
    CHECK(written.role == c.role && is_same(written.port, c.port) && is_same(written.node, c.node));
#define SAME(name) CHECK(written.name == wanted.name);
    IOX2SD_EACH(SAME, number_of_samples, buffer_size, request_buffer_size, number_of_responses,
                number_of_requests, response_buffer_size, max_slice_len, data_segment,
                max_number_of_segments)
}

/// The fields of each kind of ports, by their numbers in `c_port`, and each of them counts.
void ports() {
    using Port = iox2sd_port_details;
    const iox2sd_id id{11, 12, 13, 14};
    const UniqueNodeId node = UniqueNodeId::create(21, 22, 23, 24).value();
    const DataSegmentType grows = DataSegmentType::Dynamic;
    const auto segment = &Port::data_segment;
    const auto slices = &Port::max_slice_len;
    const auto segments = &Port::max_number_of_segments;
    PublisherDetails publisher{UniquePublisherId(id), node, 31, 37, grows, 38};
    port(publisher, &Port::number_of_samples, slices, segment, segments);
    EACH_COUNTS(publisher, a, b, c, d, e, f);
    SubscriberDetails subscriber{UniqueSubscriberId(id), node, 32};
    port(subscriber, &Port::buffer_size);
    EACH_COUNTS(subscriber, a, b, c);
    NotifierDetails notifier{UniqueNotifierId(id), node};
    port(notifier);
    EACH_COUNTS(notifier, a, b);
    ListenerDetails listener{UniqueListenerId(id), node};
    port(listener);
    EACH_COUNTS(listener, a, b);
    ClientDetails client{UniqueClientId(id), node, 35, 36, 37, grows, 38};
    port(client, &Port::number_of_requests, &Port::response_buffer_size, slices, segment, segments);
    EACH_COUNTS(client, a, b, c, d, e, f, g);
    ServerDetails server{UniqueServerId(id), node, 33, 34, 37, grows, 38};
    port(server, &Port::request_buffer_size, &Port::number_of_responses, slices, segment, segments);
    EACH_COUNTS(server, a, b, c, d, e, f, g);
    ReaderDetails reader{UniqueReaderId(id), node};
    port(reader);
    EACH_COUNTS(reader, a, b);
    WriterDetails writer{UniqueWriterId(id), node};
    port(writer);
    EACH_COUNTS(writer, a, b);
    std::vector<PortDetails> kinds;
    for (std::uint64_t role = IOX2SD_ROLE_PUBLISHER; role <= IOX2SD_ROLE_WRITER; ++role) {
        kinds.push_back(detail::port_details(c_port(Role{role})));
        CHECK(iox2sd::role(kinds.back()) == Role{role});
    }
    all_differ(kinds);
}

void handles() {
    const ContainerHandle handle = ContainerHandle::from_c({1, IOX2SD_ROLE_READER, 3, 4});
    CHECK(handle == ContainerHandle{1, Role::Reader, 3, 4});
    const iox2sd_handle c = handle.as_c();
    CHECK(c.service == 1 && c.role == IOX2SD_ROLE_READER && c.slot == 3 && c.ticket == 4);
}

/// What an array has no room for is cut off.
void fronts() {
    std::uint8_t bytes[80];
    for (std::uint8_t& byte : bytes) byte = 'x';
    for (const std::size_t length : {0u, 1u, 79u, 80u, 81u, 300u}) {
        CHECK(detail::front<80>(bytes, length) == string(length < 80 ? length : 80, 'x'));
    }
}

}  // namespace

// ---- Settings and services, which the library answers and takes ----

extern "C" {

iox2sd_global_settings __wrap_iox2sd_global_defaults() { return {{1, 2}, true, false, true}; }

iox2sd_publish_subscribe_settings __wrap_iox2sd_publish_subscribe_defaults() {
    return {1, 2, 3, 4, 5, 6, 7, 8, IOX2SD_BACKPRESSURE_DISCARD_DATA, IOX2SD_ALLOCATION_STATIC, true};
}

iox2sd_event_settings __wrap_iox2sd_event_defaults() {
    return {1, 2, 3, 4, {5, 6, true}, {7, true}, {8, true}, {9, true}};
}

iox2sd_request_response_settings __wrap_iox2sd_request_response_defaults() {
    return {1, 2, 3, 4, 5, 6, 7, 8, 9, 10, IOX2SD_BACKPRESSURE_DISCARD_DATA, IOX2SD_BACKPRESSURE_RETRY_UNTIL_DELIVERED,
            IOX2SD_ALLOCATION_STATIC, IOX2SD_ALLOCATION_POWER_OF_TWO, true, false, true};
}

iox2sd_blackboard_settings __wrap_iox2sd_blackboard_defaults() { return {1, 2}; }

/// Defines a check of settings that keeps what it was given.
#define KEEPS(pattern)                                                               \
    static iox2sd_##pattern##_settings given_##pattern;                              \
    iox2sd_field_answer __wrap_iox2sd_##pattern##_settings_check_at(                 \
        const iox2sd_##pattern##_settings* settings, size_t) {                       \
        given_##pattern = *settings;                                                 \
        return {IOX2SD_STATUS_DONE, 0, 0};                                           \
    }
KEEPS(global)
KEEPS(publish_subscribe)
KEEPS(event)
KEEPS(request_response)

/// With what a service was to be made last. None is made.
static iox2sd_capacities given_capacities;
static std::uint64_t given_pattern, given_number, given_tickets;

uint32_t __wrap_iox2sd_service_create_at(iox2sd_service*, size_t, uint64_t pattern,
                                         uint64_t number, iox2sd_capacities capacities,
                                         uint64_t tickets) {
    given_pattern = pattern, given_number = number;
    given_capacities = capacities, given_tickets = tickets;
    return IOX2SD_STATUS_DONE;
}

/// How a script's calls end: the first, which asks for room, and the second.
static iox2sd_script_answer first_run, second_run;

iox2sd_script_answer __wrap_iox2sd_script_run_at(const uint8_t*, size_t, uint8_t* out,
                                                 size_t capacity) {
    if (out == nullptr) return first_run;
    for (std::size_t i = 0; i < second_run.length && i < capacity; ++i) {
        out[i] = static_cast<std::uint8_t>('a' + i);
    }
    return second_run;
}
}

namespace {

/// What is answered of a script, whichever of its two calls has ended it.
void scripts() {
    const auto run = [](iox2sd_script_answer first, iox2sd_script_answer second) {
        first_run = first, second_run = second;
        return run_script("");
    };
    const auto ended = [](const ScriptRun& run, Status status, std::size_t line,
                          std::string_view replies) {
        CHECK(run.status == status && run.line == line && run.replies() == replies);
    };
    const iox2sd_script_answer room{IOX2SD_STATUS_BUFFER_TOO_SHORT, IOX2SD_STATUS_DONE, 0, 3};
    ended(run({IOX2SD_STATUS_DONE, IOX2SD_STATUS_DONE, 0, 0}, {}), Status::Done, 0, "");
    ended(run({IOX2SD_STATUS_BAD_LINE, IOX2SD_STATUS_BAD_LINE, 7, 0}, {}), Status::BadLine, 7, "");
    ended(run({IOX2SD_STATUS_NO_MEMORY, IOX2SD_STATUS_NO_MEMORY, 0, 0}, {}), Status::NoMemory, 0, "");
    ended(run(room, {IOX2SD_STATUS_DONE, IOX2SD_STATUS_DONE, 0, 3}), Status::Done, 0, "abc");
    ended(run(room, {IOX2SD_STATUS_BAD_LINE, IOX2SD_STATUS_BAD_LINE, 7, 3}), Status::BadLine, 7, "abc");
    ended(run(room, {IOX2SD_STATUS_NO_MEMORY, IOX2SD_STATUS_NO_MEMORY, 0, 2}), Status::NoMemory, 0, "ab");
}

/// A service has all tickets where the caller names none.
void crossing_services() {
    const auto given = [](PatternKind pattern, std::uint64_t number, std::uint64_t tickets) {
        return given_pattern == static_cast<std::uint64_t>(pattern) && given_number == number &&
               given_tickets == tickets && given_capacities.nodes == 1 &&
               given_capacities.first == 2 && given_capacities.second == 3;
    };
    CHECK(Service::create(PatternKind::Blackboard, 7, {1, 2, 3}).has_value());
    CHECK(given(PatternKind::Blackboard, 7, UINT64_MAX));
    CHECK(Service::create(PatternKind::RequestResponse, 8, {1, 2, 3}, 9).has_value());
    CHECK(given(PatternKind::RequestResponse, 8, 9));
    EventStaticConfig events = EventSettings::defaults();
    events.max_nodes = 1, events.max_listeners = 2, events.max_notifiers = 3;
    CHECK(Service::create(events, 10).has_value() && given(PatternKind::Event, 10, UINT64_MAX));
    CHECK(Service::create(events, 11, 12).has_value() && given(PatternKind::Event, 11, 12));
}

/// Settings are read as the library gives them, field by field, and passed as they were read.
template <class Settings, class C>
void crosses(const Settings& expected, const C& given) {
    CHECK(Settings::defaults() == expected && Settings::defaults().check().has_value());
    CHECK(Settings::from_c(given) == expected);
}

void crossing_settings() {
    crosses(GlobalSettings{{1, 2}, true, false, true}, given_global);
    crosses(EventSettings{1, 2, 3, 4, Duration{5, 6}, EventId{7}, EventId{8}, EventId{9}},
            given_event);
    CHECK((BlackboardSettings::defaults() == BlackboardSettings{1, 2}));

    const BackpressureStrategy discard = BackpressureStrategy::DiscardData;
    const AllocationStrategy fixed_size = AllocationStrategy::Static;
    const PublishSubscribeSettings samples{1, 2, 3, 4, 5, 6, 7, 8, discard, fixed_size, true};
    crosses(samples, given_publish_subscribe);
    const PublishSubscribeStaticConfig fixed(samples, message("p"));
    CHECK(fixed.max_subscribers == 1 && fixed.max_publishers == 2 && fixed.max_nodes == 3);
    CHECK(fixed.history_size == 7 && fixed.subscriber_max_buffer_size == 4);
    CHECK(fixed.subscriber_max_borrowed_samples == 5 && fixed.enable_safe_overflow);

    const RequestResponseSettings requests{
        1, 2, 3, 4, 5, 6, 7, 8, 9, 10, discard, BackpressureStrategy::RetryUntilDelivered,
        fixed_size, AllocationStrategy::PowerOfTwo, true, false, true};
    crosses(requests, given_request_response);
    const RequestResponseStaticConfig of(requests, message("p"), message("q"));
    CHECK(of.max_active_requests_per_client == 1 && of.max_response_buffer_size == 2);
    CHECK(of.max_servers == 3 && of.max_clients == 4 && of.max_nodes == 5);
    CHECK(of.max_borrowed_responses_per_pending_response == 6 && of.max_loaned_requests == 7);
    CHECK(of.enable_safe_overflow_for_requests && !of.enable_safe_overflow_for_responses);
    CHECK(of.enable_fire_and_forget_requests);
    CHECK(of.request_message_type_details == message("p"));
    CHECK(of.response_message_type_details == message("q"));
}

}  // namespace

int main() {
    plain_values();
    settings();
    config_files();
    checked_values();
    sets();
    descriptions();
    ports();
    handles();
    fronts();
    scripts();
    crossing_services();
    crossing_settings();
    return end_of_checks();
}
