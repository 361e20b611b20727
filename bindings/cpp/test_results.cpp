// Results, what they throw, what they become and what does not compile: a caller's function may
// throw, errors and values of one result become those of another, and nothing points into a
// temporary. The last line is 'N checks, N failed'.
#include <sstream>
#include <string>
#include <vector>

#include "check.hpp"
#include "iox2sd_config.hpp"
#include "iox2sd_conform.hpp"

namespace {

using namespace iox2sd;
using std::string;

UniqueNodeId node(std::uint32_t counter) { return UniqueNodeId::create(1, 2, 3, counter).value(); }
TypeDetail type(std::string_view name, std::size_t size = 8) {
    return TypeDetail::create(TypeVariant::FixedSize, name, size, 8).value();
}

template <class T>
string streamed(const T& value) {
    std::ostringstream out;
    out << value;
    return out.str();
}

// ---- What a caller's function throws ----

struct Thrown {};

template <class Call>
bool throws(Call call) {
    try {
        static_cast<void>(call());
    } catch (const Thrown&) {
        return true;
    }
    return false;
}

using Number = Result<int>;
using ToNext = int (*)(int);
using ToNextNoexcept = int (*)(int) noexcept;
using ToHalfNoexcept = Number (*)(int) noexcept;
using ToStatusNoexcept = Status (*)(Status) noexcept;
static_assert(!noexcept(std::declval<const Number&>().transform(std::declval<ToNext>())));
static_assert(noexcept(std::declval<const Number&>().transform(std::declval<ToNextNoexcept>())));
static_assert(noexcept(std::declval<Number>().and_then(std::declval<ToHalfNoexcept>())));
static_assert(
    noexcept(std::declval<const Number&>().transform_error(std::declval<ToStatusNoexcept>())));
// A copy of the value may throw.
static_assert(!noexcept(
    std::declval<const Result<string>&>().transform_error(std::declval<ToStatusNoexcept>())));
static_assert(
    noexcept(std::declval<Result<string>>().transform_error(std::declval<ToStatusNoexcept>())));
static_assert(!noexcept(std::declval<const Result<string>&>().value_or(string())));
static_assert(!noexcept(std::declval<Service&>().remove_dead_node_id(
    std::declval<const UniqueNodeId&>(), std::declval<const std::vector<UniquePortId>&>())));
static_assert(noexcept(std::declval<Service&>().remove_dead_node_id(
    std::declval<const UniqueNodeId&>())));

void functions_that_throw() {
    Result<int> some = 5, none = Status::Null;
    const Result<void> done, refused = Status::Null;
    const auto thrown = [](auto&&...) -> int { throw Thrown(); };
    const auto thrown_result = [](auto&&...) -> Result<int> { throw Thrown(); };
    const auto thrown_void = [](auto&&...) -> Result<void> { throw Thrown(); };
    const auto thrown_status = [](auto&&...) -> Status { throw Thrown(); };
    CHECK(throws([&] { return some.transform(thrown); }));
    CHECK(throws([&] { return std::move(some).transform(thrown); }));
    CHECK(throws([&] { return some.and_then(thrown_result); }));
    CHECK(throws([&] { return std::move(some).and_then(thrown_result); }));
    CHECK(throws([&] { return none.or_else(thrown_result); }));
    CHECK(throws([&] { return std::move(none).or_else(thrown_result); }));
    CHECK(throws([&] { return none.transform_error(thrown_status); }));
    CHECK(throws([&] { return std::move(none).transform_error(thrown_status); }));
    CHECK(throws([&] { return done.transform(thrown); }));
    CHECK(throws([&] { return done.and_then(thrown_result); }));
    CHECK(throws([&] { return refused.or_else(thrown_void); }));
    CHECK(throws([&] { return refused.transform_error(thrown_status); }));
    CHECK(!throws([&] { return none.transform(thrown); }));
    CHECK(!throws([&] { return some.or_else(thrown_result); }));
}

/// A range of ids that throws at the second one.
struct Throwing {
    struct Iterator {
        int at;
        UniquePortId operator*() const {
            if (at == 1) throw Thrown();
            return UniqueListenerId(1, 2, 3, 4);
        }
        Iterator& operator++() {
            ++at;
            return *this;
        }
        bool operator!=(const Iterator& other) const { return at != other.at; }
    };
    Iterator begin() const { return {0}; }
    Iterator end() const { return {2}; }
};

/// A service is as it was where a range throws.
void ranges_that_throw() {
    Service service = Service::create(EventCapacities{1, 1, 1}, 7).value();
    CHECK(service.register_node_id(node(1)));
    CHECK(service.attach(ListenerDetails{UniqueListenerId(1, 2, 3, 9), node(1)}));
    CHECK(throws([&] { return service.remove_dead_node_id(node(1), Throwing()); }));
    CHECK(service.count_ports(Role::Listener) == std::size_t{1});
    const int items[] = {1, 2};
    CHECK(throws([&] {
        return List<int>::of(items, 2, [](int n) -> int {
            if (n == 2) throw Thrown();
            return n;
        });
    }));
}

// ---- What results become ----

Result<StaticConfig> described(std::string_view name, std::string_view key) {
    const auto own = ServiceName::create(name);
    if (!own) return own.error();
    const auto of = AttributeKey::create(key);
    if (!of) return of.error();
    return StaticConfig::create(*own, UniqueServiceId(1, 2, 3, 4), AttributeSet(),
                                EventSettings::defaults());
}

Result<void> checked(const EventSettings& settings) { return settings.check(); }

void conversions() {
    CHECK(described("iox2://a", "k") == Status::ReservedPrefix);
    CHECK(described("a", "") == Status::Empty && described("a", "k"));
    EventSettings late = EventSettings::defaults();
    CHECK(checked(late));
    late.deadline = Duration(0, 1000000000);
    CHECK(checked(late) == Status::BadDuration);
    const Result<string, TextError> owned = Result<const char*, TextError>("abc");
    CHECK(*owned == "abc");
    const Result<string> only_status = Result<string, TextError>(TextError{Status::TooLong, 3});
    CHECK(only_status == Status::TooLong);
    const Result<UniquePortId> port = Result<UniqueListenerId>(UniqueListenerId(1, 2, 3, 4));
    CHECK(port->role() == Role::Listener);
    static_assert(!std::is_convertible_v<Result<int>, Result<bool>>);
    static_assert(!std::is_convertible_v<Result<int>, Result<char>>);
    static_assert(!std::is_convertible_v<Result<string>, Result<string, TextError>>);
    static_assert(!std::is_convertible_v<Result<int>, Result<void>>);
    static_assert(std::is_convertible_v<Result<void, SettingsError>, Result<void>>);
}

void errors() {
    const Result<int> some = 5, none = Status::TooLong;
    const auto retried = [](Status status) -> Result<int> {
        if (status != Status::TooLong) return status;
        return 9;
    };
    CHECK(some.or_else(retried) == 5 && none.or_else(retried) == 9);
    CHECK(Result<int>(Status::Null).or_else(retried) == Status::Null);
    const auto placed = [](Status status) { return TextError{status, 3}; };
    const Result<int, TextError> more = none.transform_error(placed);
    CHECK((more == TextError{Status::TooLong, 3}) && some.transform_error(placed) == 5);
    CHECK(Result<int>(4).transform_error(placed).value() == 4);
    const auto in_words = [](Status status) { return string(text(status)); };
    CHECK(none.transform_error(in_words).error() == text(Status::TooLong));

    const Result<void> done, refused = Status::TooLarge;
    done.value();
    *done;
    const auto forgiven = [](Status) { return Result<void>(); };
    CHECK(done.or_else(forgiven) && refused.or_else(forgiven));
    CHECK(refused.transform_error(placed).status() == Status::TooLarge);
    CHECK(done.transform_error(placed).has_value());
    static_assert(std::is_void_v<decltype(done.value())> && std::is_void_v<decltype(*done)>);

    const auto listed = [](std::string_view bytes) {
        return List<char>::of(bytes.data(), bytes.size(), [](char byte) noexcept { return byte; });
    };
    const List<char> list = listed("abc").value();
    const std::string_view view = list;
    CHECK(view == "abc" && string(view) == "abc" && Path::create(list).value() == "abc");
    static_assert(std::is_convertible_v<const List<char>&, std::string_view>);
    static_assert(!std::is_convertible_v<List<char>, std::string_view>);
    static_assert(!std::is_convertible_v<const List<int>&, std::string_view>);
}

// ---- Words ----

void words() {
    static_assert(std::is_same_v<decltype(text(Status::Done)), std::string_view>);
    CHECK(text(Role::Publisher) == "publisher" && text(Role{9}) == "unknown role");
    CHECK(text(PatternKind::RequestResponse) == "request-response");
    CHECK(text(PatternKind{4}) == "unknown messaging pattern");
    CHECK(text(SettingsField::MaxNodes) == "max_nodes" && text(SettingsField::Deadline) == "deadline");
    CHECK(text(SettingsField{32}) == "unknown field");
    CHECK(text(MessagePart::UserHeader) == "user header" && text(MessagePart{3}) == "unknown part");
    CHECK(streamed(Role::Writer) == "writer" && streamed(PatternKind::Event) == "event");
    CHECK(streamed(SettingsField::HistorySize) == "history_size");
    CHECK(streamed(MessagePart::Payload) == "payload");
    const string too_long(text(Status::TooLong)), illegal(text(Status::IllegalByte));
    CHECK(streamed(TextError{Status::TooLong, 255}) == too_long + ": at most 255 bytes");
    CHECK(streamed(TextError{Status::IllegalByte, 0}) == illegal + ": at 0");
    CHECK(streamed(TextError{Status::Empty, 0}) == text(Status::Empty));
    CHECK((streamed(SettingsError{Status::Unmet, SettingsField::MaxSubscribers}) ==
           "max_subscribers: a setting is not what the opener requires"));
    CHECK((streamed(IncompatibleTypes{Status::OtherSize, MessagePart::Payload}) ==
           "payload: " + string(text(Status::OtherSize))));
    const AttributeKey color = AttributeKey::create("color").value();
    const AttributeValue blue = AttributeValue::create("blue").value();
    const string no_pair(text(Status::MissingPair)), no_key(text(Status::MissingKey));
    CHECK((streamed(AttributeVerificationError{Status::MissingPair, color, blue}) ==
           "color=blue: " + no_pair));
    CHECK((streamed(AttributeVerificationError{Status::MissingKey, color, {}}) ==
           "color: " + no_key));
    CHECK(streamed(Config::from_toml("[global\n").error()).rfind("1:8: ", 0) == 0);
    CHECK((streamed(Config::from_toml_file("/nowhere").error()) ==
           "/nowhere: " + string(text(Status::NoFile))));
    // The longest words are cut, and none is refused.
    const AttributeKey longest_key = AttributeKey::create(string(64, 'k')).value();
    const AttributeValue longest = AttributeValue::create(string(256, 'v')).value();
    const AttributeVerificationError error{Status::MissingPair, longest_key, longest};
    CHECK(streamed(error) == string(64, 'k') + '=' + string(256, 'v') + ": " + no_pair);
}

// ---- What does not compile ----

template <class T, class Use, class = void>
constexpr bool is_allowed = false;
template <class T, class Use>
constexpr bool is_allowed<T, Use, std::void_t<decltype(std::declval<Use>()(std::declval<T>()))>> =
    true;

/// Whether a use of an object compiles, and of a temporary does not.
template <class T, class Use>
constexpr bool is_lent(Use) {
    return is_allowed<const T&, Use> && !is_allowed<T, Use> && !is_allowed<const T, Use>;
}
#define LENT(Type, use)                                                                     \
    CHECK(is_lent<Type>([](auto&& object) -> decltype(std::forward<decltype(object)>(object) \
                                                          use) {                            \
        return std::forward<decltype(object)>(object) use;                                  \
    }))

void temporaries() {
    LENT(StaticConfig, .name());
    LENT(StaticConfig, .service_hash());
    LENT(StaticConfig, .unique_service_id());
    LENT(StaticConfig, .attributes());
    LENT(StaticConfig, .messaging_pattern());
    LENT(StaticConfig, .publish_subscribe());
    LENT(StaticConfig, .event());
    LENT(StaticConfig, .request_response());
    LENT(StaticConfig, .blackboard());
    LENT(Attribute, .key());
    LENT(Attribute, .value());
    LENT(AttributeSet, .begin());
    LENT(AttributeSet, .end());
    LENT(AttributeVerifier, .required_attributes());
    LENT(AttributeVerifier, .required_keys());
    LENT(TypeDetail, .type_name());
    LENT(TypeDetail, .as_c());
    LENT(MessageTypeDetails, .as_c());
    LENT(ServiceName, .view());
    LENT(List<int>, .data());
    LENT(List<int>, .begin());
    LENT(List<int>, .end());
    LENT(List<int>, .cbegin());
    LENT(List<int>, .cend());
    LENT(ScriptRun, .replies());
    LENT(LogVerdict, .report());
    LENT(LogVerdict, .words());
    LENT(LogVerdict, .command());
    LENT(LogVerdict, .configurations());
    LENT(Recorder, .service());
    LENT(Service, .as_c());
    // So does a member of the value of a temporary result: `service.nodes()->begin()`.
    LENT(Result<List<UniqueNodeId>>, ->begin());
    LENT(Result<StaticConfig>, ->name());
    // What is copied may be taken of a temporary.
    static_assert(std::is_same_v<decltype(std::declval<List<int>>()[0]), int>);
    static_assert(std::is_same_v<decltype(std::declval<List<int>>().front()), int>);
    static_assert(std::is_same_v<decltype(std::declval<List<int>>().back()), int>);
    static_assert(std::is_same_v<decltype(std::declval<Result<int, TextError>>().error()), TextError>);
    static_assert(std::is_same_v<decltype(std::declval<UniqueServiceId>().parts()), iox2sd_id>);
    // A status of a call is not left unread by mistake, nor a pattern taken for a number.
    static_assert(!std::is_convertible_v<PatternKind, std::uint64_t>);
}

// ---- Fewer steps ----

/// A service from capacities by name, from settings and from a description.
void services_of() {
    const auto is = [](const Result<Service>& made, PatternKind kind, std::size_t first,
                       std::size_t second) {
        const PortRoles roles = made->port_roles().value();
        return made->kind() == kind && made->service_number() == std::uint64_t{7} &&
               made->max_nodes() == std::size_t{2} && made->max_ports(roles.first) == first &&
               made->max_ports(roles.second) == second && *made->has_room_for_node();
    };
    const auto of = [](const auto& described) { return Service::create(described, 7); };
    CHECK(is(of(PublishSubscribeCapacities{2, 3, 4}), PatternKind::PublishSubscribe, 3, 4));
    CHECK(is(of(EventCapacities{2, 3, 4}), PatternKind::Event, 3, 4));
    CHECK(is(of(RequestResponseCapacities{2, 3, 4}), PatternKind::RequestResponse, 3, 4));
    CHECK(is(of(BlackboardCapacities{2, 3, 4}), PatternKind::Blackboard, 3, 4));

    PublishSubscribeSettings samples = PublishSubscribeSettings::defaults();
    samples.max_nodes = 2, samples.max_publishers = 3, samples.max_subscribers = 4;
    EventSettings events = EventSettings::defaults();
    events.max_nodes = 2, events.max_listeners = 3, events.max_notifiers = 4;
    RequestResponseSettings requests = RequestResponseSettings::defaults();
    requests.max_nodes = 2, requests.max_servers = 3, requests.max_clients = 4;
    const BlackboardSettings boards{4, 2};
    CHECK(is(of(samples), PatternKind::PublishSubscribe, 3, 4));
    CHECK(is(of(events), PatternKind::Event, 3, 4));
    CHECK(is(of(requests), PatternKind::RequestResponse, 3, 4));
    CHECK(is(of(boards), PatternKind::Blackboard, 4, 1));

    const MessageTypeDetails message{type("h"), type("u"), type("p")};
    const PublishSubscribeStaticConfig fixed(samples, message);
    CHECK(is(of(fixed), PatternKind::PublishSubscribe, 3, 4));
    const StaticConfig description =
        StaticConfig::create(ServiceName::create("a").value(), UniqueServiceId(1, 2, 3, 4),
                             AttributeSet(), fixed)
            .value();
    CHECK(is(of(description), PatternKind::PublishSubscribe, 3, 4));
    CHECK(is(of(description.messaging_pattern()), PatternKind::PublishSubscribe, 3, 4));
    Service ticketed = Service::create(description, 7, 1).value();
    CHECK(ticketed.register_node_id(node(1)) && !*ticketed.has_room_for_node());

    CHECK(samples.required_amount_of_samples_per_data_segment() ==
          fixed.required_amount_of_samples_per_data_segment(samples.publisher_max_loaned_samples));
    const RequestResponseStaticConfig of_requests(requests, message, message);
    CHECK(requests.required_amount_of_chunks_per_client_data_segment() ==
          of_requests.required_amount_of_chunks_per_client_data_segment(
              requests.max_loaned_requests));
    CHECK(requests.required_amount_of_chunks_per_server_data_segment() ==
          of_requests.required_amount_of_chunks_per_server_data_segment(
              requests.server_max_loaned_responses_per_request));
    samples.publisher_max_loaned_samples = SIZE_MAX;
    CHECK(samples.required_amount_of_samples_per_data_segment() == Status::TooLarge);
}

/// A service is used by calls of C, and crosses to C and back.
void services_of_c() {
    Service service = Service::create(EventCapacities{2, 1, 1}, 7).value();
    CHECK(iox2sd_register_node_id(service.as_c(), node(1).parts()).status == IOX2SD_STATUS_DONE);
    const Service& queried = service;
    CHECK(iox2sd_number_of_nodes(queried.as_c()).count == 1);
    iox2sd_service object = service.release();
    CHECK(service.kind() == Status::NoService && iox2sd_number_of_nodes(&object).count == 1);
    Service back = Service::from_c(object);
    CHECK(back.number_of_nodes() == std::size_t{1});
    CHECK(iox2sd_number_of_nodes(&object).status == IOX2SD_STATUS_NO_SERVICE);
    const iox2sd_id other = {5, 6, 7, 8};
    CHECK(UniqueServiceId(other).parts().counter == 8);
    CHECK(Service::from_c(object).is_locked() == Status::NoService);
}

/// The first reason for which an opener is kept out, in the order of the requirements.
void requirements() {
    const MessageTypeDetails message{type("h"), type("u"), type("p")};
    const MessageTypeDetails other{type("h"), type("u"), type("p", 9)};
    const auto described = [](const MessagingPattern& pattern) {
        AttributeSet set;
        CHECK(set.add(AttributeKey::create("color").value(), AttributeValue::create("red").value()));
        return StaticConfig::create(ServiceName::create("a").value(), UniqueServiceId(1, 2, 3, 4),
                                    set, pattern)
            .value();
    };
    const RequestResponseSettings settings = RequestResponseSettings::defaults();
    RequestResponseSettings more = settings;
    ++more.max_clients;
    const StaticConfig service = described(RequestResponseStaticConfig(settings, message, message));
    AttributeVerifier blue, number;
    CHECK(blue.require(AttributeKey::create("color").value(), AttributeValue::create("blue").value()));
    CHECK(number.require_key(AttributeKey::create("number").value()));
    const auto error = [&service](const MessagingPattern& pattern, const AttributeVerifier& verifier) {
        return service.satisfies({pattern, verifier}).error();
    };
    const auto requests = [](const RequestResponseSettings& own, const MessageTypeDetails& request,
                             const MessageTypeDetails& response) {
        return RequestResponseStaticConfig(own, request, response);
    };
    CHECK(service.satisfies({requests(settings, message, message)}));
    const OpenError pattern = error(EventSettings::defaults(), blue);
    CHECK(pattern.status == Status::OtherPattern && pattern.requirement == Requirement::Pattern);
    const OpenError pair = error(requests(more, other, other), blue);
    CHECK(pair.status == Status::MissingPair && pair.key == "color" && pair.value == "blue");
    CHECK(streamed(pair) == "color=blue: " + string(text(Status::MissingPair)));
    const OpenError key = error(requests(more, other, other), number);
    CHECK(key.status == Status::MissingKey && key.requirement == Requirement::Attributes);
    CHECK(streamed(key) == "number: " + string(text(Status::MissingKey)));
    const AttributeVerifier none;
    const OpenError types = error(requests(more, other, other), none);
    CHECK(types.status == Status::OtherSize && types.requirement == Requirement::Messages);
    CHECK(types.part == MessagePart::Payload);
    CHECK(streamed(types) == "payload: " + string(text(Status::OtherSize)));
    const OpenError responses = error(requests(more, message, other), none);
    CHECK(responses.status == Status::OtherSize && responses.requirement == Requirement::Responses);
    CHECK(streamed(responses) == "responses, payload: " + string(text(Status::OtherSize)));
    const OpenError unmet = error(requests(more, message, message), none);
    CHECK(unmet.status == Status::Unmet && unmet.field == SettingsField::MaxClients);
    CHECK(streamed(unmet) == "max_clients: a setting is not what the opener requires");

    const BlackboardSettings boards{4, 2};
    const StaticConfig board = described(BlackboardStaticConfig(boards, type("k")));
    CHECK(board.satisfies({BlackboardStaticConfig(boards, type("k"))}));
    const auto keys = board.satisfies({BlackboardStaticConfig(boards, type("l"))});
    CHECK(keys.error().requirement == Requirement::Keys && keys.status() == Status::OtherName);
    CHECK(streamed(keys.error()) == "key: " + string(text(Status::OtherName)));
    const StaticConfig samples =
        described(PublishSubscribeStaticConfig(PublishSubscribeSettings::defaults(), message));
    CHECK(samples.satisfies({samples.messaging_pattern()}));
    CHECK(described(EventSettings::defaults()).satisfies({EventSettings::defaults()}));
}

}  // namespace

int main() {
    functions_that_throw();
    ranges_that_throw();
    conversions();
    errors();
    words();
    temporaries();
    services_of();
    services_of_c();
    requirements();
    return end_of_checks();
}
