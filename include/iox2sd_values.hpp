/// Attributes, messages, settings and descriptions of iox2sd.hpp, which explains the rules.
#ifndef IOX2SD_VALUES_HPP
#define IOX2SD_VALUES_HPP

#include "iox2sd_text.hpp"

namespace iox2sd {

// ---- Attributes ----

/// A key with a value.
class Attribute {
public:
    Attribute(const AttributeKey& key, const AttributeValue& value) noexcept
        : key_(key), value_(value) {}

    IOX2SD_LENDS(const AttributeKey&, key, key_);
    IOX2SD_LENDS(const AttributeValue&, value, value_);

    /// Attributes are ordered by the bytes of their keys, and then of their values.
    IOX2SD_FIELDS(key_, value_);

private:
    friend class AttributeSet;
    Attribute() noexcept = default;

    AttributeKey key_;
    AttributeValue value_;
};

namespace detail {

constexpr std::size_t max_attributes = 16;

/// Attributes as the C header takes them, with capacity for one more than a set may have.
struct Pairs {
    iox2sd_attribute items[max_attributes + 1];
    std::size_t size = 0;

    void push(const Attribute& attribute) noexcept {
        items[size++] = {bytes(attribute.key()), attribute.key().size(), bytes(attribute.value()),
                         attribute.value().size()};
    }
};

}  // namespace detail

/// The attributes of a service: at most sixteen, sorted. A key may have several values.
class AttributeSet {
public:
    /// The empty set.
    AttributeSet() noexcept = default;

    /// Adds a pair. Error: `TooMany`; then the set is as it was.
    Result<void> add(const AttributeKey& key, const AttributeValue& value) noexcept {
        const Attribute added(key, value);
        detail::Pairs pairs = as_pairs();
        pairs.push(added);
        const iox2sd_place_answer answer = iox2sd_attributes_sort(pairs.items, pairs.size);
        if (answer.status != IOX2SD_STATUS_DONE) return Status{answer.status};
        std::size_t index = 0;
        while (pairs.items[index].key != detail::bytes(added.key())) ++index;
        for (std::size_t i = size_; i > index; --i) items_[i] = items_[i - 1];
        items_[index] = added;
        ++size_;
        return {};
    }

    std::size_t number_of_attributes() const noexcept { return size_; }
    static constexpr std::size_t capacity() noexcept { return detail::max_attributes; }
    IOX2SD_LENDS(const Attribute*, begin, items_);
    IOX2SD_LENDS(const Attribute*, end, items_ + size_);

    /// How many values a key has. Nothing is refused: the key and the pairs are legal.
    std::size_t number_of_key_values(const AttributeKey& key) const noexcept {
        const detail::Pairs pairs = as_pairs();
        return iox2sd_attributes_number_of_key_values(pairs.items, pairs.size, detail::bytes(key),
                                                      key.size())
            .count;
    }

    /// The value at an index, from 0 on, of the values of a key, from the least on.
    /// Error: `NoSuchValue`.
    Result<AttributeValue> key_value(const AttributeKey& key, std::size_t index) const noexcept {
        const detail::Pairs pairs = as_pairs();
        const auto found = Text<256>::written_by(iox2sd_attributes_key_value, pairs.items,
                                                 pairs.size, detail::bytes(key), key.size(), index);
        if (!found) return found.status();
        return AttributeValue(*found, detail::FromLibrary{});
    }

    /// Sets are equal where they have the same pairs as often, and ordered by the first pair that
    /// differs; a set that another one begins with is less.
    IOX2SD_FIELDS(detail::Row<Attribute>{items_, size_});

private:
    friend class AttributeVerifier;

    detail::Pairs as_pairs() const noexcept {
        detail::Pairs pairs;
        for (const Attribute& attribute : *this) pairs.push(attribute);
        return pairs;
    }

    Attribute items_[detail::max_attributes];
    std::size_t size_ = 0;
};

/// What keeps an opener out: `MissingPair`, of the least required pair that is not there, or else
/// `MissingKey`, of the first required key.
struct AttributeVerificationError {
    Status status;
    AttributeKey key;
    /// The value that was required, where a pair is missing.
    std::optional<AttributeValue> value;

    IOX2SD_FIELDS(status, key, value);

    /// In words, as "color=blue: .." or "color: ..".
    Text<383> text() const noexcept {
        const std::string_view words = iox2sd::text(status);
        if (!value) return Text<383>::joined({key, ": ", words});
        return Text<383>::joined({key, "=", *value, ": ", words});
    }
};
IOX2SD_WRITTEN(AttributeVerificationError);

/// What an opener requires of the attributes of a service: pairs and keys, at most sixteen
/// together.
class AttributeVerifier {
public:
    /// A verifier that requires nothing.
    AttributeVerifier() noexcept = default;

    /// Requires a pair. Error: `TooManyRequired`; then the verifier is as it was.
    Result<void> require(const AttributeKey& key, const AttributeValue& value) noexcept {
        detail::Pairs pairs = required_.as_pairs();
        const Attribute added(key, value);
        pairs.push(added);
        const Result<void> room = has_room(pairs, keys_as_c());
        return room ? required_.add(key, value) : room;
    }

    /// Requires that a key has some value. Error: `TooManyRequired`; then the verifier is as it
    /// was.
    Result<void> require_key(const AttributeKey& key) noexcept {
        Keys keys = keys_as_c();
        keys.items[keys.size++] = {detail::bytes(key), key.size()};
        const Result<void> room = has_room(required_.as_pairs(), keys);
        if (room) keys_[number_of_keys_++] = key;
        return room;
    }

    IOX2SD_LENDS(const AttributeSet&, required_attributes, required_);

    /// The required keys, in the order in which they were required.
    struct KeyRange {
        const AttributeKey* first;
        const AttributeKey* last;
        const AttributeKey* begin() const noexcept { return first; }
        const AttributeKey* end() const noexcept { return last; }
        std::size_t size() const noexcept { return static_cast<std::size_t>(last - first); }
    };
    IOX2SD_LENDS(KeyRange, required_keys, (KeyRange{keys_, keys_ + number_of_keys_}));

    /// Whether a set has each required pair, and each required key.
    Result<void, AttributeVerificationError> verify_requirements(
        const AttributeSet& attributes) const noexcept {
        const iox2sd_place_answer answer =
            verify(attributes.as_pairs(), required_.as_pairs(), keys_as_c());
        if (answer.status == IOX2SD_STATUS_DONE) return {};
        if (answer.status == IOX2SD_STATUS_MISSING_KEY) {
            return AttributeVerificationError{Status::MissingKey, keys_[answer.at], {}};
        }
        const Attribute& missing = required_.begin()[answer.at];
        return AttributeVerificationError{Status{answer.status}, missing.key(), missing.value()};
    }

    /// Verifiers are equal where they require the same pairs as often, and the same keys in the
    /// same order.
    IOX2SD_FIELDS(required_, (detail::Row<AttributeKey>{keys_, number_of_keys_}));

private:
    struct Keys {
        iox2sd_key items[detail::max_attributes + 1];
        std::size_t size = 0;
    };

    Keys keys_as_c() const noexcept {
        Keys keys;
        for (const AttributeKey& key : required_keys()) {
            keys.items[keys.size++] = {detail::bytes(key), key.size()};
        }
        return keys;
    }

    static iox2sd_place_answer verify(const detail::Pairs& set, const detail::Pairs& required,
                                      const Keys& keys) noexcept {
        return iox2sd_attributes_verify(set.items, set.size, required.items, required.size,
                                        keys.items, keys.size);
    }

    /// Whether a verifier may require so much, which is reported before anything is missing.
    static Result<void> has_room(const detail::Pairs& required, const Keys& keys) noexcept {
        const iox2sd_place_answer answer = verify(detail::Pairs{}, required, keys);
        if (answer.status == IOX2SD_STATUS_TOO_MANY_REQUIRED) return Status::TooManyRequired;
        return {};
    }

    AttributeSet required_;
    AttributeKey keys_[detail::max_attributes];
    std::size_t number_of_keys_ = 0;
};

// ---- Messages ----

/// How many values of a type a message has.
enum class TypeVariant : std::uint32_t {
    FixedSize = IOX2SD_VARIANT_FIXED_SIZE,  ///< One.
    Dynamic = IOX2SD_VARIANT_DYNAMIC,       ///< Any number, one after another.
};

/// The parts of a message.
enum class MessagePart : std::uint32_t {
    Header = IOX2SD_PART_HEADER,
    UserHeader = IOX2SD_PART_USER_HEADER,
    Payload = IOX2SD_PART_PAYLOAD,
};

/// The words for a part of a message, as "user header".
IOX2SD_WORDS(MessagePart, iox2sd_part_str);

/// The type of one part of a message.
class TypeDetail {
public:
    /// The type with this name, of at most 256 bytes, each from 1 to 127, with a size in bytes and
    /// an alignment that is a power of two.
    /// Errors: `UnknownVariant`; `NotUtf8`, `TooLong`, `IllegalByte` of the name; `BadAlignment`.
    static Result<TypeDetail> create(TypeVariant variant, std::string_view type_name,
                                     std::size_t size, std::size_t alignment) noexcept {
        const iox2sd_type_detail detail{detail::bytes(type_name), type_name.size(),
                                        static_cast<std::uint32_t>(variant), size, alignment};
        const std::uint32_t status = iox2sd_type_detail_check(&detail);
        if (status != IOX2SD_STATUS_DONE) return Status{status};
        return TypeDetail(variant, TypeName(type_name), size, alignment);
    }

    /// The C++ type `T` under a name that its users agree on. Errors as above.
    template <class T>
    static Result<TypeDetail> of(TypeVariant variant, std::string_view type_name) noexcept {
        return create(variant, type_name, sizeof(T), alignof(T));
    }

    TypeVariant variant() const noexcept { return variant_; }
    IOX2SD_LENDS(std::string_view, type_name, type_name_);
    std::size_t size() const noexcept { return size_; }
    std::size_t alignment() const noexcept { return alignment_; }

    IOX2SD_FIELDS(variant_, type_name_, size_, alignment_);

    /// The type as the C header takes it, which lasts as long as this one.
    iox2sd_type_detail as_c() const& noexcept {
        return {detail::bytes(type_name_), type_name_.size(), static_cast<std::uint32_t>(variant_),
                size_, alignment_};
    }
    iox2sd_type_detail as_c() const&& = delete;

private:
    struct TypeName : Text<256> {
        explicit TypeName(std::string_view name) noexcept : Text<256>(name) {}
    };

    TypeDetail(TypeVariant variant, const TypeName& name, std::size_t size,
               std::size_t alignment) noexcept
        : variant_(variant), type_name_(name), size_(size), alignment_(alignment) {}

    TypeVariant variant_;
    TypeName type_name_;
    std::size_t size_;
    std::size_t alignment_;
};

/// The layout of a message, in bytes.
struct Layout {
    std::size_t size;       ///< At most 2^63 - 1.
    std::size_t alignment;  ///< The alignment of the message.

    IOX2SD_FIELDS(size, alignment);
};

/// The offsets of two parts of a message. Nothing is read there.
struct MessagePlaces {
    std::size_t user_header;
    std::size_t payload;

    IOX2SD_FIELDS(user_header, payload);
};

/// Why an opener may not use the messages of a service: `OtherName`, `OtherVariant`, `OtherSize`,
/// `OtherAlignment` of the header, or `GreaterAlignment` of another part.
struct IncompatibleTypes {
    Status status;
    MessagePart part;

    IOX2SD_FIELDS(status, part);

    /// In words, as "payload: ..".
    Text<127> text() const noexcept {
        return Text<127>::joined({iox2sd::text(part), ": ", iox2sd::text(status)});
    }
};
IOX2SD_WRITTEN(IncompatibleTypes);

/// The parts of a message, which lie one after another.
struct MessageTypeDetails {
    TypeDetail header;
    TypeDetail user_header;
    TypeDetail payload;

    IOX2SD_FIELDS(header, user_header, payload);

    /// The layout of a message whose payload has so many elements. All parts lie in it, apart and
    /// aligned, for the service and for every compatible opener. Call it on the service's details:
    /// those of an opener, with smaller alignments, give other offsets and smaller sizes.
    /// Error: `TooLarge` past 2^63 - 1 bytes.
    Result<Layout> sample_layout(std::size_t number_of_elements) const noexcept {
        const iox2sd_message_details details = as_c();
        const iox2sd_layout_answer answer =
            iox2sd_message_sample_layout(&details, number_of_elements);
        return detail::result(answer.status, Layout{answer.size, answer.alignment});
    }

    /// The offsets of user header and payload in a message that begins at the offset or address
    /// `start`, by the service's details too.
    /// Error: `TooLarge` where the payload's offset would pass 2^64 - 1.
    Result<MessagePlaces> places(std::size_t start) const noexcept {
        const iox2sd_message_details details = as_c();
        const iox2sd_places_answer answer = iox2sd_message_places(&details, start);
        return detail::result(answer.status, MessagePlaces{answer.user_header, answer.payload});
    }

    /// Whether an opener with these details may use the messages of a service with those: equal
    /// headers, and user headers and payloads that are equal but for alignments, which are at most
    /// those of the service. Reported is the first part that keeps the opener out.
    Result<void, IncompatibleTypes> is_compatible_to(
        const MessageTypeDetails& service) const noexcept {
        const iox2sd_message_details opener = as_c(), other = service.as_c();
        const iox2sd_part_answer answer = iox2sd_message_is_compatible_to(&other, &opener);
        if (answer.status == IOX2SD_STATUS_DONE) return {};
        return IncompatibleTypes{Status{answer.status}, MessagePart{answer.part}};
    }

    /// The details as the C header takes them, which last as long as these.
    iox2sd_message_details as_c() const& noexcept {
        return {header.as_c(), user_header.as_c(), payload.as_c()};
    }
    iox2sd_message_details as_c() const&& = delete;
};

// ---- Settings ----

/// What a sender does where a receiver's buffer is full and may not overflow.
enum class BackpressureStrategy : std::uint32_t {
    /// It tries until the message fits.
    RetryUntilDelivered = IOX2SD_BACKPRESSURE_RETRY_UNTIL_DELIVERED,
    DiscardData = IOX2SD_BACKPRESSURE_DISCARD_DATA,                   ///< It skips this receiver.
};

/// How a data segment grows for messages whose length is known only at run time.
enum class AllocationStrategy : std::uint32_t {
    BestFit = IOX2SD_ALLOCATION_BEST_FIT,         ///< By as much as the message needs.
    PowerOfTwo = IOX2SD_ALLOCATION_POWER_OF_TWO,  ///< To the next power of two.
    Static = IOX2SD_ALLOCATION_STATIC,            ///< It does not grow.
};

namespace detail {

/// Where a type is a `std::chrono::duration` of whole numbers, in steps from a nanosecond to years.
/// It is recognised by its members: `<chrono>` takes long to compile, and is left to those who use
/// it.
template <class Span>
using IfSpan =
    std::enable_if_t<std::is_integral_v<typename Span::rep> &&
                     (Span::period::den <= 1000000000) && (Span::period::num <= 1000000000)>;

}  // namespace detail

/// A span of time.
struct Duration {
    std::uint64_t seconds = 0;
    std::uint32_t nanoseconds = 0;  ///< Beside the seconds, below 1,000,000,000.

    constexpr Duration() noexcept = default;
    constexpr Duration(std::uint64_t seconds_, std::uint32_t nanoseconds_) noexcept
        : seconds(seconds_), nanoseconds(nanoseconds_) {}

    /// A `std::chrono::duration` of whole numbers, cut to whole nanoseconds: `deadline = 10ms`.
    /// A negative one, and one of 2^64 seconds or more, has nanoseconds that no check lets through.
    template <class Span, class = detail::IfSpan<Span>>
    constexpr Duration(const Span& span) noexcept : nanoseconds(UINT32_MAX) {
        constexpr std::uint64_t num = Span::period::num, den = Span::period::den;
        if constexpr (std::is_signed_v<typename Span::rep>) {
            if (span.count() < 0) return;
        }
        const auto count = static_cast<std::uint64_t>(span.count());
        // The parts of a second that stand beside whole periods of `num` seconds.
        const std::uint64_t whole = count / den, parts = count % den * num;
        if (whole > (UINT64_MAX - parts / den) / num) return;
        seconds = whole * num + parts / den;
        nanoseconds = static_cast<std::uint32_t>(parts % den * 1000000000 / den);
    }

    /// The span as a `std::chrono::duration` of whole numbers, cut to whole ones. Errors:
    /// `BadDuration` of nanoseconds of 1,000,000,000 or more; `TooLarge`, past the type's range.
    template <class Span, class = detail::IfSpan<Span>>
    constexpr Result<Span> to() const noexcept {
        using Count = typename Span::rep;
        constexpr std::uint64_t num = Span::period::num, den = Span::period::den;
        constexpr auto most = static_cast<std::uint64_t>(
            static_cast<std::make_unsigned_t<Count>>(-1) >> (std::is_signed_v<Count> ? 1 : 0));
        if (nanoseconds >= 1000000000) return Status::BadDuration;
        const std::uint64_t parts = seconds % num * den + nanoseconds * den / 1000000000;
        const std::uint64_t whole = seconds / num;
        if (parts / num > most || whole > (most - parts / num) / den) return Status::TooLarge;
        return Span(static_cast<Count>(whole * den + parts / num));
    }

    IOX2SD_FIELDS(seconds, nanoseconds);

    /// The span that a struct of the C header has, and the span as one.
    template <class C>
    static constexpr Duration from_c(const C& c) noexcept {
        return {c.seconds, c.nanoseconds};
    }
    iox2sd_duration as_c() const noexcept { return {seconds, nanoseconds}; }
};

/// The number of an event.
struct EventId {
    std::size_t value;

    IOX2SD_FIELDS(value);

    /// The number that a struct of the C header has.
    static EventId from_c(const iox2sd_optional_event_id& c) noexcept { return {c.number}; }
};

/// The fields of settings that may be invalid, and from `MaxSubscribers` on, with `Deadline`, what
/// is fixed of a service.
enum class SettingsField : std::uint32_t {
    BackpressureStrategy = IOX2SD_FIELD_BACKPRESSURE_STRATEGY,
    PublisherAllocationStrategy = IOX2SD_FIELD_PUBLISHER_ALLOCATION_STRATEGY,
    Deadline = IOX2SD_FIELD_DEADLINE,
    ClientBackpressureStrategy = IOX2SD_FIELD_CLIENT_BACKPRESSURE_STRATEGY,
    ServerBackpressureStrategy = IOX2SD_FIELD_SERVER_BACKPRESSURE_STRATEGY,
    ClientAllocationStrategy = IOX2SD_FIELD_CLIENT_ALLOCATION_STRATEGY,
    ServerAllocationStrategy = IOX2SD_FIELD_SERVER_ALLOCATION_STRATEGY,
    CreationTimeout = IOX2SD_FIELD_CREATION_TIMEOUT,
    MaxSubscribers = IOX2SD_FIELD_MAX_SUBSCRIBERS,
    MaxPublishers = IOX2SD_FIELD_MAX_PUBLISHERS,
    HistorySize = IOX2SD_FIELD_HISTORY_SIZE,
    SubscriberMaxBufferSize = IOX2SD_FIELD_SUBSCRIBER_MAX_BUFFER_SIZE,
    SubscriberMaxBorrowedSamples = IOX2SD_FIELD_SUBSCRIBER_MAX_BORROWED_SAMPLES,
    EnableSafeOverflow = IOX2SD_FIELD_ENABLE_SAFE_OVERFLOW,
    MaxNotifiers = IOX2SD_FIELD_MAX_NOTIFIERS,
    MaxListeners = IOX2SD_FIELD_MAX_LISTENERS,
    EventIdMaxValue = IOX2SD_FIELD_EVENT_ID_MAX_VALUE,
    NotifierCreatedEvent = IOX2SD_FIELD_NOTIFIER_CREATED_EVENT,
    NotifierDroppedEvent = IOX2SD_FIELD_NOTIFIER_DROPPED_EVENT,
    NotifierDeadEvent = IOX2SD_FIELD_NOTIFIER_DEAD_EVENT,
    EnableSafeOverflowForRequests = IOX2SD_FIELD_ENABLE_SAFE_OVERFLOW_FOR_REQUESTS,
    EnableSafeOverflowForResponses = IOX2SD_FIELD_ENABLE_SAFE_OVERFLOW_FOR_RESPONSES,
    EnableFireAndForgetRequests = IOX2SD_FIELD_ENABLE_FIRE_AND_FORGET_REQUESTS,
    MaxActiveRequestsPerClient = IOX2SD_FIELD_MAX_ACTIVE_REQUESTS_PER_CLIENT,
    MaxLoanedRequests = IOX2SD_FIELD_MAX_LOANED_REQUESTS,
    MaxResponseBufferSize = IOX2SD_FIELD_MAX_RESPONSE_BUFFER_SIZE,
    MaxServers = IOX2SD_FIELD_MAX_SERVERS,
    MaxClients = IOX2SD_FIELD_MAX_CLIENTS,
    MaxBorrowedResponsesPerPendingResponse =
        IOX2SD_FIELD_MAX_BORROWED_RESPONSES_PER_PENDING_RESPONSE,
    MaxReaders = IOX2SD_FIELD_MAX_READERS,
    MaxWriters = IOX2SD_FIELD_MAX_WRITERS,
    MaxNodes = IOX2SD_FIELD_MAX_NODES,
};

/// The name of a field, as "max_subscribers".
IOX2SD_WORDS(SettingsField, iox2sd_field_str);

/// The first field of settings that is invalid: `UnknownStrategy`, or `BadDuration` of nanoseconds
/// of 1,000,000,000 or more. Or the first that is not what an opener requires: `Unmet`.
struct SettingsError {
    Status status;
    SettingsField field;

    IOX2SD_FIELDS(status, field);

    /// In words, as "max_subscribers: ..".
    Text<127> text() const noexcept {
        return Text<127>::joined({iox2sd::text(field), ": ", iox2sd::text(status)});
    }
};
IOX2SD_WRITTEN(SettingsError);

namespace detail {

inline Result<void, SettingsError> valid(const iox2sd_field_answer& answer) noexcept {
    if (answer.status == IOX2SD_STATUS_DONE) return {};
    return SettingsError{Status{answer.status}, SettingsField{answer.field}};
}

inline iox2sd_optional_event_id as_c(const std::optional<EventId>& event) noexcept {
    if (!event) return {};
    return {event->value, true};
}

inline iox2sd_optional_duration as_c(const std::optional<Duration>& duration) noexcept {
    if (!duration) return {};
    return {duration->seconds, duration->nanoseconds, true};
}

}  // namespace detail

/// `satisfies` is whether a service meets what an opener requires: each number is at least the
/// required one, and each choice, each event and the length of a deadline are the same. Types are
/// not compared. What is fixed of a service crosses to C by the same names.
/// Errors: `BadDuration` of a deadline; `Unmet`, with the first field that is not met, in the order
/// of the fields of the C header.
#define IOX2SD_FIXED(Fixed, pattern, ...)                                                         \
    Result<void, SettingsError> satisfies(const Fixed& required) const noexcept {                 \
        const iox2sd_##pattern##_config has = fixed_as_c(), wanted = required.fixed_as_c();       \
        return detail::valid(iox2sd_##pattern##_satisfies(&has, &wanted));                        \
    }                                                                                             \
                                                                                                  \
private:                                                                                          \
    iox2sd_##pattern##_config fixed_as_c() const noexcept {                                       \
        iox2sd_##pattern##_config c{};                                                            \
        IOX2SD_EACH(IOX2SD_AS_C, __VA_ARGS__)                                                     \
        return c;                                                                                 \
    }                                                                                             \
    static_assert(true, "a semicolon follows")

/// Settings cross to C and back, and `defaults` are those where nothing else is said.
#define IOX2SD_SETTINGS(Settings, pattern, ...)                                                   \
    IOX2SD_OF_C(Settings, iox2sd_##pattern##_settings, __VA_ARGS__);                              \
    static Settings defaults() noexcept { return from_c(iox2sd_##pattern##_defaults()); }         \
    static_assert(true, "a semicolon follows")
/// `check` is whether all fields are valid.
#define IOX2SD_CHECK_OF(pattern)                                                                   \
    Result<void, SettingsError> check() const noexcept {                                          \
        const iox2sd_##pattern##_settings c = as_c();                                             \
        return detail::valid(iox2sd_##pattern##_settings_check(&c));                              \
    }                                                                                             \
    static_assert(true, "a semicolon follows")

/// The settings that all services and nodes of one system share, beside its texts.
struct GlobalSettings {
    Duration creation_timeout;  ///< How long an opener waits until the creator is ready.
    /// Whether the remains of dead nodes are removed first when a service is opened; when a node is
    /// created; when a node is dropped.
    bool cleanup_dead_nodes_on_open;
    bool cleanup_dead_nodes_on_creation;
    bool cleanup_dead_nodes_on_destruction;

    IOX2SD_SETTINGS(GlobalSettings, global, creation_timeout, cleanup_dead_nodes_on_open,
                    cleanup_dead_nodes_on_creation, cleanup_dead_nodes_on_destruction);
    IOX2SD_CHECK_OF(global);
};

/// The settings of a publish-subscribe service.
struct PublishSubscribeSettings {
    std::size_t max_subscribers;  ///< How many subscribers may be attached at once.
    std::size_t max_publishers;   ///< How many publishers may be attached at once.
    std::size_t max_nodes;        ///< How many nodes may use the service at once.
    std::size_t subscriber_max_buffer_size;       ///< Samples in a subscriber's buffer.
    std::size_t subscriber_max_borrowed_samples;  ///< Samples that a subscriber may hold at once.
    std::size_t publisher_max_loaned_samples;     ///< Samples that a publisher may have unsent.
    std::size_t publisher_history_size;           ///< Samples kept for later subscribers.
    std::size_t subscriber_expired_connection_buffer;  ///< Connections of publishers now gone.
    BackpressureStrategy backpressure_strategy;  ///< What a publisher does at a full buffer.
    AllocationStrategy publisher_allocation_strategy;  ///< How its data segment grows.
    bool enable_safe_overflow;  ///< Whether a new sample replaces the oldest in a full buffer.

    IOX2SD_SETTINGS(PublishSubscribeSettings, publish_subscribe, max_subscribers, max_publishers,
                    max_nodes, subscriber_max_buffer_size, subscriber_max_borrowed_samples,
                    publisher_max_loaned_samples, publisher_history_size,
                    subscriber_expired_connection_buffer, backpressure_strategy,
                    publisher_allocation_strategy, enable_safe_overflow);
    IOX2SD_CHECK_OF(publish_subscribe);

    /// The greatest number of one publisher's samples that can be in use at once, which its data
    /// segment is made for. Error: `TooLarge` past 2^64 - 1.
    Result<std::size_t> required_amount_of_samples_per_data_segment() const noexcept {
        const iox2sd_publish_subscribe_settings c = as_c();
        return detail::result(iox2sd_samples_of(&c));
    }
};

/// The settings of an event service. They are its description too.
struct EventSettings {
    std::size_t max_listeners;         ///< How many listeners may be attached at once.
    std::size_t max_notifiers;         ///< How many notifiers may be attached at once.
    std::size_t max_nodes;             ///< How many nodes may use the service at once.
    std::size_t event_id_max_value;    ///< The greatest number of an event.
    std::optional<Duration> deadline;  ///< The longest time between two events.
    std::optional<EventId> notifier_created_event;  ///< That which reports a new notifier.
    std::optional<EventId> notifier_dropped_event;  ///< That which reports that one went.
    std::optional<EventId> notifier_dead_event;     ///< That of a notifier whose node died.

    IOX2SD_SETTINGS(EventSettings, event, max_listeners, max_notifiers, max_nodes,
                    event_id_max_value, deadline, notifier_created_event, notifier_dropped_event,
                    notifier_dead_event);
    IOX2SD_CHECK_OF(event);

    IOX2SD_FIXED(EventSettings, event, max_notifiers, max_listeners, max_nodes, event_id_max_value,
                 deadline, notifier_created_event, notifier_dropped_event, notifier_dead_event);
};

/// The settings of a request-response service.
struct RequestResponseSettings {
    std::size_t max_active_requests_per_client;  ///< Open at each server at once.
    std::size_t max_response_buffer_size;        ///< Responses to one request in a client's buffer.
    std::size_t max_servers;                     ///< How many servers may be attached at once.
    std::size_t max_clients;                     ///< How many clients may be attached at once.
    std::size_t max_nodes;                       ///< How many nodes may use the service at once.
    /// Responses to one request that a client may hold at once.
    std::size_t max_borrowed_responses_per_pending_response;
    std::size_t max_loaned_requests;  ///< Requests that a client may have unsent.
    /// Responses to one request that a server may have unsent.
    std::size_t server_max_loaned_responses_per_request;
    /// Connections of gone servers and gone pending responses that a client keeps.
    std::size_t client_expired_connection_buffer;
    /// Connections of gone clients that each server keeps.
    std::size_t server_expired_connection_buffer;
    BackpressureStrategy client_backpressure_strategy;  ///< What a client does at a full buffer.
    BackpressureStrategy server_backpressure_strategy;  ///< What a server does at a full buffer.
    AllocationStrategy client_allocation_strategy;      ///< How a client's data segment grows.
    AllocationStrategy server_allocation_strategy;      ///< How a server's data segment grows.
    /// Whether a new request, and a new response, replaces the oldest one in a full buffer.
    bool enable_safe_overflow_for_requests;
    bool enable_safe_overflow_for_responses;
    bool enable_fire_and_forget_requests;  ///< Whether a request may go without a response.

    IOX2SD_SETTINGS(RequestResponseSettings, request_response, max_active_requests_per_client,
                    max_response_buffer_size, max_servers, max_clients, max_nodes,
                    max_borrowed_responses_per_pending_response, max_loaned_requests,
                    server_max_loaned_responses_per_request, client_expired_connection_buffer,
                    server_expired_connection_buffer, client_backpressure_strategy,
                    server_backpressure_strategy, client_allocation_strategy,
                    server_allocation_strategy, enable_safe_overflow_for_requests,
                    enable_safe_overflow_for_responses, enable_fire_and_forget_requests);
    IOX2SD_CHECK_OF(request_response);

    /// The greatest number of one client's requests that can be in use at once. Error: `TooLarge`
    /// past 2^64 - 1.
    Result<std::size_t> required_amount_of_chunks_per_client_data_segment() const noexcept {
        const iox2sd_request_response_settings c = as_c();
        return detail::result(iox2sd_requests_of(&c));
    }
    /// The greatest number of one server's responses that can be in use at once. Error: `TooLarge`
    /// past 2^64 - 1.
    Result<std::size_t> required_amount_of_chunks_per_server_data_segment() const noexcept {
        const iox2sd_request_response_settings c = as_c();
        return detail::result(iox2sd_responses_of(&c));
    }
};

/// The settings of a blackboard service. They are always valid.
struct BlackboardSettings {
    std::size_t max_readers;  ///< How many readers may be attached at once.
    std::size_t max_nodes;    ///< How many nodes may use the service at once.

    IOX2SD_SETTINGS(BlackboardSettings, blackboard, max_readers, max_nodes);
};
#undef IOX2SD_SETTINGS
#undef IOX2SD_CHECK_OF

/// The capacities with which a service of these settings is made, and its pattern. A blackboard has
/// one writer.
#define IOX2SD_CAPACITIES(Pattern, pattern, first, second)                                        \
    inline Capacities capacities(const Pattern##Settings& settings) noexcept {                    \
        const iox2sd_##pattern##_settings c = settings.as_c();                                    \
        const iox2sd_##pattern##_capacities made =                                                \
            iox2sd_##pattern##_capacities_of_settings(&c);                                        \
        return {made.nodes, made.first, made.second};                                             \
    }                                                                                             \
    inline PatternKind kind(const Pattern##Settings&) noexcept { return PatternKind::Pattern; }
IOX2SD_CAPACITIES(PublishSubscribe, publish_subscribe, publishers, subscribers)
IOX2SD_CAPACITIES(Event, event, listeners, notifiers)
IOX2SD_CAPACITIES(RequestResponse, request_response, servers, clients)
IOX2SD_CAPACITIES(Blackboard, blackboard, readers, writers)
#undef IOX2SD_CAPACITIES

/// The texts of the configuration.
enum class ConfigEntry : std::uint32_t {
    RootPath = IOX2SD_TEXT_ROOT_PATH,
    Prefix = IOX2SD_TEXT_PREFIX,
    ServiceDirectory = IOX2SD_TEXT_SERVICE_DIRECTORY,
    DataSegmentSuffix = IOX2SD_TEXT_DATA_SEGMENT_SUFFIX,
    StaticConfigStorageSuffix = IOX2SD_TEXT_STATIC_CONFIG_STORAGE_SUFFIX,
    DynamicConfigStorageSuffix = IOX2SD_TEXT_DYNAMIC_CONFIG_STORAGE_SUFFIX,
    ConnectionSuffix = IOX2SD_TEXT_CONNECTION_SUFFIX,
    EventConnectionSuffix = IOX2SD_TEXT_EVENT_CONNECTION_SUFFIX,
    BlackboardMgmtSuffix = IOX2SD_TEXT_BLACKBOARD_MGMT_SUFFIX,
    BlackboardDataSuffix = IOX2SD_TEXT_BLACKBOARD_DATA_SUFFIX,
    NodeDirectory = IOX2SD_TEXT_NODE_DIRECTORY,
    MonitorSuffix = IOX2SD_TEXT_MONITOR_SUFFIX,
    NodeStaticConfigSuffix = IOX2SD_TEXT_NODE_STATIC_CONFIG_SUFFIX,
    ServiceTagSuffix = IOX2SD_TEXT_SERVICE_TAG_SUFFIX,
    PortTagSuffix = IOX2SD_TEXT_PORT_TAG_SUFFIX,
    GlobalMgmtSuffix = IOX2SD_TEXT_GLOBAL_MGMT_SUFFIX,
    ConfigFileName = IOX2SD_TEXT_CONFIG_FILE_NAME,
    ConfigFilePath = IOX2SD_TEXT_CONFIG_FILE_PATH,
    RelativeConfigPath = IOX2SD_TEXT_RELATIVE_CONFIG_PATH,
    UserConfigFilePath = IOX2SD_TEXT_USER_CONFIG_FILE_PATH,
};

/// A default text of the configuration. Error: `UnknownText`.
inline Result<Text<255>> default_text(ConfigEntry entry) noexcept {
    return Text<255>::written_by(iox2sd_default_text, static_cast<std::uint32_t>(entry));
}

namespace detail {

/// A directory below a root path.
template <class Write>
Result<Path> directory(const Path& root, Write write) noexcept {
    const auto made = Text<255>::written_by(write, bytes(root), root.size());
    if (!made) return made.status();
    return Path(*made, {});
}

}  // namespace detail

/// The directory of services below a root path. Error: `TooLong`, past 255 bytes.
inline Result<Path> service_dir(const Path& root) noexcept {
    return detail::directory(root, iox2sd_service_dir);
}

/// The directory of nodes below a root path. Error: `TooLong`, past 255 bytes.
inline Result<Path> node_dir(const Path& root) noexcept {
    return detail::directory(root, iox2sd_node_dir);
}

// ---- Descriptions ----

#define IOX2SD_FROM_SETTINGS(name) name = settings.name;

/// The description of a publish-subscribe service.
struct PublishSubscribeStaticConfig {
    std::size_t max_subscribers;
    std::size_t max_publishers;
    std::size_t max_nodes;
    std::size_t history_size;
    std::size_t subscriber_max_buffer_size;
    std::size_t subscriber_max_borrowed_samples;
    bool enable_safe_overflow;
    MessageTypeDetails message_type_details;

    PublishSubscribeStaticConfig(const PublishSubscribeSettings& settings,
                                 const MessageTypeDetails& details) noexcept
        : history_size(settings.publisher_history_size), message_type_details(details) {
        IOX2SD_EACH(IOX2SD_FROM_SETTINGS, max_subscribers, max_publishers, max_nodes,
                    subscriber_max_buffer_size, subscriber_max_borrowed_samples,
                    enable_safe_overflow)
    }

    IOX2SD_FIELDS(max_subscribers, max_publishers, max_nodes, history_size,
                  subscriber_max_buffer_size, subscriber_max_borrowed_samples,
                  enable_safe_overflow, message_type_details);

    /// The greatest number of one publisher's samples that can be in use at once, where it may have
    /// so many loaned. Error: `TooLarge` past 2^64 - 1.
    Result<std::size_t> required_amount_of_samples_per_data_segment(
        std::size_t publisher_max_loaned_data) const noexcept {
        return detail::result(iox2sd_required_amount_of_samples_per_data_segment(
            max_subscribers, subscriber_max_buffer_size, subscriber_max_borrowed_samples,
            history_size, publisher_max_loaned_data));
    }

    IOX2SD_FIXED(PublishSubscribeStaticConfig, publish_subscribe, max_subscribers, max_publishers,
                 max_nodes, history_size, subscriber_max_buffer_size,
                 subscriber_max_borrowed_samples, enable_safe_overflow);
};

/// The description of an event service.
using EventStaticConfig = EventSettings;

/// The description of a request-response service.
struct RequestResponseStaticConfig {
    bool enable_safe_overflow_for_requests;
    bool enable_safe_overflow_for_responses;
    bool enable_fire_and_forget_requests;
    std::size_t max_active_requests_per_client;
    std::size_t max_loaned_requests;
    std::size_t max_response_buffer_size;
    std::size_t max_servers;
    std::size_t max_clients;
    std::size_t max_nodes;
    std::size_t max_borrowed_responses_per_pending_response;
    MessageTypeDetails request_message_type_details;
    MessageTypeDetails response_message_type_details;

    RequestResponseStaticConfig(const RequestResponseSettings& settings,
                                const MessageTypeDetails& request,
                                const MessageTypeDetails& response) noexcept
        : request_message_type_details(request), response_message_type_details(response) {
        IOX2SD_EACH(IOX2SD_FROM_SETTINGS, enable_safe_overflow_for_requests,
                    enable_safe_overflow_for_responses, enable_fire_and_forget_requests,
                    max_active_requests_per_client, max_loaned_requests, max_response_buffer_size,
                    max_servers, max_clients, max_nodes,
                    max_borrowed_responses_per_pending_response)
    }

    IOX2SD_FIELDS(enable_safe_overflow_for_requests, enable_safe_overflow_for_responses,
                  enable_fire_and_forget_requests, max_active_requests_per_client,
                  max_loaned_requests, max_response_buffer_size, max_servers, max_clients,
                  max_nodes, max_borrowed_responses_per_pending_response,
                  request_message_type_details, response_message_type_details);

    /// The greatest number of one client's requests that can be in use at once, where it may have
    /// so many loaned. Error: `TooLarge` past 2^64 - 1.
    Result<std::size_t> required_amount_of_chunks_per_client_data_segment(
        std::size_t client_max_loaned_data) const noexcept {
        return detail::result(iox2sd_required_amount_of_chunks_per_client_data_segment(
            max_servers, max_active_requests_per_client, client_max_loaned_data));
    }

    /// The greatest number of one server's responses that can be in use at once, where it may have
    /// so many loaned for each request. Error: `TooLarge` past 2^64 - 1.
    Result<std::size_t> required_amount_of_chunks_per_server_data_segment(
        std::size_t server_max_loaned_responses_per_request) const noexcept {
        return detail::result(iox2sd_required_amount_of_chunks_per_server_data_segment(
            max_clients, max_active_requests_per_client, max_response_buffer_size,
            max_borrowed_responses_per_pending_response, server_max_loaned_responses_per_request));
    }

    IOX2SD_FIXED(RequestResponseStaticConfig, request_response, max_active_requests_per_client,
                 max_loaned_requests, max_response_buffer_size, max_servers, max_clients, max_nodes,
                 max_borrowed_responses_per_pending_response, enable_safe_overflow_for_requests,
                 enable_safe_overflow_for_responses, enable_fire_and_forget_requests);
};

/// The description of a blackboard service.
struct BlackboardStaticConfig {
    std::size_t max_readers;
    std::size_t max_writers = 1;
    std::size_t max_nodes;
    TypeDetail type_details;  ///< The type of the keys.

    BlackboardStaticConfig(const BlackboardSettings& settings, const TypeDetail& key) noexcept
        : max_readers(settings.max_readers), max_nodes(settings.max_nodes), type_details(key) {}

    IOX2SD_FIELDS(max_readers, max_writers, max_nodes, type_details);
    IOX2SD_FIXED(BlackboardStaticConfig, blackboard, max_readers, max_writers, max_nodes);
};
#undef IOX2SD_FIXED
#undef IOX2SD_FROM_SETTINGS

/// The description of a service of one of the patterns.
using MessagingPattern = std::variant<PublishSubscribeStaticConfig, EventStaticConfig,
                                      RequestResponseStaticConfig, BlackboardStaticConfig>;

namespace detail {

/// What a visitor makes of a pattern's part, as `std::visit` does for a longer time of compilation.
template <class Visitor, class Pattern>
auto of_pattern(Visitor visitor, Pattern& pattern) noexcept {
    if (auto* samples = std::get_if<PublishSubscribeStaticConfig>(&pattern)) {
        return visitor(*samples);
    }
    if (auto* events = std::get_if<EventStaticConfig>(&pattern)) return visitor(*events);
    if (auto* requests = std::get_if<RequestResponseStaticConfig>(&pattern)) {
        return visitor(*requests);
    }
    return visitor(*std::get_if<BlackboardStaticConfig>(&pattern));
}

inline Capacities capacities_of(const PublishSubscribeStaticConfig& part) noexcept {
    return {part.max_nodes, part.max_publishers, part.max_subscribers};
}
inline Capacities capacities_of(const EventStaticConfig& part) noexcept {
    return {part.max_nodes, part.max_listeners, part.max_notifiers};
}
inline Capacities capacities_of(const RequestResponseStaticConfig& part) noexcept {
    return {part.max_nodes, part.max_servers, part.max_clients};
}
inline Capacities capacities_of(const BlackboardStaticConfig& part) noexcept {
    return {part.max_nodes, part.max_readers, part.max_writers};
}

}  // namespace detail

/// The pattern of a description, and the capacities with which the described service is made.
inline PatternKind kind(const MessagingPattern& pattern) noexcept {
    constexpr PatternKind kinds[] = {PatternKind::PublishSubscribe, PatternKind::Event,
                                     PatternKind::RequestResponse, PatternKind::Blackboard};
    return kinds[pattern.index()];
}
inline Capacities capacities(const MessagingPattern& pattern) noexcept {
    return detail::of_pattern([](const auto& part) { return detail::capacities_of(part); },
                              pattern);
}

/// All that an opener requires of a service.
struct Requirements {
    MessagingPattern messaging_pattern;  ///< Its pattern, with settings and types.
    AttributeVerifier attributes{};

    IOX2SD_FIELDS(messaging_pattern, attributes);
};

/// What an opener requires of a service.
enum class Requirement { Pattern, Attributes, Messages, Responses, Keys, Settings };

/// The first reason for which an opener may not use a service.
struct OpenError {
    Status status;
    Requirement requirement;  ///< What the service does not meet.
    MessagePart part{};       ///< Of messages and responses, the part whose types do not agree.
    SettingsField field{};    ///< Of settings, the field.
    Text<64> key{};           ///< Of attributes, the key of which a value is missing,
    Text<256> value{};        ///< and the value, where a pair is missing.

    IOX2SD_FIELDS(status, requirement, part, field, key, value);

    /// In words, as "max_subscribers: a setting is not what the opener requires".
    Text<383> text() const noexcept {
        const std::string_view words = iox2sd::text(status);
        switch (requirement) {
            case Requirement::Pattern: return Text<383>::joined({words});
            case Requirement::Attributes:
                return Text<383>::joined({key, value.empty() ? "" : "=", value, ": ", words});
            case Requirement::Messages:
                return Text<383>::joined({iox2sd::text(part), ": ", words});
            case Requirement::Responses:
                return Text<383>::joined({"responses, ", iox2sd::text(part), ": ", words});
            case Requirement::Keys: return Text<383>::joined({"key: ", words});
            case Requirement::Settings: break;
        }
        return Text<383>::joined({iox2sd::text(field), ": ", words});
    }
};
IOX2SD_WRITTEN(OpenError);

namespace detail {

/// Whether the types of an opener agree with those of a service.
inline Result<void, OpenError> agree(const MessageTypeDetails& service,
                                     const MessageTypeDetails& opener,
                                     Requirement requirement = Requirement::Messages) noexcept {
    const auto agreed = opener.is_compatible_to(service);
    if (agreed) return {};
    return OpenError{agreed.status(), requirement, agreed.error().part};
}
inline Result<void, OpenError> agree(const PublishSubscribeStaticConfig& service,
                                     const PublishSubscribeStaticConfig& opener) noexcept {
    return agree(service.message_type_details, opener.message_type_details);
}
inline Result<void, OpenError> agree(const EventStaticConfig&, const EventStaticConfig&) noexcept {
    return {};
}
inline Result<void, OpenError> agree(const RequestResponseStaticConfig& service,
                                     const RequestResponseStaticConfig& opener) noexcept {
    const auto requests =
        agree(service.request_message_type_details, opener.request_message_type_details);
    if (!requests) return requests;
    return agree(service.response_message_type_details, opener.response_message_type_details,
                 Requirement::Responses);
}
/// Keys agree where the headers of messages do: where they are equal.
inline Result<void, OpenError> agree(const BlackboardStaticConfig& service,
                                     const BlackboardStaticConfig& opener) noexcept {
    const auto keys = [](const TypeDetail& key) { return MessageTypeDetails{key, key, key}; };
    return agree(keys(service.type_details), keys(opener.type_details), Requirement::Keys);
}

}  // namespace detail

/// The description of a service: what its maker fixes, and what an opener verifies.
class StaticConfig {
public:
    /// The description with the hash text of the name and the pattern. A blackboard has one writer,
    /// whatever the part says.
    /// Errors: `BadDuration` of a deadline; `IllegalHash`, which SHA-1 is proved never to make.
    static Result<StaticConfig> create(const ServiceName& name, const UniqueServiceId& id,
                                       const AttributeSet& attributes,
                                       const MessagingPattern& pattern) noexcept {
        if (const auto* events = std::get_if<EventStaticConfig>(&pattern)) {
            const auto valid = events->check();
            if (!valid) return valid.error();
        }
        const auto hash = ServiceHash::create(name, iox2sd::kind(pattern));
        if (!hash) return hash.error();
        StaticConfig made(*hash, name, id, attributes, pattern);
        auto* const board = std::get_if<BlackboardStaticConfig>(&made.messaging_pattern_);
        if (board != nullptr) board->max_writers = 1;
        return made;
    }

    IOX2SD_LENDS(const ServiceHash&, service_hash, service_hash_);
    IOX2SD_LENDS(const ServiceName&, name, name_);
    IOX2SD_LENDS(const UniqueServiceId&, unique_service_id, unique_service_id_);
    IOX2SD_LENDS(const AttributeSet&, attributes, attributes_);
    IOX2SD_LENDS(const MessagingPattern&, messaging_pattern, messaging_pattern_);
    PatternKind kind() const noexcept { return iox2sd::kind(messaging_pattern_); }

    /// The part that only services of one pattern have, as long as the description is there; NULL
    /// for the other patterns.
    IOX2SD_LENDS(const PublishSubscribeStaticConfig*, publish_subscribe,
                 std::get_if<PublishSubscribeStaticConfig>(&messaging_pattern_));
    IOX2SD_LENDS(const EventStaticConfig*, event,
                 std::get_if<EventStaticConfig>(&messaging_pattern_));
    IOX2SD_LENDS(const RequestResponseStaticConfig*, request_response,
                 std::get_if<RequestResponseStaticConfig>(&messaging_pattern_));
    IOX2SD_LENDS(const BlackboardStaticConfig*, blackboard,
                 std::get_if<BlackboardStaticConfig>(&messaging_pattern_));

    /// Whether an opener may use the service: it has the required pattern and attributes, the types
    /// of its messages, then of its responses, are compatible, and its settings are enough. The
    /// types of a blackboard's keys are equal. Reported is the first reason in this order.
    /// Errors: `OtherPattern`; those of `AttributeVerifier::verify_requirements`; those of
    /// `MessageTypeDetails::is_compatible_to`; those of `satisfies` of the pattern's part.
    template <class Required = Requirements>
    Result<void, OpenError> satisfies(const Required& required) const noexcept {
        const MessagingPattern& wanted = required.messaging_pattern;
        if (wanted.index() != messaging_pattern_.index()) {
            return OpenError{Status::OtherPattern, Requirement::Pattern};
        }
        const auto verified = required.attributes.verify_requirements(attributes_);
        if (!verified) {
            const AttributeVerificationError& error = verified.error();
            OpenError missing{error.status, Requirement::Attributes};
            missing.key = error.key;
            if (error.value) missing.value = *error.value;
            return missing;
        }
        const auto part_satisfies = [&wanted](const auto& part) -> Result<void, OpenError> {
            const auto& opener = *std::get_if<std::decay_t<decltype(part)>>(&wanted);
            const auto agreed = detail::agree(part, opener);
            if (!agreed) return agreed;
            const auto met = part.satisfies(opener);
            if (met) return {};
            return OpenError{met.status(), Requirement::Settings, {}, met.error().field};
        };
        return detail::of_pattern(part_satisfies, messaging_pattern_);
    }

    IOX2SD_FIELDS(service_hash_, name_, unique_service_id_, attributes_, messaging_pattern_);

private:
    StaticConfig(const ServiceHash& hash, const ServiceName& name, const UniqueServiceId& id,
                 const AttributeSet& attributes, const MessagingPattern& pattern) noexcept
        : service_hash_(hash),
          name_(name),
          unique_service_id_(id),
          attributes_(attributes),
          messaging_pattern_(pattern) {}

    ServiceHash service_hash_;
    ServiceName name_;
    UniqueServiceId unique_service_id_;
    AttributeSet attributes_;
    MessagingPattern messaging_pattern_;
};

/// The pattern of a described service, and the capacities with which it is made.
inline PatternKind kind(const StaticConfig& described) noexcept { return described.kind(); }
inline Capacities capacities(const StaticConfig& described) noexcept {
    return capacities(described.messaging_pattern());
}

}  // namespace iox2sd

/// Attributes and their sets are hashed.
IOX2SD_HASHED(Attribute);
IOX2SD_HASHED(AttributeSet);

#endif
