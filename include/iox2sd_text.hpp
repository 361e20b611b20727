/// Texts, names, paths, ids and capacities of iox2sd.hpp, which explains the rules.
#ifndef IOX2SD_TEXT_HPP
#define IOX2SD_TEXT_HPP

#include <initializer_list>

#include "iox2sd_result.hpp"

namespace iox2sd {

/// A text of at most `Capacity` bytes, which it holds itself.
template <std::size_t Capacity>
class Text : public detail::AnyText {
public:
    /// The empty text.
    Text() noexcept = default;

    /// The text that a call of the C headers, with these arguments before, writes into a buffer.
    /// Errors: those of the call.
    template <class Write, class... Arguments>
    static Result<Text> written_by(Write write, Arguments... arguments) noexcept {
        Text text;
        const iox2sd_text_answer answer = write(arguments..., text.bytes_, Capacity);
        if (answer.status != IOX2SD_STATUS_DONE) return Status{answer.status};
        text.length_ = answer.length;
        return text;
    }

    /// A view lasts as long as the text. That of a temporary does not compile; a copy is made by
    /// `std::string(text)`, and a text is written by `<<`.
    IOX2SD_LENDS(std::string_view, view, std::string_view(characters(), length_));
    operator std::string_view() const& noexcept { return view(); }
    operator std::string_view() const&& = delete;
    std::size_t size() const noexcept { return length_; }
    bool empty() const noexcept { return length_ == 0; }
    static constexpr std::size_t capacity() noexcept { return Capacity; }

    /// These texts, one after another. What is beyond the capacity is cut off.
    static Text joined(std::initializer_list<std::string_view> parts) noexcept {
        Text text;
        for (const std::string_view part : parts) {
            const std::string_view fitting = part.substr(0, Capacity - text.length_);
            detail::copy_items(detail::bytes(fitting), fitting.size(), text.bytes_ + text.length_);
            text.length_ += fitting.size();
        }
        return text;
    }

protected:
    /// A text that a check has found to be short enough.
    explicit Text(std::string_view text) noexcept : length_(text.size()) {
        if (text.size() > Capacity) std::abort();
        detail::copy_items(detail::bytes(text), text.size(), bytes_);
    }

private:
    const char* characters() const noexcept { return reinterpret_cast<const char*>(bytes_); }

    std::uint8_t bytes_[Capacity]{};
    std::size_t length_ = 0;
};

namespace detail {

/// A number in decimal digits.
class Digits {
public:
    explicit Digits(std::size_t number) noexcept {
        do {
            digits_[--first_] = static_cast<char>('0' + number % 10);
            number /= 10;
        } while (number != 0);
    }
    IOX2SD_LENDS(std::string_view, view, std::string_view(digits_ + first_, size()));

private:
    std::size_t size() const noexcept { return sizeof digits_ - first_; }

    char digits_[20];
    std::size_t first_ = sizeof digits_;
};

}  // namespace detail

/// Why a text was refused.
struct TextError {
    Status status;
    /// The byte that is illegal, or the greatest length; 0 where the status has no index.
    std::size_t at = 0;

    IOX2SD_FIELDS(status, at);

    /// In words, as "a byte is illegal: at 3".
    Text<127> text() const noexcept {
        const detail::Digits digits(at);
        const std::string_view words = iox2sd::text(status);
        if (status == Status::TooLong) {
            return Text<127>::joined({words, ": at most ", digits.view(), " bytes"});
        }
        if (status != Status::IllegalByte) return Text<127>::joined({words});
        return Text<127>::joined({words, ": at ", digits.view()});
    }
};

IOX2SD_WRITTEN(TextError);

namespace detail {

/// What the library checks of each kind of texts.
#define IOX2SD_CONTENT(Content, of_library) \
    struct Content {                        \
        static constexpr auto check = of_library; \
    };
IOX2SD_CONTENT(KeyContent, iox2sd_attribute_key_check)
IOX2SD_CONTENT(ValueContent, iox2sd_attribute_value_check)
IOX2SD_CONTENT(FileNameContent, iox2sd_file_name_check)
IOX2SD_CONTENT(RestrictedContent, iox2sd_restricted_file_name_check)
IOX2SD_CONTENT(PathContent, iox2sd_path_check)
IOX2SD_CONTENT(FilePathContent, iox2sd_file_path_check)
IOX2SD_CONTENT(ServiceNameContent, iox2sd_internal_service_name_check)
#undef IOX2SD_CONTENT

}  // namespace detail

/// A text that a check of the library lets through: `AttributeKey`, `AttributeValue`, `FileName`
/// and `RestrictedFileName`.
///
/// A key has 1 to 64 bytes, each from 1 to 127, and a value 1 to 256. The name of a file has 1 to
/// 255, none of them a `/`, and is neither "." nor "..". A restricted one, as hash texts are, has 1
/// to 64 letters A to Z and a to z, digits, `-`, `.`, `:` and `_`, and is neither "." nor "..".
template <class Content, std::size_t Capacity>
class SemanticString : public Text<Capacity> {
public:
    /// The text as one of this kind. Errors: `Empty`; `TooLong`, with the greatest length;
    /// `IllegalByte`, with the index of the first one; `NoFileName` of the names of files.
    static Result<SemanticString, TextError> create(std::string_view text) noexcept {
        return checked<SemanticString>(Content::check, text);
    }

    SemanticString(const Text<Capacity>& text, detail::FromLibrary) noexcept
        : Text<Capacity>(text) {}

protected:
    explicit SemanticString(std::string_view text) noexcept : Text<Capacity>(text) {}

    /// The text as one of a kind that is or derives from this one, if the check lets it through.
    template <class Made>
    static Result<Made, TextError> checked(
        iox2sd_place_answer check(const std::uint8_t*, std::size_t),
        std::string_view text) noexcept {
        const iox2sd_place_answer answer = check(detail::bytes(text), text.size());
        if (answer.status != IOX2SD_STATUS_DONE) return TextError{Status{answer.status}, answer.at};
        return Made(SemanticString(text), {});
    }

    /// One of such a kind, of a text that was written, or the error for which it was not.
    template <class Made>
    static Result<Made> made(const Result<Text<Capacity>>& written) noexcept {
        if (!written) return written.error();
        return Made(*written, {});
    }

    SemanticString() noexcept = default;
    friend class Attribute;
    friend class AttributeVerifier;
};

/// A path: at most 255 bytes, each from 1 to 127.
class Path : public SemanticString<detail::PathContent, 255> {
public:
    using SemanticString::SemanticString;

    /// Errors: `TooLong`, with `at` 255; `IllegalByte`, with the index of the first one.
    static Result<Path, TextError> create(std::string_view text) noexcept {
        return checked<Path>(iox2sd_path_check, text);
    }

    /// The empty path.
    Path() noexcept = default;

    /// Joins an entry to the path, with one `/` between them unless the path is empty or ends in
    /// `/`. Error: `TooLong`, past 255 bytes; then the path is as it was.
    Result<void> add_path_entry(const Path& entry) noexcept {
        const auto joined = made<Path>(written_by(iox2sd_path_add_path_entry, detail::bytes(*this),
                                                  size(), detail::bytes(entry), entry.size()));
        if (!joined) return joined.error();
        *this = *joined;
        return {};
    }
};

/// The path of a file: 1 to 255 bytes, each from 1 to 127, of which those after the last `/` are
/// the name of a file. Errors as of the name of a file; a `/` is no illegal byte.
class FilePath : public SemanticString<detail::FilePathContent, 255> {
public:
    using SemanticString::SemanticString;

    static Result<FilePath, TextError> create(std::string_view text) noexcept {
        return checked<FilePath>(iox2sd_file_path_check, text);
    }

    /// The path of a file in a directory, joined as `Path::add_path_entry` does.
    /// Error: `TooLong`, past 255 bytes.
    static Result<FilePath> from_path_and_file(const Path& path, const FileName& file) noexcept {
        return made<FilePath>(written_by(iox2sd_file_path_from_path_and_file, detail::bytes(path),
                                         path.size(), detail::bytes(file), file.size()));
    }
};

/// The name of a service: 1 to 255 bytes, each from 1 to 127. The names of the system's own
/// services begin with "iox2://", and those that a user gives do not.
class ServiceName : public SemanticString<detail::ServiceNameContent, 255> {
public:
    using SemanticString::SemanticString;

    /// The name that a user gives. Errors: `ReservedPrefix`; `Empty`; `TooLong`, with `at` 255;
    /// `IllegalByte`, with the index of the first one.
    static Result<ServiceName, TextError> create(std::string_view text) noexcept {
        return checked<ServiceName>(iox2sd_service_name_check, text);
    }

    /// A name that may be one of the system's own. Errors as above, but for `ReservedPrefix`.
    static Result<ServiceName, TextError> internal_new(std::string_view text) noexcept {
        return checked<ServiceName>(iox2sd_internal_service_name_check, text);
    }

    /// The name of one of the system's own services: "iox2://" and the text.
    /// Errors: `NotUtf8`; `TooLong`, for more than 248 bytes; `IllegalByte`.
    static Result<ServiceName> internal_new_prefixed(std::string_view text) noexcept {
        return made<ServiceName>(
            written_by(iox2sd_internal_service_name, detail::bytes(text), text.size()));
    }

    /// Whether a text begins with "iox2://".
    static bool has_iox2_prefix(std::string_view text) noexcept {
        return iox2sd_has_iox2_prefix(detail::bytes(text), text.size());
    }
};

/// Messaging patterns.
enum class PatternKind : std::uint64_t {
    PublishSubscribe = IOX2SD_PATTERN_PUBLISH_SUBSCRIBE,
    Event = IOX2SD_PATTERN_EVENT,
    RequestResponse = IOX2SD_PATTERN_REQUEST_RESPONSE,
    Blackboard = IOX2SD_PATTERN_BLACKBOARD,
};

/// The word for a pattern, as "publish-subscribe".
IOX2SD_WORDS(PatternKind, iox2sd_pattern_str);

/// The hash text of a service's pattern and name by SHA-1, under which its files are found.
class ServiceHash : public RestrictedFileName {
public:
    using SemanticString::SemanticString;

    /// Errors: `UnknownPattern`; `IllegalHash`, which SHA-1 is proved never to make.
    static Result<ServiceHash> create(const ServiceName& name, PatternKind kind) noexcept {
        return made<ServiceHash>(written_by(iox2sd_internal_hash_text,
                                            static_cast<std::uint64_t>(kind), detail::bytes(name),
                                            name.size()));
    }
};

// ---- Ids ----

/// The id of a service or of a port, by the kind `Kind`: four parts, of which the caller takes care
/// that they are unique.
template <class Kind>
class UniqueId {
public:
    constexpr UniqueId(std::uint32_t process, std::uint32_t seconds, std::uint32_t nanoseconds,
                       std::uint32_t counter) noexcept
        : parts_{process, seconds, nanoseconds, counter} {}
    constexpr explicit UniqueId(const iox2sd_id& parts) noexcept : parts_(parts) {}

    /// The id whose `text` this is. Errors: `Empty`; `TooLong`, for more than 32 bytes;
    /// `IllegalByte`.
    static Result<UniqueId> from_text(std::string_view text) noexcept {
        const iox2sd_id_answer answer = iox2sd_id_from_text(detail::bytes(text), text.size());
        return detail::result(answer.status, UniqueId(answer.id));
    }

    constexpr iox2sd_id parts() const noexcept { return parts_; }
    constexpr std::uint32_t process() const noexcept { return parts_.process; }
    constexpr std::uint32_t seconds() const noexcept { return parts_.seconds; }
    constexpr std::uint32_t nanoseconds() const noexcept { return parts_.nanoseconds; }
    constexpr std::uint32_t counter() const noexcept { return parts_.counter; }

    /// The number process * 2^96 + seconds * 2^64 + nanoseconds * 2^32 + counter in lower-case
    /// hexadecimal digits without leading zeros.
    Text<32> text() const noexcept {
        return *Text<32>::written_by(iox2sd_id_text, parts_);
    }

    /// Ids are equal where their parts are, and ordered by that number.
    IOX2SD_FIELDS(parts_.process, parts_.seconds, parts_.nanoseconds, parts_.counter);

private:
    iox2sd_id parts_;
};

template <class Kind>
inline constexpr bool detail::is_written<UniqueId<Kind>> = true;

/// What an entry of a service is. Each pattern has two kinds of ports.
enum class Role : std::uint64_t {
    Node = IOX2SD_ROLE_NODE,
    Publisher = IOX2SD_ROLE_PUBLISHER,
    Subscriber = IOX2SD_ROLE_SUBSCRIBER,
    Notifier = IOX2SD_ROLE_NOTIFIER,
    Listener = IOX2SD_ROLE_LISTENER,
    Client = IOX2SD_ROLE_CLIENT,
    Server = IOX2SD_ROLE_SERVER,
    Reader = IOX2SD_ROLE_READER,
    Writer = IOX2SD_ROLE_WRITER,
};

/// The word for a role, as "publisher".
IOX2SD_WORDS(Role, iox2sd_role_str);

/// All kinds of ports, each with the word that its fields begin with.
#define IOX2SD_PORT_KINDS(kind)                                     \
    kind(Publisher, publisher) kind(Subscriber, subscriber)         \
    kind(Notifier, notifier) kind(Listener, listener)               \
    kind(Client, client) kind(Server, server) kind(Reader, reader) kind(Writer, writer)

template <Role role>
using PortId = UniqueId<detail::IdKind<role>>;
/// `UniquePublisherId`, `UniqueSubscriberId`, ..: the id of a port of one kind.
#define IOX2SD_PORT_ID(Kind, kind) using Unique##Kind##Id = PortId<Role::Kind>;
IOX2SD_PORT_KINDS(IOX2SD_PORT_ID)
#undef IOX2SD_PORT_ID

/// The id of a node.
class UniqueNodeId : public UniqueId<detail::IdKind<Role::Node>> {
public:
    /// The id with these parts. Error: `NoNode`, where process and counter are both 0.
    static Result<UniqueNodeId> create(std::uint32_t process, std::uint32_t seconds,
                                       std::uint32_t nanoseconds, std::uint32_t counter) noexcept {
        const iox2sd_id parts{process, seconds, nanoseconds, counter};
        if (!iox2sd_id_is_node(parts)) return Status::NoNode;
        return UniqueNodeId(parts, {});
    }

    /// The id whose `text` this is. Errors: `Empty`; `TooLong`; `IllegalByte`; `NoNode`.
    static Result<UniqueNodeId> from_text(std::string_view text) noexcept {
        const Result<UniqueId> id = UniqueId::from_text(text);
        if (!id) return id.error();
        return create(id->process(), id->seconds(), id->nanoseconds(), id->counter());
    }

    UniqueNodeId(const iox2sd_id& parts, detail::FromLibrary) noexcept : UniqueId(parts) {}

    /// process * 2^32 + counter, which is never 0. Nodes of one process with one counter share it.
    std::uint64_t owner_id() const noexcept { return iox2sd_id_owner_id(parts()); }
};

IOX2SD_WRITTEN(UniqueNodeId);

/// The id of a port of any kind, with its role. It is written as its number, without the role.
class UniquePortId {
public:
    /// The id of a port is one; that of a node or of a service does not convert.
    template <Role role, class = std::enable_if_t<role != Role::Node>>
    UniquePortId(const PortId<role>& id) noexcept : role_(role), parts_(id.parts()) {}
    UniquePortId(Role role, const iox2sd_id& parts, detail::FromLibrary) noexcept
        : role_(role), parts_(parts) {}

    Role role() const noexcept { return role_; }
    iox2sd_id parts() const noexcept { return parts_; }
    Text<32> text() const noexcept { return UniqueServiceId(parts_).text(); }

    /// Ids of ports are ordered by their roles, and then by their numbers.
    IOX2SD_FIELDS(role_, UniqueServiceId(parts_));

private:
    Role role_;
    iox2sd_id parts_;
};

IOX2SD_WRITTEN(UniquePortId);

// ---- Capacities ----

/// How many nodes and ports a service can have at a time.
struct Capacities {
    std::size_t nodes;
    std::size_t first;   ///< For publishers, listeners, servers or readers.
    std::size_t second;  ///< For subscribers, notifiers, clients or writers.

    IOX2SD_OF_C(Capacities, iox2sd_capacities, nodes, first, second);
};

/// `PublishSubscribeCapacities`, `EventCapacities`, ..: the same by the names of a pattern's ports.
#define IOX2SD_CAPACITIES(Pattern, first, second)                                   \
    struct Pattern##Capacities {                                                    \
        std::size_t nodes;                                                          \
        std::size_t first;                                                          \
        std::size_t second;                                                         \
        IOX2SD_FIELDS(nodes, first, second);                                        \
    };                                                                              \
    inline Capacities capacities(const Pattern##Capacities& named) noexcept {       \
        return {named.nodes, named.first, named.second};                            \
    }                                                                               \
    inline PatternKind kind(const Pattern##Capacities&) noexcept {                  \
        return PatternKind::Pattern;                                                \
    }
IOX2SD_CAPACITIES(PublishSubscribe, publishers, subscribers)
IOX2SD_CAPACITIES(Event, listeners, notifiers)
IOX2SD_CAPACITIES(RequestResponse, servers, clients)
IOX2SD_CAPACITIES(Blackboard, readers, writers)
#undef IOX2SD_CAPACITIES

// ---- Hashing ----

namespace detail {

/// Hashes values as `==` compares them.
struct Hasher {
    std::size_t state = 0;

    void add(std::size_t hash) noexcept {
        state ^= hash + 0x9e3779b97f4a7c15u + (state << 6) + (state >> 2);
    }

    template <class T>
    void value(const Row<T>& row) noexcept {
        for (std::size_t i = 0; i < row.size; ++i) value(row.first[i]);
    }
    template <class T>
    void value(const T& value) noexcept {
        if constexpr (is_text<T>) {
            add(std::hash<std::string_view>()(value));
        } else if constexpr (std::is_enum_v<T> || std::is_integral_v<T>) {
            add(std::hash<T>()(value));
        } else {
            value.fields([this](const auto&... field) { (this->value(field), ...); });
        }
    }
};

/// The hash of a value: equal ones have one hash.
template <class T>
struct Hash {
    std::size_t operator()(const T& value) const noexcept {
        Hasher hasher;
        hasher.value(value);
        return hasher.state;
    }
};

}  // namespace detail

}  // namespace iox2sd

/// Texts, ids, attributes with their sets, what ports report, and handles are hashed.
#define IOX2SD_HASHED(Type) \
    template <>             \
    struct std::hash<iox2sd::Type> : iox2sd::detail::Hash<iox2sd::Type> {}

template <std::size_t Capacity>
struct std::hash<iox2sd::Text<Capacity>> : iox2sd::detail::Hash<iox2sd::Text<Capacity>> {};
template <class Content, std::size_t Capacity>
struct std::hash<iox2sd::SemanticString<Content, Capacity>>
    : iox2sd::detail::Hash<iox2sd::SemanticString<Content, Capacity>> {};
template <class Kind>
struct std::hash<iox2sd::UniqueId<Kind>> : iox2sd::detail::Hash<iox2sd::UniqueId<Kind>> {};
IOX2SD_HASHED(Path);
IOX2SD_HASHED(FilePath);
IOX2SD_HASHED(ServiceName);
IOX2SD_HASHED(ServiceHash);
IOX2SD_HASHED(UniqueNodeId);
IOX2SD_HASHED(UniquePortId);

#endif
