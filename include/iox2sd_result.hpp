/// Statuses, results and lists of iox2sd.hpp, which explains the rules.
#ifndef IOX2SD_RESULT_HPP
#define IOX2SD_RESULT_HPP

#include <algorithm>
#include <cstdio>
#include <cstdlib>
#include <cstring>
#include <iosfwd>
#include <new>
#include <optional>
#include <string_view>
#include <type_traits>
#include <utility>
#include <variant>

#include "iox2sd_fwd.hpp"

#if __cplusplus >= 202002L
#include <compare>
#endif

// Headers of C have the casts and the NULL of C.
#pragma GCC diagnostic push
#pragma GCC diagnostic ignored "-Wold-style-cast"
#pragma GCC diagnostic ignored "-Wzero-as-null-pointer-constant"
#include "iox2sd_script.h"
#include "iox2sd_values.h"
#pragma GCC diagnostic pop

/// A getter of what lasts as long as its object. That of a temporary does not compile.
#define IOX2SD_LENDS(Type, name, value)         \
    Type name() const& noexcept { return value; } \
    Type name() const&& = delete

namespace iox2sd {

/// What a call answers, with the numbers of `enum iox2sd_status_number`. `text` says it in words.
enum class Status : std::uint32_t {
    Done = IOX2SD_STATUS_DONE,
    DoneLocked = IOX2SD_STATUS_DONE_LOCKED,
    BufferTooShort = IOX2SD_STATUS_BUFFER_TOO_SHORT,
    NoMemory = IOX2SD_STATUS_NO_MEMORY,
    NoService = IOX2SD_STATUS_NO_SERVICE,
    HasService = IOX2SD_STATUS_HAS_SERVICE,
    UnknownPattern = IOX2SD_STATUS_UNKNOWN_PATTERN,
    UnknownRole = IOX2SD_STATUS_UNKNOWN_ROLE,
    NoNode = IOX2SD_STATUS_NO_NODE,
    IsLocked = IOX2SD_STATUS_IS_LOCKED,
    OutOfSpace = IOX2SD_STATUS_OUT_OF_SPACE,
    ForeignHandle = IOX2SD_STATUS_FOREIGN_HANDLE,
    PortsStillAttached = IOX2SD_STATUS_PORTS_STILL_ATTACHED,
    NodeNotRegistered = IOX2SD_STATUS_NODE_NOT_REGISTERED,
    RoleNotInPattern = IOX2SD_STATUS_ROLE_NOT_IN_PATTERN,
    UnknownSegment = IOX2SD_STATUS_UNKNOWN_SEGMENT,
    BadKey = IOX2SD_STATUS_BAD_KEY,
    BadValue = IOX2SD_STATUS_BAD_VALUE,
    TooMany = IOX2SD_STATUS_TOO_MANY,
    Null = IOX2SD_STATUS_NULL,
    UnknownStatus = IOX2SD_STATUS_UNKNOWN_STATUS,
    Empty = IOX2SD_STATUS_EMPTY,
    TooLong = IOX2SD_STATUS_TOO_LONG,
    IllegalByte = IOX2SD_STATUS_ILLEGAL_BYTE,
    NoFileName = IOX2SD_STATUS_NO_FILE_NAME,
    ReservedPrefix = IOX2SD_STATUS_RESERVED_PREFIX,
    NotUtf8 = IOX2SD_STATUS_NOT_UTF8,
    BadServiceName = IOX2SD_STATUS_BAD_SERVICE_NAME,
    BadPath = IOX2SD_STATUS_BAD_PATH,
    BadEntry = IOX2SD_STATUS_BAD_ENTRY,
    IllegalHash = IOX2SD_STATUS_ILLEGAL_HASH,
    BadRequiredKey = IOX2SD_STATUS_BAD_REQUIRED_KEY,
    BadRequiredValue = IOX2SD_STATUS_BAD_REQUIRED_VALUE,
    BadAskedKey = IOX2SD_STATUS_BAD_ASKED_KEY,
    TooManyRequired = IOX2SD_STATUS_TOO_MANY_REQUIRED,
    MissingPair = IOX2SD_STATUS_MISSING_PAIR,
    MissingKey = IOX2SD_STATUS_MISSING_KEY,
    NoSuchValue = IOX2SD_STATUS_NO_SUCH_VALUE,
    BadAlignment = IOX2SD_STATUS_BAD_ALIGNMENT,
    TooLarge = IOX2SD_STATUS_TOO_LARGE,
    UnknownVariant = IOX2SD_STATUS_UNKNOWN_VARIANT,
    OtherName = IOX2SD_STATUS_OTHER_NAME,
    OtherVariant = IOX2SD_STATUS_OTHER_VARIANT,
    OtherSize = IOX2SD_STATUS_OTHER_SIZE,
    OtherAlignment = IOX2SD_STATUS_OTHER_ALIGNMENT,
    GreaterAlignment = IOX2SD_STATUS_GREATER_ALIGNMENT,
    UnknownText = IOX2SD_STATUS_UNKNOWN_TEXT,
    BadLine = IOX2SD_STATUS_BAD_LINE,
    UnknownStrategy = IOX2SD_STATUS_UNKNOWN_STRATEGY,
    BadDuration = IOX2SD_STATUS_BAD_DURATION,
    Unmet = IOX2SD_STATUS_UNMET,
    OtherPattern = IOX2SD_STATUS_OTHER_PATTERN,
    NotToml = IOX2SD_STATUS_NOT_TOML,
    WrongType = IOX2SD_STATUS_WRONG_TYPE,
    BelowZero = IOX2SD_STATUS_BELOW_ZERO,
    NoDuration = IOX2SD_STATUS_NO_DURATION,
    NoTomlInteger = IOX2SD_STATUS_NO_TOML_INTEGER,
    NoFile = IOX2SD_STATUS_NO_FILE,
    TooDeep = IOX2SD_STATUS_TOO_DEEP,
    NoOrder = IOX2SD_STATUS_NO_ORDER,
    NoServiceLine = IOX2SD_STATUS_NO_SERVICE_LINE,
    NoCallLine = IOX2SD_STATUS_NO_CALL_LINE,
    NoReplyLine = IOX2SD_STATUS_NO_REPLY_LINE,
    TooManyConfigurations = IOX2SD_STATUS_TOO_MANY_CONFIGURATIONS,
    TooManyOpenCalls = IOX2SD_STATUS_TOO_MANY_OPEN_CALLS,
    CallerIsBusy = IOX2SD_STATUS_CALLER_IS_BUSY,
    NoOpenCall = IOX2SD_STATUS_NO_OPEN_CALL,
    CallerIsDead = IOX2SD_STATUS_CALLER_IS_DEAD,
    UnknownCaller = IOX2SD_STATUS_UNKNOWN_CALLER,
    NoNewline = IOX2SD_STATUS_NO_NEWLINE,
    CarriageReturn = IOX2SD_STATUS_CARRIAGE_RETURN,
    NoStateLine = IOX2SD_STATUS_NO_STATE_LINE,
};

namespace detail {

/// Marks what the library answered, which needs no further check.
struct FromLibrary {};

inline const std::uint8_t* bytes(std::string_view text) noexcept {
    return reinterpret_cast<const std::uint8_t*>(text.data());
}

/// What all texts derive from, of whatever capacity.
struct AnyText {};

template <class T>
inline constexpr bool is_text = std::is_base_of_v<AnyText, T>;

/// Which values `<<` and `std::format` write: those with a text, and texts.
template <class T>
inline constexpr bool is_written = is_text<T>;

}  // namespace detail

/// Has values of a type with a `text` written.
#define IOX2SD_WRITTEN(Type) \
    template <>              \
    inline constexpr bool detail::is_written<Type> = true
/// `text` of an enumerator, which is written: what a function of C says of its number, in a static
/// text.
#define IOX2SD_WORDS(Enum, words)                                       \
    inline std::string_view text(Enum number) noexcept {                \
        return words(static_cast<std::underlying_type_t<Enum>>(number)); \
    }                                                                   \
    IOX2SD_WRITTEN(Enum)

/// What a status says. A number that is no status's says what `UnknownStatus` does.
IOX2SD_WORDS(Status, iox2sd_status_str);

namespace detail {

/// The text of a value that is written.
template <class T>
auto written(const T& value) noexcept {
    if constexpr (is_text<T>) {
        return value.view();
    } else if constexpr (std::is_enum_v<T>) {
        return text(value);
    } else {
        return value.text();
    }
}

// ---- Comparisons ----

/// Takes the fields of a value, and makes nothing of them.
struct Ignore {
    template <class... Fields>
    void operator()(const Fields&...) const noexcept {}
};

/// Where a type is compared field by field: its `fields` passes all of them to a function.
template <class T>
using IfFields = decltype(std::declval<const T&>().fields(Ignore()));

/// Where one of two types is a text and both are views of characters.
template <class A, class B>
using IfTexts = std::enable_if_t<(is_text<A> || is_text<B>) &&
                                 std::is_convertible_v<const A&, std::string_view> &&
                                 std::is_convertible_v<const B&, std::string_view>>;

/// How two values are compared. Their order is below 0, 0 or above 0 where the first is less, equal
/// or greater.
template <class A, class B, class = void>
struct Compared {};

/// Values of a type that lists its fields are equal where all fields are, and ordered by the first
/// field that differs.
template <class T>
struct Compared<T, T, IfFields<T>> {
    static bool same(const T& a, const T& b) noexcept {
        return a.fields([&b](const auto&... as) {
            return b.fields([&](const auto&... bs) { return (... && (as == bs)); });
        });
    }
    static int order(const T& a, const T& b) noexcept {
        return a.fields([&b](const auto&... as) {
            return b.fields([&](const auto&... bs) {
                int found = 0;
                static_cast<void>((... || ((found = as < bs ? -1 : int{bs < as}) != 0)));
                return found;
            });
        });
    }
};

/// Texts are compared by their bytes, with each other and with all that is a `string_view`.
template <class A, class B>
struct Compared<A, B, IfTexts<A, B>> {
    static bool same(std::string_view a, std::string_view b) noexcept { return a == b; }
    static int order(std::string_view a, std::string_view b) noexcept { return a.compare(b); }
};

template <class A, class B>
using IfCompared =
    decltype(Compared<A, B>::order(std::declval<const A&>(), std::declval<const B&>()));

/// Items one after another. Rows are compared item by item, and one that another begins with is
/// less.
template <class T>
struct Row {
    const T* first;
    std::size_t size;

    friend bool operator==(const Row& a, const Row& b) noexcept {
        if (a.size != b.size) return false;
        for (std::size_t i = 0; i < a.size; ++i) {
            if (!(a.first[i] == b.first[i])) return false;
        }
        return true;
    }
    friend bool operator<(const Row& a, const Row& b) noexcept {
        for (std::size_t i = 0; i < a.size && i < b.size; ++i) {
            if (a.first[i] < b.first[i]) return true;
            if (b.first[i] < a.first[i]) return false;
        }
        return a.size < b.size;
    }
};

/// Copies items that are copied as their bytes.
template <class T>
void copy_items(const T* from, std::size_t size, T* to) noexcept {
    static_assert(std::is_trivially_copyable_v<T>);
    if (size != 0) std::memcpy(static_cast<void*>(to), from, size * sizeof(T));
}

}  // namespace detail

/// Lists the fields of a type. `fields` passes them to a function.
#define IOX2SD_FIELDS(...)                                                                        \
    template <class F>                                                                            \
    auto fields(F f) const {                                                                      \
        return f(__VA_ARGS__);                                                                    \
    }                                                                                             \
    static_assert(true, "a semicolon follows")

/// `make` of each name of a list, which has at most 17.
#define IOX2SD_EACH_1(make, name) make(name)
#define IOX2SD_EACH_2(make, name, ...) make(name) IOX2SD_EACH_1(make, __VA_ARGS__)
#define IOX2SD_EACH_3(make, name, ...) make(name) IOX2SD_EACH_2(make, __VA_ARGS__)
#define IOX2SD_EACH_4(make, name, ...) make(name) IOX2SD_EACH_3(make, __VA_ARGS__)
#define IOX2SD_EACH_5(make, name, ...) make(name) IOX2SD_EACH_4(make, __VA_ARGS__)
#define IOX2SD_EACH_6(make, name, ...) make(name) IOX2SD_EACH_5(make, __VA_ARGS__)
#define IOX2SD_EACH_7(make, name, ...) make(name) IOX2SD_EACH_6(make, __VA_ARGS__)
#define IOX2SD_EACH_8(make, name, ...) make(name) IOX2SD_EACH_7(make, __VA_ARGS__)
#define IOX2SD_EACH_9(make, name, ...) make(name) IOX2SD_EACH_8(make, __VA_ARGS__)
#define IOX2SD_EACH_10(make, name, ...) make(name) IOX2SD_EACH_9(make, __VA_ARGS__)
#define IOX2SD_EACH_11(make, name, ...) make(name) IOX2SD_EACH_10(make, __VA_ARGS__)
#define IOX2SD_EACH_12(make, name, ...) make(name) IOX2SD_EACH_11(make, __VA_ARGS__)
#define IOX2SD_EACH_13(make, name, ...) make(name) IOX2SD_EACH_12(make, __VA_ARGS__)
#define IOX2SD_EACH_14(make, name, ...) make(name) IOX2SD_EACH_13(make, __VA_ARGS__)
#define IOX2SD_EACH_15(make, name, ...) make(name) IOX2SD_EACH_14(make, __VA_ARGS__)
#define IOX2SD_EACH_16(make, name, ...) make(name) IOX2SD_EACH_15(make, __VA_ARGS__)
#define IOX2SD_EACH_17(make, name, ...) make(name) IOX2SD_EACH_16(make, __VA_ARGS__)
#define IOX2SD_18TH(a, b, c, d, e, f, g, h, i, j, k, l, m, n, o, p, q, found, ...) found
#define IOX2SD_EACH(make, ...)                                                                    \
    IOX2SD_18TH(__VA_ARGS__, IOX2SD_EACH_17, IOX2SD_EACH_16, IOX2SD_EACH_15, IOX2SD_EACH_14,      \
                IOX2SD_EACH_13, IOX2SD_EACH_12, IOX2SD_EACH_11, IOX2SD_EACH_10, IOX2SD_EACH_9,    \
                IOX2SD_EACH_8, IOX2SD_EACH_7, IOX2SD_EACH_6, IOX2SD_EACH_5, IOX2SD_EACH_4,        \
                IOX2SD_EACH_3, IOX2SD_EACH_2, IOX2SD_EACH_1, unused)                              \
    (make, __VA_ARGS__)

/// Lists the fields of a type that a struct of C has by the same names: `from_c` is the value of
/// such a struct, and `as_c` the struct. The names stand in the order of the members.
#define IOX2SD_OF_C(Type, c_type, ...)                                                            \
    IOX2SD_FIELDS(__VA_ARGS__);                                                                   \
    static Type from_c(const c_type& c) noexcept {                                                \
        return {IOX2SD_EACH(IOX2SD_FROM_C, __VA_ARGS__)};                                         \
    }                                                                                             \
    c_type as_c() const noexcept {                                                                \
        c_type c{};                                                                               \
        IOX2SD_EACH(IOX2SD_AS_C, __VA_ARGS__)                                                     \
        return c;                                                                                 \
    }                                                                                             \
    static_assert(true, "a semicolon follows")
#define IOX2SD_FROM_C(name) detail::from_c<decltype(name)>(c.name),
#define IOX2SD_AS_C(name) c.name = detail::as_c(name);

namespace detail {

template <class T>
inline constexpr bool is_optional = false;
template <class T>
inline constexpr bool is_optional<std::optional<T>> = true;

/// A field of a struct of C as a value, and a value as such a field.
template <class T, class C>
T from_c(const C& c) noexcept {
    if constexpr (std::is_same_v<T, C>) {
        return c;
    } else if constexpr (std::is_enum_v<T>) {
        return T{c};
    } else if constexpr (is_optional<T>) {
        if (!c.is_some) return std::nullopt;
        return T::value_type::from_c(c);
    } else {
        return T::from_c(c);
    }
}
template <class T>
auto as_c(const T& value) noexcept {
    if constexpr (std::is_arithmetic_v<T>) {
        return value;
    } else if constexpr (std::is_enum_v<T>) {
        return static_cast<std::underlying_type_t<T>>(value);
    } else {
        return value.as_c();
    }
}

}  // namespace detail

#define IOX2SD_COMPARISON(op, ...)                                   \
    template <class A, class B, class = detail::IfCompared<A, B>>    \
    bool operator op(const A& a, const B& b) noexcept {              \
        return __VA_ARGS__;                                          \
    }
IOX2SD_COMPARISON(==, detail::Compared<A, B>::same(a, b))
IOX2SD_COMPARISON(!=, !detail::Compared<A, B>::same(a, b))
IOX2SD_COMPARISON(<, detail::Compared<A, B>::order(a, b) < 0)
IOX2SD_COMPARISON(>, detail::Compared<A, B>::order(a, b) > 0)
IOX2SD_COMPARISON(<=, detail::Compared<A, B>::order(a, b) <= 0)
IOX2SD_COMPARISON(>=, detail::Compared<A, B>::order(a, b) >= 0)
#undef IOX2SD_COMPARISON
#ifdef __cpp_lib_three_way_comparison
template <class A, class B, class = detail::IfCompared<A, B>>
std::strong_ordering operator<=>(const A& a, const B& b) noexcept {
    return detail::Compared<A, B>::order(a, b) <=> 0;
}
#endif

/// Writes texts, and what has one: statuses, ids, roles, patterns, fields and errors.
template <class Traits, class T, class = std::enable_if_t<detail::is_written<T>>>
std::basic_ostream<char, Traits>& operator<<(std::basic_ostream<char, Traits>& out,
                                             const T& value) {
    const auto words = detail::written(value);
    return out << std::string_view(words);
}

// ---- Results ----

namespace detail {

template <class Error, class = void>
inline constexpr bool has_status = false;
template <class Error>
inline constexpr bool
    has_status<Error, std::enable_if_t<std::is_same_v<decltype(Error::status), Status>>> = true;

constexpr Status status_of(Status status) noexcept { return status; }

template <class Error>
constexpr Status status_of(const Error& error) noexcept {
    return error.status;
}

/// Whether an error becomes one of another type: a struct with a status becomes its status.
template <class From, class To>
inline constexpr bool is_error_of =
    std::is_convertible_v<From, To> || (std::is_same_v<To, Status> && has_status<From>);

template <class To, class From>
To error_as(From&& error) noexcept {
    if constexpr (std::is_convertible_v<From, To>) {
        return std::forward<From>(error);
    } else {
        return status_of(error);
    }
}

/// Whether a value becomes one of another type without a cast. A number does not.
template <class From, class To>
inline constexpr bool is_value_of =
    std::is_same_v<From, To> || (!std::is_arithmetic_v<To> && std::is_convertible_v<From, To>);

/// Prints why the program ends, and ends it.
[[noreturn]] inline void end(const char* what, std::string_view why) noexcept {
    std::fprintf(stderr, "iox2sd: %s%.*s\n", what, static_cast<int>(why.size()), why.data());
    std::abort();
}

/// Ends the program where a value is taken of a result that has none.
template <class Error>
[[noreturn]] void no_value(const Error& error) noexcept {
    constexpr const char* what = "a Result has no value: ";
    if constexpr (is_written<Error>) {
        const auto why = written(error);
        end(what, why);
    } else if constexpr (has_status<Error>) {
        end(what, text(error.status));
    } else {
        end(what, "its error has no status");
    }
}

/// How a value or an error is copied: as its bytes, by its own functions, or not at all.
enum class Copied { AsBytes, ByItself, Never };

template <class T, class E>
inline constexpr Copied copied =
    std::is_trivially_copyable_v<T> && std::is_trivially_copyable_v<E> ? Copied::AsBytes
    : std::is_copy_constructible_v<T> && std::is_copy_constructible_v<E> ? Copied::ByItself
                                                                         : Copied::Never;

/// A value or an error. The kinds that most results have are not left to `std::variant`, which
/// takes long to compile.
template <class T, class E, Copied = copied<T, E>>
class Either {
public:
    explicit Either(T&& value) noexcept : state_(std::in_place_index<0>, std::move(value)) {}
    explicit Either(E&& error) noexcept : state_(std::in_place_index<1>, std::move(error)) {}

    bool has_value() const noexcept { return state_.index() == 0; }
    T& value() noexcept { return *std::get_if<0>(&state_); }
    const T& value() const noexcept { return *std::get_if<0>(&state_); }
    E& error() noexcept { return *std::get_if<1>(&state_); }
    const E& error() const noexcept { return *std::get_if<1>(&state_); }

private:
    std::variant<T, E> state_;
};

template <class T, class E>
class Either<T, E, Copied::AsBytes> {
public:
    explicit Either(T&& value) noexcept : value_(std::move(value)), has_value_(true) {}
    explicit Either(E&& error) noexcept : error_(std::move(error)), has_value_(false) {}

    bool has_value() const noexcept { return has_value_; }
    T& value() noexcept { return value_; }
    const T& value() const noexcept { return value_; }
    E& error() noexcept { return error_; }
    const E& error() const noexcept { return error_; }

private:
    union {
        T value_;
        E error_;
    };
    bool has_value_;
};

template <class T, class E>
class Either<T, E, Copied::Never> {
public:
    explicit Either(T&& value) noexcept : value_(std::move(value)), has_value_(true) {}
    explicit Either(E&& error) noexcept : error_(std::move(error)), has_value_(false) {}
    Either(Either&& other) noexcept { take(other); }
    Either& operator=(Either&& other) noexcept {
        if (this != &other) {
            end();
            take(other);
        }
        return *this;
    }
    ~Either() { end(); }

    bool has_value() const noexcept { return has_value_; }
    T& value() noexcept { return value_; }
    const T& value() const noexcept { return value_; }
    E& error() noexcept { return error_; }
    const E& error() const noexcept { return error_; }

private:
    void take(Either& other) noexcept {
        has_value_ = other.has_value_;
        if (has_value_) {
            ::new (static_cast<void*>(&value_)) T(std::move(other.value_));
        } else {
            ::new (static_cast<void*>(&error_)) E(std::move(other.error_));
        }
    }

    void end() noexcept {
        if (has_value_) {
            value_.~T();
        } else {
            error_.~E();
        }
    }

    union {
        T value_;
        E error_;
    };
    bool has_value_;
};

/// The value of a result without one.
struct Nothing {
    friend bool operator==(Nothing, Nothing) noexcept { return true; }
};

/// The call of a function with the value of a result, or with nothing where it has none.
template <class F, class R, class T = typename std::remove_reference_t<R>::value_type>
struct Call {
    using Made = std::invoke_result_t<F, decltype(*std::declval<R>())>;
    static constexpr bool never_throws =
        std::is_nothrow_invocable_v<F, decltype(*std::declval<R>())>;
    static Made make(F&& f, R&& result) noexcept(never_throws) {
        return std::forward<F>(f)(*std::forward<R>(result));
    }
};
template <class F, class R>
struct Call<F, R, void> {
    using Made = std::invoke_result_t<F>;
    static constexpr bool never_throws = std::is_nothrow_invocable_v<F>;
    static Made make(F&& f, R&&) noexcept(never_throws) { return std::forward<F>(f)(); }
};

/// The call of a function with the error of a result. It throws nothing where the function and a
/// copy of the value throw nothing.
template <class F, class R>
struct ErrorCall {
    using Value = typename std::remove_reference_t<R>::value_type;
    using Error = decltype(std::declval<R>().error());
    using Made = std::invoke_result_t<F, Error>;
    static constexpr bool never_throws =
        std::is_nothrow_invocable_v<F, Error> &&
        std::is_nothrow_constructible_v<std::remove_reference_t<R>, R>;
    /// A result of another type with the same value.
    template <class Next>
    static Next passed(R&& result) noexcept(never_throws) {
        if constexpr (std::is_void_v<Value>) {
            return Next();
        } else {
            return Next(*std::forward<R>(result));
        }
    }
};

template <class T>
using Plain = std::remove_cv_t<std::remove_reference_t<T>>;

template <class F, class R>
auto and_then(F&& f, R&& result) noexcept(Call<F, R>::never_throws) {
    using Next = Plain<typename Call<F, R>::Made>;
    if (!result.has_value()) return Next(std::forward<R>(result).error());
    return Call<F, R>::make(std::forward<F>(f), std::forward<R>(result));
}

template <class F, class R>
auto transform(F&& f, R&& result) noexcept(Call<F, R>::never_throws) {
    using Made = Plain<typename Call<F, R>::Made>;
    using Next = Result<Made, typename std::remove_reference_t<R>::error_type>;
    if (!result.has_value()) return Next(std::forward<R>(result).error());
    if constexpr (std::is_void_v<Made>) {
        Call<F, R>::make(std::forward<F>(f), std::forward<R>(result));
        return Next();
    } else {
        return Next(Call<F, R>::make(std::forward<F>(f), std::forward<R>(result)));
    }
}

template <class F, class R>
auto or_else(F&& f, R&& result) noexcept(ErrorCall<F, R>::never_throws) {
    using Next = Plain<typename ErrorCall<F, R>::Made>;
    if (!result.has_value()) return std::forward<F>(f)(std::forward<R>(result).error());
    return ErrorCall<F, R>::template passed<Next>(std::forward<R>(result));
}

template <class F, class R>
auto transform_error(F&& f, R&& result) noexcept(ErrorCall<F, R>::never_throws) {
    using Next = Result<typename ErrorCall<F, R>::Value, Plain<typename ErrorCall<F, R>::Made>>;
    if (!result.has_value()) return Next(std::forward<F>(f)(std::forward<R>(result).error()));
    return ErrorCall<F, R>::template passed<Next>(std::forward<R>(result));
}

/// What results with and without a value share; `R` is the result itself, and `T` its value.
template <class R, class T, class E>
class Outcome {
public:
    using error_type = E;

    bool has_value() const noexcept { return state_.has_value(); }

    /// `Status::Done` where there is no error, and the status of the error otherwise.
    Status status() const noexcept {
        return has_value() ? Status::Done : status_of(state_.error());
    }

    /// The error, by itself where the result is a temporary. Where there is none the program prints
    /// that and is aborted.
    const E& error() const& noexcept { return the_error(*this); }
    E error() && noexcept { return std::move(the_error(*this)); }

    /// What `f`, which returns a `Result`, makes of the value; or the error. A result without a
    /// value calls `f` with nothing. This call and the next three throw what `f` throws.
    template <class F>
    auto and_then(F&& f) const& noexcept(Call<F, const R&>::never_throws) {
        return detail::and_then(std::forward<F>(f), static_cast<const R&>(*this));
    }
    template <class F>
    auto and_then(F&& f) && noexcept(Call<F, R>::never_throws) {
        return detail::and_then(std::forward<F>(f), static_cast<R&&>(*this));
    }

    /// A `Result` with what `f` makes of the value; or with the error.
    template <class F>
    auto transform(F&& f) const& noexcept(Call<F, const R&>::never_throws) {
        return detail::transform(std::forward<F>(f), static_cast<const R&>(*this));
    }
    template <class F>
    auto transform(F&& f) && noexcept(Call<F, R>::never_throws) {
        return detail::transform(std::forward<F>(f), static_cast<R&&>(*this));
    }

    /// The value; or what `f`, which returns a `Result` with such a value, makes of the error.
    template <class F>
    auto or_else(F&& f) const& noexcept(ErrorCall<F, const R&>::never_throws) {
        return detail::or_else(std::forward<F>(f), static_cast<const R&>(*this));
    }
    template <class F>
    auto or_else(F&& f) && noexcept(ErrorCall<F, R>::never_throws) {
        return detail::or_else(std::forward<F>(f), static_cast<R&&>(*this));
    }

    /// A `Result` with the value; or with what `f` makes of the error.
    template <class F>
    auto transform_error(F&& f) const& noexcept(ErrorCall<F, const R&>::never_throws) {
        return detail::transform_error(std::forward<F>(f), static_cast<const R&>(*this));
    }
    template <class F>
    auto transform_error(F&& f) && noexcept(ErrorCall<F, R>::never_throws) {
        return detail::transform_error(std::forward<F>(f), static_cast<R&&>(*this));
    }

    /// Results are equal where both have equal values, or both equal errors. A value or an error is
    /// compared as the result that it makes.
    friend bool operator==(const R& a, const R& b) noexcept {
        if (a.has_value() != b.has_value()) return false;
        return a.has_value() ? a.state_.value() == b.state_.value()
                             : a.state_.error() == b.state_.error();
    }
    friend bool operator!=(const R& a, const R& b) noexcept { return !(a == b); }

protected:
    using State = Either<T, E>;
    explicit Outcome(State&& state) noexcept : state_(std::move(state)) {}
    explicit Outcome(T&& value) noexcept : state_(std::move(value)) {}
    explicit Outcome(E&& error) noexcept : state_(std::move(error)) {}

    template <class Self>
    static auto& the_value(Self& self) noexcept {
        if (!self.has_value()) no_value(self.state_.error());
        return self.state_.value();
    }
    template <class Self>
    static auto& the_error(Self& self) noexcept {
        if (self.has_value()) end("a Result has no error", "");
        return self.state_.error();
    }

    State state_;
};

}  // namespace detail

/// A value, or the error for which there is none: a `Status`, or a struct with a `status`.
///
/// A result becomes one of another type where its value and its error do: a struct with a `status`
/// becomes that status. So `return name.error();` of a `TextError` ends a function that returns a
/// `Result<StaticConfig>`.
template <class T, class E>
class [[nodiscard]] Result : public detail::Outcome<Result<T, E>, T, E> {
    using Base = detail::Outcome<Result, T, E>;
    using typename Base::State;

public:
    using value_type = T;

    Result(T value) noexcept : Base(std::move(value)) {}
    Result(E error) noexcept : Base(std::move(error)) {}
    template <class G, class = std::enable_if_t<!std::is_same_v<G, E> &&
                                                detail::is_error_of<G, E> &&
                                                !detail::is_value_of<G, T>>>
    Result(const G& error) noexcept : Base(detail::error_as<E>(error)) {}
    template <class U, class G,
              class = std::enable_if_t<!std::is_same_v<Result<U, G>, Result> &&
                                       detail::is_value_of<U, T> && detail::is_error_of<G, E>>>
    Result(Result<U, G> other) noexcept
        : Base(other.has_value() ? State(T(*std::move(other)))
                                 : State(detail::error_as<E>(std::move(other).error()))) {}

    /// Whether there is a value. A `Result<bool>` has no such conversion: it would be true for the
    /// value `false`. Call `has_value`, or take the value by `*`.
    template <class U = T, class = std::enable_if_t<!std::is_same_v<U, bool>>>
    explicit operator bool() const noexcept {
        return this->has_value();
    }

    /// The value, by itself where the result is a temporary. Where there is none the program prints
    /// the error's text and is aborted: call `has_value` first.
    T& value() & noexcept { return Base::the_value(*this); }
    const T& value() const& noexcept { return Base::the_value(*this); }
    T value() && noexcept { return std::move(Base::the_value(*this)); }
    T& operator*() & noexcept { return value(); }
    const T& operator*() const& noexcept { return value(); }
    T operator*() && noexcept { return std::move(*this).value(); }
    /// A member of the value. That of a temporary does not compile, since what it returns may last
    /// no longer: write `value().size()`.
    T* operator->() & noexcept { return &value(); }
    const T* operator->() const& noexcept { return &value(); }
    const T* operator->() const&& = delete;

    /// The value, or another where there is none.
    T value_or(T other) const& noexcept(std::is_nothrow_copy_constructible_v<T>) {
        return this->has_value() ? value() : std::move(other);
    }
    T value_or(T other) && noexcept {
        return this->has_value() ? std::move(*this).value() : std::move(other);
    }
};

/// That something was done, or the error for which it was not.
template <class E>
class [[nodiscard]] Result<void, E> : public detail::Outcome<Result<void, E>, detail::Nothing, E> {
    using Base = detail::Outcome<Result, detail::Nothing, E>;
    using typename Base::State;

public:
    using value_type = void;

    Result() noexcept : Base(detail::Nothing()) {}
    Result(E error) noexcept : Base(std::move(error)) {}
    template <class G, class = std::enable_if_t<!std::is_same_v<G, E> && detail::is_error_of<G, E>>>
    Result(const G& error) noexcept : Base(detail::error_as<E>(error)) {}
    template <class G, class = std::enable_if_t<!std::is_same_v<G, E> && detail::is_error_of<G, E>>>
    Result(Result<void, G> other) noexcept
        : Base(other ? State(detail::Nothing())
                     : State(detail::error_as<E>(std::move(other).error()))) {}

    explicit operator bool() const noexcept { return this->has_value(); }

    /// Where there is an error the program prints its text and is aborted.
    void value() const noexcept { static_cast<void>(Base::the_value(*this)); }
    void operator*() const noexcept { value(); }
};

namespace detail {

/// The value of an answer whose status is `Done`, or its status.
template <class T>
Result<T> result(std::uint32_t status, T value) noexcept {
    if (status != IOX2SD_STATUS_DONE) return Status{status};
    return value;
}

inline Result<void> result(std::uint32_t status) noexcept {
    if (status != IOX2SD_STATUS_DONE) return Status{status};
    return {};
}

inline Result<std::size_t> result(const iox2sd_count_answer& answer) noexcept {
    return result(answer.status, answer.count);
}

/// What a call of the C headers returns of so many items.
inline iox2sd_count_answer counted(std::uint32_t status, std::size_t count) noexcept {
    iox2sd_count_answer answer{};
    answer.status = status;
    answer.count = count;
    return answer;
}

/// Whether a range says how many items it has.
template <class Range, class = void>
inline constexpr bool is_sized = false;
template <class Range>
inline constexpr bool is_sized<Range, std::void_t<decltype(std::size(std::declval<Range&>()))>> =
    true;

}  // namespace detail

// ---- Lists ----

/// A list of values, which is moved and not copied, as `begin()` to `end()` or by index. One of
/// characters is a `string_view` too. What points into a temporary list does not compile.
template <class T>
class List {
public:
    static_assert(std::is_trivially_copyable_v<T> && std::is_trivially_destructible_v<T>);
    static_assert(alignof(T) <= __STDCPP_DEFAULT_NEW_ALIGNMENT__);
    using value_type = T;
    using size_type = std::size_t;
    using const_reference = const T&;
    using const_iterator = const T*;

    List() noexcept = default;
    List(List&& other) noexcept
        : items_(std::exchange(other.items_, nullptr)), size_(std::exchange(other.size_, 0)) {}
    List& operator=(List&& other) noexcept {
        List taken(std::move(other));
        std::swap(items_, taken.items_);
        std::swap(size_, taken.size_);
        return *this;
    }
    ~List() { ::operator delete(items_); }

    /// What a function makes of each of `count` items. It throws what the function throws.
    /// Error: `NoMemory`.
    template <class From, class Make>
    static Result<List> of(const From* items, std::size_t count, Make make) noexcept(
        std::is_nothrow_invocable_v<Make, const From&>) {
        return made_of(items, items + count, count, make);
    }

    /// What a function makes of each item of a range, which is read once. Memory is taken once
    /// where the range says its size. It throws what the range and the function throw.
    /// Error: `NoMemory`.
    template <class Range, class Make>
    static Result<List> of_range(Range& range, Make make) {
        using std::begin, std::end;
        std::size_t size = 0;
        if constexpr (detail::is_sized<Range>) size = std::size(range);
        return made_of(begin(range), end(range), size, make);
    }

    /// The same, sorted by a function that says whether one item comes before another.
    template <class Range, class Make, class IsBefore>
    static Result<List> sorted_of_range(Range& range, Make make, IsBefore is_before) {
        Result<List> made = of_range(range, make);
        if (made) std::sort(made->items_, made->items_ + made->size_, is_before);
        return made;
    }

    /// The items that a call of the C headers writes into a buffer, where it says first how many
    /// there are. Errors: those of the call; `NoMemory`.
    template <class Call>
    static Result<List> written_by(Call call) noexcept {
        const iox2sd_count_answer needed = call(nullptr, 0);
        if (needed.status == IOX2SD_STATUS_DONE) return List();
        if (needed.status != IOX2SD_STATUS_BUFFER_TOO_SHORT) return Status{needed.status};
        return written_by(call, needed.count);
    }

    /// The same, where it is known how many there are.
    template <class Call>
    static Result<List> written_by(Call call, std::size_t count) noexcept {
        List made;
        if (!made.move_to(count)) return Status::NoMemory;
        const iox2sd_count_answer found = call(made.items_, count);
        if (found.status != IOX2SD_STATUS_DONE) return Status{found.status};
        made.size_ = found.count;
        return made;
    }

    /// What a function makes of the items that a call of the C headers writes so: of a few, by one
    /// call and with memory taken once. Errors: those of the call; `NoMemory`.
    template <class C, class Call>
    static Result<List> made_by(Call call, T make(const C&)) noexcept {
        C few[16];
        const iox2sd_count_answer found = call(few, std::size(few));
        if (found.status == IOX2SD_STATUS_DONE) {
            return made_of(few, few + found.count, found.count, make);
        }
        if (found.status != IOX2SD_STATUS_BUFFER_TOO_SHORT) return Status{found.status};
        const Result<List<C>> many = List<C>::written_by(call, found.count);
        if (!many) return many.error();
        return made_of(many->begin(), many->end(), many->size(), make);
    }

    std::size_t size() const noexcept { return size_; }
    bool empty() const noexcept { return size_ == 0; }
    IOX2SD_LENDS(const T*, data, items_);
    IOX2SD_LENDS(const T*, begin, items_);
    IOX2SD_LENDS(const T*, end, items_ + size_);
    IOX2SD_LENDS(const T*, cbegin, items_);
    IOX2SD_LENDS(const T*, cend, items_ + size_);
    /// The item at an index below `size()`, and the first and the last of a list that is not empty.
    const T& operator[](std::size_t index) const& noexcept { return items_[index]; }
    T operator[](std::size_t index) const&& noexcept { return items_[index]; }
    const T& front() const& noexcept { return items_[0]; }
    T front() const&& noexcept { return items_[0]; }
    const T& back() const& noexcept { return items_[size_ - 1]; }
    T back() const&& noexcept { return items_[size_ - 1]; }

    template <class U = T, class = std::enable_if_t<std::is_same_v<U, char>>>
    operator std::string_view() const& noexcept {
        return {items_, size_};
    }
    template <class U = T, class = std::enable_if_t<std::is_same_v<U, char>>>
    operator std::string_view() const&& = delete;

    friend bool operator==(const List& a, const List& b) noexcept { return a.row() == b.row(); }
    friend bool operator!=(const List& a, const List& b) noexcept { return !(a == b); }

private:
    detail::Row<T> row() const noexcept { return {items_, size_}; }

    /// What a function makes of the items from `first` to before `last`, of which there are `known`
    /// where that is known.
    template <class First, class Last, class Make>
    static Result<List> made_of(First first, Last last, std::size_t known, Make make) {
        List made;
        std::size_t capacity = known;
        if (capacity != 0 && !made.move_to(capacity)) return Status::NoMemory;
        for (; first != last; ++first) {
            if (made.size_ == capacity) {
                capacity = capacity == 0 ? 16 : 2 * capacity;
                if (!made.move_to(capacity)) return Status::NoMemory;
            }
            ::new (made.items_ + made.size_) T(make(*first));
            ++made.size_;
        }
        return made;
    }

    /// Moves the items to memory for so many, and returns whether there was some.
    bool move_to(std::size_t capacity) noexcept {
        if (capacity > SIZE_MAX / sizeof(T)) return false;
        T* const items = static_cast<T*>(::operator new(capacity * sizeof(T), std::nothrow));
        if (items == nullptr) return false;
        detail::copy_items(items_, size_, items);
        ::operator delete(std::exchange(items_, items));
        return true;
    }

    T* items_ = nullptr;
    std::size_t size_ = 0;
};

}  // namespace iox2sd

#endif
