// Calls each function of iox2sd.hpp on values, and each of their refusals. The expected values come
// from outside. The last line is 'N checks, N failed'.
#include <sys/mman.h>

#include <chrono>
#include <sstream>
#include <string>
#include <type_traits>

#include "check.hpp"
#include "iox2sd.hpp"

namespace {

using namespace iox2sd;
using std::string;

/// In C++20 one operator stands for all of order.
template <class A, class B>
bool three_way(const A& less, const B& greater) {
#ifdef __cpp_lib_three_way_comparison
    static_assert(std::is_same_v<decltype(less <=> greater), std::strong_ordering>);
    return (less <=> greater) < 0 && (greater <=> less) > 0 && (less <=> less) == 0;
#else
    return less < greater;
#endif
}

template <class T>
bool ordered(const T& less, const T& greater) {
    return three_way(less, greater) && less == less && !(less != less) && less <= less && less >= less && less != greater &&
           less < greater && greater > less && less <= greater && greater >= less &&
           !(greater < less) && !(less > greater) && !(less == greater);
}

string with_byte(std::size_t size, std::size_t at, char byte) {
    string text(size, 'x');
    text[at] = byte;
    return text;
}

template <class T>
bool refuses(const Result<T, TextError>& result, Status status, std::size_t at) {
    return !result && result.status() == status && result.error() == TextError{status, at};
}

AttributeKey key(std::string_view text) { return AttributeKey::create(text).value(); }
AttributeValue value(std::string_view text) { return AttributeValue::create(text).value(); }
Path path(std::string_view text) { return Path::create(text).value(); }

void versions() {
    CHECK(abi() == IOX2SD_ABI && version() == "0.1.0" && layer_version() == "0.9.3");
}

void results() {
    Result<int> some = 5;
    const Result<int> none = Status::Null;
    CHECK(some && some.has_value() && some.value() == 5 && *some == 5);
    CHECK(some.status() == Status::Done);
    some.value() = 6;
    CHECK(*static_cast<const Result<int>&>(some) == 6 && *std::move(some) == 6);
    CHECK(!none && none.error() == Status::Null && none.status() == Status::Null);
    CHECK(Result<int>(Status::Null).value_or(7) == 7 && Result<int>(8).value_or(7) == 8);
    const Result<int> other = none.value_or(7);
    CHECK(other == 7 && other != none && none == Status::Null && none != Status::NoMemory);
    const auto halved = [](int n) -> Result<int> {
        if (n % 2 != 0) return Status::BadAlignment;
        return n / 2;
    };
    CHECK(some.and_then(halved) == 3 && other.and_then(halved) == Status::BadAlignment);
    CHECK(none.and_then(halved) == Status::Null && Result<int>(8).and_then(halved) == 4);
    const auto written = [](int n) { return std::to_string(n); };
    CHECK(some.transform(written) == string("6") && none.transform(written) == Status::Null);
    CHECK(Result<int>(9).transform(written).value() == "9");
    int seen = 0;
    CHECK(some.transform([&](int n) { seen += n; }).has_value() && seen == 6);
    CHECK(!none.transform([&](int n) { seen += n; }).has_value() && seen == 6);
    const Result<void> done, refused = Status::TooLarge;
    CHECK(done == Result<void>() && refused == Status::TooLarge && done != refused);
    CHECK(done.and_then([] { return Result<int>(1); }) == 1);
    CHECK(refused.and_then([] { return Result<int>(1); }) == Status::TooLarge);
    CHECK(done.transform([] { return 2; }) == 2 && refused.transform([] { return 2; }) != 2);
    CHECK(done && done.has_value() && done.status() == Status::Done);
    CHECK(!refused && refused.error() == Status::TooLarge);
    CHECK(refused.status() == Status::TooLarge);
    // `if (service.is_locked())` would ask whether the service was asked, and does not compile.
    static_assert(!std::is_constructible_v<bool, Result<bool>>);
    static_assert(!std::is_constructible_v<bool, const Result<bool>&>);
    static_assert(!std::is_constructible_v<bool, Result<bool, TextError>>);
    static_assert(std::is_constructible_v<bool, Result<int>>);
    static_assert(!std::is_convertible_v<Result<int>, bool>);
    const Result<bool> no = false;
    CHECK(no.has_value() && !*no && no.status() == Status::Done);
    static_assert(!std::is_copy_constructible_v<Service> && !std::is_copy_assignable_v<Service>);
    static_assert(std::is_nothrow_move_constructible_v<Service>);
    static_assert(std::is_nothrow_move_assignable_v<Service>);
    static_assert(!std::is_copy_constructible_v<List<int>>);
    static_assert(std::is_nothrow_move_constructible_v<List<int>>);
}

/// Results are copied and moved as their values are: as bytes, by themselves, or moved alone.
void copies_and_moves() {
    static_assert(std::is_trivially_copyable_v<Result<int>>);
    static_assert(std::is_trivially_copyable_v<Result<AttributeKey, TextError>>);
    static_assert(std::is_copy_constructible_v<Result<string>>);
    static_assert(!std::is_copy_constructible_v<Result<List<int>>>);
    static_assert(!std::is_copy_assignable_v<Result<Service>>);
    const Result<string> text = string(40, 'x'), none = Status::Null;
    Result<string> copy = text;
    CHECK(copy == text && copy != none);
    copy = none;
    CHECK(copy == none && copy != text);

    const int items[] = {1, 2};
    const auto listed = [&items] { return List<int>::of(items, 2, [](int n) { return n; }); };
    Result<List<int>> first = listed(), refused = Status::TooLarge;
    Result<List<int>> taken = std::move(first);
    CHECK(taken->size() == 2 && first.has_value() && first->empty());
    Result<List<int>> error = std::move(refused);
    CHECK(error == Status::TooLarge);
    taken = std::move(error);
    CHECK(taken == Status::TooLarge && taken != listed());
    taken = listed();
    CHECK(taken == listed() && taken->back() == 2);
    CHECK(taken != List<int>::of(items, 2, [](int n) { return 2 * n; }));
    auto& same = taken;
    taken = std::move(same);
    CHECK(taken == listed());
    List<int>& list = *taken;
    List<int>& same_list = list;
    list = std::move(same_list);
    CHECK(list.size() == 2 && list.front() == 1);
    List<int> empty;
    list = std::move(empty);
    CHECK(list.empty() && list == List<int>() && taken->empty());
}

/// What all texts of 1 to `most` bytes share.
template <class Name>
void names(std::size_t most) {
    const auto longest = Name::create(with_byte(most, 0, 'y'));
    CHECK(longest && longest->view() == with_byte(most, 0, 'y') && longest->size() == most);
    CHECK(Name::create("y").value() == "y");
    CHECK(refuses(Name::create(""), Status::Empty, 0));
    CHECK(refuses(Name::create({}), Status::Empty, 0));
    CHECK(refuses(Name::create(with_byte(most + 1, 3, '\0')), Status::TooLong, most));
    CHECK(refuses(Name::create(with_byte(most, 3, '\0')), Status::IllegalByte, 3));
    CHECK(refuses(Name::create(with_byte(most, most - 1, '\x80')), Status::IllegalByte, most - 1));
    CHECK(ordered(*Name::create("a"), *Name::create("aa")));
    CHECK(ordered(*Name::create("Z"), *Name::create("a")));
}

void texts() {
    names<ServiceName>(255);
    names<AttributeKey>(64);
    names<AttributeValue>(256);
    names<FileName>(255);
    names<FilePath>(255);
    names<RestrictedFileName>(64);
    CHECK(AttributeKey::capacity() == 64 && AttributeValue::capacity() == 256);
    // A length that 32 bits would cut to one that is legal.
    const std::size_t size = (std::size_t{1} << 32) + 1;
    void* const place =
        mmap(nullptr, size, PROT_READ, MAP_PRIVATE | MAP_ANONYMOUS | MAP_NORESERVE, -1, 0);
    CHECK(place != MAP_FAILED);
    const std::string_view huge(static_cast<const char*>(place), size);
    CHECK(refuses(ServiceName::create(huge), Status::TooLong, 255));
    CHECK(refuses(AttributeKey::create(huge), Status::TooLong, 64));
    CHECK(refuses(Path::create(huge), Status::TooLong, 255));
    CHECK(munmap(place, size) == 0);

    CHECK(refuses(ServiceName::create("iox2://\xff"), Status::ReservedPrefix, 0));
    CHECK(ServiceName::create("iox2:/x").value() == "iox2:/x");
    CHECK(refuses(ServiceName::internal_new("iox2://\xff"), Status::IllegalByte, 7));
    CHECK(refuses(ServiceName::internal_new(""), Status::Empty, 0));
    CHECK(ServiceName::internal_new("iox2://x").value() == "iox2://x");
    CHECK(ServiceName::internal_new_prefixed("ab").value() == "iox2://ab");
    CHECK(ServiceName::internal_new_prefixed("").value() == "iox2://");
    CHECK(ServiceName::internal_new_prefixed(string(248, 'x')).value().size() == 255);
    CHECK(ServiceName::internal_new_prefixed(string(249, 'x')).status() == Status::TooLong);
    CHECK(ServiceName::internal_new_prefixed(with_byte(9, 3, '\0')).status() ==
          Status::IllegalByte);
    CHECK(ServiceName::internal_new_prefixed("\xff").status() == Status::NotUtf8);
    CHECK(ServiceName::has_iox2_prefix("iox2://") && !ServiceName::has_iox2_prefix("iox2:/"));

    CHECK(refuses(FileName::create("a/b"), Status::IllegalByte, 1));
    CHECK(refuses(FileName::create("."), Status::NoFileName, 0));
    CHECK(refuses(FilePath::create("a/"), Status::NoFileName, 0));
    CHECK(FilePath::create("a/b").value() == "a/b");
    CHECK(RestrictedFileName::create("aZ9-.:_").value() == "aZ9-.:_");
    CHECK(refuses(RestrictedFileName::create("a b"), Status::IllegalByte, 1));
    CHECK(refuses(RestrictedFileName::create(".."), Status::NoFileName, 0));
}

template <class T, class = void>
constexpr bool views_a_temporary = false;
template <class T>
constexpr bool views_a_temporary<T, std::void_t<decltype(std::declval<T>().view())>> = true;

template <class T, class = void>
constexpr bool points_into_a_temporary = false;
template <class T>
constexpr bool points_into_a_temporary<T, std::void_t<decltype(std::declval<T>().event())>> = true;

template <class... Values>
string streamed(const Values&... values) {
    std::ostringstream out;
    (out << ... << values);
    return out.str();
}

/// Texts, ids and statuses are written; a view of a temporary does not compile.
void writing() {
    static_assert(!views_a_temporary<ServiceName> && !views_a_temporary<const Text<32>>);
    static_assert(views_a_temporary<ServiceName&> && views_a_temporary<const Text<32>&>);
    static_assert(!points_into_a_temporary<StaticConfig>);
    static_assert(points_into_a_temporary<const StaticConfig&>);
    static_assert(!std::is_convertible_v<ServiceName, std::string_view>);
    static_assert(!std::is_convertible_v<const ServiceName, std::string_view>);
    static_assert(std::is_convertible_v<const ServiceName&, std::string_view>);
    CHECK(streamed(key("a"), ' ', path("b/c"), ' ', Status::Done) == "a b/c done");
    const UniqueListenerId listener(1, 0, 0, 10);
    CHECK(streamed(UniqueNodeId::create(1, 0, 0, 10).value()) == "100000000000000000000000a");
    CHECK(streamed(listener, UniquePortId(UniqueWriterId(0, 0, 0, 7))) ==
          "100000000000000000000000a7");
}

/// Texts of all capacities, views, strings and characters are compared with each other.
void comparisons() {
    const AttributeKey shorter = key("a");
    const Path longer = path("a");
    const string text = "a";
    const std::string_view view = text;
    CHECK(shorter == longer && longer == shorter && !(shorter != longer) && shorter <= longer);
    CHECK(shorter == text && text == shorter && shorter == view && view == shorter);
    CHECK(shorter == "a" && "a" == shorter && shorter != "b" && "b" != shorter);
    CHECK(shorter < path("b") && path("b") > shorter && shorter < "b" && "b" > shorter);
    CHECK(shorter >= view && view >= shorter && text <= longer && !(longer < text));
    CHECK(version() != layer_version() && version() < layer_version());
    CHECK(three_way(shorter, path("b")) && three_way(shorter, string("b")));
    CHECK(three_way(view, path("b")) && three_way(shorter, path("aa")));
}

void paths() {
    CHECK(Path().empty() && path("") == Path() && path(string(255, 'x')).size() == 255);
    CHECK(refuses(Path::create(with_byte(256, 0, '\0')), Status::TooLong, 255));
    CHECK(refuses(Path::create(with_byte(255, 9, '\x80')), Status::IllegalByte, 9));
    Path joined;
    CHECK(joined.add_path_entry(path("a")) && joined == "a");
    CHECK(joined.add_path_entry(path("bc/")) && joined == "a/bc/");
    CHECK(joined.add_path_entry(path("d")) && joined == "a/bc/d");
    CHECK(joined.add_path_entry(path(string(249, 'x'))).error() == Status::TooLong);
    CHECK(joined == "a/bc/d");
    CHECK(ordered(path("a"), joined));

    const FileName file = FileName::create("f").value();
    CHECK(FilePath::from_path_and_file(path("a"), file).value() == "a/f");
    CHECK(FilePath::from_path_and_file(Path(), file).value() == "f");
    CHECK(FilePath::from_path_and_file(path(string(254, 'x')), file).status() == Status::TooLong);
}

void hashes() {
    const ServiceName a = ServiceName::create("a").value();
    const ServiceName service = ServiceName::create("My/Service").value();
    const ServiceName internal = ServiceName::internal_new("iox2://x").value();
    const auto hash = [](const ServiceName& name, PatternKind kind) {
        return ServiceHash::create(name, kind).value();
    };
    CHECK(hash(a, PatternKind::Event) == "mywygMzqC6QIJwxFGFv7zTYWQjc");
    CHECK(hash(service, PatternKind::RequestResponse) == "h8eTEKlg0S7w-piembOTeKmjrxo");
    CHECK(hash(internal, PatternKind::Blackboard) == "dBa6f4MAuXbGPrWuZe58tIdzmlw");
    CHECK(ServiceHash::create(a, PatternKind{4}).status() == Status::UnknownPattern);
    CHECK(ordered(hash(service, PatternKind::RequestResponse), hash(a, PatternKind::Event)));
}

void ids() {
    const UniqueServiceId a(1, 2, 3, 4), most(UINT32_MAX, UINT32_MAX, UINT32_MAX, UINT32_MAX);
    CHECK(a.text() == "1000000020000000300000004");
    CHECK(most.text() == "ffffffffffffffffffffffffffffffff");
    CHECK(UniqueServiceId(0, 0, 0, 0).text() == "0");
    CHECK(a.process() == 1 && a.seconds() == 2 && a.nanoseconds() == 3 && a.counter() == 4);
    CHECK(a.parts().counter == 4);
    CHECK(ordered(a, UniqueServiceId(2, 0, 0, 0)) && ordered(a, UniqueServiceId(1, 3, 0, 0)));
    CHECK(ordered(a, UniqueServiceId(1, 2, 4, 0)) && ordered(a, UniqueServiceId(1, 2, 3, 5)));

    const Result<UniqueNodeId> node = UniqueNodeId::create(1, 2, 3, 4);
    CHECK(node && node->owner_id() == 0x100000004u && node->text() == a.text());

    const std::string widest(32, 'f');
    CHECK(UniqueServiceId::from_text("0") == UniqueServiceId(0, 0, 0, 0));
    CHECK(UniqueServiceId::from_text(widest).value().text() == widest);
    const auto shown = a.text();
    CHECK(UniqueNodeId::from_text(shown) == *node);
    CHECK(UniqueServiceId::from_text("").error() == Status::Empty);
    CHECK(UniqueServiceId::from_text(widest + "f").error() == Status::TooLong);
    for (const char* other : {"01", "A", "g", " 1", "1 ", "-1", "0x1"}) {
        CHECK(UniqueServiceId::from_text(other).error() == Status::IllegalByte);
        CHECK(UniqueNodeId::from_text(other).error() == Status::IllegalByte);
    }
    CHECK(UniqueNodeId::from_text("100000000").error() == Status::NoNode);
    CHECK(UniqueNodeId::create(0, 5, 6, 0).status() == Status::NoNode);
    CHECK(UniqueNodeId::create(0, 0, 0, 1) && UniqueNodeId::create(1, 0, 0, 0));
    CHECK(ordered(*node, UniqueNodeId::create(1, 2, 3, 5).value()));

    static_assert(std::is_convertible_v<UniqueListenerId, UniquePortId>);
    static_assert(!std::is_convertible_v<UniqueNodeId, UniquePortId>);
    static_assert(!std::is_constructible_v<UniquePortId, UniqueNodeId>);
    static_assert(!std::is_constructible_v<UniquePortId, UniqueServiceId>);
    const UniquePortId publisher = UniquePublisherId(1, 2, 3, 4),
                       writer = UniqueWriterId(0, 0, 0, 0);
    CHECK(publisher.role() == Role::Publisher && writer.role() == Role::Writer);
    CHECK(publisher.text() == a.text() && publisher.parts().seconds == 2);
    CHECK(ordered(publisher, writer) &&
          ordered(publisher, UniquePortId(UniquePublisherId(1, 2, 4, 0))));
}

void sets() {
    AttributeSet set;
    CHECK(set.number_of_attributes() == 0 && set.begin() == set.end());
    CHECK(AttributeSet::capacity() == 16);
    CHECK(set.add(key("b"), value("1")) && set.add(key("a"), value("2")));
    CHECK(set.add(key("b"), value("0")) && set.add(key("a"), value("10")));
    CHECK(set.number_of_attributes() == 4);
    string joined;
    for (const Attribute& each : set) {
        joined.append(each.key().view()).append("=").append(each.value().view()).append(" ");
    }
    CHECK(joined == "a=10 a=2 b=0 b=1 ");
    CHECK(set.number_of_key_values(key("b")) == 2 && set.number_of_key_values(key("c")) == 0);
    CHECK(set.key_value(key("b"), 0).value() == "0" && set.key_value(key("b"), 1).value() == "1");
    CHECK(set.key_value(key("b"), 2).status() == Status::NoSuchValue);
    CHECK(set.key_value(key("c"), 0).status() == Status::NoSuchValue);

    AttributeSet other;
    CHECK(other.add(key("a"), value("2")) && other.add(key("a"), value("10")));
    CHECK(other != set && !(set < other) && other < set && ordered(other, set));
    CHECK(other.add(key("b"), value("1")) && other.add(key("b"), value("0")) && other == set);
    CHECK(ordered(Attribute(key("a"), value("2")), Attribute(key("b"), value("1"))));
    CHECK(ordered(Attribute(key("a"), value("10")), Attribute(key("a"), value("2"))));

    while (set.number_of_attributes() < 16) CHECK(set.add(key("k"), value("v")));
    const AttributeSet full = set;
    CHECK(set.add(key("a"), value("1")).error() == Status::TooMany && set == full);
    // Sorted by the library as `<` orders them, whatever the order in which they came.
    AttributeSet mixed;
    const char* const texts[] = {"zz", "A", "~", "a", "\x01", "9", "a/", "aa"};
    for (const char* k : texts) CHECK(mixed.add(key(k), value("v")));
    for (const Attribute* each = mixed.begin(); each + 1 < mixed.end(); ++each) {
        CHECK(each[0] < each[1]);
    }
}

void requirements() {
    AttributeSet set;
    CHECK(set.add(key("b"), value("1")) && set.add(key("a"), value("2")));
    CHECK(set.add(key("b"), value("0")));
    AttributeVerifier verifier;
    CHECK(verifier.verify_requirements(set) && verifier.verify_requirements(AttributeSet()));
    CHECK(verifier.require(key("b"), value("0")) && verifier.require_key(key("a")));
    CHECK(verifier.verify_requirements(set));
    CHECK(verifier.required_attributes().number_of_attributes() == 1);
    CHECK(verifier.required_keys().size() == 1 && *verifier.required_keys().begin() == "a");
    const auto missing = verifier.verify_requirements(AttributeSet());
    CHECK(missing.error() == AttributeVerificationError{Status::MissingPair, key("b"), value("0")});

    CHECK(verifier.require_key(key("d")) && verifier.require_key(key("c")));
    const auto no_key = verifier.verify_requirements(set);
    CHECK(no_key.error() == AttributeVerificationError{Status::MissingKey, key("d"), {}});
    CHECK(no_key.status() == Status::MissingKey);
    CHECK(verifier.require(key("b"), value("3")) && verifier.require(key("b"), value("2")));
    const auto least = verifier.verify_requirements(set);
    CHECK(least.error() == AttributeVerificationError{Status::MissingPair, key("b"), value("2")});

    while (verifier.required_keys().size() < 13) CHECK(verifier.require_key(key("a")));
    CHECK(verifier.require_key(key("a")).error() == Status::TooManyRequired);
    CHECK(verifier.require(key("b"), value("1")).error() == Status::TooManyRequired);
    CHECK(verifier.required_keys().size() == 13);
    CHECK(verifier.required_attributes().number_of_attributes() == 3);
    AttributeVerifier pairs;
    for (int i = 0; i < 16; ++i) CHECK(pairs.require(key("b"), value("1")));
    CHECK(pairs.require(key("b"), value("1")).error() == Status::TooManyRequired);
    CHECK(pairs.verify_requirements(set));
}

TypeDetail type(std::string_view name, std::size_t size, std::size_t alignment) {
    return TypeDetail::create(TypeVariant::FixedSize, name, size, alignment).value();
}

MessageTypeDetails details(std::size_t payload_size, std::size_t payload_alignment) {
    return {type("Header", 8, 8), type("UserHeader", 4, 4),
            type("Payload", payload_size, payload_alignment)};
}

void types() {
    const auto refusal = [](TypeVariant variant, std::string_view name, std::size_t alignment) {
        return TypeDetail::create(variant, name, 8, alignment).error();
    };
    CHECK(refusal(TypeVariant{2}, "\xff", 3) == Status::UnknownVariant);
    CHECK(refusal(TypeVariant::Dynamic, "\xff", 3) == Status::NotUtf8);
    CHECK(refusal(TypeVariant::Dynamic, string(257, 'x'), 3) == Status::TooLong);
    CHECK(refusal(TypeVariant::Dynamic, "\xc3\xa4", 3) == Status::IllegalByte);
    CHECK(refusal(TypeVariant::Dynamic, "x", 3) == Status::BadAlignment);
    CHECK(refusal(TypeVariant::Dynamic, "x", 0) == Status::BadAlignment);
    const TypeDetail longest = type(string(256, 'x'), 8, 8);
    CHECK(longest.type_name().size() == 256 && type("", 0, 1).size() == 0);
    const TypeDetail number = TypeDetail::of<std::uint64_t>(TypeVariant::Dynamic, "u64").value();
    CHECK(number.variant() == TypeVariant::Dynamic && number.type_name() == "u64");
    CHECK(number.size() == 8 && number.alignment() == 8);
    CHECK(ordered(type("a", 8, 8), number) && ordered(type("a", 8, 4), type("a", 8, 8)));
    CHECK(ordered(details(8, 8), details(9, 8)));
}

void layouts() {
    // 8 + 4 and at most 3 before it, 2 * 8 and at most 7 before it: 38, in eights.
    CHECK(details(8, 8).sample_layout(2).value() == Layout{40, 8});
    CHECK(details(SIZE_MAX, 8).sample_layout(1).status() == Status::TooLarge);
    CHECK(details(8, 8).places(64).value() == MessagePlaces{72, 80});
    CHECK(details(8, 8).places(SIZE_MAX).status() == Status::TooLarge);
    // A service's details, and those of an opener that may use its messages: other offsets.
    CHECK(details(4, 4).is_compatible_to(details(4, 16)));
    CHECK(details(4, 16).sample_layout(1).value().size == 40);
    CHECK(details(4, 4).sample_layout(1).value().size == 24);
    CHECK(details(4, 16).places(0).value() == MessagePlaces{8, 16});
    CHECK(details(4, 4).places(0).value() == MessagePlaces{8, 12});
    CHECK(ordered(Layout{40, 8}, Layout{40, 16}) &&
          ordered(MessagePlaces{1, 9}, MessagePlaces{2, 0}));

    const MessageTypeDetails service = details(8, 16);
    const auto refusal = [&](const MessageTypeDetails& opener) {
        return opener.is_compatible_to(service).error();
    };
    MessageTypeDetails opener = details(8, 8);
    CHECK(opener.is_compatible_to(service) && service.is_compatible_to(service));
    opener.payload = type("Payload", 8, 32);
    CHECK(refusal(opener) == IncompatibleTypes{Status::GreaterAlignment, MessagePart::Payload});
    opener.payload = type("Payload", 9, 32);
    CHECK(refusal(opener) == IncompatibleTypes{Status::OtherSize, MessagePart::Payload});
    opener.payload = TypeDetail::create(TypeVariant::Dynamic, "Payload", 9, 32).value();
    CHECK(refusal(opener) == IncompatibleTypes{Status::OtherVariant, MessagePart::Payload});
    opener.user_header = type("Userheader", 4, 4);
    CHECK(refusal(opener) == IncompatibleTypes{Status::OtherName, MessagePart::UserHeader});
    opener.header = type("Header", 8, 4);
    CHECK(refusal(opener) == IncompatibleTypes{Status::OtherAlignment, MessagePart::Header});
    CHECK(opener.is_compatible_to(service).status() == Status::OtherAlignment);
}

void settings() {
    const PublishSubscribeSettings p = PublishSubscribeSettings::defaults();
    CHECK(p == PublishSubscribeSettings{8, 2, 20, 2, 2, 2, 0, 128,
                                        BackpressureStrategy::RetryUntilDelivered,
                                        AllocationStrategy::Static, true});
    const EventSettings e = EventSettings::defaults();
    CHECK(e == EventSettings{16, 16, 36, 255, {}, {}, {}, {}});
    const RequestResponseSettings r = RequestResponseSettings::defaults();
    CHECK(r == RequestResponseSettings{
                   4, 2, 2, 8, 20, 2, 2, 2, 128, 128, BackpressureStrategy::RetryUntilDelivered,
                   BackpressureStrategy::RetryUntilDelivered, AllocationStrategy::Static,
                   AllocationStrategy::Static, true, true, true});
    CHECK(BlackboardSettings::defaults() == BlackboardSettings{8, 20});
    PublishSubscribeSettings discarding = p;
    discarding.backpressure_strategy = BackpressureStrategy::DiscardData;
    CHECK(ordered(p, discarding));
    EventSettings late = e;
    late.deadline = Duration{1, 999999999};
    CHECK(ordered(e, late) && ordered(Duration{0, 5}, Duration{1, 0}));
    CHECK(ordered(EventId{3}, EventId{4}));
    CHECK(ordered(BlackboardSettings{8, 20}, BlackboardSettings{9, 0}));

    const char* const expected[] = {
        "/tmp/iceoryx2/", "iox2_", "services", ".data", ".service", ".dynamic", ".connection",
        ".event", ".blackboard_mgmt", ".blackboard_data", "nodes", ".node_monitor", ".details",
        ".service_tag", ".port_tag", ".global_mgmt", "iceoryx2.toml", "config/iceoryx2.toml",
        "iceoryx2", "iceoryx2/iceoryx2.toml"};
    std::uint32_t entry = 0;
    for (const char* text : expected) CHECK(*default_text(ConfigEntry{entry++}) == text);
    CHECK(default_text(ConfigEntry{entry}).status() == Status::UnknownText);
    CHECK(*default_text(ConfigEntry::UserConfigFilePath) == expected[19]);
    CHECK(service_dir(path("/a")).value() == "/a/services");
    CHECK(node_dir(path("/a/")).value() == "/a/nodes");
    CHECK(node_dir(Path()).value() == "nodes");
    CHECK(service_dir(path(string(247, 'x'))).status() == Status::TooLong);
    CHECK(node_dir(path(string(250, 'x'))).status() == Status::TooLong);
}

void validity() {
    const GlobalSettings g = GlobalSettings::defaults();
    CHECK(g == GlobalSettings{{0, 500000000}, true, true, true} && g.check());
    GlobalSettings late = g;
    late.creation_timeout = {1, 999999999};
    CHECK(late.check() && ordered(g, late));
    late.creation_timeout = {1, 1000000000};
    CHECK(late.check() == SettingsError{Status::BadDuration, SettingsField::CreationTimeout});

    PublishSubscribeSettings p = PublishSubscribeSettings::defaults();
    CHECK(p.check());
    p.publisher_allocation_strategy = AllocationStrategy{3};
    const Status unknown = Status::UnknownStrategy;
    CHECK(p.check() == SettingsError{unknown, SettingsField::PublisherAllocationStrategy});
    p.backpressure_strategy = BackpressureStrategy{2};
    CHECK(p.check() == SettingsError{unknown, SettingsField::BackpressureStrategy});
    CHECK(p.check().status() == Status::UnknownStrategy);

    EventSettings e = EventSettings::defaults();
    e.notifier_created_event = e.notifier_dropped_event = e.notifier_dead_event = EventId{SIZE_MAX};
    e.deadline = Duration{UINT64_MAX, 999999999};
    CHECK(e.check());
    e.deadline = Duration{0, 1000000000};
    CHECK(e.check().error() == SettingsError{Status::BadDuration, SettingsField::Deadline});

    RequestResponseSettings r = RequestResponseSettings::defaults();
    CHECK(r.check());
    const auto refused = [&r](SettingsField field) {
        return r.check().error() == SettingsError{Status::UnknownStrategy, field};
    };
    r.server_allocation_strategy = AllocationStrategy{3};
    CHECK(refused(SettingsField::ServerAllocationStrategy));
    r.client_allocation_strategy = AllocationStrategy{3};
    CHECK(refused(SettingsField::ClientAllocationStrategy));
    r.server_backpressure_strategy = BackpressureStrategy{2};
    CHECK(refused(SettingsField::ServerBackpressureStrategy));
    r.client_backpressure_strategy = BackpressureStrategy{2};
    CHECK(refused(SettingsField::ClientBackpressureStrategy));
}

/// The nanoseconds of a span that stands for no time.
constexpr std::uint32_t none = UINT32_MAX;

/// Whether a span of <chrono> makes this span, and is made of it.
template <class Span>
bool crosses(const Span& chrono, const Duration& span) {
    return Duration(chrono) == span && span.to<Span>() == chrono;
}

void spans() {
    using namespace std::chrono;
    using Days = duration<std::int32_t, std::ratio<86400>>;
    using Frames = duration<std::uint8_t, std::ratio<1001, 30000>>;
    CHECK(crosses(nanoseconds(0), Duration()) && crosses(nanoseconds(999999999), {0, 999999999}));
    CHECK(crosses(nanoseconds::max(), {9223372036, 854775807}));
    CHECK(crosses(microseconds(2000001), {2, 1000}) && crosses(milliseconds(10), {0, 10000000}));
    CHECK(crosses(seconds::max(), {INT64_MAX, 0}) && crosses(minutes(3), {180, 0}));
    CHECK(crosses(Days(INT32_MAX), {std::uint64_t{INT32_MAX} * 86400, 0}));
    CHECK(Duration(Frames(1)) == Duration(0, 33366666) && Duration(Frames(255)).seconds == 8);
    // What is beside whole units is cut off.
    CHECK(Duration(1, 999999999).to<seconds>() == seconds(1));
    CHECK(Duration(119, 999999999).to<minutes>() == minutes(1));
    CHECK(Duration(0, 33366667).to<Frames>() == Frames(1));
    CHECK(Duration(0, 33366666).to<Frames>() == Frames(0));
    // Spans that are none, and none that a type has no room for.
    CHECK(Duration(nanoseconds(-1)).nanoseconds == none && Duration(hours(-1)).nanoseconds == none);
    CHECK(Duration(hours::max()).nanoseconds == none);
    CHECK(Duration(0, 1000000000).to<nanoseconds>() == Status::BadDuration);
    CHECK(Duration(9223372036, 854775808).to<nanoseconds>() == Status::TooLarge);
    CHECK(Duration(UINT64_MAX, 0).to<nanoseconds>() == Status::TooLarge);
    CHECK(Duration(UINT64_MAX, 0).to<seconds>() == Status::TooLarge);
    CHECK(Duration(std::uint64_t{1} << 63, 0).to<minutes>() == minutes((INT64_MAX / 60)));
    CHECK(Duration(8, 541866667).to<Frames>() == Status::TooLarge);
    CHECK(Duration(8, 541866666).to<Frames>() == Frames(255));
    static_assert(!std::is_convertible_v<duration<double>, Duration>);
    static_assert(!std::is_convertible_v<duration<int, std::pico>, Duration>);

    EventSettings e = EventSettings::defaults();
    e.deadline = milliseconds(1500);
    CHECK(e.check() && e.deadline == Duration(1, 500000000));
    e.deadline = milliseconds(-1);
    CHECK(e.check().error() == SettingsError{Status::BadDuration, SettingsField::Deadline});
    GlobalSettings g = GlobalSettings::defaults();
    CHECK(g.creation_timeout.to<milliseconds>() == milliseconds(500));
    g.creation_timeout = hours(1);
    CHECK(g.check() && g.creation_timeout.seconds == 3600);
}

void chunks() {
    PublishSubscribeSettings p = PublishSubscribeSettings::defaults();
    p.max_subscribers = 3;
    p.subscriber_max_buffer_size = 5;
    p.subscriber_max_borrowed_samples = 7;
    p.publisher_history_size = 11;
    const PublishSubscribeStaticConfig samples(p, details(8, 8));
    CHECK(*samples.required_amount_of_samples_per_data_segment(13) == 3 * (5 + 7) + 11 + 13);
    CHECK(samples.required_amount_of_samples_per_data_segment(SIZE_MAX).status() ==
          Status::TooLarge);

    RequestResponseSettings r = RequestResponseSettings::defaults();
    r.max_servers = 3;
    r.max_clients = 17;
    r.max_active_requests_per_client = 5;
    r.max_response_buffer_size = 7;
    r.max_borrowed_responses_per_pending_response = 11;
    RequestResponseStaticConfig requests(r, details(8, 8), details(16, 8));
    CHECK(*requests.required_amount_of_chunks_per_client_data_segment(13) == 3 * 2 * 5 + 13);
    CHECK(*requests.required_amount_of_chunks_per_server_data_segment(19) ==
          17 * 2 * 5 * (7 + 11 + 19));
    requests.max_active_requests_per_client = SIZE_MAX;
    CHECK(requests.required_amount_of_chunks_per_client_data_segment(0).status() ==
          Status::TooLarge);
    CHECK(requests.required_amount_of_chunks_per_server_data_segment(0).status() ==
          Status::TooLarge);
}

void descriptions() {
    const ServiceName name = ServiceName::create("My/Service").value();
    const UniqueServiceId id(1, 2, 3, 4);
    AttributeSet attributes;
    CHECK(attributes.add(key("color"), value("red")));
    const auto describe = [&](const MessagingPattern& pattern) {
        return StaticConfig::create(name, id, attributes, pattern).value();
    };
    const StaticConfig p =
        describe(PublishSubscribeStaticConfig(PublishSubscribeSettings::defaults(), details(8, 8)));
    const StaticConfig e = describe(EventSettings::defaults());
    const StaticConfig r = describe(RequestResponseStaticConfig(RequestResponseSettings::defaults(),
                                                                details(8, 8), details(16, 8)));
    const StaticConfig b =
        describe(BlackboardStaticConfig(BlackboardSettings::defaults(), type("u8", 1, 1)));
    CHECK(p.kind() == PatternKind::PublishSubscribe && e.kind() == PatternKind::Event);
    CHECK(r.kind() == PatternKind::RequestResponse && b.kind() == PatternKind::Blackboard);
    CHECK(p.publish_subscribe() && !p.event() && !p.request_response() && !p.blackboard());
    CHECK(!e.publish_subscribe() && e.event() && !e.request_response() && !e.blackboard());
    CHECK(!r.publish_subscribe() && !r.event() && r.request_response() && !r.blackboard());
    CHECK(!b.publish_subscribe() && !b.event() && !b.request_response() && b.blackboard());
    CHECK(r.service_hash() == "h8eTEKlg0S7w-piembOTeKmjrxo");
    CHECK(r.name() == name && r.unique_service_id() == id && r.attributes() == attributes);
    CHECK(kind(r.messaging_pattern()) == PatternKind::RequestResponse);
    CHECK(p.publish_subscribe()->max_subscribers == 8 &&
          p.publish_subscribe()->max_publishers == 2);
    CHECK(p.publish_subscribe()->max_nodes == 20 && p.publish_subscribe()->history_size == 0);
    CHECK(p.publish_subscribe()->subscriber_max_buffer_size == 2);
    CHECK(p.publish_subscribe()->subscriber_max_borrowed_samples == 2);
    CHECK(p.publish_subscribe()->enable_safe_overflow);
    CHECK(p.publish_subscribe()->message_type_details == details(8, 8));
    CHECK(r.request_response()->max_loaned_requests == 2);
    CHECK(r.request_response()->max_clients == 8 && r.request_response()->max_servers == 2);
    CHECK(r.request_response()->request_message_type_details == details(8, 8));
    CHECK(r.request_response()->response_message_type_details == details(16, 8));
    CHECK(b.blackboard()->max_readers == 8 && b.blackboard()->max_nodes == 20);
    CHECK(b.blackboard()->max_writers == 1);
    CHECK(b.blackboard()->type_details == type("u8", 1, 1));
    CHECK(p == p && p != e && (p < e) != (e < p));
}

/// What the library fixes of a service with these settings.
template <class Settings, class Describe>
iox2sd_description described(const Settings& settings, Describe describe) {
    iox2sd_description made{};
    CHECK(describe(&settings, reinterpret_cast<const std::uint8_t*>("a"), 1, false, iox2sd_id{},
                   &made)
              .status == IOX2SD_STATUS_DONE);
    return made;
}

/// The description with this part, which is to show the part as it was given.
template <class Part>
StaticConfig shown(const Part& part) {
    const auto named = [&part](const ServiceName& name) {
        const StaticConfig made =
            StaticConfig::create(name, UniqueServiceId(1, 2, 3, 4), AttributeSet(), part).value();
        CHECK(made.messaging_pattern() == MessagingPattern(part) && made.name() == name);
        CHECK(made.service_hash() == ServiceHash::create(name, made.kind()).value());
        return made;
    };
    named(ServiceName::internal_new("iox2://a").value());
    return named(ServiceName::create("a").value());
}

/// A description has the fields that the library fills in for C from the same settings.
void descriptions_of_the_library() {
#define SAME(name) CHECK(cpp.name == c.name);
    {
        PublishSubscribeSettings settings = PublishSubscribeSettings::defaults();
        settings.max_subscribers = 11, settings.max_publishers = 12, settings.max_nodes = 13;
        settings.publisher_history_size = 14, settings.subscriber_max_buffer_size = 15;
        settings.subscriber_max_borrowed_samples = 16, settings.enable_safe_overflow = false;
        const iox2sd_publish_subscribe_config c =
            described(settings.as_c(), iox2sd_describe_publish_subscribe).publish_subscribe;
        const StaticConfig made = shown(PublishSubscribeStaticConfig(settings, details(8, 8)));
        const PublishSubscribeStaticConfig& cpp = *made.publish_subscribe();
        IOX2SD_EACH(SAME, max_subscribers, max_publishers, max_nodes, history_size,
                    subscriber_max_buffer_size, subscriber_max_borrowed_samples,
                    enable_safe_overflow)
    }
    {
        EventStaticConfig cpp = EventSettings::defaults();
        cpp.max_listeners = 21, cpp.max_notifiers = 22, cpp.max_nodes = 23;
        cpp.event_id_max_value = 24;
        const auto c = described(cpp.as_c(), iox2sd_describe_event).event;
        const StaticConfig made = shown(cpp);
        CHECK(*made.event() == cpp);
        IOX2SD_EACH(SAME, max_listeners, max_notifiers, max_nodes, event_id_max_value)
#define SAME_OPTION(name) CHECK(cpp.name.has_value() == c.name.is_some);
        IOX2SD_EACH(SAME_OPTION, deadline, notifier_created_event, notifier_dropped_event,
                    notifier_dead_event)
        cpp.deadline = Duration{1, 999999999};
        cpp.notifier_created_event = EventId{25}, cpp.notifier_dropped_event = EventId{26};
        cpp.notifier_dead_event = EventId{27};
        shown(cpp);
        cpp.deadline->nanoseconds = 1000000000;
        const auto refused =
            StaticConfig::create(made.name(), made.unique_service_id(), made.attributes(), cpp);
        CHECK(refused.status() == Status::BadDuration);
    }
    {
        RequestResponseSettings settings = RequestResponseSettings::defaults();
        settings.max_active_requests_per_client = 31, settings.max_loaned_requests = 32;
        settings.max_response_buffer_size = 33, settings.max_servers = 34;
        settings.max_clients = 35, settings.max_nodes = 36;
        settings.max_borrowed_responses_per_pending_response = 37;
        settings.enable_safe_overflow_for_requests = false;
        settings.enable_fire_and_forget_requests = false;
        const iox2sd_request_response_config c =
            described(settings.as_c(), iox2sd_describe_request_response).request_response;
        const StaticConfig made =
            shown(RequestResponseStaticConfig(settings, details(8, 8), details(16, 8)));
        const RequestResponseStaticConfig& cpp = *made.request_response();
        IOX2SD_EACH(SAME, max_active_requests_per_client, max_loaned_requests,
                    max_response_buffer_size, max_servers, max_clients, max_nodes,
                    max_borrowed_responses_per_pending_response, enable_safe_overflow_for_requests,
                    enable_safe_overflow_for_responses, enable_fire_and_forget_requests)
    }
    const BlackboardSettings settings{41, 42};
    const auto c = described(settings.as_c(), iox2sd_describe_blackboard).blackboard;
    const StaticConfig made = shown(BlackboardStaticConfig(settings, type("u8", 1, 1)));
    const BlackboardStaticConfig& cpp = *made.blackboard();
    IOX2SD_EACH(SAME, max_readers, max_writers, max_nodes)
}

}  // namespace

int main() {
    versions();
    results();
    copies_and_moves();
    texts();
    writing();
    comparisons();
    paths();
    hashes();
    ids();
    sets();
    requirements();
    types();
    layouts();
    settings();
    validity();
    spans();
    chunks();
    descriptions();
    descriptions_of_the_library();
    return end_of_checks();
}
