// Refuses each request for memory of each call of iox2sd.hpp, of check_log and of a Recorder, in
// turn. The last line is 'N checks, N failed'.
#include <cstdlib>
#include <new>

#include "check.hpp"
#include "iox2sd_conform.hpp"

namespace {

/// After how many requests for memory one is refused, which below 0 is never.
int refused_request = -1;

bool is_refused() { return refused_request >= 0 && refused_request-- == 0; }

}  // namespace

[[gnu::noinline]] void* operator new(std::size_t size, const std::nothrow_t&) noexcept {
    return is_refused() ? nullptr : std::malloc(size);
}

[[gnu::noinline]] void* operator new(std::size_t size) {
    void* const memory = is_refused() ? nullptr : std::malloc(size);
    if (memory == nullptr) throw std::bad_alloc();
    return memory;
}

[[gnu::noinline]] void operator delete(void* memory) noexcept { std::free(memory); }
[[gnu::noinline]] void operator delete(void* memory, std::size_t) noexcept { std::free(memory); }
[[gnu::noinline]] void operator delete(void* memory, const std::nothrow_t&) noexcept {
    std::free(memory);
}

namespace {

using namespace iox2sd;

/// What a call answers where this request of it is refused.
template <class Call>
Status without(int request, Call call) {
    refused_request = request;
    const auto result = call();
    refused_request = -1;
    using Answer = std::remove_const_t<decltype(result)>;
    if constexpr (std::is_same_v<Answer, ScriptRun> || std::is_same_v<Answer, LogVerdict>) {
        return result.status;
    } else {
        return result.status();
    }
}

/// Each call that lists so many takes memory so often. The service is as it was.
void lists_of(std::uint32_t count, int requests) {
    Service service = Service::create(PatternKind::Event, 7, {count, count, 2}).value();
    const UniqueNodeId node = UniqueNodeId::create(1, 2, 3, 4).value();
    for (std::uint32_t counter = 0; counter < count; ++counter) {
        CHECK(service.register_node_id(node));
        CHECK(service.attach(ListenerDetails{UniqueListenerId(1, 2, 3, counter), node}));
    }
    for (int request = 0; request <= requests; ++request) {
        const auto refused = [request](auto call) {
            return without(request, call) == Status::NoMemory;
        };
        const bool is_refused = request < requests;
        CHECK(refused([&] { return service.nodes(); }) == is_refused);
        CHECK(refused([&] { return service.ports(Role::Listener); }) == is_refused);
        CHECK(refused([&] { return service.ports_of(node); }) == is_refused);
        CHECK(refused([&] { return service.list_listeners(); }) == is_refused);
        CHECK(!refused([&] { return service.list_notifiers(); }));
        CHECK(service.nodes().value().size() == count);
        CHECK(service.ports_of(node).value().size() == count);
        CHECK(service.list_listeners().value().back().listener_id == UniqueListenerId(1, 2, 3, count - 1));
    }
}

/// A list of a few takes memory once, a longer one twice, and a script and a log once.
void lists() {
    lists_of(1, 1);
    lists_of(16, 1);
    lists_of(17, 2);
    lists_of(100, 2);
    const auto run = [] { return run_script("service event 7 1 2 2\nregister 1.0.0.1\n"); };
    CHECK(without(0, run) == Status::NoMemory && without(1, run) == Status::Done);
    const auto judge = [] { return check_log("service event 7 1 2 2\nnodes\n= list\n"); };
    CHECK(without(0, judge) == Status::NoMemory && without(1, judge) == Status::Done);
}

/// A death takes memory once where there are ports to keep, and else none.
void deaths() {
    Service service = Service::create(PatternKind::Event, 7, {2, 2, 2}).value();
    const UniqueNodeId node = UniqueNodeId::create(1, 2, 3, 4).value();
    const ListenerDetails listener{UniqueListenerId(1, 2, 3, 5), node};
    CHECK(service.register_node_id(node) && service.attach(listener));
    const UniquePortId kept[] = {listener.port_id()};
    CHECK(without(0, [&] { return service.remove_dead_node_id(node, kept); }) == Status::NoMemory);
    CHECK(without(1, [&] { return service.remove_dead_node_id(node, kept); }) == Status::Done);
    CHECK(*service.count_ports(Role::Listener) == 1);
    CHECK(without(0, [&] { return service.remove_dead_node_id(node); }) == Status::Done);
    CHECK(*service.is_locked());
}

/// No other call takes any.
void values() {
    const auto none = [](auto call) { return without(0, call) == Status::Done; };
    const ServiceName name = ServiceName::create("a").value();
    const AttributeKey key = AttributeKey::create("k").value();
    const AttributeValue value = AttributeValue::create("v").value();
    AttributeSet set;
    AttributeVerifier verifier;
    CHECK(none([&] { return ServiceHash::create(name, PatternKind::Event); }));
    CHECK(none([&] { return set.add(key, value); }));
    CHECK(none([&] { return verifier.require(key, value); }));
    CHECK(none([&] { return verifier.verify_requirements(set); }));
    CHECK(none([&] {
        return StaticConfig::create(name, UniqueServiceId(1, 2, 3, 4), set,
                                    EventSettings::defaults());
    }));
}

/// What a call returns, made again where memory was refused: then it had changed nothing.
template <class F>
auto again(bool& was_refused, F call) {
    auto first = call();
    if (first.status() != Status::NoMemory) return first;
    was_refused = true;
    return call();
}

/// Each call on a Recorder that changes its service, and two queries. Returns whether memory was
/// refused.
bool record(Recorder& recorder) {
    bool refused = false;
    const UniqueNodeId one = UniqueNodeId::create(1, 2, 3, 4).value();
    const UniqueNodeId two = UniqueNodeId::create(1, 2, 3, 5).value();
    const UniqueListenerId kept(1, 2, 3, 6);
    const ContainerHandle first =
        again(refused, [&] { return recorder.register_node_id(one); }).value();
    CHECK(again(refused, [&] { return recorder.register_node_id(two); }));
    CHECK(again(refused, [&] { return recorder.attach(ListenerDetails{kept, one}); }));
    const UniqueNotifierId notifier(4000000001, 4000000002, 4000000003, 4000000004);
    const auto attach = [&] { return recorder.attach(NotifierDetails{notifier, two}); };
    const ContainerHandle port = again(refused, attach).value();
    CHECK(again(refused, attach).status() == Status::OutOfSpace);
    const auto leave = [&] { return recorder.deregister_node_id(first); };
    CHECK(again(refused, leave).status() == Status::PortsStillAttached);
    CHECK(again(refused, [&] { return recorder.release_port(port); }));
    CHECK(again(refused, [&] { return recorder.remove_dead_node_id(one, {kept}); }));
    CHECK(again(refused, [&] { return recorder.ports(Role::Listener); }));
    CHECK(again(refused, [&] { return recorder.count_ports(Role::Notifier); }));
    CHECK(again(refused, [&] { return recorder.remove_dead_node_id(one); }));
    CHECK(again(refused, [&] { return recorder.remove_dead_node_id(two); }));
    return refused;
}

/// A Recorder whose memory is refused has written down each change of its service: its log, with
/// the lines of who is there now, conforms.
void recorders() {
    const auto attempt = [](int request) {
        Recorder recorder = Recorder::create(EventCapacities{2, 1, 1}, 7).value();
        refused_request = request;
        const bool was_refused = record(recorder);
        refused_request = -1;
        CHECK(recorder.nodes() && recorder.ports(Role::Listener) && recorder.ports(Role::Notifier));
        const List<char> log = recorder.log().value();
        CHECK(check_log(log).calls == 15);
        return was_refused;
    };
    int requests = 0;
    while (attempt(requests)) ++requests;
    CHECK(requests > 4);
}

}  // namespace

int main() {
    lists();
    deaths();
    recorders();
    values();
    return end_of_checks();
}
