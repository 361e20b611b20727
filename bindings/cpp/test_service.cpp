// Calls each function of iox2sd.hpp on services, each of their refusals, and each request for
// memory refused in turn. The last line is 'N checks, N failed'.
#include <list>
#include <set>
#include <thread>
#include <unordered_set>
#include <vector>

#include "check.hpp"
#include "iox2sd.hpp"

namespace {

using namespace iox2sd;

UniqueNodeId node(std::uint32_t counter) { return UniqueNodeId::create(1, 2, 3, counter).value(); }

const UniqueNodeId a = node(4), b = node(5), stranger = node(6);

/// A port of each kind, with unequal values in all fields.
PortDetails port_of(Role role, std::uint32_t counter, const UniqueNodeId& node) {
    const iox2sd_id id{11, 12, 13, counter};
    switch (role) {
        case Role::Publisher:
            return PublisherDetails{UniquePublisherId(id),    node, 101, 107,
                                    DataSegmentType::Dynamic, 108};
        case Role::Subscriber:
            return SubscriberDetails{UniqueSubscriberId(id), node, 102};
        case Role::Notifier:
            return NotifierDetails{UniqueNotifierId(id), node};
        case Role::Listener:
            return ListenerDetails{UniqueListenerId(id), node};
        case Role::Client:
            return ClientDetails{UniqueClientId(id),       node, 105, 106, 107,
                                 DataSegmentType::Dynamic, 108};
        case Role::Server:
            return ServerDetails{UniqueServerId(id),      node, 103, 104, 107,
                                 DataSegmentType::Static, 108};
        case Role::Reader:
            return ReaderDetails{UniqueReaderId(id), node};
        default:
            return WriterDetails{UniqueWriterId(id), node};
    }
}

constexpr PatternKind patterns[] = {PatternKind::PublishSubscribe, PatternKind::Event,
                                    PatternKind::RequestResponse, PatternKind::Blackboard};
constexpr Role first_roles[] = {Role::Publisher, Role::Listener, Role::Server, Role::Reader};
constexpr Role second_roles[] = {Role::Subscriber, Role::Notifier, Role::Client, Role::Writer};

Service make(PatternKind pattern, Capacities capacities, std::uint64_t tickets = 9) {
    return Service::create(pattern, 77, capacities, tickets).value();
}

template <class T, class... Expected>
bool lists(const Result<List<T>>& result, const Expected&... expected) {
    const std::vector<T> all{T(expected)...};
    return result && std::equal(result->begin(), result->end(), all.begin(), all.end());
}

void no_service() {
    Service none, taken = make(PatternKind::Event, {1, 1, 1});
    const Service kept = std::move(taken);
    const ContainerHandle handle{77, Role::Node, 0, 0};
    CHECK(kept.kind());
    for (Service* place : {&none, &taken}) {
        CHECK(place->register_node_id(a).status() == Status::NoService);
        CHECK(place->deregister_node_id(handle).status() == Status::NoService);
        CHECK(place->attach(port_of(Role::Listener, 1, a)).status() == Status::NoService);
        CHECK(place->release_port(handle).status() == Status::NoService);
        CHECK(place->remove_dead_node_id(a).status() == Status::NoService);
        CHECK(place->kind().status() == Status::NoService);
        CHECK(place->service_number().status() == Status::NoService);
        CHECK(place->port_roles().status() == Status::NoService);
        CHECK(place->has_role(Role::Listener).status() == Status::NoService);
        CHECK(place->is_locked().status() == Status::NoService);
        CHECK(place->number_of_nodes().status() == Status::NoService);
        CHECK(place->max_nodes().status() == Status::NoService);
        CHECK(place->has_room_for_node().status() == Status::NoService);
        CHECK(place->count_ports(Role::Listener).status() == Status::NoService);
        CHECK(place->max_ports(Role::Listener).status() == Status::NoService);
        CHECK(place->has_room(Role::Listener).status() == Status::NoService);
        CHECK(place->node(handle).status() == Status::NoService);
        CHECK(place->port(handle).status() == Status::NoService);
        CHECK(place->nodes().status() == Status::NoService);
        CHECK(place->ports(Role::Listener).status() == Status::NoService);
        CHECK(place->ports_of(a).status() == Status::NoService);
        CHECK(place->list_listeners().status() == Status::NoService);
    }
}

void making_and_moving() {
    CHECK(Service::create(PatternKind{4}, 5, {1, 1, 1}).status() == Status::UnknownPattern);
    CHECK(Service::create(PatternKind::Event, 5, {SIZE_MAX, 1, 1}).status() == Status::NoMemory);
    CHECK(Service::create(PatternKind::Event, 5, {1, SIZE_MAX, 1}).status() == Status::NoMemory);
    CHECK(Service::create(PatternKind::Event, 5, {1, 1, SIZE_MAX}).status() == Status::NoMemory);
    // A number of nodes that 32 bits would cut to 1 takes more memory than there is.
    const std::size_t beyond = (std::size_t{1} << 60) + 1;
    CHECK(Service::create(PatternKind::Event, 5, {beyond, 1, 1}).status() == Status::NoMemory);

    Service service = make(PatternKind::Event, {1, 1, 1});
    CHECK(service.register_node_id(a));
    Service other = make(PatternKind::Blackboard, {2, 2, 2});
    other = std::move(service);
    CHECK(*other.kind() == PatternKind::Event && *other.number_of_nodes() == 1);
    Service& same = other;
    other = std::move(same);
    CHECK(*other.number_of_nodes() == 1);
    other = make(PatternKind::Blackboard, {2, 2, 2});
    CHECK(*other.number_of_nodes() == 0);
    const Service all = Service::create(PatternKind::Event, UINT64_MAX, {1, 0, 0}).value();
    CHECK(*all.service_number() == UINT64_MAX && *all.has_room_for_node());
}

void nodes() {
    Service service = make(PatternKind::Blackboard, {2, 3, 4}, 3);
    const ContainerHandle first = service.register_node_id(a).value();
    const ContainerHandle second = service.register_node_id(b).value();
    CHECK(first == ContainerHandle{77, Role::Node, 0, 0});
    CHECK(second == ContainerHandle{77, Role::Node, 1, 1} && first < second);
    CHECK(service.register_node_id(b).status() == Status::OutOfSpace);
    CHECK(lists(service.nodes(), a, b));
    const auto refusal = [&](const ContainerHandle& handle) {
        return service.deregister_node_id(handle).error();
    };
    CHECK(refusal({77, Role{9}, 0, 0}) == Status::UnknownRole);
    CHECK(refusal({77, Role{std::uint64_t{1} << 32}, 0, 0}) == Status::UnknownRole);
    CHECK(refusal({78, Role::Node, 0, 0}) == Status::ForeignHandle);
    CHECK(refusal({77, Role::Reader, 0, 0}) == Status::ForeignHandle);
    CHECK(refusal({77, Role::Node, std::size_t{1} << 32, 0}) == Status::ForeignHandle);
    CHECK(refusal({77, Role::Node, 0, 1}) == Status::ForeignHandle);
    CHECK(*service.node(second) == b);
    CHECK(service.node({77, Role::Node, 1, 2}).status() == Status::ForeignHandle);
    CHECK(service.node({77, Role{9}, 1, 1}).status() == Status::UnknownRole);
    CHECK(*service.deregister_node_id(first) == DeregisterNodeState::HasOwners);
    const ContainerHandle again = service.register_node_id(a).value();
    CHECK(again == ContainerHandle{77, Role::Node, 0, 2} && lists(service.nodes(), a, b));
    CHECK(*service.deregister_node_id(second) == DeregisterNodeState::HasOwners);
    CHECK(!*service.has_room_for_node());
    CHECK(service.register_node_id(b).status() == Status::OutOfSpace);  // No ticket is left.
    CHECK(*service.deregister_node_id(again) == DeregisterNodeState::NoMoreOwners);
    CHECK(*service.is_locked() && lists(service.nodes()));
    CHECK(service.register_node_id(b).status() == Status::IsLocked);
}

void ports(std::size_t i) {
    const Role first = first_roles[i], second = second_roles[i], foreign = first_roles[(i + 1) % 4];
    Service service = make(patterns[i], {3, 2, 3});
    CHECK(*service.kind() == patterns[i] && *service.service_number() == 77);
    CHECK(*service.port_roles() == PortRoles{first, second});
    CHECK(*service.has_role(first) && *service.has_role(second) && !*service.has_role(foreign));
    CHECK(!*service.has_role(Role::Node));
    CHECK(service.has_role(Role{9}).status() == Status::UnknownRole);
    CHECK(service.register_node_id(a) && service.register_node_id(b));
    CHECK(*service.number_of_nodes() == 2 && *service.max_nodes() == 3);
    CHECK(*service.has_room_for_node() && !*service.is_locked());

    const PortDetails fa = port_of(first, 20, a), fb = port_of(first, 21, b);
    const PortDetails sb = port_of(second, 30, b), sa = port_of(second, 31, a);
    const ContainerHandle handle = service.attach(fa).value();
    CHECK(handle == ContainerHandle{77, first, 0, 0});
    CHECK(*service.attach(fb) == ContainerHandle{77, first, 1, 1});
    CHECK(*service.attach(sb) == ContainerHandle{77, second, 0, 0});
    CHECK(*service.attach(sa) == ContainerHandle{77, second, 1, 1});
    CHECK(service.attach(fa).status() == Status::OutOfSpace);
    CHECK(service.attach(port_of(foreign, 40, stranger)).status() == Status::RoleNotInPattern);
    CHECK(service.attach(port_of(second, 40, stranger)).status() == Status::NodeNotRegistered);

    CHECK(*service.port(handle) == fa);
    CHECK(service.port({77, first, 0, 1}).status() == Status::ForeignHandle);
    CHECK(service.port({77, Role::Node, 0, 0}).status() == Status::ForeignHandle);
    CHECK(service.port({77, Role{9}, 0, 0}).status() == Status::UnknownRole);
    CHECK(service.node(handle).status() == Status::ForeignHandle);
    CHECK(role(fa) == first && node_id(fa) == a && port_id(fa).role() == first);
    CHECK(port_id(fa).text() == "b0000000c0000000d00000014");
    CHECK(fa < fb && sb < sa && fa != fb);

    CHECK(*service.count_ports(first) == 2 && *service.count_ports(second) == 2);
    CHECK(*service.max_ports(first) == 2 && *service.max_ports(second) == 3);
    CHECK(!*service.has_room(first) && *service.has_room(second));
    for (Role other : {foreign, Role::Node}) {
        CHECK(service.count_ports(other).status() == Status::RoleNotInPattern);
        CHECK(service.max_ports(other).status() == Status::RoleNotInPattern);
        CHECK(service.has_room(other).status() == Status::RoleNotInPattern);
        CHECK(service.ports(other).status() == Status::RoleNotInPattern);
    }
    CHECK(service.count_ports(Role{9}).status() == Status::UnknownRole);
    CHECK(service.max_ports(Role{9}).status() == Status::UnknownRole);
    CHECK(service.has_room(Role{9}).status() == Status::UnknownRole);
    CHECK(service.ports(Role{9}).status() == Status::UnknownRole);

    CHECK(lists(service.ports(first), fa, fb) && lists(service.ports(second), sb, sa));
    CHECK(lists(service.ports_of(a), fa, sa) && lists(service.ports_of(b), fb, sb));
    CHECK(lists(service.ports_of(stranger)));

    CHECK(service.release_port({77, Role{10}, 0, 0}).error() == Status::UnknownRole);
    CHECK(service.release_port({77, Role::Node, 0, 0}).error() == Status::ForeignHandle);
    CHECK(service.release_port({77, first, 1, 1}) && lists(service.ports(first), fa));
    CHECK(service.release_port({77, first, 1, 1}).error() == Status::ForeignHandle);
    CHECK(service.deregister_node_id({77, Role::Node, 0, 0}).status() ==
          Status::PortsStillAttached);

    // A death of which one port is kept, then one of which none is.
    const std::vector<UniquePortId> kept = {port_id(sb), port_id(sa)};
    CHECK(*service.remove_dead_node_id(a, kept) == DeadNodeRemoval{DeregisterNodeState::HasOwners, 1, 0});
    CHECK(lists(service.ports_of(a), sa) && lists(service.nodes(), a, b));
    CHECK(*service.remove_dead_node_id(a) == DeadNodeRemoval{DeregisterNodeState::HasOwners, 0, 1});
    CHECK(lists(service.nodes(), b));
    CHECK(*service.remove_dead_node_id(b, {port_id(sb)}) ==
          DeadNodeRemoval{DeregisterNodeState::HasOwners, 0, 0});
    CHECK(*service.remove_dead_node_id(b, {port_id(fa)}) ==
          DeadNodeRemoval{DeregisterNodeState::NoMoreOwners, 0, 1});
    CHECK(*service.is_locked() && !*service.has_room(first) && !*service.has_room_for_node());
    CHECK(service.attach(fa).status() == Status::IsLocked);
    CHECK(lists(service.ports(second)) && lists(service.ports_of(b)));
}

/// Each kind of ports by its own list, which the other patterns refuse.
template <class Details, class Call>
void listing(std::size_t pattern, Call call) {
    Service service = make(patterns[pattern], {1, 1, 1});
    const PortDetails port = port_of(Details::role, 20, a);
    CHECK(service.register_node_id(a) && call(service).value().empty() && service.attach(port));
    CHECK(lists(call(service), std::get<Details>(port)));
    const Service other = make(patterns[(pattern + 1) % 4], {1, 1, 1});
    CHECK(call(other).status() == Status::RoleNotInPattern);
}

void listings() {
    listing<PublisherDetails>(0, [](const Service& s) { return s.list_publishers(); });
    listing<SubscriberDetails>(0, [](const Service& s) { return s.list_subscribers(); });
    listing<ListenerDetails>(1, [](const Service& s) { return s.list_listeners(); });
    listing<NotifierDetails>(1, [](const Service& s) { return s.list_notifiers(); });
    listing<ServerDetails>(2, [](const Service& s) { return s.list_servers(); });
    listing<ClientDetails>(2, [](const Service& s) { return s.list_clients(); });
    listing<ReaderDetails>(3, [](const Service& s) { return s.list_readers(); });
    listing<WriterDetails>(3, [](const Service& s) { return s.list_writers(); });
}

/// What is kept is one port, by its kind and its number.
void kept_kinds() {
    Service service = make(PatternKind::Event, {1, 1, 1});
    const UniqueListenerId listener(1, 2, 3, 4);
    const UniqueNotifierId notifier(1, 2, 3, 4);
    CHECK(UniquePortId(listener) != UniquePortId(notifier));
    CHECK(service.register_node_id(a) && service.attach(ListenerDetails{listener, a}));
    CHECK(service.attach(NotifierDetails{notifier, a}));
    CHECK(*service.remove_dead_node_id(a, {UniquePublisherId(1, 2, 3, 4), listener, notifier}) ==
          DeadNodeRemoval{DeregisterNodeState::HasOwners, 0, 0});
    CHECK(*service.remove_dead_node_id(a, {listener}) ==
          DeadNodeRemoval{DeregisterNodeState::HasOwners, 0, 1});
    CHECK(*service.remove_dead_node_id(a, {notifier}) ==
          DeadNodeRemoval{DeregisterNodeState::NoMoreOwners, 1, 0});
}

/// A range that is read once alone, as a stream is: the ids of listeners by counters from 1 on.
struct Counting {
    struct End {};
    struct Iterator {
        std::uint32_t* next;
        UniqueListenerId operator*() const { return UniqueListenerId(1, 1, 1, *next); }
        Iterator& operator++() {
            ++*next;
            return *this;
        }
        bool operator!=(End) const { return *next <= last; }
        std::uint32_t last;
    };
    std::uint32_t next = 1, last;
    Iterator begin() { return {&next, last}; }
    End end() { return {}; }
};

/// The ports that are kept are any range of ids.
void kept_ranges() {
    constexpr std::size_t most = 40;
    const auto listener = [](std::uint32_t counter) { return UniqueListenerId(1, 1, 1, counter); };
    const auto left = [&](auto&& kept) {
        Service service = Service::create(PatternKind::Event, 77, {1, most, 1}).value();
        CHECK(service.register_node_id(a));
        for (std::uint32_t i = 1; i <= most; ++i) {
            CHECK(service.attach(ListenerDetails{listener(i), a}));
        }
        CHECK(service.remove_dead_node_id(a, kept));
        return *service.count_ports(Role::Listener);
    };
    for (const std::uint32_t last : {0u, 1u, 15u, 16u, 17u, 33u, 40u}) {
        CHECK(left(Counting{1, last}) == last);
    }
    const UniquePortId two[] = {listener(3), listener(4)};
    CHECK(left(two) == 2 && left(std::vector<UniqueListenerId>(3, listener(1))) == 1);
    CHECK(left(std::set<UniquePortId>{listener(1), listener(2), listener(9)}) == 3);
    CHECK(left(std::list<UniqueListenerId>{listener(1), listener(41)}) == 1);
    CHECK(left(std::vector<UniquePortId>()) == 0);
    const std::unordered_set<UniquePortId> hashed = {listener(5), listener(6), listener(5)};
    CHECK(left(hashed) == 2);
    // Falling numbers, each between ids of other kinds.
    std::vector<UniquePortId> falling;
    for (std::uint32_t i = most; i != 0; i -= 2) {
        falling.insert(falling.end(), {UniqueSubscriberId(1, 1, 1, i), listener(i),
                                       UniqueNotifierId(1, 1, 1, i)});
    }
    CHECK(left(falling) == most / 2);
}

void segments() {
    Service service = make(PatternKind::PublishSubscribe, {1, 1, 1});
    PublisherDetails publisher{UniquePublisherId(1, 1, 1, 1), a, 1, 1, DataSegmentType{2}, 1};
    CHECK(service.attach(publisher).status() == Status::UnknownSegment);
    publisher.data_segment_type = DataSegmentType::Static;
    CHECK(service.attach(publisher).status() == Status::NodeNotRegistered);
}

void moved_lists() {
    Service service = make(PatternKind::Event, {1, 1, 1});
    const List<UniqueNodeId> none = service.nodes().value();
    CHECK(none.empty() && none.data() == nullptr);
    CHECK(service.register_node_id(a));
    List<UniqueNodeId> list = service.nodes().value();
    const List<UniqueNodeId> moved = std::move(list);
    CHECK(list.empty() && list.begin() == list.end() && moved.size() == 1 && moved[0] == a);
    CHECK(moved.front() == a && moved.back() == a && moved.cend() - moved.cbegin() == 1);
    CHECK(moved == service.nodes().value() && moved != list);
    list = service.nodes().value();
    CHECK(moved == list && *list.data() == a);
    List<UniqueNodeId> assigned;
    assigned = std::move(list);
    CHECK(list.empty() && list.size() == 0 && list.begin() == list.end() && list != assigned);
    CHECK(assigned == moved);
    List<UniqueNodeId> full = service.nodes().value();
    full = std::move(assigned);
    CHECK(assigned.empty() && assigned.begin() == assigned.end() && full == moved);
    assigned = std::move(full);
    List<UniqueNodeId>& itself = assigned;
    assigned = std::move(itself);
    CHECK(assigned == moved);
}

void scripts() {
    const std::string_view script =
        "service event 7 1 2 2\nregister 1.0.0.1\nregister 2.0.0.2\nderegister 0\n";
    const ScriptRun run = run_script(script);
    CHECK(run.status == Status::Done && run.line == 0);
    CHECK(run.replies() == "handle 0 0\nfull\nno-owners\n");
    const ScriptRun cut = run_script(script.substr(0, script.size() - 1));
    CHECK(cut.status == Status::BadLine && cut.line == 4);
    CHECK(cut.replies() == "handle 0 0\nfull\n");
    const ScriptRun none = run_script({});
    CHECK(none.status == Status::BadLine && none.line == 1 && none.replies().empty());
    CHECK(run_script("service event 7 1 2 2\n").status == Status::Done);
}

/// So many calls on a service: whether all were as they should be.
bool works(Service& service, std::uint64_t rounds) {
    bool good = true;
    for (std::uint64_t i = 0; i < rounds; ++i) {
        const auto first = service.register_node_id(a);
        const auto second = service.register_node_id(b);
        const auto port = service.attach(port_of(Role::Subscriber, 20, b));
        good = good && first && second && port && service.ports_of(b).value().size() == 1;
        good = good && service.release_port(*port) && service.deregister_node_id(*second);
        const auto back = service.register_node_id(stranger);
        good = good && service.deregister_node_id(*first) &&
               back->service == *service.service_number();
        good = good && service.register_node_id(a) && service.deregister_node_id(*back);
        good = good && *service.remove_dead_node_id(stranger) ==
                           DeadNodeRemoval{DeregisterNodeState::HasOwners, 0, 0};
        const auto rest = service.nodes();
        good = good && rest->size() == 1 && (*rest)[0] == a;
        good = good && service.register_node_id(b);
        good = good && service.remove_dead_node_id(a) && service.register_node_id(a);
        good = good && service.remove_dead_node_id(b) && service.register_node_id(stranger);
        good = good && service.remove_dead_node_id(a);
    }
    return good;
}

/// Sixteen threads with a service each, and a service that goes from one thread to another.
void threads() {
    bool good[16] = {};
    std::vector<std::thread> running;
    for (std::uint64_t i = 0; i < 16; ++i) {
        running.emplace_back([i, &good] {
            Service service =
                Service::create(PatternKind::PublishSubscribe, 1000 + i, {20, 2, 8}).value();
            good[i] = works(service, 20);
        });
    }
    for (std::thread& each : running) each.join();
    for (bool each : good) CHECK(each);

    Service service = make(PatternKind::Event, {2, 1, 1});
    CHECK(service.register_node_id(a));
    Service back;
    std::thread([&back, handed = std::move(service)]() mutable {
        CHECK(lists(handed.nodes(), a) && handed.register_node_id(b));
        back = std::move(handed);
    }).join();
    CHECK(lists(back.nodes(), a, b));
}

/// Sixteen threads ask one service at once, by calls that are `const`.
void questions_at_once() {
    Service made = make(PatternKind::Event, {2, 1, 1});
    const ContainerHandle node = made.register_node_id(a).value();
    CHECK(made.register_node_id(b));
    const ListenerDetails listener{UniqueListenerId(1, 2, 3, 5), a};
    const ContainerHandle port = made.attach(listener).value();
    const Service& service = made;
    const std::uint64_t number = service.service_number().value();
    bool good[16] = {};
    std::vector<std::thread> running;
    for (bool& each : good) {
        running.emplace_back([&service, &each, &node, &port, &listener, number] {
            each = true;
            for (int i = 0; i < 200; ++i) {
                each = each && *service.kind() == PatternKind::Event &&
                       *service.service_number() == number &&
                       *service.port_roles() == PortRoles{Role::Listener, Role::Notifier} &&
                       *service.has_role(Role::Notifier) && !*service.is_locked();
                each = each && *service.number_of_nodes() == 2 && *service.max_nodes() == 2 &&
                       !*service.has_room_for_node() && *service.node(node) == a;
                each = each && *service.count_ports(Role::Listener) == 1 &&
                       *service.max_ports(Role::Notifier) == 1 &&
                       *service.has_room(Role::Notifier) && !*service.has_room(Role::Listener);
                each = each && *service.port(port) == PortDetails(listener) &&
                       lists(service.nodes(), a, b) && service.ports_of(b).value().empty() &&
                       lists(service.ports(Role::Listener), PortDetails(listener)) &&
                       lists(service.ports_of(a), PortDetails(listener)) &&
                       lists(service.list_listeners(), listener);
            }
        });
    }
    for (std::thread& each : running) each.join();
    for (bool each : good) CHECK(each);
}

/// A service is made of a description: with its pattern, its room and so many tickets.
void described_services() {
    const TypeDetail type = TypeDetail::create(TypeVariant::FixedSize, "t", 4, 2).value();
    const MessageTypeDetails types{type, type, type};
    PublishSubscribeSettings samples = PublishSubscribeSettings::defaults();
    samples.max_nodes = 1, samples.max_publishers = 2, samples.max_subscribers = 3;
    EventSettings events = EventSettings::defaults();
    events.max_nodes = 4, events.max_listeners = 5, events.max_notifiers = 6;
    RequestResponseSettings requests = RequestResponseSettings::defaults();
    requests.max_nodes = 7, requests.max_servers = 8, requests.max_clients = 9;
    const BlackboardSettings boards{10, 11};
    const auto made = [](const MessagingPattern& pattern, const Capacities& room) {
        CHECK(capacities(pattern) == room);
        const Service service = Service::create(pattern, 12, 1).value();
        const PortRoles roles = service.port_roles().value();
        CHECK(service.kind() == kind(pattern) && service.service_number() == std::uint64_t{12});
        CHECK(service.max_nodes() == room.nodes && service.max_ports(roles.first) == room.first);
        CHECK(service.max_ports(roles.second) == room.second && *service.has_room_for_node());
    };
    made(PublishSubscribeStaticConfig(samples, types), {1, 2, 3});
    made(events, {4, 5, 6});
    made(RequestResponseStaticConfig(requests, types, types), {7, 8, 9});
    made(BlackboardStaticConfig(boards, type), {11, 10, 1});
    Service ticketed = Service::create(events, 0, 1).value();
    CHECK(ticketed.register_node_id(a) && !*ticketed.has_room_for_node());
    events.max_nodes = SIZE_MAX;
    CHECK(Service::create(events, 0).status() == Status::NoMemory);
}

/// A handle that nobody gave stands for nothing, in a service with the number 0 too.
void handles_of_nothing() {
    Service service = Service::create(PatternKind::Event, 0, {1, 1, 1}).value();
    const ContainerHandle first = service.register_node_id(a).value();
    CHECK(first.service == 0 && first.slot == 0 && first.ticket == 0);
    CHECK(service.deregister_node_id(ContainerHandle()).error() == Status::UnknownRole);
    CHECK(service.release_port(ContainerHandle()).error() == Status::UnknownRole);
    CHECK(service.node(ContainerHandle()).error() == Status::UnknownRole);
    CHECK(service.port(ContainerHandle()).error() == Status::UnknownRole);
    CHECK(lists(service.nodes(), a));
}

}  // namespace

int main() {
    no_service();
    making_and_moving();
    nodes();
    for (std::size_t pattern = 0; pattern < 4; ++pattern) ports(pattern);
    listings();
    kept_kinds();
    kept_ranges();
    segments();
    moved_lists();
    scripts();
    threads();
    described_services();
    questions_at_once();
    handles_of_nothing();
    return end_of_checks();
}
