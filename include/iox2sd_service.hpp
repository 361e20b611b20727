/// Ports, handles and services of iox2sd.hpp, which explains the rules.
#ifndef IOX2SD_SERVICE_HPP
#define IOX2SD_SERVICE_HPP

#include "iox2sd_text.hpp"

namespace iox2sd {

// ---- Ports ----

/// Whether a data segment may grow.
enum class DataSegmentType : std::uint32_t {
    Dynamic = IOX2SD_SEGMENT_DYNAMIC,  ///< It may be replaced by a larger one.
    Static = IOX2SD_SEGMENT_STATIC,    ///< It keeps its size.
};

/// What a kind of ports has beside its fields: its role, its id of any kind, and its way to C and
/// back. `own` copies each field of its own, in the direction that `copy` has.
#define IOX2SD_PORT(Kind, kind, own)                                                              \
    static constexpr Role role = Role::Kind;                                                      \
    UniquePortId port_id() const noexcept { return kind##_id; }                                   \
    static Kind##Details from_c(const iox2sd_port_details& c) noexcept {                          \
        Kind##Details port{Unique##Kind##Id(c.port), UniqueNodeId(c.node, {})};                   \
        each_own(port, c, [](auto& to, const auto& from) {                                        \
            to = detail::from_c<std::decay_t<decltype(to)>>(from);                                \
        });                                                                                       \
        return port;                                                                              \
    }                                                                                             \
    iox2sd_port_details as_c() const noexcept {                                                   \
        iox2sd_port_details c{};                                                                  \
        c.role = static_cast<std::uint64_t>(role);                                                \
        c.port = kind##_id.parts();                                                               \
        c.node = node_id.parts();                                                                 \
        each_own(*this, c, [](const auto& from, auto& to) { to = detail::as_c(from); });          \
        return c;                                                                                 \
    }                                                                                             \
                                                                                                  \
private:                                                                                          \
    template <class Port, class C, class Copy>                                                    \
    static void each_own([[maybe_unused]] Port& port, [[maybe_unused]] C& c,                      \
                         [[maybe_unused]] Copy copy) noexcept {                                   \
        own                                                                                       \
    }                                                                                             \
    static_assert(true, "a semicolon follows")
#define IOX2SD_OWN(name) copy(port.name, c.name);
#define IOX2SD_OWN_SEGMENT                          \
    IOX2SD_OWN(max_slice_len)                       \
    copy(port.data_segment_type, c.data_segment);   \
    IOX2SD_OWN(max_number_of_segments)

/// What a publisher reports of itself.
struct PublisherDetails {
    UniquePublisherId publisher_id;
    UniqueNodeId node_id;
    std::size_t number_of_samples = 0;
    std::size_t max_slice_len = 0;
    DataSegmentType data_segment_type = DataSegmentType::Static;
    std::uint8_t max_number_of_segments = 0;

    IOX2SD_FIELDS(publisher_id, node_id, number_of_samples, max_slice_len, data_segment_type,
                  max_number_of_segments);
    IOX2SD_PORT(Publisher, publisher, IOX2SD_OWN(number_of_samples) IOX2SD_OWN_SEGMENT);
};

/// What a subscriber reports of itself.
struct SubscriberDetails {
    UniqueSubscriberId subscriber_id;
    UniqueNodeId node_id;
    std::size_t buffer_size = 0;

    IOX2SD_FIELDS(subscriber_id, node_id, buffer_size);
    IOX2SD_PORT(Subscriber, subscriber, IOX2SD_OWN(buffer_size));
};

/// What a notifier reports of itself.
struct NotifierDetails {
    UniqueNotifierId notifier_id;
    UniqueNodeId node_id;

    IOX2SD_FIELDS(notifier_id, node_id);
    IOX2SD_PORT(Notifier, notifier, );
};

/// What a listener reports of itself.
struct ListenerDetails {
    UniqueListenerId listener_id;
    UniqueNodeId node_id;

    IOX2SD_FIELDS(listener_id, node_id);
    IOX2SD_PORT(Listener, listener, );
};

/// What a client reports of itself.
struct ClientDetails {
    UniqueClientId client_id;
    UniqueNodeId node_id;
    std::size_t number_of_requests = 0;
    std::size_t response_buffer_size = 0;
    std::size_t max_slice_len = 0;
    DataSegmentType data_segment_type = DataSegmentType::Static;
    std::uint8_t max_number_of_segments = 0;

    IOX2SD_FIELDS(client_id, node_id, number_of_requests, response_buffer_size, max_slice_len,
                  data_segment_type, max_number_of_segments);
    IOX2SD_PORT(Client, client, IOX2SD_OWN(number_of_requests) IOX2SD_OWN(response_buffer_size)
                IOX2SD_OWN_SEGMENT);
};

/// What a server reports of itself.
struct ServerDetails {
    UniqueServerId server_id;
    UniqueNodeId node_id;
    std::size_t request_buffer_size = 0;
    std::size_t number_of_responses = 0;
    std::size_t max_slice_len = 0;
    DataSegmentType data_segment_type = DataSegmentType::Static;
    std::uint8_t max_number_of_segments = 0;

    IOX2SD_FIELDS(server_id, node_id, request_buffer_size, number_of_responses, max_slice_len,
                  data_segment_type, max_number_of_segments);
    IOX2SD_PORT(Server, server, IOX2SD_OWN(request_buffer_size) IOX2SD_OWN(number_of_responses)
                IOX2SD_OWN_SEGMENT);
};

/// What a reader reports of itself.
struct ReaderDetails {
    UniqueReaderId reader_id;
    UniqueNodeId node_id;

    IOX2SD_FIELDS(reader_id, node_id);
    IOX2SD_PORT(Reader, reader, );
};

/// What a writer reports of itself.
struct WriterDetails {
    UniqueWriterId writer_id;
    UniqueNodeId node_id;

    IOX2SD_FIELDS(writer_id, node_id);
    IOX2SD_PORT(Writer, writer, );
};
#undef IOX2SD_PORT
#undef IOX2SD_OWN
#undef IOX2SD_OWN_SEGMENT

/// A port of any kind.
using PortDetails =
    std::variant<PublisherDetails, SubscriberDetails, NotifierDetails, ListenerDetails,
                 ClientDetails, ServerDetails, ReaderDetails, WriterDetails>;

namespace detail {

/// Where a type is one of the kinds of ports, or that of any kind.
template <class Details>
using IfPort = std::enable_if_t<std::is_constructible_v<PortDetails, const Details&>>;

/// What a visitor makes of a port, as `std::visit` does for a longer time of compilation.
template <class Visitor, class Details>
auto of_port(Visitor visitor, const Details& details) noexcept {
    if constexpr (!std::is_same_v<Details, PortDetails>) {
        return visitor(details);
    } else {
#define IOX2SD_VISITED(Kind, kind) \
    if (const auto* kind = std::get_if<Kind##Details>(&details)) return visitor(*kind);
        IOX2SD_PORT_KINDS(IOX2SD_VISITED)
#undef IOX2SD_VISITED
        std::abort();  // Such a variant has a value always: a copy of a port throws nothing.
    }
}

template <class Details = PortDetails>
Details port_details(const iox2sd_port_details& c) noexcept {
    switch (Role{c.role}) {
#define IOX2SD_FROM(Kind, kind) \
    case Role::Kind:            \
        return Kind##Details::from_c(c);
        IOX2SD_PORT_KINDS(IOX2SD_FROM)
#undef IOX2SD_FROM
        case Role::Node:
            break;
    }
    std::abort();  // The library lists ports of the eight kinds alone.
}

inline UniqueNodeId node_id(const iox2sd_id& id) noexcept { return {id, FromLibrary{}}; }

/// The pattern of what a service is made of.
template <class Described>
PatternKind pattern_of(const Described& described) noexcept {
    return kind(described);
}

}  // namespace detail

/// The role of a port, its id, and the node that it belongs to.
template <class Details, class = detail::IfPort<Details>>
Role role(const Details& details) noexcept {
    return detail::of_port([](const auto& port) { return port.role; }, details);
}
template <class Details, class = detail::IfPort<Details>>
UniquePortId port_id(const Details& details) noexcept {
    return detail::of_port([](const auto& port) { return port.port_id(); }, details);
}
template <class Details, class = detail::IfPort<Details>>
UniqueNodeId node_id(const Details& details) noexcept {
    return detail::of_port([](const auto& port) { return port.node_id; }, details);
}

// ---- Services ----

/// Registering and attaching return a handle; deregistering and releasing take it. A service never
/// reuses a handle, and refuses a stale one for good. `ContainerHandle()` is the handle of no
/// entry: each call refuses it with `UnknownRole`.
struct ContainerHandle {
    std::uint64_t service = 0;  ///< The number of the service.
    Role role = Role{IOX2SD_ROLE_NONE};
    std::size_t slot = 0;
    std::uint64_t ticket = 0;  ///< How many entries of its kind were made before it.

    IOX2SD_OF_C(ContainerHandle, iox2sd_handle, service, role, slot, ticket);
};

/// Numbers for services, for a caller who has none: 1, 2, 3, .., each once, up to 2^64 - 1. Two
/// objects return the same numbers, so one serves all services whose handles may meet.
class ServiceNumbers {
public:
    ServiceNumbers() noexcept = default;
    /// The numbers above this one.
    explicit ServiceNumbers(std::uint64_t last) noexcept : numbers_{last} {}
    ServiceNumbers(const ServiceNumbers&) = delete;
    ServiceNumbers& operator=(const ServiceNumbers&) = delete;
    ServiceNumbers(ServiceNumbers&&) noexcept = default;
    ServiceNumbers& operator=(ServiceNumbers&&) noexcept = default;

    /// The number that was returned last, or 0.
    std::uint64_t last() const noexcept { return numbers_.last; }

    /// The next number. Error: `OutOfSpace` after the greatest.
    Result<std::uint64_t> next() noexcept {
        const iox2sd_number_answer answer = iox2sd_next_service_number(&numbers_);
        return detail::result(answer.status, answer.number);
    }

private:
    iox2sd_service_numbers numbers_{};
};

/// The roles of the two kinds of ports of a pattern, that first which is recovered first.
struct PortRoles {
    Role first;
    Role second;

    IOX2SD_FIELDS(first, second);
};

/// Whether a service has nodes left.
enum class DeregisterNodeState {
    HasOwners,
    NoMoreOwners,  ///< The service is locked for good: no node is registered any more.
};

/// What the removal of a dead node removed, and what is left.
struct DeadNodeRemoval {
    DeregisterNodeState state;
    std::size_t first;   ///< How many publishers, listeners, servers or readers were removed.
    std::size_t second;  ///< How many subscribers, notifiers, clients or writers were removed.

    IOX2SD_FIELDS(state, first, second);
};

/// Who is attached to a service: nodes and ports of its pattern, and its capacities.
///
/// A service is moved and not copied, and freed at the end of its life. One that was moved from, or
/// that was made by `Service()`, holds none, and each call on it is refused with `NoService`,
/// before any other error.
class Service {
public:
    /// All tickets that there are.
    static constexpr std::uint64_t all_tickets = UINT64_MAX;

    /// Makes a service with nothing attached. `number` is part of its handles; the caller makes it
    /// unique. The service has `tickets` tickets for nodes, and as many for each kind of ports:
    /// each registering and each attaching uses one, and tickets are never reused.
    /// Errors: `UnknownPattern`; `NoMemory`.
    static Result<Service> create(PatternKind pattern, std::uint64_t number,
                                  const Capacities& capacities,
                                  std::uint64_t tickets = all_tickets) noexcept {
        Service made;
        const std::uint32_t status =
            iox2sd_service_create(&made.object_, static_cast<std::uint64_t>(pattern), number,
                                  capacities.as_c(), tickets);
        if (status != IOX2SD_STATUS_DONE) return Status{status};
        return made;
    }

    /// Makes a service of the pattern and the capacities that something has: the capacities by the
    /// names of a pattern's ports, a pattern's settings, or a description. Error: `NoMemory`.
    template <class Described, class = decltype(capacities(std::declval<const Described&>()))>
    static Result<Service> create(const Described& described, std::uint64_t number,
                                  std::uint64_t tickets = all_tickets) noexcept {
        return create(detail::pattern_of(described), number, capacities(described), tickets);
    }

    /// Takes over what a service object of the C header holds, and leaves it empty.
    static Service from_c(iox2sd_service& object) noexcept {
        Service made;
        made.object_ = std::exchange(object, {});
        return made;
    }

    /// The service object for calls of the C header, as long as the service is there.
    iox2sd_service* as_c() & noexcept { return &object_; }
    const iox2sd_service* as_c() const& noexcept { return &object_; }
    const iox2sd_service* as_c() const&& = delete;

    /// Leaves what the service holds to the caller, who frees it by `iox2sd_service_free`.
    iox2sd_service release() noexcept { return std::exchange(object_, {}); }

    Service() noexcept = default;
    Service(Service&& other) noexcept : object_(std::exchange(other.object_, {})) {}
    Service& operator=(Service&& other) noexcept {
        if (this != &other) {
            free();
            object_ = std::exchange(other.object_, {});
        }
        return *this;
    }
    ~Service() { free(); }

    /// Registers a node, which may have several handles. Errors: `IsLocked`; `OutOfSpace`.
    Result<ContainerHandle> register_node_id(const UniqueNodeId& node) noexcept {
        const iox2sd_handle_answer answer = iox2sd_register_node_id(&object_, node.parts());
        return detail::result(answer.status, ContainerHandle::from_c(answer.handle));
    }

    /// Deregisters the node with this handle.
    /// Errors: `UnknownRole`; `ForeignHandle`, also for a port's handle; `PortsStillAttached`,
    /// where it is the only handle of its node and some port has that node.
    Result<DeregisterNodeState> deregister_node_id(const ContainerHandle& handle) noexcept {
        const std::uint32_t status = iox2sd_deregister_node_id(&object_, handle.as_c());
        if (!is_state(status)) return Status{status};
        return state(status);
    }

    /// Attaches a port.
    /// Errors: `UnknownSegment`; `RoleNotInPattern`; `IsLocked`; `NodeNotRegistered`, by the whole
    /// id; `OutOfSpace`.
    template <class Details, class = detail::IfPort<Details>>
    Result<ContainerHandle> attach(const Details& details) noexcept {
        const iox2sd_port_details port =
            detail::of_port([](const auto& each) { return each.as_c(); }, details);
        const iox2sd_handle_answer answer = iox2sd_attach(&object_, &port);
        return detail::result(answer.status, ContainerHandle::from_c(answer.handle));
    }

    /// Releases the port with this handle.
    /// Errors: `UnknownRole`; `ForeignHandle`, also for a node's handle.
    Result<void> release_port(const ContainerHandle& handle) noexcept {
        return detail::result(iox2sd_release_port(&object_, handle.as_c()));
    }

    /// Removes those ports of a dead node whose ids are not among `kept`: any range of ids of
    /// ports, which is read once. A port is kept where its kind and its number are. Where none of
    /// its ports is left, the node is removed too, with all its handles. The ids are sorted first,
    /// so that many are fast in any order. It throws what the range throws, and then has removed
    /// nothing.
    /// Error: `NoMemory`, before `NoService`; never where nothing is to be kept.
    template <class Range>
    Result<DeadNodeRemoval> remove_dead_node_id(const UniqueNodeId& dead, Range&& kept) {
        return remove_but(dead, kept);
    }
    template <class = void>
    Result<DeadNodeRemoval>
    remove_dead_node_id(const UniqueNodeId& dead,
                        std::initializer_list<UniquePortId> kept = {}) noexcept {
        return remove_but(dead, kept);
    }

    /// The messaging pattern.
    Result<PatternKind> kind() const noexcept {
        const iox2sd_number_answer answer = iox2sd_messaging_pattern(&object_);
        return detail::result(answer.status, PatternKind{answer.number});
    }

    /// The service's number, which each of its handles has.
    Result<std::uint64_t> service_number() const noexcept {
        const iox2sd_number_answer answer = iox2sd_service_number(&object_);
        return detail::result(answer.status, answer.number);
    }

    /// The roles of the pattern's two kinds of ports.
    Result<PortRoles> port_roles() const noexcept {
        const iox2sd_roles_answer answer = iox2sd_port_roles(&object_);
        return detail::result(answer.status, PortRoles{Role{answer.first}, Role{answer.second}});
    }

    /// Whether the pattern has ports of the role; no for `Role::Node`. Error: `UnknownRole`.
    Result<bool> has_role(Role role) const noexcept {
        return flag(iox2sd_has_role(&object_, number(role)));
    }

    /// Whether the service is locked for good: it has no node and no port, and none can join it.
    Result<bool> is_locked() const noexcept { return flag(iox2sd_is_locked(&object_)); }

    /// How many handles of nodes there are: a node that is registered twice counts twice.
    Result<std::size_t> number_of_nodes() const noexcept {
        return detail::result(iox2sd_number_of_nodes(&object_));
    }

    /// How many handles of nodes there may be at a time.
    Result<std::size_t> max_nodes() const noexcept {
        return detail::result(iox2sd_max_nodes(&object_));
    }

    /// Whether a node would be registered: the service is not locked, and a slot and a ticket are
    /// left.
    Result<bool> has_room_for_node() const noexcept {
        return flag(iox2sd_has_room_for_node(&object_));
    }

    /// How many ports of the role there are.
    /// Errors: `UnknownRole`; `RoleNotInPattern`, also for `Role::Node`.
    Result<std::size_t> count_ports(Role role) const noexcept {
        return detail::result(iox2sd_count_ports(&object_, number(role)));
    }

    /// How many ports of the role there may be at a time. Errors as of `count_ports`.
    Result<std::size_t> max_ports(Role role) const noexcept {
        return detail::result(iox2sd_max_ports(&object_, number(role)));
    }

    /// Whether a port of the role would be attached, if its node is registered. Errors as of
    /// `count_ports`.
    Result<bool> has_room(Role role) const noexcept {
        return flag(iox2sd_has_room(&object_, number(role)));
    }

    /// The node that was registered with this handle and is still there.
    /// Errors: `UnknownRole`; `ForeignHandle`, also for a port's handle.
    Result<UniqueNodeId> node(const ContainerHandle& handle) const noexcept {
        const iox2sd_id_answer answer = iox2sd_node(&object_, handle.as_c());
        return detail::result(answer.status, UniqueNodeId(answer.id, detail::FromLibrary{}));
    }

    /// The port that was attached with this handle and is still there.
    /// Errors: `UnknownRole`; `ForeignHandle`, also for a node's handle.
    template <class Details = PortDetails>
    Result<Details> port(const ContainerHandle& handle) const noexcept {
        const iox2sd_port_answer answer = iox2sd_port(&object_, handle.as_c());
        if (answer.status != IOX2SD_STATUS_DONE) return Status{answer.status};
        return detail::port_details<Details>(answer.port);
    }

    /// The ids of the nodes by rising slot, one for each handle. Error: `NoMemory`.
    template <class Id = UniqueNodeId>
    Result<List<Id>> nodes() const noexcept {
        return List<Id>::made_by(
            [this](iox2sd_id* out, std::size_t capacity) {
                return iox2sd_nodes(&object_, out, capacity);
            },
            detail::node_id);
    }

    /// The ports of a role by rising slot.
    /// Errors: `UnknownRole`; `RoleNotInPattern`, also for `Role::Node`; `NoMemory`.
    template <class Details = PortDetails>
    Result<List<Details>> ports(Role role) const noexcept {
        return ports_as(role, detail::port_details<Details>);
    }

    /// The ports of a node, with exactly this id, those of the first role first, by rising slot.
    /// Errors: `TooLarge` for more than 2^64 - 1 ports; `NoMemory`.
    template <class Details = PortDetails>
    Result<List<Details>> ports_of(const UniqueNodeId& node) const noexcept {
        return List<Details>::made_by(
            [this, &node](iox2sd_port_details* out, std::size_t capacity) {
                return iox2sd_ports_of(&object_, node.parts(), out, capacity);
            },
            detail::port_details<Details>);
    }

    /// `list_publishers`, `list_subscribers`, ..: the ports of one kind by rising slot.
    /// Errors: `RoleNotInPattern`; `NoMemory`.
#define IOX2SD_LISTING(Kind, kind)                                  \
    template <class Details = Kind##Details>                        \
    Result<List<Details>> list_##kind##s() const noexcept {         \
        return ports_as(Role::Kind, Details::from_c);               \
    }
    IOX2SD_PORT_KINDS(IOX2SD_LISTING)
#undef IOX2SD_LISTING

private:
    template <class Range>
    Result<DeadNodeRemoval> remove_but(const UniqueNodeId& dead, Range& kept) {
        const auto as_c = [](const UniquePortId& port) {
            return iox2sd_port_id{number(port.role()), port.parts()};
        };
        // By numbers and then by roles: so they are searched by halves.
        const auto is_before = [](const iox2sd_port_id& one, const iox2sd_port_id& other) noexcept {
            const UniqueServiceId first(one.port), second(other.port);
            return first != second ? first < second : one.role < other.role;
        };
        const auto ids = List<iox2sd_port_id>::sorted_of_range(kept, as_c, is_before);
        if (!ids) return ids.error();
        const iox2sd_dead_node_removal answer =
            iox2sd_remove_dead_node_id(&object_, dead.parts(), ids->data(), ids->size());
        if (!is_state(answer.status)) return Status{answer.status};
        return DeadNodeRemoval{state(answer.status), answer.first, answer.second};
    }

    static std::uint64_t number(Role role) noexcept { return static_cast<std::uint64_t>(role); }

    static Result<bool> flag(const iox2sd_flag_answer& answer) noexcept {
        return detail::result(answer.status, answer.yes);
    }

    static bool is_state(std::uint32_t status) noexcept {
        return status == IOX2SD_STATUS_DONE || status == IOX2SD_STATUS_DONE_LOCKED;
    }

    static DeregisterNodeState state(std::uint32_t status) noexcept {
        return status == IOX2SD_STATUS_DONE_LOCKED ? DeregisterNodeState::NoMoreOwners
                                            : DeregisterNodeState::HasOwners;
    }

    template <class Details>
    Result<List<Details>> ports_as(Role role,
                                   Details make(const iox2sd_port_details&)) const noexcept {
        return List<Details>::made_by(
            [this, role](iox2sd_port_details* out, std::size_t capacity) {
                return iox2sd_ports(&object_, number(role), out, capacity);
            },
            make);
    }

    /// Frees what the object holds, if it holds a service.
    void free() noexcept { iox2sd_service_free(&object_); }

    iox2sd_service object_{};
};

/// The ported middleware's word for a `Service`.
using DynamicConfig = Service;

}  // namespace iox2sd

/// Handles and what ports report are hashed.
IOX2SD_HASHED(ContainerHandle);
#define IOX2SD_HASHED_PORT(Kind, kind) IOX2SD_HASHED(Kind##Details);
IOX2SD_PORT_KINDS(IOX2SD_HASHED_PORT)
#undef IOX2SD_HASHED_PORT

#endif
