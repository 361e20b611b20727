"""Services, and who is attached to them."""

import ctypes
from collections.abc import Callable, Iterable, Iterator
from contextlib import contextmanager, suppress
from dataclasses import dataclass
from typing import Any, NoReturn, TypeVar, Union, cast

from . import _native
from ._arguments import U64, Checked, Size, instance, items, number
from ._values import Choice, unchecked
from .details import (
    ClientDetails, Details, ListenerDetails, NotifierDetails, PortDetails, PublisherDetails,
    ReaderDetails, ServerDetails, SubscriberDetails, WriterDetails, details_of, details_of_rows,
)
from .errors import NoServiceError, RefusedError, Status, check
from .ids import Role, UniqueNodeId, UniquePortId, maker
from .settings import PatternSettings
from .static_config import Capacities, PatternStaticConfig, StaticConfig
from .texts import MessagingPattern


_Details = TypeVar("_Details", bound=Details)
_Service = TypeVar("_Service", bound="DynamicConfig")

ALL_TICKETS = 2**64 - 1
_node_id = maker(UniqueNodeId)


@dataclass(frozen=True, slots=True)
class ContainerHandle(Checked):
    """Registering and attaching return a handle; deregistering and releasing take it. A service
    never reuses a handle.
    """

    service: U64
    """The number of the service."""
    role: Role
    slot: Size
    ticket: U64
    """How many entries of its kind were made before it."""

    def _lent(self) -> _native.Handle:
        return _native.Handle(self.service, self.role.value, self.slot, self.ticket)

    @classmethod
    def _of(cls, handle: _native.Handle) -> "ContainerHandle":
        values = (handle.service, Role(handle.role), handle.slot, handle.ticket)
        return unchecked(cls, values)


class ServiceNumbers:
    """Numbers for services, for those who have none: 1, 2, 3, .., each once, up to 2^64 - 1, from
    the one after `last` on. Threads may share it. Two objects return the same numbers, so one
    serves all services whose handles may meet, and it cannot be copied.
    """

    __slots__ = ("_numbers", "__weakref__")

    def __init__(self, last: int = 0) -> None:
        self._numbers = _native.ServiceNumbers(number(last, U64, "ServiceNumbers"))

    @property
    def last(self) -> int:
        """The number that was returned last, or 0."""
        last: int = self._numbers.last
        return last

    def __iter__(self) -> "ServiceNumbers":
        return self

    def __next__(self) -> int:
        answer = _native.next_service_number_at(self._numbers, 1)
        if answer.status == Status.OUT_OF_SPACE.value:
            raise StopIteration
        check(answer.status, "ServiceNumbers")
        return int(answer.number)

    def __repr__(self) -> str:
        return f"{type(self).__name__}({self.last})"

    def __reduce__(self) -> NoReturn:
        raise TypeError("a ServiceNumbers cannot be copied or pickled")


class DeregisterNodeState(Choice):
    """Whether a service has nodes left."""

    HAS_OWNERS = _native.DONE
    """It has."""
    NO_MORE_OWNERS = _native.DONE_LOCKED
    """It has none and is locked for good: nothing joins it again."""


def _held(
    handle: ContainerHandle, leave: Callable[[ContainerHandle], object]
) -> Iterator[ContainerHandle]:
    """A handle for a `with` statement, which is left at its end."""
    try:
        yield handle
    except BaseException:
        with suppress(RefusedError):
            leave(handle)
        raise
    leave(handle)


@dataclass(frozen=True, slots=True)
class DeadNodeRemoval(Checked):
    """What the removal of a dead node removed, and what is left."""

    state: DeregisterNodeState
    first: Size
    """How many publishers, listeners, servers or readers were removed."""
    second: Size
    """How many subscribers, notifiers, clients or writers were removed."""


def _lister(kind: "type[_Details]") -> "Callable[[DynamicConfig], tuple[_Details, ...]]":
    """What lists the ports whose details are of one class."""

    def listed(self: "DynamicConfig") -> "tuple[_Details, ...]":
        return cast("tuple[_Details, ...]", self.list_ports(kind.role))

    name = f"{kind.role.name.lower()}s"
    listed.__name__ = f"list_{name}"
    listed.__qualname__ = f"DynamicConfig.list_{name}"
    listed.__doc__ = f"The {name} by rising slot. Raises `RoleNotInPatternError`."
    return listed


class DynamicConfig:
    """A service, to which nodes register and ports are attached.

    It may be used by several threads, by finalizers and in the child of a fork: each call of the
    library keeps the interpreter's global lock, and is carried out whole before or after any other.
    No lock is taken beside that one. An interpreter that runs without it cannot import the package.

    A call on a service that was closed raises `NoServiceError`. Use it in a `with` statement, or
    close it. It cannot be copied.
    """

    __slots__ = ("_object", "__weakref__")
    _object: _native.Service

    def __init__(
        self, messaging_pattern: MessagingPattern, service_number: int, capacities: Capacities,
        tickets: int = ALL_TICKETS,
    ) -> None:
        """A service with nothing attached. `service_number` is in each of its handles. It has
        `tickets` tickets for nodes, and as many for each kind of ports: each registering and each
        attaching uses one, and tickets are never reused. Raises `HasServiceError` where the object
        has one already, and `NoMemoryError`.
        """
        if not hasattr(self, "_object"):
            self._object = _native.Service()
        what = "DynamicConfig"
        instance(messaging_pattern, MessagingPattern, f"{what}.messaging_pattern")
        instance(capacities, Capacities, f"{what}.capacities")
        status = self._call(
            _native.service_create_at, messaging_pattern.value,
            number(service_number, U64, f"{what}.service_number"),
            _native.Capacities(capacities.nodes, capacities.first, capacities.second),
            number(tickets, U64, f"{what}.tickets"),
        )
        check(status, f"{what} with {capacities}")

    @classmethod
    def described(
        cls: "type[_Service]", service: Union[StaticConfig, PatternStaticConfig, PatternSettings],
        service_number: int, *, tickets: int = ALL_TICKETS,
    ) -> _Service:
        """A service with the pattern and the capacities of a description, or of settings. Raises
        `NoMemoryError`.
        """
        pattern, capacities = Capacities._of(service, f"{cls.__name__}.described")
        return cls(pattern, service_number, capacities, tickets)

    @classmethod
    def publish_subscribe(
        cls: "type[_Service]", service_number: int, *, max_nodes: int, max_publishers: int,
        max_subscribers: int, tickets: int = ALL_TICKETS,
    ) -> _Service:
        """A publish-subscribe service. Raises `NoMemoryError`."""
        capacities = Capacities(max_nodes, max_publishers, max_subscribers)
        return cls(MessagingPattern.PUBLISH_SUBSCRIBE, service_number, capacities, tickets)

    @classmethod
    def event(
        cls: "type[_Service]", service_number: int, *, max_nodes: int, max_listeners: int,
        max_notifiers: int, tickets: int = ALL_TICKETS,
    ) -> _Service:
        """An event service. Raises `NoMemoryError`."""
        capacities = Capacities(max_nodes, max_listeners, max_notifiers)
        return cls(MessagingPattern.EVENT, service_number, capacities, tickets)

    @classmethod
    def request_response(
        cls: "type[_Service]", service_number: int, *, max_nodes: int, max_servers: int,
        max_clients: int, tickets: int = ALL_TICKETS,
    ) -> _Service:
        """A request-response service. Raises `NoMemoryError`."""
        capacities = Capacities(max_nodes, max_servers, max_clients)
        return cls(MessagingPattern.REQUEST_RESPONSE, service_number, capacities, tickets)

    @classmethod
    def blackboard(
        cls: "type[_Service]", service_number: int, *, max_nodes: int, max_readers: int,
        max_writers: int, tickets: int = ALL_TICKETS,
    ) -> _Service:
        """A blackboard service. Raises `NoMemoryError`."""
        capacities = Capacities(max_nodes, max_readers, max_writers)
        return cls(MessagingPattern.BLACKBOARD, service_number, capacities, tickets)

    # ---- Changes ----

    def register_node_id(self, node_id: UniqueNodeId) -> ContainerHandle:
        """Registers a node, which may have several handles. Raises `NoServiceError`,
        `IsLockedError`, `OutOfSpaceError`.
        """
        instance(node_id, UniqueNodeId, "register_node_id")
        what = f"register node {node_id}"
        answer = self._answer(what, _native.register_node_id_at, node_id._lent())
        return ContainerHandle._of(answer.handle)

    def deregister_node_id(self, handle: ContainerHandle) -> DeregisterNodeState:
        """Deregisters the node with a handle. Raises `NoServiceError`, `ForeignHandleError`, also
        for a port's handle, and `PortsStillAttachedError` where it is the only handle of its node
        and some port has that node.
        """
        instance(handle, ContainerHandle, "deregister_node_id")
        status = self._call(_native.deregister_node_id_at, handle._lent())
        check(status, f"deregister {handle}")
        return DeregisterNodeState(status)

    def attach(self, details: PortDetails) -> ContainerHandle:
        """Attaches a port. Raises `NoServiceError`, `RoleNotInPatternError`, `IsLockedError`,
        `NodeNotRegisteredError`, `OutOfSpaceError`.
        """
        instance(details, PortDetails, "attach")
        what = f"attach {details.role.name.lower()} {details.port_id}"
        return ContainerHandle._of(self._answer(what, _native.attach_at, details._lent(), 1).handle)

    def release_port(self, handle: ContainerHandle) -> None:
        """Releases the port with a handle. Raises `NoServiceError` and `ForeignHandleError`, also
        for a node's handle.
        """
        instance(handle, ContainerHandle, "release_port")
        check(self._call(_native.release_port_at, handle._lent()), f"release {handle}")

    def remove_dead_node_id(
        self, node_id: UniqueNodeId, keep: Iterable[UniquePortId] = ()
    ) -> DeadNodeRemoval:
        """Removes the ports of a dead node, but for those whose id is in `keep`, and returns how
        many it removed. Where no port is left, the node is removed too, with all its handles. The
        ids are sorted first, so that many are fast in any order. Raises `NoServiceError`.
        """
        instance(node_id, UniqueNodeId, "remove_dead_node_id")
        given = items(keep, UniquePortId, "remove_dead_node_id.keep")
        # By numbers and then by roles: so they are searched by halves.
        kept = sorted(given, key=lambda one: (one.value, one.role.value))
        ids = (_native.PortId * len(kept))(*((one.role.value, one._lent()) for one in kept))
        what, lent = f"remove dead node {node_id}", node_id._lent()
        answer = self._answer(what, _native.remove_dead_node_id_at, lent, ids, len(kept))
        return DeadNodeRemoval(DeregisterNodeState(answer.status), answer.first, answer.second)

    @contextmanager
    def registered(self, node_id: UniqueNodeId) -> Iterator[ContainerHandle]:
        """Registers a node for a `with` statement, and deregisters it at its end. Raises what
        `register_node_id` does, and at the end what the statement raised, or else what
        `deregister_node_id` does.
        """
        yield from _held(self.register_node_id(node_id), self.deregister_node_id)

    @contextmanager
    def attached(self, details: PortDetails) -> Iterator[ContainerHandle]:
        """Attaches a port for a `with` statement, and releases it at its end. Raises what `attach`
        does, and at the end what the statement raised, or else what `release_port` does.
        """
        yield from _held(self.attach(details), self.release_port)

    # ---- Questions. All raise `NoServiceError`. ----

    @property
    def messaging_pattern(self) -> MessagingPattern:
        """The messaging pattern."""
        answer = self._answer("messaging_pattern", _native.messaging_pattern_at)
        return MessagingPattern(answer.number)

    @property
    def service_number(self) -> int:
        """The number that each handle of the service has."""
        return int(self._answer("service_number", _native.service_number_at).number)

    @property
    def port_roles(self) -> "tuple[Role, Role]":
        """The roles of the pattern's two kinds of ports, that first which is recovered first."""
        answer = self._answer("port_roles", _native.port_roles_at)
        return Role(answer.first), Role(answer.second)

    def has_role(self, role: Role) -> bool:
        """Whether the pattern has ports of a role; False for `Role.NODE`."""
        instance(role, Role, "has_role")
        return self._flag("has_role", _native.has_role_at, role.value)

    @property
    def is_locked(self) -> bool:
        """Whether the service is locked: it has no node and no port, and none can join it."""
        return self._flag("is_locked", _native.is_locked_at)

    @property
    def number_of_nodes(self) -> int:
        """How many handles of nodes there are: a node that is registered twice counts twice."""
        return self._count("number_of_nodes", _native.number_of_nodes_at)

    @property
    def max_nodes(self) -> int:
        """How many handles of nodes there may be at a time."""
        return self._count("max_nodes", _native.max_nodes_at)

    @property
    def has_room_for_node(self) -> bool:
        """Whether a node could register: the service is not locked, and a slot and a ticket are
        left.
        """
        return self._flag("has_room_for_node", _native.has_room_for_node_at)

    def count_ports(self, role: Role) -> int:
        """How many ports of a role there are. Raises `RoleNotInPatternError`."""
        instance(role, Role, "count_ports")
        return self._count(f"count ports, {role}", _native.count_ports_at, role.value)

    def max_ports(self, role: Role) -> int:
        """How many ports of a role there may be at a time. Raises `RoleNotInPatternError`."""
        instance(role, Role, "max_ports")
        return self._count(f"max ports, {role}", _native.max_ports_at, role.value)

    def has_room(self, role: Role) -> bool:
        """Whether a port of a role could be attached, if its node is registered. Raises
        `RoleNotInPatternError`.
        """
        instance(role, Role, "has_room")
        return self._flag(f"has_room, {role}", _native.has_room_at, role.value)

    def node(self, handle: ContainerHandle) -> UniqueNodeId:
        """The node that was registered with a handle. Raises `ForeignHandleError` where it is not
        there any more or never was.
        """
        instance(handle, ContainerHandle, "node")
        answer = self._answer(f"node of {handle}", _native.node_at, handle._lent())
        return UniqueNodeId._of(answer.id)

    def port(self, handle: ContainerHandle) -> PortDetails:
        """The port that was attached with a handle. Raises `ForeignHandleError` where it is not
        there any more or never was.
        """
        instance(handle, ContainerHandle, "port")
        answer = self._answer(f"port of {handle}", _native.port_at, handle._lent())
        return details_of(answer.port)

    # ---- Lists. Each is taken whole, and later changes do not change it. ----

    def list_node_ids(self) -> "tuple[UniqueNodeId, ...]":
        """The nodes by rising slot, one for each handle."""
        rows = self._rows("list_node_ids", _native.Id, _native.nodes_at)
        return tuple(_node_id(*row) for row in rows)

    def list_ports(self, role: Role) -> "tuple[PortDetails, ...]":
        """The ports of a role by rising slot. Raises `RoleNotInPatternError`."""
        instance(role, Role, "list_ports")
        what = f"list ports, {role}"
        rows = self._rows(what, _native.PortDetails, _native.ports_at, role.value)
        return details_of_rows(rows)

    def ports_of(self, node_id: UniqueNodeId) -> "tuple[PortDetails, ...]":
        """The ports of a node: those of the first kind by rising slot, then those of the second.
        Raises `TooLargeError` for more than 2^64 - 1.
        """
        instance(node_id, UniqueNodeId, "ports_of")
        what, lent = f"ports of {node_id}", node_id._lent()
        return details_of_rows(self._rows(what, _native.PortDetails, _native.ports_of_at, lent))

    list_publishers = _lister(PublisherDetails)
    list_subscribers = _lister(SubscriberDetails)
    list_notifiers = _lister(NotifierDetails)
    list_listeners = _lister(ListenerDetails)
    list_clients = _lister(ClientDetails)
    list_servers = _lister(ServerDetails)
    list_readers = _lister(ReaderDetails)
    list_writers = _lister(WriterDetails)

    # ---- The end ----

    @property
    def closed(self) -> bool:
        """Whether the service was closed."""
        return bool(self._call(_native.service_number_at).status == Status.NO_SERVICE.value)

    def close(self) -> None:
        """Frees the service. Closing it again does nothing."""
        self._call(_native.service_free_at)

    def __enter__(self: _Service) -> _Service:
        return self

    def __exit__(self, *_: object) -> None:
        self.close()

    def __del__(self) -> None:
        if hasattr(self, "_object"):
            self.close()

    def __repr__(self) -> str:
        """Makes an empty service of this pattern, number and capacities; tickets are left out."""
        name = type(self).__name__
        try:
            roles = self.port_roles
            capacities = Capacities(self.max_nodes, *(self.max_ports(role) for role in roles))
            return f"{name}({self.messaging_pattern!r}, {self.service_number}, {capacities})"
        except NoServiceError:  # Another thread may close it at any time.
            return f"<a closed {name}>"

    def __format__(self, form: str) -> str:
        return format(repr(self), form)

    def __reduce__(self) -> NoReturn:
        raise TypeError("a DynamicConfig cannot be copied or pickled")

    # ---- Calls of the library ----

    def _call(self, function: Any, *arguments: Any) -> Any:
        return function(self._object, 1, *arguments)

    def _answer(self, what: str, function: Any, *arguments: Any) -> Any:
        answer = self._call(function, *arguments)
        check(answer.status, what)
        return answer

    def _flag(self, what: str, function: Any, *arguments: Any) -> bool:
        return bool(self._answer(what, function, *arguments).yes)

    def _count(self, what: str, function: Any, *arguments: Any) -> int:
        return int(self._answer(what, function, *arguments).count)

    def _rows(
        self, what: str, element: Any, function: Any, *arguments: Any
    ) -> "Iterator[tuple[int, ...]]":
        """What a call lists, each element as a row of numbers."""
        row, capacity = _native.row(element), 16
        while True:
            out = (element * capacity)()
            answer = self._call(function, *arguments, out, capacity)
            if answer.status != _native.BUFFER_TOO_SHORT:
                check(answer.status, what)
                return row.iter_unpack(ctypes.string_at(out, row.size * answer.count))
            capacity = answer.count
