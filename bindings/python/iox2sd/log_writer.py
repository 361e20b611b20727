"""Logs of a registry of one's own, which threads write while they call it."""

from collections.abc import Iterable, Iterator
from dataclasses import dataclass
from heapq import merge
from itertools import count as numbers

from ._arguments import U64, Size, instance, items, number
from ._values import Value
from .dynamic_config import DeregisterNodeState
from .errors import (
    CallerIsBusyError, CallerIsDeadError, IllegalByteError, NoOpenCallError, OutOfRangeError,
    RoleNotInPatternError,
)
from .ids import Role, UniqueId, UniqueNodeId, UniquePortId
from .static_config import Capacities
from .texts import MessagingPattern

MAX_NAME = 16
"""How many letters and digits the name of a caller has at most."""


@dataclass(frozen=True, slots=True)
class LogCommand(Value):
    """A command, as scripts have it, or a weak listing. A removal names its handle by slot and
    ticket.
    """

    text: str
    """Its words."""

    @classmethod
    def register(cls, node: UniqueNodeId) -> "LogCommand":
        """Registers the node."""
        instance(node, UniqueNodeId, "LogCommand.register")
        return cls(f"register {_dotted(node)}")

    @classmethod
    def deregister(cls, slot: int, ticket: int) -> "LogCommand":
        """Deregisters the node under this handle."""
        return cls(f"deregister {_handle(slot, ticket)}")

    @classmethod
    def add(cls, port: UniquePortId, node: UniqueNodeId) -> "LogCommand":
        """Attaches the port to the node."""
        instance(port, UniquePortId, "LogCommand.add.port")
        instance(node, UniqueNodeId, "LogCommand.add.node")
        return cls(f"add {_word(port.role)} {_dotted(port)} {_dotted(node)}")

    @classmethod
    def release(cls, role: Role, slot: int, ticket: int) -> "LogCommand":
        """Releases the port of the role under this handle."""
        return cls(f"release {_word(role)} {_handle(slot, ticket)}")

    @classmethod
    def dead(cls, node: UniqueNodeId, skip: Iterable[UniquePortId] = ()) -> "LogCommand":
        """Removes the ports of a dead node but those with these numbers, and the node where none of
        its ports stays.
        """
        instance(node, UniqueNodeId, "LogCommand.dead.node")
        kept = [_dotted(port) for port in items(skip, UniquePortId, "LogCommand.dead.skip")]
        return cls(" ".join(["dead", _dotted(node), *(["skip", *kept] if kept else [])]))

    @classmethod
    def nodes(cls) -> "LogCommand":
        """Lists the nodes."""
        return cls("nodes")

    @classmethod
    def list(cls, role: Role) -> "LogCommand":
        """Lists the ports of the role."""
        return cls(f"list {_word(role)}")

    @classmethod
    def count(cls, role: Role) -> "LogCommand":
        """Counts the ports of the role."""
        return cls(f"count {_word(role)}")

    @classmethod
    def nodes_weak(cls) -> "LogCommand":
        """Lists the nodes without a lock, by a walk over the slots while others change them, so that
        the reply need not be a snapshot. It must have each node that was there all through the
        call, and none that never was.
        """
        return cls("nodes?")

    @classmethod
    def list_weak(cls, role: Role) -> "LogCommand":
        """Lists the ports of the role, as `nodes_weak` does nodes."""
        return cls(f"list? {_word(role)}")


@dataclass(frozen=True, slots=True)
class LogReply(Value):
    """What a call replied, as scripts have it."""

    text: str
    """Its words."""

    @classmethod
    def handle(cls, slot: int, ticket: int) -> "LogReply":
        """Registered or attached, under this handle."""
        return cls(f"handle {_handle(slot, ticket)}")

    @classmethod
    def count(cls, ports: int) -> "LogReply":
        """So many ports."""
        return cls(f"count {number(ports, Size, 'LogReply.count')}")

    @classmethod
    def list(cls, ids: "Iterable[UniqueId]") -> "LogReply":
        """These nodes or ports, by rising slot."""
        return cls(" ".join(["list", *map(str, items(ids, UniqueId, "LogReply.list"))]))

    @classmethod
    def state(cls, state: DeregisterNodeState) -> "LogReply":
        """A node or its handle was removed: whether the service has nodes left."""
        instance(state, DeregisterNodeState, "LogReply.state")
        return HAS_OWNERS if state is DeregisterNodeState.HAS_OWNERS else NO_OWNERS


LOCKED = LogReply("locked")
"""The last node has left, and nothing joins the service again."""
NOT_REGISTERED = LogReply("not-registered")
"""The port's node is not registered."""
FULL = LogReply("full")
"""No slot is free, or no ticket is left."""
WRONG_PATTERN = LogReply("wrong-pattern")
"""The service's pattern has no ports of the role."""
HAS_OWNERS = LogReply("has-owners")
"""The service is open."""
NO_OWNERS = LogReply("no-owners")
"""The last node has left."""
PORTS_ATTACHED = LogReply("ports-attached")
"""The handle is the only one of its node, and the node has ports."""
RELEASED = LogReply("released")
"""The port was released."""
NOT_OWNED = LogReply("not-owned")
"""Nothing has the handle."""


class LogWriter:
    """The log of a service of any implementation, which `check_log` judges. Each thread has a
    caller of its own, which begins a call right before the registry is called, and ends it right
    after that replied.

        >>> import iox2sd
        >>> from iox2sd import LogCommand, LogReply, LogWriter
        >>> capacities = iox2sd.Capacities(nodes=2, first=1, second=1)
        >>> log = LogWriter(iox2sd.MessagingPattern.EVENT, 7, capacities)
        >>> first, second = log.caller("A"), log.caller("B")
        >>> call = first.begin(LogCommand.register(iox2sd.UniqueNodeId(1, 0, 0, 1)))
        >>> second.begin(LogCommand.nodes()).end(LogReply.list([]))
        >>> call.end(LogReply.handle(1, 0))
        >>> iox2sd.check_log(log.text)
        Conforms(calls=2)

    Events are numbered by one counter, which needs no lock beside the interpreter's own.
    """

    __slots__ = ("_service", "_numbers", "_callers", "__weakref__")

    def __init__(
        self, messaging_pattern: MessagingPattern, service_number: int, capacities: Capacities
    ) -> None:
        """The log of a service with nothing attached."""
        instance(messaging_pattern, MessagingPattern, "LogWriter.messaging_pattern")
        instance(capacities, Capacities, "LogWriter.capacities")
        pattern = messaging_pattern.name.lower().replace("_", "-")
        of = number(service_number, U64, "LogWriter.service_number")
        most = f"{capacities.nodes} {capacities.first} {capacities.second}"
        self._service = f"service {pattern} {of} {most}\n"
        self._numbers = numbers()
        self._callers: "list[LogCaller]" = []

    def caller(self, name: str) -> "LogCaller":
        """A caller with this name: one to sixteen ASCII letters and digits, other than those of the
        others.

        Raises `OutOfRangeError` for a name of another length, `IllegalByteError`.
        """
        instance(name, str, "LogWriter.caller")
        plain = str.__str__(name)  # What a subclass holds, whatever its methods say.
        if not 1 <= len(plain) <= MAX_NAME:
            raise OutOfRangeError(f"LogWriter.caller: 1 to {MAX_NAME} bytes, got {len(plain)}")
        if not (plain.isascii() and plain.isalnum()):
            raise IllegalByteError("LogWriter.caller")
        made = LogCaller(plain, self._numbers)
        self._callers.append(made)
        return made

    @property
    def text(self) -> str:
        """The log of all callers, while none of them records."""
        lines = merge(*(caller._lines for caller in self._callers))
        return "".join([self._service, *(line for _, line in lines)])


class LogCaller:
    """Who makes one call at a time: a thread."""

    __slots__ = ("_name", "_numbers", "_lines", "_open", "_died", "__weakref__")

    def __init__(self, name: str, numbers: "Iterator[int]") -> None:
        """`LogWriter.caller` makes one."""
        self._name = name
        self._numbers = numbers
        self._lines: "list[tuple[int, str]]" = []
        self._open: "LogToken | None" = None
        self._died = False

    def begin(self, command: LogCommand) -> "LogToken":
        """Begins a call: right before the registry is called.

        Raises `CallerIsDeadError`, `CallerIsBusyError`.
        """
        instance(command, LogCommand, "LogCaller.begin")
        if self._died:
            raise CallerIsDeadError("LogCaller.begin")
        if self._open is not None:
            raise CallerIsBusyError("LogCaller.begin")
        self._open = LogToken(self)
        line = f"{self._name}> {command.text}\n"
        self._lines.append((next(self._numbers), line))
        return self._open

    def died(self) -> None:
        """The caller died: its open call took effect before this, or never.

        Raises `CallerIsDeadError`.
        """
        if self._died:
            raise CallerIsDeadError("LogCaller.died")
        self._died = True
        if self._lines:
            self._lines.append((next(self._numbers), f"{self._name}!\n"))


class LogToken:
    """A call that was begun, until its end."""

    __slots__ = ("_caller",)

    def __init__(self, caller: LogCaller) -> None:
        """`LogCaller.begin` makes one."""
        self._caller = caller

    def end(self, reply: LogReply) -> None:
        """Ends the call: right after the registry replied.

        Raises `NoOpenCallError` where it has ended, or its caller died.
        """
        instance(reply, LogReply, "LogToken.end")
        at = next(self._caller._numbers)
        if self._caller._open is not self or self._caller._died:
            raise NoOpenCallError("LogToken.end")
        self._caller._lines.append((at, f"{self._caller._name}< {reply.text}\n"))
        self._caller._open = None


def _word(role: Role) -> str:
    instance(role, Role, "LogCommand")
    if role is Role.NODE:
        raise RoleNotInPatternError("LogCommand")
    return role.name.lower()


def _handle(slot: int, ticket: int) -> str:
    return f"{number(slot, Size, 'slot')} {number(ticket, U64, 'ticket')}"


def _dotted(id: UniqueId) -> str:
    """An id as commands have it."""
    return f"{id.process}.{id.seconds}.{id.nanoseconds}.{id.counter}"
