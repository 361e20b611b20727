"""A service that writes down each call on it."""

from collections.abc import Callable, Iterable, Iterator
from contextlib import contextmanager
from functools import partial
from typing import cast

from . import log_writer
from ._arguments import U64, items, number
from .details import PortDetails
from .dynamic_config import (
    ALL_TICKETS, ContainerHandle, DeadNodeRemoval, DeregisterNodeState, DynamicConfig,
)
from .errors import OutOfRangeError, RefusedError, Status
from .ids import PORT_IDS, Role, UniqueNodeId, UniquePortId
from .log_writer import LogCommand, LogReply, LogWriter
from .static_config import Capacities
from .texts import MessagingPattern

_REPLIES = {
    Status.IS_LOCKED: log_writer.LOCKED,
    Status.NODE_NOT_REGISTERED: log_writer.NOT_REGISTERED,
    Status.OUT_OF_SPACE: log_writer.FULL,
    Status.ROLE_NOT_IN_PATTERN: log_writer.WRONG_PATTERN,
    Status.FOREIGN_HANDLE: log_writer.NOT_OWNED,
    Status.PORTS_STILL_ATTACHED: log_writer.PORTS_ATTACHED,
}
"""The replies to calls that are refused. Those that raise another error are not written down."""


class Recorder(DynamicConfig):
    """A service that writes down each call on it with its reply, as a log that `check_log` judges.
    So what a test saw is compared with the sequential specification.

        >>> import iox2sd
        >>> with iox2sd.Recorder.event(7, max_nodes=1, max_listeners=2, max_notifiers=2) as service:
        ...     with service.registered(iox2sd.UniqueNodeId(1, 0, 0, 1)):
        ...         service.count_ports(iox2sd.Role.LISTENER)
        0
        >>> iox2sd.check_log(service.log)
        Conforms(calls=3)

    Calls that have no line in a log, as `is_locked`, are not written down, and no more is a call
    with a handle of another service, or of the other kind. Threads that share a recorder order
    their calls themselves.
    """

    __slots__ = ("_log", "_caller", "_kinds")

    def __init__(
        self,
        messaging_pattern: MessagingPattern,
        service_number: int,
        capacities: Capacities,
        tickets: int = ALL_TICKETS,
    ) -> None:
        """A service with nothing attached, and with all tickets: a log cannot say how many a
        service has.

        Raises `OutOfRangeError` where `tickets` are fewer, and what `DynamicConfig` does.
        """
        if number(tickets, U64, "Recorder.tickets") != ALL_TICKETS:
            raise OutOfRangeError(f"Recorder.tickets: expected all 2^64 - 1, got {tickets}")
        super().__init__(messaging_pattern, service_number, capacities)
        self._log = LogWriter(messaging_pattern, self.service_number, capacities)
        self._caller = self._log.caller("A")
        self._kinds = [PORT_IDS[role] for role in self.port_roles]

    @property
    def log(self) -> str:
        """The log so far; also after the service was closed."""
        return self._log.text

    def register_node_id(self, node_id: UniqueNodeId) -> ContainerHandle:
        """`DynamicConfig.register_node_id`, written down."""
        with self._refused(partial(LogCommand.register, node_id)):
            handle = super().register_node_id(node_id)
        self._write(LogCommand.register(node_id), _handle(handle))
        return handle

    def deregister_node_id(self, handle: ContainerHandle) -> DeregisterNodeState:
        """`DynamicConfig.deregister_node_id`, written down."""
        command = partial(self._deregister, handle)
        with self._refused(command):
            state = super().deregister_node_id(handle)
        self._write(command(), LogReply.state(state))
        return state

    def attach(self, details: PortDetails) -> ContainerHandle:
        """`DynamicConfig.attach`, written down."""

        def command() -> LogCommand:
            return LogCommand.add(details.port_id, details.node_id)

        with self._refused(command):
            handle = super().attach(details)
        self._write(command(), _handle(handle))
        return handle

    def release_port(self, handle: ContainerHandle) -> None:
        """`DynamicConfig.release_port`, written down."""
        command = partial(self._release, handle)
        with self._refused(command):
            super().release_port(handle)
        self._write(command(), log_writer.RELEASED)

    def remove_dead_node_id(
        self, node_id: UniqueNodeId, keep: Iterable[UniquePortId] = ()
    ) -> DeadNodeRemoval:
        """`DynamicConfig.remove_dead_node_id`, written down. A line has no kinds of ports: where
        one is kept, the port of the other kind with its number is kept too.
        """
        kept = items(keep, UniquePortId, "remove_dead_node_id.keep")
        both = [kind._of(port._lent()) for port in kept for kind in self._kinds]
        removal = super().remove_dead_node_id(node_id, cast("list[UniquePortId]", both))
        self._write(LogCommand.dead(node_id, kept), LogReply.state(removal.state))
        return removal

    def list_node_ids(self) -> "tuple[UniqueNodeId, ...]":
        """`DynamicConfig.list_node_ids`, written down."""
        nodes = super().list_node_ids()
        self._write(LogCommand.nodes(), LogReply.list(nodes))
        return nodes

    def list_ports(self, role: Role) -> "tuple[PortDetails, ...]":
        """`DynamicConfig.list_ports`, written down; but for `Role.NODE`, which has no line. So are
        `list_publishers` and the like.
        """
        command = partial(self._of_role, LogCommand.list, role)
        with self._refused(command):
            ports = super().list_ports(role)
        self._write(command(), LogReply.list(port.port_id for port in ports))
        return ports

    def count_ports(self, role: Role) -> int:
        """`DynamicConfig.count_ports`, written down; but for `Role.NODE`, which has no line."""
        command = partial(self._of_role, LogCommand.count, role)
        with self._refused(command):
            count = super().count_ports(role)
        self._write(command(), LogReply.count(count))
        return count

    # ---- Lines. That of a call is spelled after it, since it checks its arguments. ----

    @contextmanager
    def _refused(self, command: "Callable[[], LogCommand | None]") -> Iterator[None]:
        """Writes a call that is refused."""
        try:
            yield
        except RefusedError as error:
            if error.status in _REPLIES:
                self._write(command(), _REPLIES[error.status])
            raise

    def _write(self, command: "LogCommand | None", reply: LogReply) -> None:
        if command is not None:
            self._caller.begin(command).end(reply)

    def _deregister(self, handle: ContainerHandle) -> "LogCommand | None":
        is_own = handle.service == self.service_number and handle.role is Role.NODE
        return LogCommand.deregister(handle.slot, handle.ticket) if is_own else None

    def _release(self, handle: ContainerHandle) -> "LogCommand | None":
        is_own = handle.service == self.service_number and handle.role is not Role.NODE
        return LogCommand.release(handle.role, handle.slot, handle.ticket) if is_own else None

    def _of_role(self, command: "Callable[[Role], LogCommand]", role: Role) -> "LogCommand | None":
        return None if role is Role.NODE else command(role)


def _handle(handle: ContainerHandle) -> LogReply:
    return LogReply.handle(handle.slot, handle.ticket)
