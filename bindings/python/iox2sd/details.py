"""What ports report of themselves."""

from collections.abc import Iterable
from dataclasses import dataclass, fields
from typing import Any, ClassVar, Union

from . import _native
from ._arguments import U8, Checked, Size
from ._values import Choice, setters
from .ids import (
    Role, UniqueClientId, UniqueListenerId, UniqueNodeId, UniqueNotifierId, UniquePortId,
    UniquePublisherId, UniqueReaderId, UniqueServerId, UniqueSubscriberId, UniqueWriterId, maker,
)


class DataSegmentType(Choice):
    """Whether a data segment may grow."""

    DYNAMIC = 0
    """It may be replaced by a larger one."""
    STATIC = 1
    """It keeps its size."""


class Details(Checked):
    """The base of all details: the id of the port, the id of its node, and what its role has."""

    __slots__ = ()
    role: ClassVar[Role]
    node_id: UniqueNodeId

    @property
    def port_id(self) -> UniquePortId:
        """The id of the port."""
        id: UniquePortId = getattr(self, fields(self)[0].name)
        return id

    def _lent(self) -> _native.PortDetails:
        port = _native.PortDetails(
            role=self.role.value, port=self.port_id._lent(), node=self.node_id._lent()
        )
        for field in fields(self)[2:]:
            value = getattr(self, field.name)
            if isinstance(value, DataSegmentType):
                port.data_segment = value.value
            else:
                setattr(port, field.name, value)
        return port


@dataclass(frozen=True, slots=True, kw_only=True)
class PublisherDetails(Details):
    """What a publisher reports."""
    role = Role.PUBLISHER
    publisher_id: UniquePublisherId
    node_id: UniqueNodeId
    number_of_samples: Size
    """How many samples its data segment has."""
    max_slice_len: Size
    """How many values a sample has at most."""
    data_segment_type: DataSegmentType
    max_number_of_segments: U8


@dataclass(frozen=True, slots=True, kw_only=True)
class SubscriberDetails(Details):
    """What a subscriber reports."""
    role = Role.SUBSCRIBER
    subscriber_id: UniqueSubscriberId
    node_id: UniqueNodeId
    buffer_size: Size
    """The capacity of its buffer, in samples."""


@dataclass(frozen=True, slots=True, kw_only=True)
class NotifierDetails(Details):
    """What a notifier reports."""
    role = Role.NOTIFIER
    notifier_id: UniqueNotifierId
    node_id: UniqueNodeId


@dataclass(frozen=True, slots=True, kw_only=True)
class ListenerDetails(Details):
    """What a listener reports."""
    role = Role.LISTENER
    listener_id: UniqueListenerId
    node_id: UniqueNodeId


@dataclass(frozen=True, slots=True, kw_only=True)
class ClientDetails(Details):
    """What a client reports."""
    role = Role.CLIENT
    client_id: UniqueClientId
    node_id: UniqueNodeId
    number_of_requests: Size
    """How many requests its data segment has."""
    response_buffer_size: Size
    """The capacity of its buffer for the responses to one request."""
    max_slice_len: Size
    """How many values a request has at most."""
    data_segment_type: DataSegmentType
    max_number_of_segments: U8


@dataclass(frozen=True, slots=True, kw_only=True)
class ServerDetails(Details):
    """What a server reports."""
    role = Role.SERVER
    server_id: UniqueServerId
    node_id: UniqueNodeId
    request_buffer_size: Size
    """The capacity of its buffer, in requests."""
    number_of_responses: Size
    """How many responses its data segment has."""
    max_slice_len: Size
    """How many values a response has at most."""
    data_segment_type: DataSegmentType
    max_number_of_segments: U8


@dataclass(frozen=True, slots=True, kw_only=True)
class ReaderDetails(Details):
    """What a reader reports."""
    role = Role.READER
    reader_id: UniqueReaderId
    node_id: UniqueNodeId


@dataclass(frozen=True, slots=True, kw_only=True)
class WriterDetails(Details):
    """What a writer reports."""
    role = Role.WRITER
    writer_id: UniqueWriterId
    node_id: UniqueNodeId


PortDetails = Union[
    PublisherDetails, SubscriberDetails, NotifierDetails, ListenerDetails, ClientDetails,
    ServerDetails, ReaderDetails, WriterDetails,
]
"""What a port of any role reports."""

_SEGMENTS = {segment.value: segment for segment in DataSegmentType}

_COLUMNS = {name: at for at, (name, *_) in enumerate(_native.PortDetails._fields_[3:], 9)}
"""Where the fields after the ids stand in a row."""

_SEGMENT = _COLUMNS["data_segment"]


def _plan(kind: Any) -> "tuple[Any, ...]":
    """How the details of one kind of ports are made of a row: the class, what makes the port's id,
    what sets it and the node's, what sets each number and where it stands, and what sets the type
    of the data segment, if there is one.
    """
    port_id, _, *others = fields(kind)
    set_port_id, set_node_id, *set_others = setters(kind)
    sets = dict(zip((field.name.removesuffix("_type") for field in others), set_others))
    set_segment = sets.pop("data_segment", None)
    numbers = tuple((set_field, _COLUMNS[name]) for name, set_field in sets.items())
    return kind, maker(port_id.type), set_port_id, set_node_id, numbers, set_segment


_PLANS = {kind.role.value: _plan(kind) for kind in PortDetails.__args__}  # type: ignore[attr-defined]
_node_id = maker(UniqueNodeId)


def details_of_rows(rows: "Iterable[tuple[int, ...]]") -> "tuple[PortDetails, ...]":
    """The details of ports of the library, each as `_native.row` reads it. They are not checked
    again, and those of one node share its id.
    """
    new = object.__new__
    nodes: "dict[tuple[int, ...], UniqueNodeId]" = {}
    listed = []
    for row in rows:
        kind, port_id, set_port_id, set_node_id, numbers, set_segment = _PLANS[row[0]]
        parts = row[5:9]
        node_id = nodes.get(parts)
        if node_id is None:
            node_id = nodes[parts] = _node_id(*parts)
        made = new(kind)
        set_port_id(made, port_id(*row[1:5]))
        set_node_id(made, node_id)
        for set_field, column in numbers:
            set_field(made, row[column])
        if set_segment is not None:
            set_segment(made, _SEGMENTS[row[_SEGMENT]])
        listed.append(made)
    return tuple(listed)


def details_of(port: _native.PortDetails) -> PortDetails:
    """The details of a port of the library."""
    (details,) = details_of_rows([_native.row(_native.PortDetails).unpack_from(port)])
    return details
