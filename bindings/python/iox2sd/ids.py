"""Ids of nodes, ports and services, and who has which role."""

import functools
import struct
from collections.abc import Callable, Iterator
from dataclasses import dataclass
from typing import Any, TypeVar, Union, cast, get_args

from . import _native
from ._arguments import U32, Checked, integer, shown, utf8
from ._values import Choice, setters, unchecked
from .errors import NoNodeError, check


_Id = TypeVar("_Id", bound="UniqueId")

_PARTS = struct.Struct(">4I")
"""The four parts of an id as the bytes of its value."""


class Role(Choice):
    """What an entry of a service is."""

    NODE = 0
    PUBLISHER = 1
    SUBSCRIBER = 2
    NOTIFIER = 3
    LISTENER = 4
    CLIENT = 5
    SERVER = 6
    READER = 7
    WRITER = 8


@functools.total_ordering
@dataclass(frozen=True, slots=True)
class UniqueId(Checked):
    """The base of all ids: that of a node, a port or a service, whose parts the caller passes,
    since this layer has no clock.

    Ids of one class are compared by `value`; ids of two classes are never equal. `str` is `value`
    in lower-case hexadecimal digits without leading zeros, and `format` takes the forms of texts
    and those of integers, as `032x`. A model of pydantic takes an id and the text of one.
    """

    process: U32
    """The number of the process that made the id."""
    seconds: U32
    """When it was made."""
    nanoseconds: U32
    """When it was made, beside the seconds."""
    counter: U32
    """What distinguishes it from other ids of the process."""

    @property
    def value(self) -> int:
        """process * 2^96 + seconds * 2^64 + nanoseconds * 2^32 + counter."""
        parts = (self.process, self.seconds, self.nanoseconds, self.counter)
        return int.from_bytes(_PARTS.pack(*parts), "big")

    def __str__(self) -> str:
        return _native.written(_native.id_text_at, self._lent())[1]

    def __format__(self, form: str) -> str:
        return format(self.value if form[-1:] in set("bdnoxX") else str(self), form)

    def __lt__(self, other: object) -> bool:
        if not isinstance(other, UniqueId) or type(other) is not type(self):
            return NotImplemented
        return bool(_native.id_is_before(self._lent(), other._lent()))

    def _lent(self) -> _native.Id:
        return _native.Id(self.process, self.seconds, self.nanoseconds, self.counter)

    @classmethod
    def _of(cls: "type[_Id]", id: _native.Id) -> _Id:
        return unchecked(cls, (id.process, id.seconds, id.nanoseconds, id.counter))

    @classmethod
    def from_value(cls: "type[_Id]", value: int) -> _Id:
        """The id with this `value`. Raises `OutOfRangeError` past 2^128 - 1."""
        plain = integer(value, 128, f"{cls.__name__}.from_value")
        return cls(*_PARTS.unpack(plain.to_bytes(_PARTS.size, "big")))

    @classmethod
    def from_text(cls: "type[_Id]", text: str) -> _Id:
        """The id with this text, as `str` prints it. Raises `EmptyError`, `TooLongError` for more
        than 32 digits, `IllegalByteError` of what is none of these digits, or has a 0 before them.
        """
        what = f"{cls.__name__}.from_text"
        given = utf8(text, what)
        answer = _native.id_from_text_at(given, len(given))
        check(answer.status, f"{what} {shown(given.decode())}")
        return cls(answer.id.process, answer.id.seconds, answer.id.nanoseconds, answer.id.counter)

    @classmethod
    def _taken(cls: "type[_Id]", given: object) -> _Id:
        return given if isinstance(given, cls) else cls.from_text(cast(str, given))

    @classmethod
    def __get_validators__(cls) -> "Iterator[Any]":
        """For pydantic 1."""
        yield cls._taken

    @classmethod
    def __get_pydantic_core_schema__(cls, _source: Any, _handler: Any) -> Any:
        """For pydantic 2."""
        from pydantic_core import core_schema

        of_text = core_schema.no_info_after_validator_function(
            cls.from_text, core_schema.str_schema()
        )
        return core_schema.json_or_python_schema(
            json_schema=of_text,
            python_schema=core_schema.union_schema([core_schema.is_instance_schema(cls), of_text]),
            serialization=core_schema.to_string_ser_schema(),
        )


class UniqueNodeId(UniqueId):
    """The id of a node, whose process or counter is not 0. Raises `NoNodeError` where both are."""

    __slots__ = ()

    def __post_init__(self) -> None:
        super().__post_init__()
        if not _native.id_is_node(self._lent()):
            raise NoNodeError(repr(self))

    @property
    def owner_id(self) -> int:
        """process * 2^32 + counter. Nodes of one process with one counter share it."""
        return int(_native.id_owner_id(self._lent()))


class UniqueServiceId(UniqueId):
    """The id of a service."""
    __slots__ = ()

class UniquePublisherId(UniqueId):
    """The id of a publisher."""
    __slots__ = ()
    role = Role.PUBLISHER

class UniqueSubscriberId(UniqueId):
    """The id of a subscriber."""
    __slots__ = ()
    role = Role.SUBSCRIBER

class UniqueNotifierId(UniqueId):
    """The id of a notifier."""
    __slots__ = ()
    role = Role.NOTIFIER

class UniqueListenerId(UniqueId):
    """The id of a listener."""
    __slots__ = ()
    role = Role.LISTENER

class UniqueClientId(UniqueId):
    """The id of a client."""
    __slots__ = ()
    role = Role.CLIENT

class UniqueServerId(UniqueId):
    """The id of a server."""
    __slots__ = ()
    role = Role.SERVER

class UniqueReaderId(UniqueId):
    """The id of a reader."""
    __slots__ = ()
    role = Role.READER

class UniqueWriterId(UniqueId):
    """The id of a writer."""
    __slots__ = ()
    role = Role.WRITER


def maker(kind: "type[_Id]") -> "Callable[[int, int, int, int], _Id]":
    """What makes an id of four parts that the library answered, which are not checked again."""
    new = object.__new__
    set_process, set_seconds, set_nanoseconds, set_counter = setters(cast(Any, kind))

    def made(process: int, seconds: int, nanoseconds: int, counter: int) -> _Id:
        id = new(kind)
        set_process(id, process)
        set_seconds(id, seconds)
        set_nanoseconds(id, nanoseconds)
        set_counter(id, counter)
        return id

    return made


UniquePortId = Union[
    UniquePublisherId, UniqueSubscriberId, UniqueNotifierId, UniqueListenerId, UniqueClientId,
    UniqueServerId, UniqueReaderId, UniqueWriterId,
]
"""The id of a port of any role; its class has the `role`."""

PORT_IDS: "dict[Role, type[UniqueId]]" = {kind.role: kind for kind in get_args(UniquePortId)}
"""The classes of the ids of ports, by their roles."""
