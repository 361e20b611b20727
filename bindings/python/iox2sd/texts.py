"""Names, keys, values, paths and hash texts. Each is a `str` that was found to be legal."""

from collections.abc import Iterator
from typing import Any, ClassVar, TypeVar

from . import _native
from ._arguments import instance, shown, utf8
from ._values import Choice
from .errors import Status, check


_Text = TypeVar("_Text", bound="Text")


class MessagingPattern(Choice):
    """The pattern by which the ports of a service exchange messages."""

    PUBLISH_SUBSCRIBE = 0
    """Publishers send samples to subscribers."""
    EVENT = 1
    """Notifiers send events to listeners."""
    REQUEST_RESPONSE = 2
    """Clients send requests, to which servers send responses."""
    BLACKBOARD = 3
    """A writer keeps values, which readers read."""


class Text(str):
    """The base of all texts. Raises `WrongTypeError` for all but a `str`, and `NotUtf8Error` for
    halves of surrogate pairs. Slices, sums and other parts of a text are plain `str` again.

    Of a subclass of `str`, as a member of a `class Topic(str, Enum)`, the text is what it holds as
    a `str`, whatever its `__str__` says. A model of pydantic takes a text and a `str`.
    """

    __slots__ = ("__weakref__",)
    _check: ClassVar[Any]

    def __new__(cls: "type[_Text]", text: str) -> _Text:
        encoded = utf8(text, cls.__name__)
        plain = encoded.decode()
        answer = cls._check(encoded, len(encoded))
        if answer.status != _native.DONE:
            has_index = answer.status in (Status.TOO_LONG.value, Status.ILLEGAL_BYTE.value)
            check(answer.status, f"{cls.__name__} {shown(plain)}", answer.at if has_index else None)
        return super().__new__(cls, plain)

    def __repr__(self) -> str:
        return f"{type(self).__name__}({super().__repr__()})"

    @classmethod
    def __get_validators__(cls) -> "Iterator[Any]":
        """For pydantic 1."""
        yield cls

    @classmethod
    def __get_pydantic_core_schema__(cls, _source: Any, _handler: Any) -> Any:
        """For pydantic 2."""
        from pydantic_core import core_schema

        return core_schema.no_info_after_validator_function(cls, core_schema.str_schema())

    @classmethod
    def _written(cls: "type[_Text]", what: str, function: Any, *arguments: Any) -> _Text:
        """The text that the library writes."""
        status, text = _native.written(function, *arguments)
        check(status, what)
        return cls(text)


def lent(text: str) -> "tuple[bytes, int]":
    """A text as the library takes it: its own bytes, and how many these are."""
    encoded = str.encode(text)
    return encoded, len(encoded)


class ServiceName(Text):
    """The name that a user gives to a service: 1 to 255 bytes, each from 1 to 127, not beginning
    with `iox2://`. Raises `ReservedPrefixError`, `EmptyError`, `TooLongError`, `IllegalByteError`.
    """
    __slots__ = ()
    _check = _native.service_name_check_at

    @staticmethod
    def has_iox2_prefix(name: str) -> bool:
        """Whether a text begins as the names of the system's own services do."""
        encoded = utf8(name, "has_iox2_prefix")
        return bool(_native.has_iox2_prefix_at(encoded, len(encoded)))


class InternalServiceName(ServiceName):
    """The name of a service, which may be one of the system's own. Raises `EmptyError`,
    `TooLongError`, `IllegalByteError`.
    """
    __slots__ = ()
    _check = _native.internal_service_name_check_at

    @classmethod
    def prefixed(cls, name: str) -> "InternalServiceName":
        """The name of one of the system's own services: `iox2://` and the text. Raises
        `TooLongError` for more than 248 bytes, `IllegalByteError`.
        """
        encoded = utf8(name, "InternalServiceName.prefixed")
        what = f"InternalServiceName.prefixed {shown(name)}"
        return cls._written(what, _native.internal_service_name_at, encoded, len(encoded))


class AttributeKey(Text):
    """The key of an attribute: 1 to 64 bytes, each from 1 to 127. Raises `EmptyError`,
    `TooLongError`, `IllegalByteError`.
    """
    __slots__ = ()
    _check = _native.attribute_key_check_at


class AttributeValue(Text):
    """The value of an attribute: 1 to 256 bytes, each from 1 to 127. Raises `EmptyError`,
    `TooLongError`, `IllegalByteError`.
    """
    __slots__ = ()
    _check = _native.attribute_value_check_at


class Path(Text):
    """A path: at most 255 bytes, each from 1 to 127. It may be empty. Raises `TooLongError`,
    `IllegalByteError`.
    """
    __slots__ = ()
    _check = _native.path_check_at

    def add_path_entry(self, entry: "Path") -> "Path":
        """A path with an entry behind it, with one `/` between them unless this path is empty or
        ends in `/`. Raises `TooLongError` past 255 bytes.
        """
        instance(entry, Path, "Path.add_path_entry")
        what = f"{shown(self)} and {shown(entry)}"
        return Path._written(what, _native.path_add_path_entry_at, *lent(self), *lent(entry))


class FileName(Text):
    """The name of a file: 1 to 255 bytes, each from 1 to 127 and none a `/`, neither `.` nor `..`.
    Raises `EmptyError`, `TooLongError`, `IllegalByteError`, `NoFileNameError`.
    """
    __slots__ = ()
    _check = _native.file_name_check_at


class FilePath(Text):
    """The path of a file: 1 to 255 bytes, each from 1 to 127, of which those after the last `/` are
    the name of a file. Raises `EmptyError`, `TooLongError`, `IllegalByteError`, `NoFileNameError`.
    """
    __slots__ = ()
    _check = _native.file_path_check_at

    @classmethod
    def from_path_and_file(cls, path: Path, file: FileName) -> "FilePath":
        """The path of a file in a directory, joined as by `Path.add_path_entry`. Raises
        `TooLongError` past 255 bytes.
        """
        instance(path, Path, "FilePath.from_path_and_file")
        instance(file, FileName, "FilePath.from_path_and_file")
        what = f"{shown(path)} and {shown(file)}"
        return cls._written(what, _native.file_path_from_path_and_file_at, *lent(path), *lent(file))


class RestrictedFileName(Text):
    """A restricted name of a file: 1 to 64 letters A to Z and a to z, digits, `-`, `.`, `:` and
    `_`, and neither `.` nor `..`. Raises `EmptyError`, `TooLongError`, `IllegalByteError`,
    `NoFileNameError`.
    """
    __slots__ = ()
    _check = _native.restricted_file_name_check_at


class ServiceHash(RestrictedFileName):
    """The hash text of a service's name and pattern, under which its files are found."""

    __slots__ = ()

    @classmethod
    def new(cls, service_name: ServiceName, messaging_pattern: MessagingPattern) -> "ServiceHash":
        """The hash text by SHA-1, which has 27 bytes. Raises `IllegalHashError`, which SHA-1 is
        proved never to make.
        """
        instance(service_name, ServiceName, "ServiceHash.new")
        instance(messaging_pattern, MessagingPattern, "ServiceHash.new")
        internal = isinstance(service_name, InternalServiceName)
        function = _native.internal_hash_text_at if internal else _native.hash_text_at
        what = f"hash text of {shown(service_name)}"
        return cls._written(what, function, messaging_pattern.value, *lent(service_name))
