"""What an argument must be before it is passed to the library: whole, and of its type."""

import ctypes
from collections.abc import Iterable
from dataclasses import fields
from functools import cache
from typing import Annotated, Any, get_args, get_origin

from ._values import Value
from .errors import NotUtf8Error, OutOfRangeError, Status, WrongTypeError

U8 = Annotated[int, ctypes.c_uint8]
"""An integer from 0 to 2^8 - 1."""
U32 = Annotated[int, ctypes.c_uint32]
"""An integer from 0 to 2^32 - 1."""
U64 = Annotated[int, ctypes.c_uint64]
"""An integer from 0 to 2^64 - 1."""
Size = Annotated[int, ctypes.c_size_t]
"""An integer from 0 to 2^64 - 1 that says how many there are."""


def shown(value: object) -> str:
    """What an error prints of a value: the first characters of a long one, and the type alone of
    one that cannot be printed, as an integer of thousands of digits.
    """
    try:
        text = repr(value)
    except Exception:
        return f"a value of type {type(value).__name__}"
    return text if len(text) <= 80 else f"{text[:76]} .."


def wrong_type(what: str, wanted: str, value: object) -> WrongTypeError:
    """The error of an argument that is no wanted one."""
    return WrongTypeError(f"{what}: expected {wanted}, got {shown(value)}")


def instance(value: object, kind: Any, what: str) -> None:
    """Raises `WrongTypeError` where a value is not of a type."""
    if not isinstance(value, kind):
        kinds = get_args(kind) or (kind,)
        names = ("None" if one is type(None) else one.__name__ for one in kinds)
        raise wrong_type(what, " or ".join(names), value)


def integer(value: object, bits: int, what: str) -> int:
    """An integer of so many bits, as a plain `int`: that of a subclass by its own value, whatever
    its methods say.
    """
    if isinstance(value, bool) or not isinstance(value, int):
        raise wrong_type(what, "int", value)
    plain = int.__index__(value)
    if not 0 <= plain < 1 << bits:
        error = OutOfRangeError(f"{what}: expected 0 to 2^{bits} - 1, got {shown(plain)}")
        if plain < 0:
            error.status = Status.BELOW_ZERO
        raise error
    return plain


def number(value: object, kind: Any, what: str) -> int:
    """An integer that an annotation like `Size` allows."""
    return integer(value, 8 * ctypes.sizeof(get_args(kind)[1]), what)


def utf8(text: object, what: str) -> bytes:
    """The bytes of a text: those that it has itself, whatever the methods of a subclass say."""
    if not isinstance(text, str):
        raise wrong_type(what, "str", text)
    try:
        return str.encode(text)
    except UnicodeEncodeError as error:
        raise NotUtf8Error(f"{what} {shown(text)}", error.start, "character") from None


def text_or_bytes(given: object, what: str) -> bytes:
    """The bytes of a text, or those that an object has itself."""
    # Joining gives the bytes that a subclass has itself, whatever its methods say.
    return b"".join((given,)) if isinstance(given, bytes) else utf8(given, what)


def items(given: "Iterable[object]", kind: Any, what: str) -> "tuple[Any, ...]":
    """The items of what can be iterated over, which are all of a type."""
    try:
        iterator = iter(given)
    except TypeError:
        raise wrong_type(what, "an iterable", given) from None
    found = tuple(iterator)
    for one in found:
        instance(one, kind, what)
    return found


@cache
def _checked(kind: Any) -> "tuple[tuple[str, Any, int], ...]":
    """The fields that a class of this package has, each with its annotation and with the number
    that its integers are below, which is 0 where it has none. What a user's subclass adds is that
    class's own.
    """
    package = __name__.partition(".")[0]
    ours = next(c for c in kind.__mro__ if c.__module__.partition(".")[0] == package)
    return tuple((field.name, field.type, _end(field.type)) for field in fields(ours))


def _end(annotation: Any) -> int:
    if get_origin(annotation) is not Annotated:
        return 0
    return 1 << 8 * ctypes.sizeof(get_args(annotation)[1])


class Checked(Value):
    """A value whose fields are of their annotations when it is made. Integers are kept as plain
    ones.
    """

    __slots__ = ()

    def __post_init__(self) -> None:
        kind: Any = type(self)
        for name, annotation, end in _checked(kind):
            value = getattr(self, name)
            if end == 0:
                if not isinstance(value, annotation):
                    instance(value, annotation, f"{type(self).__name__}.{name}")
            elif type(value) is not int or not 0 <= value < end:
                plain = number(value, annotation, f"{type(self).__name__}.{name}")
                object.__setattr__(self, name, plain)
