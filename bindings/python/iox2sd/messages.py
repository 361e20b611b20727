"""Types of messages: where their parts lie, who may read them, and how many chunks are needed."""

from dataclasses import dataclass
from typing import Any

from . import _native
from ._arguments import Checked, Size, instance, number, shown, utf8
from ._values import Choice
from .errors import IncompatibleError, check
from .texts import lent


class TypeVariant(Choice):
    """How many values of a type a message has."""

    FIXED_SIZE = 0
    """One."""
    DYNAMIC = 1
    """Any number, one after another."""


@dataclass(frozen=True, slots=True)
class TypeDetail(Checked):
    """The type of one part of a message. Raises `NotUtf8Error`, `TooLongError` and
    `IllegalByteError` of the name, which has at most 256 bytes, each from 1 to 127;
    `BadAlignmentError`.
    """

    type_name: str
    size: Size
    """In bytes."""
    alignment: Size
    """The alignment of each value, a power of two."""
    variant: TypeVariant = TypeVariant.FIXED_SIZE

    def __post_init__(self) -> None:
        Checked.__post_init__(self)
        name = utf8(self.type_name, "TypeDetail.type_name").decode()
        object.__setattr__(self, "type_name", name)
        check(_native.type_detail_check_at(self._lent(), 1), shown(self))

    def _lent(self) -> _native.TypeDetail:
        return _native.TypeDetail(
            *lent(self.type_name), self.variant.value, self.size, self.alignment
        )


@dataclass(frozen=True, slots=True)
class Layout(Checked):
    """The layout of a message."""

    size: Size
    """In bytes, at most 2^63 - 1."""
    alignment: Size
    """The alignment of the message."""


@dataclass(frozen=True, slots=True)
class Places(Checked):
    """The offsets of two parts of a message."""

    user_header: Size
    payload: Size


@dataclass(frozen=True, slots=True)
class MessageTypeDetails(Checked):
    """The types of the parts of a message, which lie one after another."""

    header: TypeDetail
    user_header: TypeDetail
    payload: TypeDetail

    def sample_layout(self, number_of_elements: int) -> Layout:
        """The layout of a message whose payload has so many elements. All parts lie in it, apart
        and aligned, for the service and for every compatible opener. Call it on the service's
        details: those of an opener, with smaller alignments, give other offsets and smaller sizes.
        Raises `TooLargeError` past 2^63 - 1 bytes.
        """
        what = "MessageTypeDetails.sample_layout"
        elements = number(number_of_elements, Size, what)
        answer = _native.message_sample_layout_at(self._lent(), 1, elements)
        check(answer.status, what)
        return Layout(answer.size, answer.alignment)

    def places(self, header: int) -> Places:
        """The offsets of user header and payload in a message whose header is at an offset or
        address, by the service's details too. Nothing is read there. Raises `TooLargeError` where
        the payload's would pass 2^64 - 1.
        """
        what = "MessageTypeDetails.places"
        answer = _native.message_places_at(self._lent(), 1, number(header, Size, what))
        check(answer.status, what)
        return Places(answer.user_header, answer.payload)

    def check_compatible_to(self, service: "MessageTypeDetails") -> None:
        """Raises where an opener with these details may not use the messages of a service with
        those: headers are to be equal, and user headers and payloads too but for alignments, which
        are to be at most those of the service.

        Raises, of the first part that differs, `OtherNameError`, `OtherVariantError`,
        `OtherSizeError`, `OtherAlignmentError` of the header, `GreaterAlignmentError` of another
        part: all `IncompatibleError`.
        """
        instance(service, MessageTypeDetails, "MessageTypeDetails.check_compatible_to")
        answer = _native.message_is_compatible_to_at(service._lent(), 1, self._lent(), 1)
        part = ("header", "user header", "payload")[answer.part]
        check(answer.status, f"the opener's {part}")

    def is_compatible_to(self, service: "MessageTypeDetails") -> bool:
        """Whether `check_compatible_to` raises nothing."""
        try:
            self.check_compatible_to(service)
        except IncompatibleError:
            return False
        return True

    def _lent(self) -> _native.MessageDetails:
        parts = (self.header, self.user_header, self.payload)
        return _native.MessageDetails(*(part._lent() for part in parts))


def check_same(opener: TypeDetail, service: TypeDetail, what: str) -> None:
    """Raises where two types differ: they are compared as those of headers."""
    of_opener, of_service = (MessageTypeDetails(one, one, one)._lent() for one in (opener, service))
    check(_native.message_is_compatible_to_at(of_service, 1, of_opener, 1).status, what)
