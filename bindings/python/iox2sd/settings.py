"""Settings of services, and the texts of the configuration.

The defaults of all fields are those of the library: `EventSettings(max_notifiers=2)` is what an
event service gets where nothing but that number is said.
"""

from collections.abc import Callable
from dataclasses import dataclass
from datetime import timedelta
from functools import partial
from typing import Any, Optional, TypeVar, Union

from . import _native
from ._arguments import U32, U64, Checked, Size, instance, shown
from ._values import Choice
from .errors import OutOfRangeError, Status, TooLargeError, check

_Kind = TypeVar("_Kind")


class BackpressureStrategy(Choice):
    """What a sender does where a receiver's buffer is full and may not overflow."""

    RETRY_UNTIL_DELIVERED = 0
    """It tries again until the receiver can take the message."""
    DISCARD_DATA = 1
    """It skips this receiver."""


class AllocationStrategy(Choice):
    """How a data segment grows for messages whose length is known only at run time."""

    BEST_FIT = 0
    """By as much as the message needs."""
    POWER_OF_TWO = 1
    """To the next power of two."""
    STATIC = 2
    """It does not grow."""


@dataclass(frozen=True, slots=True, order=True)
class Duration(Checked):
    """A span of time. Raises `BadDurationError` for a billion nanoseconds or more."""

    seconds: U64
    nanoseconds: U32 = 0

    def __post_init__(self) -> None:
        Checked.__post_init__(self)
        lent = _native.Duration(self.seconds, self.nanoseconds)
        answer = _native.global_settings_check_at(_native.GlobalSettings(lent), 1)
        check(answer.status, shown(self))

    @classmethod
    def from_timedelta(cls, span: timedelta) -> "Duration":
        """The span of a `datetime.timedelta`. Raises `OutOfRangeError` for a negative one."""
        what = "Duration.from_timedelta"
        instance(span, timedelta, what)
        microseconds = timedelta.__floordiv__(span, timedelta(microseconds=1))
        if microseconds < 0:
            error = OutOfRangeError(f"{what}: expected a span of 0 or more, got {shown(span)}")
            error.status = Status.BELOW_ZERO
            raise error
        seconds, beside = divmod(microseconds, 10**6)
        return cls(seconds, 1000 * beside)

    def to_timedelta(self) -> timedelta:
        """The span as a `datetime.timedelta`, cut to whole microseconds. Raises `TooLargeError` for
        a billion days or more.
        """
        try:
            return timedelta(seconds=self.seconds, microseconds=self.nanoseconds // 1000)
        except OverflowError:
            raise TooLargeError(f"Duration.to_timedelta of {self}") from None


@dataclass(frozen=True, slots=True, order=True)
class EventId(Checked):
    """The number of an event."""

    value: Size


def _plain(value: Any) -> Any:
    """A field as the library takes it."""
    if isinstance(value, Duration):
        return _native.OptionalDuration(value.seconds, value.nanoseconds, True)
    if isinstance(value, EventId):
        return _native.OptionalEventId(value.value, True)
    return value.value if isinstance(value, Choice) else value


def put_settings(settings: Any, made: Any) -> None:
    """Writes settings, or what is fixed, into a struct of the library, as far as it has them."""
    for name, _ in made._fields_:
        own = name.removeprefix("publisher_") if hasattr(settings, "history_size") else name
        value = getattr(settings, own, None)
        if value is not None:
            setattr(made, name, _plain(value))


def read(answer: Any, name: str) -> Any:
    """A field of what the library answered."""
    value = getattr(answer, name)
    if isinstance(value, (_native.OptionalDuration, _native.OptionalEventId)) and not value.is_some:
        return None
    if isinstance(value, (_native.Duration, _native.OptionalDuration)):
        return Duration(value.seconds, value.nanoseconds)
    if isinstance(value, _native.OptionalEventId):
        return EventId(value.number)
    if name.endswith("backpressure_strategy"):
        return BackpressureStrategy(value)
    return AllocationStrategy(value) if name.endswith("allocation_strategy") else value


LIBRARY: Any = None
"""Stands for a default that is the library's."""


def defaults(values: "Callable[[Any], dict[str, Any]]") -> "Callable[[type[_Kind]], type[_Kind]]":
    """Gives the fields of a class the defaults that the library has of it."""

    def decorate(kind: "type[_Kind]") -> "type[_Kind]":
        for name, value in values(kind).items():
            setattr(kind, name, value)
        return kind

    return decorate


def read_all(answer: Any, kind: Any) -> "dict[str, Any]":
    """The settings of a class that the library answered."""
    return {name: read(answer, name) for name in kind.__annotations__}


_COUNTED = {
    "samples_per_data_segment":
    "max_subscribers subscriber_max_buffer_size subscriber_max_borrowed_samples",
    "chunks_per_client_data_segment": "max_servers max_active_requests_per_client",
    "chunks_per_server_data_segment": "max_clients max_active_requests_per_client"
    " max_response_buffer_size max_borrowed_responses_per_pending_response",
}
"""Of which settings the library counts chunks, beside the numbers of loaned ones."""


def required_amount(of: Any, name: str, what: str, *numbers: int) -> int:
    """How many chunks of settings, or of what is fixed, can be in use at once."""
    settings = (getattr(of, own) for own in _COUNTED[name].split())
    answer = getattr(_native, f"required_amount_of_{name}")(*settings, *numbers)
    check(answer.status, what)
    return int(answer.count)


@dataclass(frozen=True, slots=True, kw_only=True)
@defaults(partial(read_all, _native.publish_subscribe_defaults()))
class PublishSubscribeSettings(Checked):
    """The settings of a publish-subscribe service."""

    max_subscribers: Size = LIBRARY
    """How many subscribers may be attached at once."""
    max_publishers: Size = LIBRARY
    """How many publishers may be attached at once."""
    max_nodes: Size = LIBRARY
    """How many nodes may use the service at once."""
    subscriber_max_buffer_size: Size = LIBRARY
    """The capacity of a subscriber's buffer, in samples."""
    subscriber_max_borrowed_samples: Size = LIBRARY
    """How many samples a subscriber may hold at once."""
    publisher_max_loaned_samples: Size = LIBRARY
    """How many samples a publisher may have loaned and not yet sent."""
    publisher_history_size: Size = LIBRARY
    """How many of the last samples a publisher keeps for later subscribers."""
    subscriber_expired_connection_buffer: Size = LIBRARY
    """How many connections of publishers that are gone a subscriber keeps."""
    backpressure_strategy: BackpressureStrategy = LIBRARY
    """What a publisher does where a subscriber's buffer is full and may not overflow."""
    publisher_allocation_strategy: AllocationStrategy = LIBRARY
    """How a publisher's data segment grows."""
    enable_safe_overflow: bool = LIBRARY
    """Whether a new sample replaces the oldest one where a buffer is full."""

    def required_amount_of_samples_per_data_segment(self) -> int:
        """The greatest number of one publisher's samples that can be in use at once. Raises
        `TooLargeError` past 2^64 - 1.
        """
        numbers = self.publisher_history_size, self.publisher_max_loaned_samples
        what = "samples of PublishSubscribeSettings"
        return required_amount(self, "samples_per_data_segment", what, *numbers)


@dataclass(frozen=True, slots=True, kw_only=True)
@defaults(partial(read_all, _native.event_defaults()))
class EventSettings(Checked):
    """The settings of an event service."""

    max_listeners: Size = LIBRARY
    """How many listeners may be attached at once."""
    max_notifiers: Size = LIBRARY
    """How many notifiers may be attached at once."""
    max_nodes: Size = LIBRARY
    """How many nodes may use the service at once."""
    event_id_max_value: Size = LIBRARY
    """The greatest number of an event."""
    deadline: Optional[Duration] = LIBRARY
    """The longest time between two events, if there is one."""
    notifier_created_event: Optional[EventId] = LIBRARY
    """The event that a new notifier sends, if any."""
    notifier_dropped_event: Optional[EventId] = LIBRARY
    """The event that a notifier sends when it is dropped, if any."""
    notifier_dead_event: Optional[EventId] = LIBRARY
    """The event that is sent when a notifier's node has died, if any."""


@dataclass(frozen=True, slots=True, kw_only=True)
@defaults(partial(read_all, _native.request_response_defaults()))
class RequestResponseSettings(Checked):
    """The settings of a request-response service."""

    max_active_requests_per_client: Size = LIBRARY
    """How many requests of one client may be open at each server at once."""
    max_response_buffer_size: Size = LIBRARY
    """The capacity of a client's buffer for the responses to one request."""
    max_servers: Size = LIBRARY
    """How many servers may be attached at once."""
    max_clients: Size = LIBRARY
    """How many clients may be attached at once."""
    max_nodes: Size = LIBRARY
    """How many nodes may use the service at once."""
    max_borrowed_responses_per_pending_response: Size = LIBRARY
    """How many responses to one request a client may hold at once."""
    max_loaned_requests: Size = LIBRARY
    """How many requests a client may have taken and not yet sent."""
    server_max_loaned_responses_per_request: Size = LIBRARY
    """How many responses to one request a server may have taken and not yet sent."""
    client_expired_connection_buffer: Size = LIBRARY
    """How many connections of servers and of pending responses that are gone a client keeps."""
    server_expired_connection_buffer: Size = LIBRARY
    """How many connections of clients that are gone a server keeps."""
    client_backpressure_strategy: BackpressureStrategy = LIBRARY
    """What a client does where a server's buffer is full and may not overflow."""
    server_backpressure_strategy: BackpressureStrategy = LIBRARY
    """What a server does where a client's buffer is full and may not overflow."""
    client_allocation_strategy: AllocationStrategy = LIBRARY
    """How a client's data segment grows."""
    server_allocation_strategy: AllocationStrategy = LIBRARY
    """How a server's data segment grows."""
    enable_safe_overflow_for_requests: bool = LIBRARY
    """Whether a new request replaces the oldest one where a buffer is full."""
    enable_safe_overflow_for_responses: bool = LIBRARY
    """Whether a new response replaces the oldest one where a buffer is full."""
    enable_fire_and_forget_requests: bool = LIBRARY
    """Whether a client may send a request and take no response."""

    def required_amount_of_chunks_per_client_data_segment(self) -> int:
        """The greatest number of one client's requests that can be in use at once. Raises
        `TooLargeError` past 2^64 - 1.
        """
        what, loaned = "requests of RequestResponseSettings", self.max_loaned_requests
        return required_amount(self, "chunks_per_client_data_segment", what, loaned)

    def required_amount_of_chunks_per_server_data_segment(self) -> int:
        """The greatest number of one server's responses that can be in use at once. Raises
        `TooLargeError` past 2^64 - 1.
        """
        loaned = self.server_max_loaned_responses_per_request
        what = "responses of RequestResponseSettings"
        return required_amount(self, "chunks_per_server_data_segment", what, loaned)


@dataclass(frozen=True, slots=True, kw_only=True)
@defaults(partial(read_all, _native.blackboard_defaults()))
class BlackboardSettings(Checked):
    """The settings of a blackboard service."""

    max_readers: Size = LIBRARY
    """How many readers may be attached at once."""
    max_nodes: Size = LIBRARY
    """How many nodes may use the service at once."""


PatternSettings = Union[
    PublishSubscribeSettings, EventSettings, RequestResponseSettings, BlackboardSettings
]
"""The settings of a service of any pattern."""


class DefaultText(Choice):
    """A text of the configuration."""

    ROOT_PATH = 0
    """The path below which everything else lies."""
    PREFIX = 1
    """What the name of each file begins with."""
    SERVICE_DIRECTORY = 2
    """The directory of services, below the root path."""
    DATA_SEGMENT_SUFFIX = 3
    """The end of the names of files of services, as each of the next six."""
    STATIC_CONFIG_STORAGE_SUFFIX = 4
    DYNAMIC_CONFIG_STORAGE_SUFFIX = 5
    CONNECTION_SUFFIX = 6
    EVENT_CONNECTION_SUFFIX = 7
    BLACKBOARD_MGMT_SUFFIX = 8
    BLACKBOARD_DATA_SUFFIX = 9
    NODE_DIRECTORY = 10
    """The directory of nodes, below the root path."""
    MONITOR_SUFFIX = 11
    """The end of the names of files of nodes, as each of the next four."""
    NODE_STATIC_CONFIG_SUFFIX = 12
    SERVICE_TAG_SUFFIX = 13
    PORT_TAG_SUFFIX = 14
    GLOBAL_MGMT_SUFFIX = 15
    CONFIG_FILE_NAME = 16
    """The name of a configuration file."""
    CONFIG_FILE_PATH = 17
    """The configuration file in a working directory."""
    RELATIVE_CONFIG_PATH = 18
    """The directory of this system's configuration, below a directory for configurations."""
    USER_CONFIG_FILE_PATH = 19
    """The configuration file below a user's directory for configurations."""


def default_text(which: DefaultText) -> str:
    """A text of the configuration, where nothing else is said."""
    instance(which, DefaultText, "default_text")
    status, text = _native.written(_native.default_text_at, which.value)
    check(status, str(which))
    return text
