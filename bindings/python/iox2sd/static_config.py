"""What a service is: its name, id, attributes, limits and message types."""

from dataclasses import dataclass, field, fields, replace
from typing import Any, Optional, TypeVar, Union, cast, get_args

from . import _native
from ._arguments import Checked, Size, instance, number, shown
from .attributes import AttributeSet, AttributeVerifier
from .errors import (
    IncompatibleError, MissingKeyError, MissingPairError, OtherPatternError, Status, UnmetError,
    check,
)
from .ids import UniqueServiceId
from .messages import MessageTypeDetails, TypeDetail, check_same
from .settings import (
    BlackboardSettings, Duration, EventId, EventSettings, PatternSettings, PublishSubscribeSettings,
    RequestResponseSettings, put_settings, read, required_amount,
)
from .texts import InternalServiceName, MessagingPattern, ServiceHash, ServiceName, lent


_SETTINGS = """
max_subscribers max_publishers history_size subscriber_max_buffer_size
subscriber_max_borrowed_samples enable_safe_overflow max_notifiers max_listeners
event_id_max_value notifier_created_event notifier_dropped_event notifier_dead_event
enable_safe_overflow_for_requests enable_safe_overflow_for_responses
enable_fire_and_forget_requests max_active_requests_per_client max_loaned_requests
max_response_buffer_size max_servers max_clients max_borrowed_responses_per_pending_response
max_readers max_writers max_nodes
""".split()
"""What is fixed of services, by the numbers of the header from `MAX_SUBSCRIBERS` on."""

_Fixed = TypeVar("_Fixed", bound="FixedSettings")


class FixedSettings(Checked):
    """The base of what is fixed of a service of one pattern."""

    __slots__ = ()

    def first_unmet(self: _Fixed, required: _Fixed) -> "str | None":
        """The name of the first setting in which the service does not meet what an opener requires:
        each number is to be at least the required one, and each choice, each event and the deadline
        the same. Types are not compared.
        """
        kind = get_args(PatternStaticConfig)[_pattern(self).value]
        what = f"{kind.__name__}.first_unmet"
        instance(required, kind, what)
        satisfies = _call(self, "PATTERN_satisfies_at")
        answer = satisfies(_plain(self, "Config"), 1, _plain(required, "Config"), 1)
        if answer.status != Status.UNMET.value:
            check(answer.status, what)
            return None
        if answer.field == _native.DEADLINE:
            return "deadline"
        name: str = _SETTINGS[answer.field - _native.MAX_SUBSCRIBERS]
        return name

    def satisfies(self: _Fixed, required: _Fixed) -> bool:
        """Whether the service meets all that an opener requires."""
        return self.first_unmet(required) is None

    def _required(self, name: str, loaned: int, *others: int) -> int:
        what = f"required_amount_of_{name}"
        return required_amount(self, name, what, *others, number(loaned, Size, what))


def _taken(cls: Any, kind: Any, settings: Any) -> "dict[str, Any]":
    """What is fixed of a service with these settings."""
    instance(settings, kind, f"{cls.__name__}.new")
    names = {one.name for one in fields(cls)} & {one.name for one in fields(kind)}
    taken = {name: getattr(settings, name) for name in names}
    if isinstance(settings, PublishSubscribeSettings):
        taken["history_size"] = settings.publisher_history_size
    return taken


@dataclass(frozen=True, slots=True, kw_only=True)
class PublishSubscribeStaticConfig(FixedSettings):
    """What a publish-subscribe service is. The fields are those of `PublishSubscribeSettings`."""

    max_subscribers: Size
    max_publishers: Size
    max_nodes: Size
    history_size: Size
    subscriber_max_buffer_size: Size
    subscriber_max_borrowed_samples: Size
    enable_safe_overflow: bool
    message_type_details: MessageTypeDetails

    @classmethod
    def new(
        cls, message_type_details: MessageTypeDetails,
        settings: PublishSubscribeSettings = PublishSubscribeSettings(),
    ) -> "PublishSubscribeStaticConfig":
        """The description of a service with these settings."""
        taken = _taken(cls, PublishSubscribeSettings, settings)
        return cls(**taken, message_type_details=message_type_details)

    def required_amount_of_samples_per_data_segment(self, publisher_max_loaned_samples: int) -> int:
        """The greatest number of samples in use at once of a publisher that may have so many taken
        and not yet sent. Raises `TooLargeError` past 2^64 - 1.
        """
        loaned = publisher_max_loaned_samples
        return self._required("samples_per_data_segment", loaned, self.history_size)


@dataclass(frozen=True, slots=True, kw_only=True)
class EventStaticConfig(FixedSettings):
    """What an event service is. The fields are those of `EventSettings`."""

    max_listeners: Size
    max_notifiers: Size
    max_nodes: Size
    event_id_max_value: Size
    deadline: Optional[Duration]
    notifier_created_event: Optional[EventId]
    notifier_dropped_event: Optional[EventId]
    notifier_dead_event: Optional[EventId]

    @classmethod
    def new(cls, settings: EventSettings = EventSettings()) -> "EventStaticConfig":
        """The description of a service with these settings."""
        return cls(**_taken(cls, EventSettings, settings))


@dataclass(frozen=True, slots=True, kw_only=True)
class RequestResponseStaticConfig(FixedSettings):
    """What a request-response service is. The fields are those of `RequestResponseSettings`."""

    max_active_requests_per_client: Size
    max_response_buffer_size: Size
    max_servers: Size
    max_clients: Size
    max_nodes: Size
    max_borrowed_responses_per_pending_response: Size
    max_loaned_requests: Size
    enable_safe_overflow_for_requests: bool
    enable_safe_overflow_for_responses: bool
    enable_fire_and_forget_requests: bool
    request_message_type_details: MessageTypeDetails
    response_message_type_details: MessageTypeDetails

    @classmethod
    def new(
        cls, request_message_type_details: MessageTypeDetails,
        response_message_type_details: MessageTypeDetails,
        settings: RequestResponseSettings = RequestResponseSettings(),
    ) -> "RequestResponseStaticConfig":
        """The description of a service with these settings."""
        return cls(
            **_taken(cls, RequestResponseSettings, settings),
            request_message_type_details=request_message_type_details,
            response_message_type_details=response_message_type_details,
        )

    def required_amount_of_chunks_per_client_data_segment(
        self, client_max_loaned_requests: int
    ) -> int:
        """The greatest number of requests in use at once of a client that may have so many taken
        and not yet sent. Raises `TooLargeError` past 2^64 - 1.
        """
        return self._required("chunks_per_client_data_segment", client_max_loaned_requests)

    def required_amount_of_chunks_per_server_data_segment(
        self, max_loaned_responses_per_request: int
    ) -> int:
        """The greatest number of responses in use at once of a server that may have so many taken
        and not yet sent for each request. Raises `TooLargeError` past 2^64 - 1.
        """
        return self._required("chunks_per_server_data_segment", max_loaned_responses_per_request)


@dataclass(frozen=True, slots=True, kw_only=True)
class BlackboardStaticConfig(FixedSettings):
    """What a blackboard service is. The numbers are those of `BlackboardSettings`."""

    max_readers: Size
    max_writers: Size = 1
    max_nodes: Size
    type_details: TypeDetail
    """The type of the keys."""

    @classmethod
    def new(
        cls, type_details: TypeDetail, settings: BlackboardSettings = BlackboardSettings()
    ) -> "BlackboardStaticConfig":
        """The description of a service with these settings."""
        return cls(**_taken(cls, BlackboardSettings, settings), type_details=type_details)


PatternStaticConfig = Union[
    PublishSubscribeStaticConfig, EventStaticConfig, RequestResponseStaticConfig,
    BlackboardStaticConfig,
]
"""What a service of any pattern is."""


def _pattern(value: object) -> MessagingPattern:
    """The pattern of settings, or of what is fixed."""
    kinds = zip(MessagingPattern, get_args(PatternSettings), get_args(PatternStaticConfig))
    return next(pattern for pattern, *of in kinds if isinstance(value, tuple(of)))


def _call(value: object, name: str) -> Any:
    """An export of the pattern of settings, or of what is fixed."""
    return getattr(_native, name.replace("PATTERN", _pattern(value).name.lower()))


def _plain(value: Any, kind: str) -> Any:
    """What is fixed, or settings, as a struct of the library; settings that are not fixed are 0."""
    pattern = "".join(word.capitalize() for word in _pattern(value).name.split("_"))
    made = getattr(_native, f"{pattern}{kind}")()
    put_settings(value, made)
    return made


@dataclass(frozen=True, slots=True)
class Capacities(Checked):
    """How many nodes and ports a service can have at a time."""

    nodes: Size
    """Handles of nodes: a node that is registered twice counts twice."""
    first: Size
    """Publishers, listeners, servers or readers."""
    second: Size
    """Subscribers, notifiers, clients or writers."""

    @classmethod
    def of(cls, service: "PatternSettings | PatternStaticConfig | StaticConfig") -> "Capacities":
        """The capacities of a service with these settings, or with this description. A blackboard
        has one writer, or as many as a `BlackboardStaticConfig` says.
        """
        return cls._of(service, f"{cls.__name__}.of")[1]

    @classmethod
    def _of(cls, service: Any, what: str) -> "tuple[MessagingPattern, Capacities]":
        """The pattern of a service too."""
        instance(service, Union[PatternSettings, PatternStaticConfig, StaticConfig], what)
        settings = service.pattern_config if isinstance(service, StaticConfig) else service
        call = _call(settings, "PATTERN_capacities_of_settings_at")
        made = call(_plain(settings, "Settings"), 1)
        capacities = cls(*(getattr(made, name) for name, _ in made._fields_))
        if isinstance(settings, BlackboardStaticConfig):
            capacities = replace(capacities, second=settings.max_writers)
        return _pattern(settings), capacities


@dataclass(frozen=True, slots=True, kw_only=True)
class Requirements(Checked):
    """What an opener requires of a service."""

    pattern_config: PatternStaticConfig
    """The pattern, the types of messages, or of a blackboard's keys, and the settings."""
    attributes: AttributeVerifier = AttributeVerifier()


@dataclass(frozen=True, slots=True)
class StaticConfig(Checked):
    """The description of a service, which does not change while the service lives: what the library
    makes of the name, the id and the settings. A blackboard has one writer, whatever its config
    says.
    """

    name: ServiceName
    unique_service_id: UniqueServiceId
    pattern_config: PatternStaticConfig
    attributes: AttributeSet = AttributeSet()
    service_hash: ServiceHash = field(init=False, repr=False, default=None)  # type: ignore[assignment]
    """The hash text of name and pattern, under which the service's files are found."""

    def __post_init__(self) -> None:
        instance(self.name, ServiceName, "StaticConfig.name")
        instance(self.pattern_config, PatternStaticConfig, "StaticConfig.pattern_config")
        instance(self.unique_service_id, UniqueServiceId, "StaticConfig.unique_service_id")
        made = self._described()
        service_hash = ServiceHash(_native.front(made.hash, made.hash_length))
        object.__setattr__(self, "service_hash", service_hash)
        part = getattr(made, self.messaging_pattern.name.lower())
        config = self.pattern_config
        fixed = {one.name for one in fields(config) if hasattr(part, one.name)}
        values = {name: read(part, name) for name in fixed}
        if any(getattr(config, name) != value for name, value in values.items()):
            object.__setattr__(self, "pattern_config", replace(config, **values))
        Checked.__post_init__(self)

    def _described(self) -> _native.Description:
        """What the library makes of the name, the id and the settings."""
        made = _native.Description()
        answer = _call(self.pattern_config, "describe_PATTERN_at")(
            _plain(self.pattern_config, "Settings"), 1, *lent(self.name),
            isinstance(self.name, InternalServiceName), self.unique_service_id._lent(), made, 1,
        )
        check(answer.status, f"description of {shown(self.name)}")
        return made

    @property
    def messaging_pattern(self) -> MessagingPattern:
        """The messaging pattern of the service."""
        return _pattern(self.pattern_config)

    @property
    def capacities(self) -> Capacities:
        """The capacities with which the described service is made."""
        return Capacities.of(self)

    def has_same_messaging_pattern(self, other: "StaticConfig") -> bool:
        """Whether both services have one messaging pattern."""
        instance(other, StaticConfig, "StaticConfig.has_same_messaging_pattern")
        return self.messaging_pattern is other.messaging_pattern

    def check_satisfies(self, required: Requirements) -> None:
        """Raises the error of the first requirement of an opener that the service does not meet:
        `OtherPatternError`; what `AttributeVerifier.verify_requirements` raises; of types what
        `MessageTypeDetails.check_compatible_to` raises; or `UnmetError` with the name of a setting.
        """
        instance(required, Requirements, "StaticConfig.check_satisfies")
        service, opener = self.pattern_config, required.pattern_config
        if _pattern(opener) is not self.messaging_pattern:
            raise OtherPatternError(self.messaging_pattern.name)
        required.attributes.verify_requirements(self.attributes)
        for one in fields(service):
            of_service = getattr(service, one.name)
            if isinstance(of_service, MessageTypeDetails):
                getattr(opener, one.name).check_compatible_to(of_service)
            elif isinstance(of_service, TypeDetail):
                check_same(getattr(opener, one.name), of_service, "the opener's keys")
        unmet = cast(Any, service).first_unmet(opener)
        if unmet is not None:
            raise UnmetError(unmet)

    def satisfies(self, required: Requirements) -> bool:
        """Whether `check_satisfies` raises nothing."""
        try:
            self.check_satisfies(required)
        except (IncompatibleError, MissingPairError, MissingKeyError):
            return False
        return True
