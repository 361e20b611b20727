"""The service layer of the zero-copy middleware iceoryx2, over the library libiox2sd, whose exports
are proved: what a service is, and which nodes and ports are attached to it.

    >>> import iox2sd
    >>> with iox2sd.DynamicConfig.event(
    ...     7, max_nodes=1, max_listeners=2, max_notifiers=2
    ... ) as service:
    ...     node = service.register_node_id(iox2sd.UniqueNodeId(1, 0, 0, 1))
    ...     service.deregister_node_id(node)
    DeregisterNodeState.NO_MORE_OWNERS

Values are checked when they are made, and never change. A refused call raises an `Error`, whose
text says what was wrong and where. The library has all rules; this package checks the types of its
arguments and passes them on.
"""

from dataclasses import is_dataclass

from . import _native
from ._values import readable
from .attributes import Attribute, AttributeSet, AttributeSpecifier, AttributeVerifier
from .config import (
    Config, ConfigFile, Defaults, GlobalConfig, Likeness, NodeConfig, ServiceConfig, UnknownKey,
)
from .details import (
    ClientDetails, DataSegmentType, Details, ListenerDetails, NotifierDetails, PortDetails,
    PublisherDetails, ReaderDetails, ServerDetails, SubscriberDetails, WriterDetails,
)
from .dynamic_config import (
    ContainerHandle, DeadNodeRemoval, DeregisterNodeState, DynamicConfig, ServiceNumbers,
)
from .errors import (
    BadAlignmentError, BadConfigError, BadDurationError, BadLineError, CallerIsBusyError,
    CallerIsDeadError, ConfigFault, EmptyError, Error, ForeignHandleError, GreaterAlignmentError,
    HasServiceError, IllegalByteError, IllegalHashError, IncompatibleError, IsLockedError,
    MissingKeyError, MissingPairError, NoFileNameError, NoMemoryError, NoNodeError, NoOpenCallError,
    NoServiceError, NoTomlIntegerError, NodeNotRegisteredError, NotUtf8Error, OtherAlignmentError,
    OtherNameError, OtherPatternError, OtherSizeError, OtherVariantError, OutOfRangeError,
    OutOfSpaceError, PortsStillAttachedError, RefusedError, ReservedPrefixError,
    RoleNotInPatternError, Status, TooLargeError, TooLongError, TooManyError, TooManyRequiredError,
    UnmetError, WrongTypeError,
)
from .ids import (
    Role, UniqueClientId, UniqueId, UniqueListenerId, UniqueNodeId, UniqueNotifierId, UniquePortId,
    UniquePublisherId, UniqueReaderId, UniqueServerId, UniqueServiceId, UniqueSubscriberId,
    UniqueWriterId,
)
from .log_writer import LogCaller, LogCommand, LogReply, LogToken, LogWriter
from .logs import (
    Configuration, Conforms, Expected, NoOrder, TooManyConfigurations, TooManyOpenCalls,
    UnexpectedLine, Verdict, check_log,
)
from .messages import Layout, MessageTypeDetails, Places, TypeDetail, TypeVariant
from .recorder import Recorder
from .scripts import run_script
from .settings import (
    AllocationStrategy, BackpressureStrategy, BlackboardSettings, DefaultText, Duration, EventId,
    EventSettings, PatternSettings, PublishSubscribeSettings, RequestResponseSettings, default_text,
)
from .static_config import (
    BlackboardStaticConfig, Capacities, EventStaticConfig, FixedSettings, PatternStaticConfig,
    PublishSubscribeStaticConfig, RequestResponseStaticConfig, Requirements, StaticConfig,
)
from .texts import (
    AttributeKey, AttributeValue, FileName, FilePath, InternalServiceName, MessagingPattern, Path,
    RestrictedFileName, ServiceHash, ServiceName, Text,
)

for _kind in [kind for kind in globals().values() if is_dataclass(kind)]:
    readable(_kind)

__version__: str = _native.written(_native.version_at)[1]
"""The version of the library."""

LAYER_VERSION: str = _native.written(_native.layer_version_at)[1]
"""The version of iceoryx2 whose layer this is."""

__all__ = [
    "LAYER_VERSION", "__version__", "AllocationStrategy", "Attribute", "AttributeKey",
    "AttributeSet", "AttributeSpecifier", "AttributeValue", "AttributeVerifier",
    "BackpressureStrategy", "BadAlignmentError", "BadConfigError", "BadDurationError",
    "BadLineError", "BlackboardSettings", "BlackboardStaticConfig", "CallerIsBusyError",
    "CallerIsDeadError", "Capacities", "check_log", "ClientDetails", "Config", "ConfigFault",
    "ConfigFile", "Configuration", "Conforms", "ContainerHandle", "DataSegmentType",
    "DeadNodeRemoval", "Defaults", "default_text", "DefaultText", "DeregisterNodeState", "Details",
    "Duration", "DynamicConfig", "EmptyError", "Error", "EventId", "EventSettings",
    "EventStaticConfig", "Expected", "FileName", "FilePath", "FixedSettings", "ForeignHandleError",
    "GlobalConfig", "GreaterAlignmentError", "HasServiceError", "IllegalByteError",
    "IllegalHashError", "IncompatibleError", "InternalServiceName", "IsLockedError", "Layout",
    "Likeness", "ListenerDetails", "LogCaller", "LogCommand", "LogReply", "LogToken", "LogWriter",
    "MessageTypeDetails", "MessagingPattern", "MissingKeyError", "MissingPairError", "NodeConfig",
    "NodeNotRegisteredError", "NoFileNameError", "NoMemoryError", "NoNodeError", "NoOpenCallError",
    "NoOrder", "NoServiceError", "NotifierDetails", "NoTomlIntegerError", "NotUtf8Error",
    "OtherAlignmentError", "OtherNameError", "OtherPatternError", "OtherSizeError",
    "OtherVariantError", "OutOfRangeError", "OutOfSpaceError", "Path", "PatternSettings",
    "PatternStaticConfig", "Places", "PortDetails", "PortsStillAttachedError", "PublisherDetails",
    "PublishSubscribeSettings", "PublishSubscribeStaticConfig", "ReaderDetails", "Recorder",
    "RefusedError", "RequestResponseSettings", "RequestResponseStaticConfig", "Requirements",
    "ReservedPrefixError", "RestrictedFileName", "Role", "RoleNotInPatternError", "run_script",
    "ServerDetails", "ServiceConfig", "ServiceHash", "ServiceName", "ServiceNumbers",
    "StaticConfig", "Status", "SubscriberDetails", "Text", "TooLargeError", "TooLongError",
    "TooManyConfigurations", "TooManyError", "TooManyOpenCalls", "TooManyRequiredError",
    "TypeDetail", "TypeVariant", "UnexpectedLine", "UniqueClientId", "UniqueId", "UniqueListenerId",
    "UniqueNodeId", "UniqueNotifierId", "UniquePortId", "UniquePublisherId", "UniqueReaderId",
    "UniqueServerId", "UniqueServiceId", "UniqueSubscriberId", "UniqueWriterId", "UnknownKey",
    "UnmetError", "Verdict", "WriterDetails", "WrongTypeError",
]
