"""What a call raises. `Error` is the base of all, and each has a `status`.

`WrongTypeError`, `OutOfRangeError` and `NotUtf8Error` are raised before the library is called: the
argument has no form that it takes. All others are the library's, one class for each status. The
text of a status is the library's own.
"""

from dataclasses import dataclass

from . import _native
from ._values import Choice, Value


class Status(Choice):
    """What came of a call of the library: success, or one error."""

    DONE = 0
    DONE_LOCKED = 1
    BUFFER_TOO_SHORT = 2
    NO_MEMORY = 3
    NO_SERVICE = 4
    HAS_SERVICE = 5
    UNKNOWN_PATTERN = 6
    UNKNOWN_ROLE = 7
    NO_NODE = 8
    IS_LOCKED = 9
    OUT_OF_SPACE = 10
    FOREIGN_HANDLE = 11
    PORTS_STILL_ATTACHED = 12
    NODE_NOT_REGISTERED = 13
    ROLE_NOT_IN_PATTERN = 14
    UNKNOWN_SEGMENT = 15
    BAD_KEY = 16
    BAD_VALUE = 17
    TOO_MANY = 18
    NULL = 20
    UNKNOWN_STATUS = 21
    EMPTY = 40
    TOO_LONG = 41
    ILLEGAL_BYTE = 42
    NO_FILE_NAME = 43
    RESERVED_PREFIX = 44
    NOT_UTF8 = 45
    BAD_SERVICE_NAME = 46
    BAD_PATH = 47
    BAD_ENTRY = 48
    ILLEGAL_HASH = 49
    BAD_REQUIRED_KEY = 50
    BAD_REQUIRED_VALUE = 51
    BAD_ASKED_KEY = 52
    TOO_MANY_REQUIRED = 53
    MISSING_PAIR = 54
    MISSING_KEY = 55
    NO_SUCH_VALUE = 56
    BAD_ALIGNMENT = 57
    TOO_LARGE = 58
    UNKNOWN_VARIANT = 59
    OTHER_NAME = 60
    OTHER_VARIANT = 61
    OTHER_SIZE = 62
    OTHER_ALIGNMENT = 63
    GREATER_ALIGNMENT = 64
    UNKNOWN_TEXT = 65
    BAD_LINE = 66
    UNKNOWN_STRATEGY = 67
    BAD_DURATION = 68
    UNMET = 69
    OTHER_PATTERN = 70
    NOT_TOML = 80
    WRONG_TYPE = 81
    BELOW_ZERO = 82
    NO_DURATION = 83
    NO_TOML_INTEGER = 84
    NO_FILE = 85
    TOO_DEEP = 86
    NO_ORDER = 90
    NO_SERVICE_LINE = 91
    NO_CALL_LINE = 92
    NO_REPLY_LINE = 93
    TOO_MANY_CONFIGURATIONS = 94
    TOO_MANY_OPEN_CALLS = 95
    CALLER_IS_BUSY = 96
    NO_OPEN_CALL = 97
    CALLER_IS_DEAD = 98
    UNKNOWN_CALLER = 99
    NO_NEWLINE = 100
    CARRIAGE_RETURN = 101
    NO_STATE_LINE = 102

    def __str__(self) -> str:
        """The library's text."""
        return _native.written(_native.status_text_at, self.value)[1]


class Error(Exception):
    """A call was refused."""

    status = Status.UNKNOWN_STATUS
    """Why."""

    def __init_subclass__(cls, status: "Status | None" = None) -> None:
        super().__init_subclass__()
        cls.status = status or cls.status


class WrongTypeError(Error, TypeError, status=Status.WRONG_TYPE):
    """An argument is of another type. A `bool` is no integer, and `bytes` are no text."""


class OutOfRangeError(Error, OverflowError, status=Status.TOO_LARGE):
    """An integer or a length is not within the range of its parameter."""


class RefusedError(Error):
    """The library refused a call."""

    def __init__(self, what: str, at: "int | None" = None, unit: str = "byte") -> None:
        """`what` was refused, at the index `at` where the status has one."""
        super().__init__(what, at, unit)
        self.what = what
        self.at = at
        self.unit = unit

    def __str__(self) -> str:
        position = "" if self.at is None else f", at {self.unit} {self.at}"
        return f"{self.what}: {self.status}{position}"


class NoMemoryError(RefusedError, MemoryError, status=Status.NO_MEMORY):
    """Memory was refused."""

class NoServiceError(RefusedError, status=Status.NO_SERVICE):
    """The service was closed."""

class HasServiceError(RefusedError, status=Status.HAS_SERVICE):
    """The object holds a service already."""

class NoNodeError(RefusedError, ValueError, status=Status.NO_NODE):
    """The id is that of no node: its process and its counter are 0."""

class IsLockedError(RefusedError, status=Status.IS_LOCKED):
    """The service is locked for good, since its last node left: nothing joins it any more."""

class OutOfSpaceError(RefusedError, status=Status.OUT_OF_SPACE):
    """No slot or no ticket is left."""

class ForeignHandleError(RefusedError, LookupError, status=Status.FOREIGN_HANDLE):
    """No entry of the service has the handle: it was removed, or is another service's, or a port's
    where a node's is meant, or the reverse.
    """

class PortsStillAttachedError(RefusedError, status=Status.PORTS_STILL_ATTACHED):
    """Some port has the node, and the handle is the node's only one."""

class NodeNotRegisteredError(RefusedError, LookupError, status=Status.NODE_NOT_REGISTERED):
    """The node of the port is not registered."""

class RoleNotInPatternError(RefusedError, ValueError, status=Status.ROLE_NOT_IN_PATTERN):
    """The messaging pattern of the service has no ports of the role."""

class TooManyError(RefusedError, ValueError, status=Status.TOO_MANY):
    """There are more pairs than a set can have; `at` is the first one too many."""
    at: int

class EmptyError(RefusedError, ValueError, status=Status.EMPTY):
    """The text is empty."""

class TooLongError(RefusedError, ValueError, status=Status.TOO_LONG):
    """The text is too long; `at` is the greatest length in bytes, where one text was checked."""

class IllegalByteError(RefusedError, ValueError, status=Status.ILLEGAL_BYTE):
    """A byte may not stand in the text; `at` is the index of the first one."""

class NoFileNameError(RefusedError, ValueError, status=Status.NO_FILE_NAME):
    """The name, or what follows the last `/`, is `.`, `..` or empty."""

class ReservedPrefixError(RefusedError, ValueError, status=Status.RESERVED_PREFIX):
    """The name begins as those of the system's own services do."""

class NotUtf8Error(RefusedError, ValueError, status=Status.NOT_UTF8):
    """The text has no UTF-8: it holds half of a surrogate pair, at the character `at`."""

class IllegalHashError(RefusedError, status=Status.ILLEGAL_HASH):
    """The hasher's text cannot be the name of a file. SHA-1 is proved to make none that is so."""

class TooManyRequiredError(RefusedError, ValueError, status=Status.TOO_MANY_REQUIRED):
    """More pairs and keys are required than a set can have; `at` is the first one too many."""
    at: int

class MissingPairError(RefusedError, LookupError, status=Status.MISSING_PAIR):
    """The set lacks a required pair, the one at `at`."""
    at: int

class MissingKeyError(RefusedError, LookupError, status=Status.MISSING_KEY):
    """The set has no pair with a required key, the one at `at`."""
    at: int

class BadAlignmentError(RefusedError, ValueError, status=Status.BAD_ALIGNMENT):
    """An alignment is no power of two."""

class TooLargeError(RefusedError, OverflowError, status=Status.TOO_LARGE):
    """The result would pass its range."""

class IncompatibleError(RefusedError):
    """A service is not what its opener requires."""

class OtherPatternError(IncompatibleError, status=Status.OTHER_PATTERN):
    """The service has another messaging pattern."""

class OtherNameError(IncompatibleError, status=Status.OTHER_NAME):
    """The types of a part have other names."""

class OtherVariantError(IncompatibleError, status=Status.OTHER_VARIANT):
    """The types of a part are of other variants."""

class OtherSizeError(IncompatibleError, status=Status.OTHER_SIZE):
    """The types of a part have other sizes."""

class OtherAlignmentError(IncompatibleError, status=Status.OTHER_ALIGNMENT):
    """The types of the headers have other alignments."""

class GreaterAlignmentError(IncompatibleError, status=Status.GREATER_ALIGNMENT):
    """The opener's type of a part has a greater alignment than the service's."""

class UnmetError(IncompatibleError, status=Status.UNMET):
    """A setting of the service is not what its opener requires."""

class BadDurationError(RefusedError, ValueError, status=Status.BAD_DURATION):
    """The nanoseconds beside the seconds are a billion or more."""

class NoTomlIntegerError(RefusedError, OverflowError, status=Status.NO_TOML_INTEGER):
    """A number, or the seconds of a duration, are above 2^63 - 1, which TOML does not have."""


class CallerIsBusyError(RefusedError, status=Status.CALLER_IS_BUSY):
    """The last call of a caller of a log was begun and not ended."""

class NoOpenCallError(RefusedError, status=Status.NO_OPEN_CALL):
    """The call of a log has ended already."""

class CallerIsDeadError(RefusedError, status=Status.CALLER_IS_DEAD):
    """The caller of a log has died."""


class BadLineError(RefusedError, ValueError, status=Status.BAD_LINE):
    """A line of a script is not one that may stand there, or has no newline."""

    def __init__(self, what: str, line: int, replies: str) -> None:
        """The line's number, from 1 on, and the reply lines to the commands before it."""
        super().__init__(what, line, "line")
        self.args = what, line, replies
        self.line = line
        self.replies = replies


def positioned(file: "str | None", line: "int | None", column: "int | None", *words: str) -> str:
    """What is said of a file, as `FILE:LINE:COLUMN: KEY: REASON`, without what there is not."""
    at = ":".join(str(part) for part in (file, line, column) if part is not None)
    return ": ".join(part for part in (at, *words) if part)


@dataclass(frozen=True, slots=True)
class ConfigFault(Value):
    """What is wrong with the text of a file of settings, and where."""

    file: "str | None"
    """The path of the file, or None of a text."""
    line: "int | None"
    """The line where the key begins, or where the text is no file of settings, from 1, or None where
    there is no position: in a file of more than 128 KiB.
    """
    column: "int | None"
    """The column, in bytes from 1, or None."""
    key: str
    """The path of the key whose value is not allowed, or nothing where it is the text that is wrong.
    """
    reason: str
    """What is wrong, in words."""
    cause: Status
    """The error that the value, or the text, is."""

    def __str__(self) -> str:
        return positioned(self.file, self.line, self.column, self.key, self.reason)


class BadConfigError(RefusedError, ValueError):
    """The text of a file gives no settings: it is no UTF-8, too deep or no TOML, or values are not
    allowed. `faults` has all that is wrong, in the order of the file, and `status` the first cause.
    """

    def __init__(self, faults: "tuple[ConfigFault, ...]") -> None:
        """What is wrong: at least one fault."""
        super().__init__("\n".join(map(str, faults)))
        self.args = (faults,)
        self.faults = faults
        self.status = faults[0].cause

    def __str__(self) -> str:
        return self.what


_KINDS: "dict[Status, type[RefusedError]]" = {
    kind.status: kind
    for kind in list(globals().values())
    if isinstance(kind, type) and issubclass(kind, RefusedError) and kind.status is not Error.status
}
_STATUSES = {status.value: status for status in Status}


def check(status: int, what: str, at: "int | None" = None, unit: str = "byte") -> None:
    """Raises the error of a status, unless it says that the call was done."""
    if status not in (_native.DONE, _native.DONE_LOCKED):
        known = _STATUSES.get(status, Status.UNKNOWN_STATUS)
        error = _KINDS.get(known, RefusedError)(what, at, unit)
        error.status = known
        raise error
