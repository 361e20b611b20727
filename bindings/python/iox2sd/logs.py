"""Logs of services, as the program `iox2-conform` judges them."""

from dataclasses import dataclass
from typing import Union

from . import _native
from ._arguments import text_or_bytes
from ._values import Choice, Value
from .errors import Status, check
from .ids import UniqueNodeId


class Expected(Choice):
    """What a line of a log has to be."""

    SERVICE = Status.NO_SERVICE_LINE.value
    """The line of a service."""
    CALL = Status.NO_CALL_LINE.value
    """The line of a service with a number of its own, or a line on a service above."""
    REPLY = Status.NO_REPLY_LINE.value
    """A reply."""
    IDLE_CALLER = Status.CALLER_IS_BUSY.value
    """A caller without an open call."""
    OPEN_CALL = Status.NO_OPEN_CALL.value
    """A caller with an open call."""
    LIVE_CALLER = Status.CALLER_IS_DEAD.value
    """A caller that has not died."""
    KNOWN_CALLER = Status.UNKNOWN_CALLER.value
    """A caller that has begun a call."""
    NEWLINE = Status.NO_NEWLINE.value
    """A newline at the end of the line."""
    NO_CARRIAGE_RETURN = Status.CARRIAGE_RETURN.value
    """No carriage return before the newline."""
    STATE = Status.NO_STATE_LINE.value
    """A state with which the service can begin, or begin anew where no call on it is open."""


@dataclass(frozen=True, slots=True)
class Configuration(Value):
    """What the calls before a refused reply can have led to."""

    made: "tuple[int, ...]"
    """The lines in which the open calls begin that were made."""
    possible: str
    """Every reply that the refused call could have had then."""
    nodes: "tuple[UniqueNodeId, ...]"
    """The nodes that are registered, by rising slot, one for each handle."""
    ports: "tuple[int, ...]"
    """The values of the ids of the ports that are attached: those of the pattern's first role by
    rising slot, then the others."""


class _Fails(Value):
    """A verdict that counts as False."""

    __slots__ = ()

    def __bool__(self) -> bool:
        return False


@dataclass(frozen=True, slots=True)
class Conforms(Value):
    """An order of the calls of a log explains all replies."""

    calls: int
    """How many calls there are."""


@dataclass(frozen=True, slots=True)
class NoOrder(_Fails):
    """Orders of the calls explain what was seen above a line, and none explains what was seen down
    to it. It counts as False.
    """

    line: int
    """The number of the line, from 1 on. It has a reply. Calls that are answered below it may have
    any reply."""
    reply_line: int
    """The line of the reply that is refused: that line, or one above it, which no order explains
    with what was seen down to that line."""
    words: str
    """Its words."""
    call: int
    """The line of the command of its call: that in which the call begins, but of a call alone."""
    command: str
    """The text of that line."""
    window: int
    """The line from which the window is open: that of the first event of the service since none of
    its calls was open."""
    needed: "tuple[int, ...]"
    """The lines, by rising number, in which the calls of the window begin that are needed: no order
    explains these alone, and the others change nothing."""
    configurations: "tuple[Configuration, ...]"
    """What the calls before it can have led to: at least one, each once."""


@dataclass(frozen=True, slots=True)
class TooManyConfigurations(_Fails):
    """Not decided: orders of the calls lead to more than 4,096 configurations. It counts as False.
    """

    line: int
    """The number of the line at which they do, from 1 on."""


@dataclass(frozen=True, slots=True)
class TooManyOpenCalls(_Fails):
    """Not decided: more than 64 calls of a service are open. It counts as False."""

    line: int
    """The number of the line from which they are, from 1 on."""


@dataclass(frozen=True, slots=True)
class UnexpectedLine(_Fails):
    """Orders explain what is above a line. The line is not what is expected, or the log ends before
    it. It counts as False.
    """

    line: int
    """The number of the line, from 1 on."""
    expected: Expected
    """What is expected."""


Verdict = Union[Conforms, NoOrder, TooManyConfigurations, TooManyOpenCalls, UnexpectedLine]
"""What a log was judged to be."""


def check_log(log: Union[str, bytes]) -> Verdict:
    """What a log of services is judged to be: the calls that were made on services of any
    implementation, and the replies that were seen. `docs/CONFORM.md` has its lines.

    Raises `NoMemoryError`.
    """
    given = text_or_bytes(log, "check_log")
    # The report of a log that conforms fits here, so such a log is judged once.
    answer, written = _native.filled(512, _native.conform_run_at, given, len(given))
    report = written.decode(errors="backslashreplace")
    if answer.status == Status.NO_ORDER.value:
        return _no_order(answer.line, report)
    if answer.status == Status.TOO_MANY_CONFIGURATIONS.value:
        return TooManyConfigurations(answer.line)
    if answer.status == Status.TOO_MANY_OPEN_CALLS.value:
        return TooManyOpenCalls(answer.line)
    if answer.status in (expected.value for expected in Expected):
        return UnexpectedLine(answer.line, Expected(answer.status))
    check(answer.status, "check_log")
    return Conforms(answer.calls)


def _no_order(line: int, report: str) -> NoOrder:
    """What the lines of a report say. The first one names the line of the reply where that is
    another one.
    """
    first, words, called, window, needed, *lines, _ = report.split("\n")
    _, _, above = first.partition(" explains the reply in line ")
    reply_line = int(above) if above else line
    command, _, number = called.removeprefix("call: ").removesuffix(")").rpartition(" (line ")
    told = map(_configuration, lines[::4], lines[1::4], lines[2::4], lines[3::4])
    from_line = int(window.removeprefix("window: from line "))
    begins = tuple(map(int, needed.removeprefix("needed: lines ").split(" ")))
    seen = words.removeprefix("seen: ")
    return NoOrder(line, reply_line, seen, int(number), command, from_line, begins, tuple(told))


def _configuration(made: str, possible: str, nodes: str, ports: str) -> Configuration:
    lines = made.removeprefix("made: ").removeprefix("lines ").removeprefix("none")
    return Configuration(
        tuple(map(int, lines.split())),
        possible.removeprefix("possible: "),
        tuple(map(UniqueNodeId.from_text, nodes.split(" ")[1:])),
        tuple(int(port, 16) for port in ports.split(" ")[1:]),
    )
