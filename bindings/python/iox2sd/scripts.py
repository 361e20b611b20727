"""Whole scripts, as the program `iox2-replay` takes them."""

from typing import Union

from . import _native
from ._arguments import text_or_bytes
from .errors import BadLineError, Status, check


def run_script(script: Union[str, bytes]) -> str:
    """The reply lines of a script, which is carried out on a service of its own. Raises
    `BadLineError` with the number of a bad line and the reply lines to those before it, and
    `NoMemoryError`.
    """
    given = text_or_bytes(script, "run_script")
    length = len(given)
    answer, written = _native.filled(256 + length, _native.script_run_at, given, length)
    replies = written.decode()
    if answer.status == Status.BAD_LINE.value:
        raise BadLineError("run_script", answer.line, replies)
    check(answer.status, "run_script")
    return replies
