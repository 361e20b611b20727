"""Tests of iox2sd. They use `bindings/out/libiox2sd.so.2`, or the file IOX2SD_LIBRARY names."""

import os
import unittest
from pathlib import Path
from typing import Any, Callable

PACKAGE = Path(__file__).resolve().parents[1]
PROJECT = PACKAGE.parents[1]
LIBRARY = os.environ.setdefault(
    "IOX2SD_LIBRARY", str(PROJECT / "bindings" / "out" / "libiox2sd.so.2")
)


class TestCase(unittest.TestCase):
    """A test of calls that are refused."""

    def raised(
        self, kind: "type[BaseException]", call: "Callable[..., object]", *given: Any,
        text: str = "", **fields: Any,
    ) -> Any:
        """The error of a kind that a call raises, with a text in its own, and with these fields."""
        with self.assertRaises(kind) as caught:
            call(*given)
        self.assertIn(text, str(caught.exception))
        found = {name: getattr(caught.exception, name) for name in fields}
        self.assertEqual(found, fields)
        return caught.exception

    def refuses(
        self, kind: "type[BaseException]", call: "Callable[..., object]", *each: Any
    ) -> None:
        """Each of some arguments is refused with an error of a kind."""
        for one in each:
            self.assertRaises(kind, call, one)
