"""What a caller does not expect: values that lie, finalizers, forks, and errors of Python's own."""

import ctypes
import enum
import gc
import os
import signal
import subprocess
import sys
import tempfile
import threading
import unittest
from contextlib import contextmanager
from functools import partial
from pathlib import Path
from typing import Any, Callable, Iterator
from unittest import mock

import iox2sd
from iox2sd import _native

from . import PACKAGE, TestCase
from .test_dynamic_config import NODE, publisher, service
from .test_texts import ALL

SECONDS = 20
"""After how long a thread or a process counts as one that hangs."""


class Topic(str, enum.Enum):
    LIDAR = "lidar"


class Liar(str):
    """A text whose methods all say another one."""

    def __str__(self) -> str:
        return "iox2://\0"

    __repr__ = __format__ = __str__  # type: ignore[assignment]

    def encode(self, *_: Any) -> bytes:
        return b"iox2://\0"

    def __len__(self) -> int:
        return 10**6

    def __iter__(self):
        return iter("iox2://\0")


class Lying(int):
    """A number whose methods all say another one."""

    def __index__(self) -> int:
        return -1

    __int__ = __index__

    def __lt__(self, _: object) -> bool:
        return False

    __gt__ = __le__ = __ge__ = __eq__ = __lt__  # type: ignore[assignment]
    __hash__ = int.__hash__


class LyingBytes(bytes):
    def __len__(self) -> int:
        return 10**6


@contextmanager
def before(name: str, does: "Callable[..., object]") -> "Iterator[None]":
    """Before each call of an export something else is done with its arguments."""
    call = getattr(_native, name)
    both = mock.Mock(side_effect=lambda *given: (does(*given), call(*given))[1])
    with mock.patch.object(_native, name, both):
        yield


@contextmanager
def switches() -> "Iterator[None]":
    """Threads are switched often."""
    interval = sys.getswitchinterval()
    sys.setswitchinterval(1e-6)
    try:
        yield
    finally:
        sys.setswitchinterval(interval)


class Values(TestCase):
    def test_a_text_keeps_what_was_checked(self):
        for kind in ALL:
            for given in (Topic.LIDAR, Liar("lidar")):
                made = kind(given)
                self.assertEqual((str(made), made.encode()), ("lidar", b"lidar"))
                self.assertEqual(repr(made), f"{kind.__name__}('lidar')")
                self.assertIs(type(made), kind)
            text = f"{kind.__name__} 'li\\x00dar': "
            self.raised(iox2sd.IllegalByteError, kind, Liar("li\0dar"), text=text)
        self.assertEqual(iox2sd.InternalServiceName.prefixed(Liar("x")), "iox2://x")
        self.assertFalse(iox2sd.ServiceName.has_iox2_prefix(Liar("x")))

    def test_a_subclass_of_a_text_is_lent_as_it_is(self):
        class Mine(iox2sd.ServiceName):
            def __str__(self) -> str:
                return "another"

            def encode(self, *_: Any) -> bytes:
                return b"another"

        class Key(iox2sd.AttributeKey):
            def encode(self, *_: Any) -> bytes:
                return b"another"

        pattern = iox2sd.MessagingPattern.EVENT
        expected = iox2sd.ServiceHash.new(iox2sd.ServiceName("mine"), pattern)
        self.assertEqual(iox2sd.ServiceHash.new(Mine("mine"), pattern), expected)
        value = iox2sd.AttributeValue("v")
        pairs = iox2sd.AttributeSet([iox2sd.Attribute(Key("mine"), value)])
        self.assertEqual(pairs[0].key, "mine")
        self.assertEqual(pairs.number_of_key_values(Key("mine")), 1)

    def test_a_name_of_a_type_keeps_what_was_checked(self):
        for given in (Topic.LIDAR, Liar("lidar")):
            made = iox2sd.TypeDetail(given, 1, 1)
            self.assertEqual((made.type_name, type(made.type_name)), ("lidar", str))
            self.assertEqual(made, iox2sd.TypeDetail("lidar", 1, 1))

    def test_numbers_are_taken_by_their_value(self):
        id = iox2sd.UniqueServiceId(Lying(1), Lying(2), Lying(3), Lying(4))
        self.assertEqual(id, iox2sd.UniqueServiceId(1, 2, 3, 4))
        self.assertEqual({type(part) for part in (id.process, id.counter)}, {int})
        self.assertRaises(iox2sd.OutOfRangeError, iox2sd.UniqueServiceId, Lying(2**32), 2, 3, 4)
        with iox2sd.DynamicConfig.event(
            Lying(7), max_nodes=Lying(1), max_listeners=1, max_notifiers=1
        ) as made:
            self.assertEqual((made.service_number, made.max_nodes), (7, 1))

    def test_bytes_of_a_script_and_of_a_log_are_taken_by_their_value(self):
        script = LyingBytes(b"nonsense\n")
        self.raised(iox2sd.BadLineError, iox2sd.run_script, script, line=1)
        log = b"service event 7 1 0 0\nnodes\n= list\n"
        self.assertEqual(iox2sd.check_log(LyingBytes(log)), iox2sd.Conforms(1))


class Errors(TestCase):
    def test_subclasses_of_values(self):
        class Event(iox2sd.EventStaticConfig):
            __slots__ = ()

        name, id = iox2sd.ServiceName("a"), iox2sd.UniqueServiceId(1, 2, 3, 4)
        made = iox2sd.StaticConfig(name, id, Event.new())
        self.assertIs(made.messaging_pattern, iox2sd.MessagingPattern.EVENT)

        class Marked(iox2sd.Capacities):
            """Its annotations are texts."""

        Marked.__annotations__ = {"mark": "list[int]"}
        self.assertEqual(Marked(1, 2, 3).second, 3)
        self.assertRaises(iox2sd.OutOfRangeError, Marked, 1, 2, -3)

    def test_annotations_that_are_texts(self):
        source = (
            "from __future__ import annotations\nfrom dataclasses import dataclass\nimport iox2sd\n"
            "@dataclass(frozen=True, slots=True)\nclass Marked(iox2sd.Capacities):\n"
            "    nodes: int\n    mark: list[int] | None = None\n"
        )
        names: "dict[str, Any]" = {"__name__": "elsewhere"}
        with mock.patch.dict(sys.modules, {"elsewhere": mock.Mock()}):
            exec(source, names)
        self.assertEqual(names["Marked"](1, 2, 3, [4]).mark, [4])
        self.assertRaises(iox2sd.WrongTypeError, names["Marked"], "1", 2, 3)

    def test_what_cannot_be_iterated_over(self):
        with service() as made:
            for wrong in (None, 5, NODE):
                for text, call in {
                    "remove_dead_node_id.keep": partial(made.remove_dead_node_id, NODE),
                    "AttributeSet": iox2sd.AttributeSet,
                }.items():
                    text += ": expected an iterable"
                    self.raised(iox2sd.WrongTypeError, call, wrong, text=text)

    def test_an_error_of_a_program_s_own(self):
        unknown = str(iox2sd.Status.UNKNOWN_STATUS)
        for kind in (iox2sd.RefusedError, iox2sd.IncompatibleError):
            self.assertEqual(str(kind("x")), f"x: {unknown}")
        self.assertEqual(unknown, "unknown status")

    def test_a_union_is_named_by_its_members(self):
        error = self.raised(iox2sd.WrongTypeError, partial(iox2sd.EventSettings, deadline=5))
        self.assertEqual(str(error), "EventSettings.deadline: expected Duration or None, got 5")

    def imported(self, before: str = "", **variables: str) -> str:
        """The last line of what an import that fails prints."""
        environment = {**os.environ, "PYTHONPATH": str(PACKAGE), **variables}
        command = [sys.executable, "-c", f"{before}import iox2sd"]
        done = subprocess.run(command, env=environment, capture_output=True, text=True)
        self.assertEqual(done.returncode, 1)
        return done.stderr.splitlines()[-1]

    def test_an_interpreter_without_the_global_lock(self):
        text = "ImportError: iox2sd needs the interpreter's global lock, which keeps calls on a"
        found = self.imported("import sys; sys._is_gil_enabled = lambda: False; ")
        self.assertTrue(found.startswith(text), found)

    def test_a_library_without_the_interface(self):
        text = "^ImportError: .* is no libiox2sd: it has no iox2sd_abi"
        self.assertRegex(self.imported(IOX2SD_LIBRARY=_libc()), text)
        with tempfile.TemporaryDirectory() as folder:
            wrong = Path(folder, "wrong.so")
            wrong.write_bytes(b"no library")
            for library in ("/nowhere/x.so", str(wrong)):
                found = self.imported(IOX2SD_LIBRARY=library)
                self.assertRegex(found, "^ImportError: libiox2sd was not loaded: ")


def _libc() -> str:
    """The file of the C library, which is no libiox2sd."""
    for line in Path("/proc/self/maps").read_text().splitlines():
        if "/libc" in line:
            return line.split()[-1]
    raise unittest.SkipTest("the C library was not found")


class Calls(TestCase):
    """No call waits for another one."""

    def test_calls_keep_the_global_lock(self):
        """Each but those of scripts and logs is one of a `PyDLL`, and so whole before or after any
        other.
        """
        keeps = 4  # FUNCFLAG_PYTHONAPI of ctypes.
        functions = {
            name: type(function)._flags_ & keeps != 0
            for name, function in vars(_native).items()
            if isinstance(function, ctypes._CFuncPtr)
        }
        self.assertGreater(len(functions), 60)
        others = [name for name, kept in functions.items() if not kept]
        self.assertEqual(others, ["script_run_at", "conform_run_at"])

    def joined(self, *work: "Callable[[], object]"):
        threads = [threading.Thread(target=part, daemon=True) for part in work]
        for thread in threads:
            thread.start()
        for thread in threads:
            thread.join(SECONDS)
        self.assertEqual([thread for thread in threads if thread.is_alive()], [])

    def test_services_that_ask_each_other(self):
        """As finalizers do, which run within any call, on any thread."""
        one, other = service(), service()
        both_within = threading.Barrier(2)
        answers: "list[int]" = []

        def asks(place: Any, *_: Any):
            both_within.wait()
            answers.append((other if place is one._object else one).number_of_nodes)

        with before("is_locked_at", asks):
            self.joined(lambda: one.is_locked, lambda: other.is_locked)
        self.assertEqual(answers, [0, 0])

    def test_a_service_that_is_closed_beside_a_call(self):
        made = service()
        within, closed = threading.Event(), threading.Event()
        raised: "list[BaseException]" = []

        def waits(*_: Any):
            within.set()
            self.assertTrue(closed.wait(SECONDS))

        def register():
            raised.append(self.raised(iox2sd.NoServiceError, made.register_node_id, NODE))

        def close():
            self.assertTrue(within.wait(SECONDS))
            made.close()
            closed.set()

        with before("register_node_id_at", waits):
            self.joined(register, close)
        self.assertEqual(len(raised), 1)

    def test_a_service_that_is_closed_within_a_listing(self):
        made = service(1, 100, 1)
        made.register_node_id(NODE)
        for counter in range(17):
            made.attach(publisher(counter))
        listed = _native.ports_at

        def closes(*arguments: Any) -> Any:
            answer = listed(*arguments)
            if answer.status == _native.BUFFER_TOO_SHORT:
                made.close()
            return answer

        with mock.patch.object(_native, "ports_at", closes):
            self.assertRaises(iox2sd.NoServiceError, made.list_publishers)

    def test_a_finalizer_uses_the_service_that_is_called(self):
        class Cycle:
            def __init__(self) -> None:
                self.itself = self

            def __del__(self) -> None:
                counted.append(made.number_of_nodes)

        counted: "list[int]" = []
        with service() as made, before("is_locked_at", lambda *_: Cycle() and gc.collect()):
            self.assertFalse(made.is_locked)
            self.assertEqual(counted, [0])

    @unittest.skipUnless(hasattr(os, "fork"), "there is no fork")
    def test_a_child_of_a_fork(self):
        """While other threads call, each child uses the service that it has a copy of."""
        made, done = service(), threading.Event()
        self.addCleanup(done.set)

        def calls():
            while not done.is_set():
                made.list_node_ids()

        threads = [threading.Thread(target=calls, daemon=True) for _ in range(4)]
        with switches():
            for thread in threads:
                thread.start()
            for _ in range(30):
                child = os.fork()
                if child == 0:
                    signal.alarm(SECONDS)  # Ends a child that hangs.
                    made.register_node_id(NODE)
                    os._exit(len(made.list_node_ids()))
                self.assertEqual(os.waitstatus_to_exitcode(os.waitpid(child, 0)[1]), 1)
            done.set()
            for thread in threads:
                thread.join()
        self.assertEqual(made.list_node_ids(), ())


class Kept(TestCase):
    def test_a_port_that_is_kept_keeps_no_other(self):
        """A listener and a notifier of one number are two ports."""
        listener = iox2sd.UniqueListenerId(1, 2, 3, 4)
        notifier = iox2sd.UniqueNotifierId(1, 2, 3, 4)
        self.assertNotEqual(listener, notifier)
        for keep, removed in (([listener], (0, 1)), ([notifier], (1, 0)), ([], (1, 1))):
            with iox2sd.DynamicConfig.event(
                7, max_nodes=1, max_listeners=1, max_notifiers=1
            ) as made:
                made.register_node_id(NODE)
                made.attach(iox2sd.ListenerDetails(listener_id=listener, node_id=NODE))
                made.attach(iox2sd.NotifierDetails(notifier_id=notifier, node_id=NODE))
                gone = made.remove_dead_node_id(NODE, keep)
                self.assertEqual((gone.first, gone.second), removed)
                self.assertEqual([port.port_id for port in made.ports_of(NODE)], keep)
