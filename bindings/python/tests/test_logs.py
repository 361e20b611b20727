import copy
import dataclasses
import pickle
import unittest

import iox2sd
from iox2sd import (
    Configuration, Conforms, Expected, NoOrder, TooManyConfigurations, TooManyOpenCalls,
    UnexpectedLine, check_log,
)

from . import PROJECT

CONFORM = PROJECT / "crates" / "iox2_conform"
SERVICE = "service event 7 200 2 2\n"

THREE = """\
service event 7 3 2 0
register 1.0.0.1
= handle 0 0
register 1.0.0.2
= handle 1 1
A> dead 1.0.0.1
B> register 1.0.0.1
C> add listener 1.0.0.9 1.0.0.1
A< has-owners
B< handle 2 2
C< handle 0 0
"""
"""The first node is registered again and gets a port, while it is removed as a dead one: first,
last, or after the port was attached and before it is registered."""


BELOW = """\
service event 7 4 2 2
A> register 1.0.0.1
B> nodes
B< list 1000000000000000000000001
A< handle 0 5
"""
"""A listing sees a node whose registration is open, until its reply has a ticket that it cannot
have.
"""


def told(
    possible: str,
    nodes: "tuple[int, ...]" = (),
    ports: "tuple[int, ...]" = (),
    made: "tuple[int, ...]" = (),
) -> Configuration:
    """Nodes and ports by their counters."""
    ids = tuple(iox2sd.UniqueNodeId(1, 0, 0, counter) for counter in nodes)
    return Configuration(made, possible, ids, tuple((1 << 96) + counter for counter in ports))


class Logs(unittest.TestCase):
    def test_the_first_log(self):
        found = check_log((CONFORM / "stdin").read_bytes())
        assert isinstance(found, NoOrder)
        self.assertEqual(found.reply_line, found.line)
        lines = [
            f"line {found.line}: no order of the calls explains this reply",
            f"seen: {found.words}", f"call: {found.command} (line {found.call})",
            f"window: from line {found.window}",
            " ".join(["needed: lines", *map(str, found.needed)]),
        ]
        for one in found.configurations:
            made = " ".join(["lines", *map(str, one.made)]) if one.made else "none"
            lines += [f"made: {made}", f"possible: {one.possible}"]
            lines.append(" ".join(["nodes:", *map(str, one.nodes)]))
            lines.append(" ".join(["ports:", *(f"{port:x}" for port in one.ports)]))
        self.assertEqual(lines, (CONFORM / "stdout").read_text().splitlines())

    def test_logs_that_conform(self):
        for calls in (0, 1, 30):
            log = SERVICE + "count listener\n# a note\n= count 0\n" * calls
            self.assertEqual(check_log(log), Conforms(calls))
            self.assertEqual(check_log(log.encode()), Conforms(calls))
        self.assertTrue(check_log(SERVICE))
        both = SERVICE + "service blackboard 8 1 0 0\n8: nodes\n= list\n7: nodes\n= list\n"
        self.assertEqual(check_log(both), Conforms(2))
        self.assertEqual(check_log(both + "nodes\n"), UnexpectedLine(7, Expected.CALL))

    def test_unexpected_lines(self):
        cases = {
            "": UnexpectedLine(1, Expected.SERVICE),
            SERVICE + "\nleave\n": UnexpectedLine(3, Expected.CALL),
            SERVICE + "overlap\n": UnexpectedLine(2, Expected.CALL),
            SERVICE + "nodes\n": UnexpectedLine(3, Expected.REPLY),
            SERVICE + "nodes\n= \xff\n": UnexpectedLine(3, Expected.REPLY),
            SERVICE + "A> nodes\nA> nodes\n": UnexpectedLine(3, Expected.IDLE_CALLER),
            SERVICE + "A< list\n": UnexpectedLine(2, Expected.OPEN_CALL),
            SERVICE + "A> nodes\nA!\nA> nodes\n": UnexpectedLine(4, Expected.LIVE_CALLER),
            SERVICE + "A!\n": UnexpectedLine(2, Expected.KNOWN_CALLER),
            SERVICE + "nodes\n= list": UnexpectedLine(3, Expected.NEWLINE),
            SERVICE + "nodes\r\n": UnexpectedLine(2, Expected.NO_CARRIAGE_RETURN),
            SERVICE + "state nodes 3\nstate nodes 4\n": UnexpectedLine(3, Expected.STATE),
            SERVICE + "".join(f"c{k}> nodes\n" for k in range(65)): TooManyOpenCalls(66),
        }
        for log, verdict in cases.items():
            with self.subTest(log=log):
                self.assertEqual(check_log(log), verdict)
                self.assertFalse(check_log(log))

    def test_replies_that_no_order_explains(self):
        for nodes in (1, 200):
            registered = "".join(f"register 1.0.0.1\n= handle {k} {k}\n" for k in range(nodes))
            log = SERVICE + registered + "add listener 1.0.0.11 1.0.0.1\n= handle 1 0\n"
            line = 2 * nodes + 5
            one = told("not-owned", (1,) * nodes, (11,))
            found = check_log(log + "release 0\n= released\n")
            release = "released", line - 1, "release 0"
            refused = NoOrder(line, line, *release, line, (line,), (one,))
            self.assertEqual(found, refused)
            self.assertFalse(found)

    def test_calls_that_overlapped(self):
        both = "service event 7 1 0 0\nA> register 1.0.0.1\nB> register 1.0.0.2\n"
        self.assertEqual(check_log(both + "A< handle 0 0\nB< full\n"), Conforms(2))
        found = check_log(both + "A< handle 0 0\nB< handle 0 1\n")
        full = (told("full", (1,)),)
        refused = NoOrder(5, 5, "handle 0 1", 3, "B> register 1.0.0.2", 2, (2, 3), full)
        self.assertEqual(found, refused)

    def test_each_configuration_is_told(self):
        found = check_log(THREE + "count listener\n= count 7\n")
        assert isinstance(found, NoOrder)
        each = {told("count 1", (2, 1), (9,)), told("count 0", (2,)), told("count 0", (2, 1))}
        self.assertEqual(set(found.configurations), each)
        self.assertEqual((found.line, found.words, found.window), (13, "count 7", 13))
        self.assertEqual((found.call, found.command), (12, "count listener"))
        self.assertEqual(found.needed, (13,))
        self.assertEqual(len(found.configurations), 3)
        # The port is there, so that one state is left.
        log = THREE + "count listener\n= count 1\nrelease listener 0 0\n= released\n"
        self.assertEqual(check_log(log), Conforms(7))

    def test_open_calls_are_told_by_their_lines(self):
        listed = "list 1000000000000000000000001"
        log = f"A> register 1.0.0.1\nnodes\n= {listed}\nnodes\n= list\n"
        found = check_log(f"service event 7 1 0 0\n{log}")
        made = told(listed, (1,), made=(2,))
        self.assertEqual(found, NoOrder(6, 6, "list", 5, "nodes", 2, (2, 4, 6), (made,)))

    def test_a_reply_below_decides(self):
        log, reply = BELOW.split("A<")
        for lines in ("", "A< handle 0 0\n", "A!\n"):
            self.assertEqual(check_log(log + lines), Conforms(2))
        for above, last, needed in (
            ("", reply, (2, 3)), ("# a note\n", " handle 4 0\n", (2, 3)),
            ("\n" * 95, " full\n", (3,)),
        ):
            lines = f"{above}A<{last}"
            line = 4 + lines.count("\n")
            listed = "list 1000000000000000000000001", 3, "B> nodes"
            refused = NoOrder(line, 4, *listed, 2, needed, (told("list"),))
            self.assertEqual(check_log(log + lines), refused)
            self.assertEqual(check_log(log + lines + "nodes\n= list\n"), refused)

    def test_verdicts_differ(self):
        one, another = told("list", (1,), (2,), (2,)), told("list", (2,), (2,), (2,))
        refused = NoOrder(3, 3, "x", 2, "nodes", 2, (3,), (one,))
        told_otherwise = [
            {"line": 4}, {"reply_line": 2}, {"words": "y"}, {"call": 3}, {"command": "list"},
            {"window": 3}, {"needed": (2, 3)},
            *({"configurations": found} for found in [
                (one, one), (another,), (dataclasses.replace(one, possible="count 1"),),
                (dataclasses.replace(one, made=()),), (dataclasses.replace(one, ports=()),)]),
        ]
        verdicts = [
            Conforms(3), refused, *(dataclasses.replace(refused, **other)
                                    for other in told_otherwise),
            TooManyConfigurations(3), TooManyConfigurations(4), TooManyOpenCalls(3),
            TooManyOpenCalls(4), *(UnexpectedLine(3, expected) for expected in Expected),
        ]
        self.assertEqual(len(set(verdicts)), len(verdicts))
        for place, verdict in enumerate(verdicts):
            self.assertEqual(eval(repr(verdict), vars(iox2sd)), verdict)
            for same in (copy.deepcopy(verdict), pickle.loads(pickle.dumps(verdict))):
                self.assertEqual((same, type(same)), (verdict, type(verdict)))
                self.assertEqual(hash(same), hash(verdict))
            for other in verdicts[:place]:
                self.assertTrue(verdict != other and not verdict == other)

    def test_verdicts_are_no_tuples(self):
        for verdict in (Conforms(3), NoOrder(3, 3, "x", 3, "nodes", 3, (3,), ()),
                        TooManyOpenCalls(3)):
            self.assertNotIsInstance(verdict, tuple)
            field, *_ = dataclasses.fields(verdict)
            self.assertRaises(AttributeError, setattr, verdict, field.name, 4)
            with self.assertRaises(TypeError):
                _, *_ = verdict

    def test_wrong_arguments(self):
        for wrong in (0, None, bytearray(b""), ["service"]):
            self.assertRaises(iox2sd.WrongTypeError, check_log, wrong)
        self.assertRaises(iox2sd.NotUtf8Error, check_log, "service\ud800\n")
