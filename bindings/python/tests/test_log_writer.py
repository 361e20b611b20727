import doctest
import enum
import threading
import unittest

import iox2sd
from iox2sd import (
    Capacities, Conforms, DeregisterNodeState, LogCommand, LogReply, LogWriter, MessagingPattern,
    NoOrder, Role, Verdict, check_log, log_writer,
)

NODE = iox2sd.UniqueNodeId(1, 0, 0, 1)
PORT = iox2sd.UniqueListenerId(2**32 - 1, 0, 10, 3)


def a_log() -> LogWriter:
    return LogWriter(MessagingPattern.EVENT, 7, Capacities(4, 3, 2))


def verdict(listing: LogCommand, *seen: int) -> Verdict:
    """That on a listing of nodes or listeners which saw those with these counters: 9 stays all
    through the call, 10 leaves in it, and 11 comes then.
    """
    log = a_log()
    caller, other = log.caller("A"), log.caller("B")

    def come(counter: int, slot: int, ticket: int) -> None:
        node = iox2sd.UniqueNodeId(1, 0, 0, counter)
        port = iox2sd.UniqueListenerId(1, 0, 0, counter)
        for command in (LogCommand.register(node), LogCommand.add(port, node)):
            other.begin(command).end(LogReply.handle(slot, ticket))

    come(9, 0, 0)
    come(10, 1, 1)
    call = caller.begin(listing)
    other.begin(LogCommand.release(Role.LISTENER, 1, 1)).end(log_writer.RELEASED)
    other.begin(LogCommand.deregister(1, 1)).end(log_writer.HAS_OWNERS)
    come(11, 1, 2)
    call.end(LogReply.list(iox2sd.UniqueNodeId(1, 0, 0, counter) for counter in seen))
    return check_log(log.text)


class LogWriting(unittest.TestCase):
    def test_services_have_their_lines(self):
        words = ("publish-subscribe", "event", "request-response", "blackboard")
        texts = {LogWriter(each, 7, Capacities(4, 3, 2)).text for each in MessagingPattern}
        self.assertEqual(texts, {f"service {word} 7 4 3 2\n" for word in words})

    def test_commands_have_their_lines(self):
        cases = {
            "register 1.0.0.1": LogCommand.register(NODE),
            "deregister 0 18446744073709551615": LogCommand.deregister(0, 2**64 - 1),
            "add listener 4294967295.0.10.3 1.0.0.1": LogCommand.add(PORT, NODE),
            "release notifier 12 0": LogCommand.release(Role.NOTIFIER, 12, 0),
            "dead 1.0.0.1": LogCommand.dead(NODE),
            "dead 1.0.0.1 skip 4294967295.0.10.3": LogCommand.dead(NODE, [PORT]),
            "nodes": LogCommand.nodes(),
            "list client": LogCommand.list(Role.CLIENT),
            "count writer": LogCommand.count(Role.WRITER),
            "nodes?": LogCommand.nodes_weak(),
            "list? server": LogCommand.list_weak(Role.SERVER),
        }
        for words, command in cases.items():
            log = a_log()
            log.caller("worker1").begin(command).end(log_writer.FULL)
            lines = f"worker1> {words}\nworker1< full\n"
            self.assertEqual(log.text, f"service event 7 4 3 2\n{lines}")

    def test_replies_have_their_lines(self):
        cases = {
            "handle 0 18446744073709551615": LogReply.handle(0, 2**64 - 1),
            "count 17": LogReply.count(17),
            "list": LogReply.list([]),
            "list 1000000000000000000000001 ffffffff000000000000000a00000003": LogReply.list(
                [NODE, PORT]
            ),
            "has-owners": LogReply.state(DeregisterNodeState.HAS_OWNERS),
            "no-owners": LogReply.state(DeregisterNodeState.NO_MORE_OWNERS),
            "locked": log_writer.LOCKED,
            "not-registered": log_writer.NOT_REGISTERED,
            "full": log_writer.FULL,
            "wrong-pattern": log_writer.WRONG_PATTERN,
            "ports-attached": log_writer.PORTS_ATTACHED,
            "released": log_writer.RELEASED,
            "not-owned": log_writer.NOT_OWNED,
        }
        for words, reply in cases.items():
            self.assertEqual(reply.text, words)

    def test_lines_stand_in_the_order_of_time(self):
        log = a_log()
        first, second, third = map(log.caller, "ABC")
        third.died()  # It has begun no call.
        open_call = second.begin(LogCommand.register(NODE))
        first.begin(LogCommand.nodes()).end(LogReply.list([]))
        open_call.end(LogReply.handle(2, 0))
        first.begin(LogCommand.nodes())
        first.died()
        second.died()
        self.assertEqual(
            log.text.splitlines()[1:],
            [
                "B> register 1.0.0.1", "A> nodes", "A< list", "B< handle 2 0", "A> nodes", "A!",
                "B!",
            ],
        )
        self.assertEqual(check_log(log.text), Conforms(3))

    def test_refusals(self):
        log = a_log()
        caller = log.caller("A")
        call = caller.begin(LogCommand.nodes())
        self.assertRaises(iox2sd.CallerIsBusyError, caller.begin, LogCommand.nodes())
        call.end(LogReply.list([]))
        self.assertRaises(iox2sd.NoOpenCallError, call.end, LogReply.list([]))
        call = caller.begin(LogCommand.nodes())
        caller.died()
        self.assertRaises(iox2sd.NoOpenCallError, call.end, LogReply.list([]))
        self.assertRaises(iox2sd.CallerIsDeadError, caller.begin, LogCommand.nodes())
        self.assertRaises(iox2sd.CallerIsDeadError, caller.died)
        self.assertEqual(log.text.splitlines()[1:], ["A> nodes", "A< list", "A> nodes", "A!"])
        for name in ("", "a" * 17):
            self.assertRaises(iox2sd.OutOfRangeError, log.caller, name)
        for name in ("a b", "A>", "\u00e4"):
            self.assertRaises(iox2sd.IllegalByteError, log.caller, name)
        for listing in (LogCommand.list, LogCommand.list_weak):
            self.assertRaises(iox2sd.RoleNotInPatternError, listing, Role.NODE)
        self.assertRaises(iox2sd.OutOfRangeError, LogCommand.deregister, -1, 0)
        self.assertRaises(iox2sd.OutOfRangeError, LogReply.handle, 0, 2**64)

    def test_a_caller_has_the_name_that_a_subclass_of_str_holds(self):
        class Who(str, enum.Enum):
            FIRST = "A"

        log = a_log()
        log.caller(Who.FIRST).begin(LogCommand.nodes()).end(LogReply.list([]))
        self.assertEqual(log.text.splitlines()[1:], ["A> nodes", "A< list"])

    def test_arguments_of_other_types(self):
        log, room = a_log(), Capacities(4, 3, 2)
        caller = log.caller("A")
        for call, *arguments in (
            (LogWriter, 1, 7, room), (LogWriter, MessagingPattern.EVENT, 7, (4, 3, 2)),
            (log.caller, 1), (caller.begin, "nodes"), (LogCommand.register, PORT),
            (LogCommand.add, NODE, NODE), (LogCommand.add, PORT, PORT), (LogCommand.dead, PORT),
            (LogCommand.list, "listener"), (LogReply.list, ["1"]), (LogReply.state, True),
        ):
            self.assertRaises(iox2sd.WrongTypeError, call, *arguments)
        call = caller.begin(LogCommand.nodes())  # What was refused has begun no call.
        self.assertRaises(iox2sd.WrongTypeError, call.end, "list")
        call.end(LogReply.list([]))
        self.assertEqual(log.text, "service event 7 4 3 2\nA> nodes\nA< list\n")

    def test_weak_listings_have_what_stays_and_others_are_snapshots(self):
        weak = (LogCommand.nodes_weak(), LogCommand.list_weak(Role.LISTENER))
        for listing in weak:
            self.assertEqual(verdict(listing, 9, 10, 11), Conforms(9))
            self.assertEqual(verdict(listing, 9), Conforms(9))
        refused = [verdict(listing, *seen) for listing in weak for seen in ((10, 11), (9, 12))]
        for listing in (LogCommand.nodes(), LogCommand.list(Role.LISTENER)):
            refused.append(verdict(listing, 9, 10, 11))
        for found in refused:
            self.assertTrue(isinstance(found, NoOrder) and found.line == 19, found)

    def test_threads_write_one_log(self):
        log = a_log()

        def calls(name: str) -> None:
            caller = log.caller(name)
            for _ in range(200):
                caller.begin(LogCommand.count(Role.LISTENER)).end(LogReply.count(0))

        threads = [threading.Thread(target=calls, args=(name,)) for name in "ABCD"]
        for thread in threads:
            thread.start()
        for thread in threads:
            thread.join()
        self.assertEqual(check_log(log.text), Conforms(800))

    def test_the_example(self):
        self.assertEqual(doctest.testmod(log_writer), (0, 9))
