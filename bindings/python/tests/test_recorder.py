import doctest
import random
import unittest
from contextlib import suppress
from typing import Any

import iox2sd
from iox2sd import Capacities, Conforms, MessagingPattern, Recorder, Role, check_log, recorder

NODES = [iox2sd.UniqueNodeId(*parts) for parts in ((1, 1, 0, 5), (1, 2, 0, 5), (2, 0, 0, 0))]
PORTS = [(7, 0, 0, counter) for counter in range(5)]
KINDS: "dict[Role, Any]" = {
    Role.PUBLISHER: (iox2sd.PublisherDetails, iox2sd.UniquePublisherId),
    Role.SUBSCRIBER: (iox2sd.SubscriberDetails, iox2sd.UniqueSubscriberId),
    Role.NOTIFIER: (iox2sd.NotifierDetails, iox2sd.UniqueNotifierId),
    Role.LISTENER: (iox2sd.ListenerDetails, iox2sd.UniqueListenerId),
    Role.CLIENT: (iox2sd.ClientDetails, iox2sd.UniqueClientId),
    Role.SERVER: (iox2sd.ServerDetails, iox2sd.UniqueServerId),
    Role.READER: (iox2sd.ReaderDetails, iox2sd.UniqueReaderId),
    Role.WRITER: (iox2sd.WriterDetails, iox2sd.UniqueWriterId),
}


def port(role: Role, parts: "tuple[int, ...]", node: iox2sd.UniqueNodeId) -> iox2sd.PortDetails:
    details, id = KINDS[role]
    names = {f"{role.name.lower()}_id": id(*parts), "node_id": node}
    for field in details.__dataclass_fields__:
        if field not in names:
            is_segment = field == "data_segment_type"
            names[field] = iox2sd.DataSegmentType.STATIC if is_segment else 0
    return details(**names)


def step(dice: random.Random, service: Recorder, handles: "list[Any]") -> None:
    """A call that is drawn, which may be refused."""
    node, role = dice.choice(NODES), dice.choice([*service.port_roles] * 3 + list(KINDS))
    kind = dice.randrange(16)
    if kind < 3:
        handles.append(service.register_node_id(node))
    elif kind < 8:
        handles.append(service.attach(port(role, dice.choice(PORTS), node)))
    elif kind == 8:
        kept = [KINDS[dice.choice(service.port_roles)][1](*dice.choice(PORTS))]
        service.remove_dead_node_id(node, kept * dice.randrange(2))
    elif kind == 9:
        service.list_node_ids()
    elif kind < 12:
        dice.choice((service.list_ports, service.count_ports))(role)
    elif handles:
        dice.choice((service.deregister_node_id, service.release_port))(dice.choice(handles))


class Recording(unittest.TestCase):
    def test_random_logs_conform(self):
        dice = random.Random(1)
        seen: "set[str]" = set()
        for pattern in [*MessagingPattern] * 50:
            capacities = Capacities(*(dice.randrange(5) for _ in range(3)))
            with Recorder(pattern, 7, capacities) as service:
                handles: "list[Any]" = []
                for _ in range(dice.randrange(60)):
                    with suppress(iox2sd.RefusedError):
                        step(dice, service, handles)
            replies = [line for line in service.log.splitlines() if line.startswith("A< ")]
            self.assertEqual(check_log(service.log), Conforms(len(replies)))
            seen.update(reply.split()[1] for reply in replies)
        words = (
            "handle locked full not-registered wrong-pattern has-owners no-owners ports-attached"
            " released not-owned count list"
        )
        self.assertEqual(seen, set(words.split()))

    def test_what_has_no_line(self):
        with Recorder.event(7, max_nodes=1, max_listeners=1, max_notifiers=1) as service:
            capacities = "Capacities(nodes=1, first=1, second=1)"
            self.assertEqual(repr(service), f"Recorder(MessagingPattern.EVENT, 7, {capacities})")
            start = "service event 7 1 1 1\n"
            self.assertEqual(service.log, start)
            self.assertFalse(service.is_locked)
            for call in (service.list_ports, service.count_ports):
                self.assertRaises(iox2sd.RoleNotInPatternError, call, Role.NODE)
                self.assertRaises(iox2sd.WrongTypeError, call, 0)
            for number, role in ((8, Role.NODE), (7, Role.LISTENER)):
                other = iox2sd.ContainerHandle(number, role, 0, 0)
                self.assertRaises(iox2sd.ForeignHandleError, service.deregister_node_id, other)
            for number, role in ((8, Role.LISTENER), (7, Role.NODE)):
                other = iox2sd.ContainerHandle(number, role, 0, 0)
                self.assertRaises(iox2sd.ForeignHandleError, service.release_port, other)
            self.assertEqual(service.log, start)
            stale = iox2sd.ContainerHandle(7, Role.LISTENER, 4, 5)
            self.assertRaises(iox2sd.ForeignHandleError, service.release_port, stale)
            text = start + "A> release listener 4 5\nA< not-owned\n"
            self.assertEqual(service.log, text)
            self.assertEqual(check_log(service.log), Conforms(1))
        self.assertRaises(iox2sd.NoServiceError, service.list_node_ids)
        self.assertRaises(iox2sd.NoServiceError, service.remove_dead_node_id, NODES[0], [])
        self.assertRaises(iox2sd.WrongTypeError, service.remove_dead_node_id, 0, [])
        self.assertEqual((service.log, repr(service)), (text, "<a closed Recorder>"))

    def test_with_statements_and_lists_of_a_kind_are_written(self):
        with Recorder.described(iox2sd.EventSettings(), 7) as service:
            with service.registered(NODES[0]):
                with service.attached(port(Role.LISTENER, PORTS[0], NODES[0])):
                    self.assertEqual(len(service.list_listeners()), 1)
        self.assertEqual(
            service.log.splitlines()[1:],
            [
                "A> register 1.1.0.5", "A< handle 0 0", "A> add listener 7.0.0.0 1.1.0.5",
                "A< handle 0 0", "A> list listener", "A< list 7000000000000000000000000",
                "A> release listener 0 0", "A< released", "A> deregister 0 0", "A< no-owners",
            ],
        )
        self.assertEqual(check_log(service.log), Conforms(5))

    def test_ports_of_one_number_are_kept_together(self):
        with Recorder.event(7, max_nodes=1, max_listeners=2, max_notifiers=2) as service:
            service.register_node_id(NODES[0])
            ports = [(role, parts) for role in service.port_roles for parts in PORTS[:2]]
            for role, parts in ports:
                service.attach(port(role, parts, NODES[0]))
            kept = iox2sd.UniqueNotifierId(*PORTS[0])
            removal = service.remove_dead_node_id(NODES[0], [kept])
            self.assertEqual((removal.first, removal.second), (1, 1))
            left = [one.port_id for one in service.ports_of(NODES[0])]
            self.assertEqual(left, [iox2sd.UniqueListenerId(*PORTS[0]), kept])
        self.assertIn("\nA> dead 1.1.0.5 skip 7.0.0.0\nA< has-owners\n", service.log)
        self.assertEqual(check_log(service.log), Conforms(6))

    def test_all_tickets(self):
        for tickets in (0, 2**64 - 2, 2**64, -1):
            with self.assertRaises(iox2sd.OutOfRangeError):
                Recorder(MessagingPattern.EVENT, 7, Capacities(1, 1, 1), tickets)
        for tickets in ("1", None, True, float(2**64), [2**64 - 1]):
            with self.assertRaises(iox2sd.WrongTypeError):
                Recorder(MessagingPattern.EVENT, 7, Capacities(1, 1, 1), tickets)

    def test_the_example(self):
        self.assertEqual(doctest.testmod(recorder), (0, 3))
