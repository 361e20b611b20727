import copy
import gc
import pickle
import resource
import weakref
from functools import partial
from pathlib import Path
from typing import Any
from unittest import mock

import iox2sd
from iox2sd import (
    Capacities, ClientDetails, ContainerHandle, DataSegmentType, DeadNodeRemoval,
    DeregisterNodeState, DynamicConfig, ListenerDetails, MessagingPattern, NotifierDetails,
    PublisherDetails, ReaderDetails, Role, ServerDetails, SubscriberDetails, UniqueNodeId,
    WriterDetails,
)

from . import TestCase

MOST = 2**64 - 1
NODE = UniqueNodeId(1, 2, 3, 4)
OTHER = UniqueNodeId(5, 6, 7, 8)


def publisher(counter: int, node: UniqueNodeId = NODE) -> PublisherDetails:
    return PublisherDetails(
        publisher_id=iox2sd.UniquePublisherId(9, 9, 9, counter), node_id=node, number_of_samples=11,
        max_slice_len=MOST, data_segment_type=DataSegmentType.DYNAMIC, max_number_of_segments=255,
    )


def subscriber(counter: int, node: UniqueNodeId = NODE) -> SubscriberDetails:
    return SubscriberDetails(
        subscriber_id=iox2sd.UniqueSubscriberId(9, 9, 9, counter), node_id=node, buffer_size=13
    )


CLIENT = ClientDetails(
    client_id=iox2sd.UniqueClientId(1, 1, 1, 1), node_id=NODE, number_of_requests=17,
    response_buffer_size=19, max_slice_len=23, data_segment_type=DataSegmentType.STATIC,
    max_number_of_segments=1,
)
SERVER = ServerDetails(
    server_id=iox2sd.UniqueServerId(2, 2, 2, 2), node_id=NODE, request_buffer_size=29,
    number_of_responses=31, max_slice_len=37, data_segment_type=DataSegmentType.DYNAMIC,
    max_number_of_segments=2,
)
LISTENER = ListenerDetails(listener_id=iox2sd.UniqueListenerId(3, 3, 3, 3), node_id=NODE)
NOTIFIER = NotifierDetails(notifier_id=iox2sd.UniqueNotifierId(4, 4, 4, 4), node_id=NODE)
READER = ReaderDetails(reader_id=iox2sd.UniqueReaderId(5, 5, 5, 5), node_id=NODE)
WRITER = WriterDetails(writer_id=iox2sd.UniqueWriterId(6, 6, 6, 6), node_id=NODE)

PATTERNS = [
    (MessagingPattern.PUBLISH_SUBSCRIBE, publisher(1), subscriber(2)),
    (MessagingPattern.EVENT, LISTENER, NOTIFIER),
    (MessagingPattern.REQUEST_RESPONSE, SERVER, CLIENT),
    (MessagingPattern.BLACKBOARD, READER, WRITER),
]

LISTS: "dict[Role, Any]" = {
    role: getattr(DynamicConfig, f"list_{role.name.lower()}s") for role in Role if role.value
}

FACTORIES: "list[tuple[Any, tuple[str, str], tuple[Role, Role]]]" = [
    (DynamicConfig.publish_subscribe, ("publishers", "subscribers"),
     (Role.PUBLISHER, Role.SUBSCRIBER)),
    (DynamicConfig.event, ("listeners", "notifiers"), (Role.LISTENER, Role.NOTIFIER)),
    (DynamicConfig.request_response, ("servers", "clients"), (Role.SERVER, Role.CLIENT)),
    (DynamicConfig.blackboard, ("readers", "writers"), (Role.READER, Role.WRITER)),
]


def service(nodes: int = 2, publishers: int = 2, subscribers: int = 2) -> DynamicConfig:
    return DynamicConfig.publish_subscribe(
        7, max_nodes=nodes, max_publishers=publishers, max_subscribers=subscribers
    )


def calls(made: DynamicConfig, handle: ContainerHandle) -> "list[Any]":
    """Each call on a service."""
    return [
        lambda: made.register_node_id(NODE), lambda: made.deregister_node_id(handle),
        lambda: made.attach(publisher(1)), lambda: made.release_port(handle),
        lambda: made.remove_dead_node_id(NODE), lambda: made.registered(NODE).__enter__(),
        lambda: made.attached(publisher(1)).__enter__(), lambda: made.messaging_pattern,
        lambda: made.service_number, lambda: made.port_roles, lambda: made.has_role(Role.PUBLISHER),
        lambda: made.is_locked, lambda: made.number_of_nodes, lambda: made.max_nodes,
        lambda: made.has_room_for_node, lambda: made.count_ports(Role.PUBLISHER),
        lambda: made.max_ports(Role.PUBLISHER), lambda: made.has_room(Role.PUBLISHER),
        lambda: made.node(handle), lambda: made.port(handle), lambda: made.list_node_ids(),
        lambda: made.list_ports(Role.PUBLISHER), lambda: made.ports_of(NODE),
        *(lambda listed=listed: listed(made) for listed in LISTS.values()),
    ]


class Patterns(TestCase):
    def test_a_listing_has_the_node_of_each_port(self):
        nodes = [UniqueNodeId(process, 1, 2, 3) for process in (1, 2, 1, 3, 2, 1)]
        wanted = tuple(publisher(place, node) for place, node in enumerate(nodes, 1))
        with service(3, 6, 0) as made:
            for node in set(nodes):
                made.register_node_id(node)
            for details in wanted:
                made.attach(details)
            self.assertEqual(made.list_publishers(), wanted)
            for node in set(nodes):
                of_node = tuple(details for details in wanted if details.node_id == node)
                self.assertEqual(made.ports_of(node), of_node)

    def test_each_factory(self):
        for make, names, roles in FACTORIES:
            room = {"max_nodes": 9, **{f"max_{name}": 9 - at for at, name in enumerate(names, 1)}}
            with make(7, **room, tickets=2) as made, make(7, **room) as other:
                ports = tuple(other.max_ports(role) for role in roles)
                self.assertEqual((other.service_number, other.max_nodes, ports), (7, 9, (8, 7)))
                made.register_node_id(NODE)
                made.deregister_node_id(made.register_node_id(NODE))
                self.assertRaises(iox2sd.OutOfSpaceError, made.register_node_id, NODE)
                for _ in range(9):
                    other.register_node_id(NODE)
                self.assertEqual((made.number_of_nodes, other.number_of_nodes), (1, 9))
            with self.assertRaises(iox2sd.OutOfRangeError):
                make(7, **room, tickets=2**64)

    def test_each_pattern(self):
        for pattern, first, second in PATTERNS:
            with DynamicConfig(pattern, MOST, Capacities(1, 2, 3)) as made:
                self.assertEqual((made.messaging_pattern, made.service_number), (pattern, MOST))
                self.assertEqual(made.port_roles, (first.role, second.role))
                made.register_node_id(NODE)
                for details, room in ((first, 2), (second, 3)):
                    self.assertTrue(made.has_role(details.role) and made.has_room(details.role))
                    handle = made.attach(details)
                    self.assertEqual(handle, ContainerHandle(MOST, details.role, 0, 0))
                    self.assertEqual(made.port(handle), details)
                    self.assertEqual(LISTS[details.role](made), (details,))
                    self.assertEqual(made.list_ports(details.role), (details,))
                    self.assertEqual(made.count_ports(details.role), 1)
                    self.assertEqual(made.max_ports(details.role), room)
                self.assertEqual(made.ports_of(NODE), (first, second))
                self.other_roles(made, {first.role, second.role})

    def other_roles(self, made: DynamicConfig, own: "set[Role]"):
        for role in set(Role) - own:
            self.assertFalse(made.has_role(role))
            for call in (made.list_ports, made.count_ports, made.max_ports, made.has_room):
                self.raised(iox2sd.RoleNotInPatternError, call, role, text=role.name)
        for role in set(LISTS) - own:
            self.assertRaises(iox2sd.RoleNotInPatternError, LISTS[role], made)
        for _, *ports in PATTERNS:
            for details in ports:
                if details.role not in own:
                    self.assertRaises(iox2sd.RoleNotInPatternError, made.attach, details)

    def test_texts_that_evaluate(self):
        for pattern, *_ in PATTERNS:
            with DynamicConfig(pattern, MOST, Capacities(1, 2, 3)) as made:
                text = repr(made)
                room = "Capacities(nodes=1, first=2, second=3)"
                self.assertEqual(text, f"DynamicConfig({pattern!r}, {MOST}, {room})")
                with eval(text, vars(iox2sd)) as again:
                    self.assertEqual(repr(again), text)
            self.assertEqual(repr(made), "<a closed DynamicConfig>")


class Nodes(TestCase):
    def test_register_and_deregister(self):
        with service() as made:
            first, second = made.register_node_id(NODE), made.register_node_id(OTHER)
            self.assertEqual(first, ContainerHandle(7, Role.NODE, 0, 0))
            self.assertEqual(second, ContainerHandle(7, Role.NODE, 1, 1))
            self.assertEqual((second.service, second.slot), (made.service_number, 1))
            self.assertEqual((made.node(first), made.node(second)), (NODE, OTHER))
            self.assertEqual(made.list_node_ids(), (NODE, OTHER))
            self.assertEqual((made.number_of_nodes, made.max_nodes), (2, 2))
            self.assertFalse(made.has_room_for_node or made.is_locked)
            text = "register node 9000000090000000900000009: "
            node = UniqueNodeId(9, 9, 9, 9)
            self.raised(iox2sd.OutOfSpaceError, made.register_node_id, node, text=text)
            self.assertIs(made.deregister_node_id(first), DeregisterNodeState.HAS_OWNERS)
            self.assertTrue(made.has_room_for_node)
            self.assertEqual(made.register_node_id(NODE), ContainerHandle(7, Role.NODE, 0, 2))

    def test_the_last_node_locks(self):
        with service() as made:
            handle = made.register_node_id(NODE)
            self.assertIs(made.deregister_node_id(handle), DeregisterNodeState.NO_MORE_OWNERS)
            self.assertTrue(made.is_locked)
            self.assertRaises(iox2sd.IsLockedError, made.register_node_id, NODE)
            self.assertRaises(iox2sd.IsLockedError, made.attach, publisher(1))

    def test_foreign_handles(self):
        with service() as made:
            node = made.register_node_id(NODE)
            port = made.attach(publisher(1))
            foreign = [
                ContainerHandle(8, Role.NODE, 0, 0), ContainerHandle(7, Role.NODE, 1, 0),
                ContainerHandle(7, Role.NODE, 0, 1), ContainerHandle(MOST, Role.WRITER, MOST, MOST),
            ]
            for call in (made.deregister_node_id, made.node):
                self.refuses(iox2sd.ForeignHandleError, call, *foreign, port)
            for call in (made.release_port, made.port):
                self.refuses(iox2sd.ForeignHandleError, call, *foreign, node)

    def test_a_node_with_ports_stays(self):
        with service() as made:
            node = made.register_node_id(NODE)
            made.attach(publisher(1))
            self.assertRaises(iox2sd.PortsStillAttachedError, made.deregister_node_id, node)
            second = made.register_node_id(NODE)
            self.assertIs(made.deregister_node_id(node), DeregisterNodeState.HAS_OWNERS)
            self.assertEqual(made.node(second), NODE)

    def test_tickets(self):
        config = DynamicConfig(MessagingPattern.EVENT, 7, Capacities(9, 9, 9), tickets=1)
        with config as made:
            made.register_node_id(NODE)
            self.assertFalse(made.has_room_for_node)
            self.assertRaises(iox2sd.OutOfSpaceError, made.register_node_id, OTHER)
            made.release_port(made.attach(LISTENER))
            self.assertTrue(made.has_room(Role.NOTIFIER) and not made.has_room(Role.LISTENER))
            self.assertRaises(iox2sd.OutOfSpaceError, made.attach, LISTENER)

    def test_with_statements(self):
        with service() as made:
            with made.registered(NODE) as node:
                self.assertEqual(made.node(node), NODE)
                with made.attached(publisher(1)) as port:
                    self.assertEqual(made.port(port), publisher(1))
                self.assertEqual(made.list_publishers(), ())
            self.assertTrue(made.is_locked)

    def test_an_exception_leaves_a_with_statement(self):
        """What was registered and attached is given back, and the exception is the body's own."""

        class Own(BaseException):
            """As `KeyboardInterrupt` is one."""

        made = service()
        with self.assertRaises(Own), made:
            raise Own
        self.assertTrue(made.closed)
        with service() as made:
            made.register_node_id(OTHER)
            with self.assertRaises(Own), made.registered(NODE):
                raise Own
            self.assertEqual(made.list_node_ids(), (OTHER,))
            with self.assertRaises(Own), made.registered(NODE):
                with made.attached(publisher(1)):
                    raise Own
            self.assertEqual((made.list_node_ids(), made.list_publishers()), ((OTHER,), ()))
            # Where giving back is refused too, the body's exception is raised.
            with self.assertRaises(Own), made.registered(NODE):
                made.attach(publisher(2))
                raise Own
            self.assertEqual(made.list_node_ids(), (OTHER, NODE))
        with service() as made:
            with self.assertRaises(iox2sd.PortsStillAttachedError), made.registered(NODE):
                made.attach(publisher(1))
            with self.assertRaises(iox2sd.ForeignHandleError), made.attached(publisher(2)) as port:
                made.release_port(port)

    def test_a_node_without_a_place(self):
        with service(1) as made:
            made.register_node_id(NODE)
            with self.assertRaises(iox2sd.OutOfSpaceError), made.registered(OTHER):
                self.fail("nothing was registered")


class Ports(TestCase):
    def test_attach_and_release(self):
        with service() as made:
            self.assertRaises(iox2sd.NodeNotRegisteredError, made.attach, publisher(1))
            made.register_node_id(NODE)
            handles = [made.attach(publisher(counter)) for counter in (1, 2)]
            text = "attach publisher 9000000090000000900000003: "
            self.raised(iox2sd.OutOfSpaceError, made.attach, publisher(3), text=text)
            self.assertFalse(made.has_room(Role.PUBLISHER))
            made.release_port(handles[0])
            self.assertRaises(iox2sd.ForeignHandleError, made.release_port, handles[0])
            self.assertEqual(made.attach(publisher(3)), ContainerHandle(7, Role.PUBLISHER, 0, 2))
            self.assertEqual(made.list_publishers(), (publisher(3), publisher(2)))

    def test_lists_of_any_length(self):
        with service(1, 100, 100) as made:
            made.register_node_id(NODE)
            publishers, subscribers = (tuple(map(of, range(100))) for of in (publisher, subscriber))
            for details in publishers + subscribers:
                made.attach(details)
            self.assertEqual(made.list_publishers(), publishers)
            self.assertEqual(made.ports_of(NODE), publishers + subscribers)

    def test_ports_of_a_node(self):
        with service() as made:
            for node in (NODE, OTHER):
                made.register_node_id(node)
            for port in (subscriber(1, OTHER), subscriber(2), publisher(3), publisher(4, OTHER)):
                made.attach(port)
            self.assertEqual(made.ports_of(NODE), (publisher(3), subscriber(2)))
            self.assertEqual(made.ports_of(OTHER), (publisher(4, OTHER), subscriber(1, OTHER)))
            self.assertEqual(made.ports_of(UniqueNodeId(1, 2, 3, 5)), ())

    def test_a_list_keeps_what_it_has(self):
        with service() as made:
            made.register_node_id(NODE)
            handle = made.attach(publisher(1))
            listed, nodes = made.list_publishers(), made.list_node_ids()
            made.release_port(handle)
        self.assertEqual((listed, nodes), ((publisher(1),), (NODE,)))

    def test_details(self):
        self.assertEqual((CLIENT.port_id, CLIENT.role), (CLIENT.client_id, Role.CLIENT))


class DeadNodes(TestCase):
    def filled(self) -> DynamicConfig:
        made = service(3, 3, 3)
        for node in (NODE, OTHER, NODE):
            made.register_node_id(node)
        for details in (publisher(1), publisher(2), publisher(3, OTHER), subscriber(4)):
            made.attach(details)
        return made

    def removed(self, made: DynamicConfig, node: UniqueNodeId, *keep: Any) -> "tuple[Any, ...]":
        gone = made.remove_dead_node_id(node, *keep)
        self.assertIsInstance(gone, DeadNodeRemoval)
        return gone.state.name, gone.first, gone.second

    def test_all_goes(self):
        with self.filled() as made:
            self.assertEqual(self.removed(made, NODE), ("HAS_OWNERS", 2, 1))
            self.assertEqual(made.list_node_ids(), (OTHER,))
            self.assertEqual(self.removed(made, OTHER), ("NO_MORE_OWNERS", 1, 0))

    def test_some_ports_are_kept(self):
        with self.filled() as made:
            keep = (port.port_id for port in made.ports_of(NODE)[1:])
            self.assertEqual(self.removed(made, NODE, keep), ("HAS_OWNERS", 1, 0))
            self.assertEqual(made.ports_of(NODE), (publisher(2), subscriber(4)))
            self.assertEqual(made.list_node_ids(), (NODE, OTHER, NODE))

    def test_ids_to_keep_come_in_any_order(self):
        """Falling, each between ids of other kinds with its number."""
        kinds = iox2sd.UniqueWriterId, iox2sd.UniquePublisherId, iox2sd.UniqueSubscriberId
        for kept in ((3, 2, 1), (3, 1), (1, 2), (2,)):
            with self.subTest(kept), service(1, 3, 0) as made:
                made.register_node_id(NODE)
                for counter in (2, 1, 3):
                    made.attach(publisher(counter))
                keep = [kind(9, 9, 9, counter) for counter in kept for kind in kinds]
                gone = self.removed(made, NODE, keep)
                self.assertEqual(gone, ("HAS_OWNERS", 3 - len(kept), 0))
                left = {port.port_id.counter for port in made.ports_of(NODE)}
                self.assertEqual(left, set(kept))

    def test_the_library_gets_sorted_ids(self):
        """By numbers, then by roles: it finds them by halves then."""
        low, high = (iox2sd.UniqueSubscriberId(1, 0, 0, counter) for counter in (1, 2))
        publishers = [iox2sd.UniquePublisherId(1, 0, 0, counter) for counter in (2, 1)]
        with self.filled() as made, mock.patch.object(
            iox2sd._native, "remove_dead_node_id_at", wraps=iox2sd._native.remove_dead_node_id_at
        ) as call:
            made.remove_dead_node_id(NODE, [high, *publishers, low])
        ids = [(one.port.counter, one.role) for one in call.call_args.args[-2]]
        roles = Role.PUBLISHER.value, Role.SUBSCRIBER.value
        self.assertEqual(ids, [(counter, role) for counter in (1, 2) for role in roles])

    def test_an_unknown_node(self):
        with self.filled() as made:
            self.assertEqual(self.removed(made, UniqueNodeId(1, 2, 3, 5)), ("HAS_OWNERS", 0, 0))


class Ends(TestCase):
    def test_a_closed_service(self):
        made = service()
        handle = made.register_node_id(NODE)
        self.assertFalse(made.closed)
        made.close()
        made.close()
        self.assertTrue(made.closed)
        for call in calls(made, handle):
            self.assertRaises(iox2sd.NoServiceError, call)

    def test_a_service_is_not_made_twice(self):
        with service() as made:
            handle = made.register_node_id(NODE)
            again = (MessagingPattern.EVENT, 8, Capacities(1, 1, 1))
            self.assertRaises(iox2sd.HasServiceError, made.__init__, *again)
            self.assertEqual(made.node(handle), NODE)

    def test_services_and_their_numbers_are_not_copied(self):
        with service() as made:
            for call in (copy.copy, copy.deepcopy, pickle.dumps):
                self.refuses(TypeError, call, made, iox2sd.ServiceNumbers(5))

    def test_a_service_goes_with_its_object(self):
        gone = weakref.ref(service())
        gc.collect()
        self.assertIsNone(gone())

    def test_memory_goes_with_its_object(self):
        def taken():
            return int(Path("/proc/self/statm").read_text().split()[0]) * resource.getpagesize()

        for _ in range(3):
            service(100_000, 0, 0)
        before = taken()
        for _ in range(100):
            service(100_000, 0, 0)
        self.assertLess(taken() - before, 50 * 16 * 100_000)

    def test_no_memory(self):
        for room in ((MOST, 1, 1), (1, MOST, 1), (1, 1, MOST)):
            error = self.raised(MemoryError, service, *room)
            self.assertIsInstance(error, iox2sd.NoMemoryError)


class Arguments(TestCase):
    def test_wrong_types(self):
        with service() as made:
            wrong: "list[Any]" = [None, 0, True, "x", publisher(1).publisher_id, made, 10**5000]
            for call in (
                made.register_node_id, made.deregister_node_id, made.attach, made.release_port,
                made.remove_dead_node_id, made.has_role, made.count_ports, made.max_ports,
                made.has_room, made.node, made.port, made.list_ports, made.ports_of,
                lambda value: made.remove_dead_node_id(NODE, [value, NODE]),
            ):
                self.refuses(iox2sd.WrongTypeError, call, *wrong)

    def test_makers(self):
        room = Capacities(1, 1, 1)
        wrong: "list[tuple[Any, ...]]" = [
            (1, 7, room), (MessagingPattern.EVENT, "7", room), (MessagingPattern.EVENT, True, room),
            (MessagingPattern.EVENT, 7, (1, 1, 1)), (MessagingPattern.EVENT, 7, room, 1.0),
        ]
        for given in wrong:
            self.assertRaises(iox2sd.WrongTypeError, DynamicConfig, *given)
        for number in (-1, 2**64):
            for given in ((number, room), (7, room, number)):
                pattern = MessagingPattern.EVENT
                self.assertRaises(iox2sd.OutOfRangeError, DynamicConfig, pattern, *given)
            for numbers in ((number, 1, 1), (1, number, 1), (1, 1, number)):
                self.assertRaises(iox2sd.OutOfRangeError, Capacities, *numbers)

    def test_handles_and_details(self):
        for given in ((-1, Role.NODE, 0, 0), (0, Role.NODE, 2**64, 0), (0, Role.NODE, 0, 2**64)):
            self.assertRaises(iox2sd.OutOfRangeError, ContainerHandle, *given)
        self.assertRaises(iox2sd.WrongTypeError, ContainerHandle, 0, 0, 0, 0)
        given: "dict[str, Any]" = dict(
            publisher_id=iox2sd.UniquePublisherId(0, 0, 0, 0), node_id=NODE, number_of_samples=0,
            max_slice_len=0, data_segment_type=DataSegmentType.STATIC, max_number_of_segments=1,
        )
        PublisherDetails(**given)
        for error, name, value in (
            (iox2sd.WrongTypeError, "publisher_id", CLIENT.client_id),
            (iox2sd.WrongTypeError, "node_id", CLIENT.client_id),
            (iox2sd.WrongTypeError, "number_of_samples", True),
            (iox2sd.WrongTypeError, "data_segment_type", 1),
            (iox2sd.WrongTypeError, "max_number_of_segments", "1"),
            (iox2sd.OutOfRangeError, "max_number_of_segments", 256),
            (iox2sd.OutOfRangeError, "max_slice_len", 2**64),
        ):
            made = partial(PublisherDetails, **{**given, name: value})
            self.raised(error, made, text=f"PublisherDetails.{name}: ")
