import threading
import time
from functools import partial
from typing import Callable
from unittest import mock

import iox2sd
from iox2sd import DynamicConfig, ServiceNumbers, UniqueNodeId, _native

from . import TestCase
from .test_dynamic_config import publisher, service
from .test_traps import before, switches

THREADS = 16


def node(number: int) -> UniqueNodeId:
    return UniqueNodeId(number + 1, 0, 0, 1)


def run(work: "list[Callable[[], None]]") -> "list[BaseException]":
    """Carries out all work at once, each on a thread of its own, and answers what was raised."""
    raised: "list[BaseException]" = []
    start = threading.Barrier(len(work))

    def carried_out(part: Callable[[], None]):
        try:
            start.wait()
            part()
        except BaseException as error:
            raised.append(error)

    threads = [threading.Thread(target=carried_out, args=(part,)) for part in work]
    with switches():
        for thread in threads:
            thread.start()
        for thread in threads:
            thread.join()
    return raised


class Threads(TestCase):
    def test_sixteen_threads_share_a_service(self):
        rounds = 100
        made = service(THREADS + 1, THREADS, 0)
        stays = made.register_node_id(node(THREADS))
        tickets: "list[int]" = []

        def join(number: int):
            for _ in range(rounds):
                with made.registered(node(number)) as handle:
                    tickets.append(handle.ticket)
                    with made.attached(publisher(number, node(number))):
                        self.assertIn(node(number), made.list_node_ids())
                        found = made.ports_of(node(number))
                        self.assertEqual(found, (publisher(number, node(number)),))

        self.assertEqual(run([partial(join, number) for number in range(THREADS)]), [])
        self.assertEqual(sorted(tickets), list(range(1, THREADS * rounds + 1)))
        self.assertEqual((made.list_node_ids(), made.list_publishers()), ((node(THREADS),), ()))
        self.assertEqual(made.node(stays), node(THREADS))
        made.close()

    def test_closing_among_sixteen_threads(self):
        for _ in range(20):
            made = service(THREADS, THREADS, 0)
            made.register_node_id(node(THREADS))

            def join(number: int):
                while True:
                    made.register_node_id(node(number))
                    made.attach(publisher(number, node(number)))
                    made.list_publishers()
                    made.remove_dead_node_id(node(number))

            def close():
                time.sleep(0.01)
                made.close()

            work = [lambda number=number: join(number) for number in range(THREADS - 1)]
            raised = run([*work, close])
            self.assertEqual({type(error) for error in raised}, {iox2sd.NoServiceError})
            self.assertEqual(len(raised), THREADS - 1)
            self.assertTrue(made.closed)

    def test_a_service_may_be_closed_by_many(self):
        for _ in range(100):
            made = DynamicConfig.event(7, max_nodes=9, max_listeners=9, max_notifiers=9)
            self.assertEqual(run([made.close] * THREADS), [])
            self.assertTrue(made.closed)

    def test_sixteen_threads_ask_one_service(self):
        made = DynamicConfig.publish_subscribe(
            7, max_nodes=3, max_publishers=2, max_subscribers=1, tickets=9
        )
        nodes = [made.register_node_id(node(number)) for number in (1, 2)]
        ports = [made.attach(publisher(number, node(1))) for number in (3, 4)]

        def answers() -> "list[object]":
            roles = made.port_roles
            return [
                *(made.messaging_pattern, made.service_number, roles, made.is_locked, repr(made)),
                *(made.number_of_nodes, made.max_nodes, made.has_room_for_node, made.closed),
                *(made.list_node_ids(), made.ports_of(node(1)), made.ports_of(node(2))),
                *(made.node(handle) for handle in nodes),
                *(made.port(handle) for handle in ports),
                *(made.has_role(role) for role in iox2sd.Role),
                *((made.count_ports(role), made.max_ports(role)) for role in roles),
                *((made.has_room(role), made.list_ports(role)) for role in roles),
            ]

        wanted = answers()
        self.assertIn((publisher(3, node(1)), publisher(4, node(1))), wanted)

        def ask():
            for _ in range(20):
                self.assertEqual(answers(), wanted)

        self.assertEqual(run([ask] * THREADS), [])
        made.close()

    def test_a_number_is_that_of_the_call(self):
        """Another call comes between the library's answer and the end of the first."""
        numbers, taken = ServiceNumbers(), []
        numbered = _native.next_service_number_at

        def overtaken(*arguments):
            answer = numbered(*arguments)
            with mock.patch.object(_native, "next_service_number_at", numbered):
                taken.append(next(numbers))
            return answer

        with mock.patch.object(_native, "next_service_number_at", overtaken):
            taken.append(next(numbers))
        self.assertEqual(taken, [2, 1])

    def test_sixteen_threads_take_numbers(self):
        numbers, rounds = ServiceNumbers(), 1000
        taken: "list[int]" = []

        def take():
            for _ in range(rounds):
                taken.append(next(numbers))

        self.assertEqual(run([take] * THREADS), [])
        self.assertEqual(sorted(taken), list(range(1, THREADS * rounds + 1)))

    def test_a_service_that_is_closed_while_it_is_printed(self):
        made = service()
        with before("max_nodes_at", lambda *_: made.close()):
            self.assertEqual(repr(made), "<a closed DynamicConfig>")

    def test_sixteen_threads_have_a_service_each(self):
        def keep(number: int):
            for _ in range(100):
                room = iox2sd.Capacities(1, 1, 1)
                with DynamicConfig(iox2sd.MessagingPattern.EVENT, number, room) as made:
                    handle = made.register_node_id(node(number))
                    self.assertEqual((handle.service, handle.ticket), (number, 0))
                    self.assertEqual(made.list_node_ids(), (node(number),))

        work = [partial(keep, number) for number in range(THREADS)]
        self.assertEqual(run(work), [])
