from dataclasses import replace
from typing import Any

import iox2sd
from iox2sd import (
    AttributeKey, AttributeValue, AttributeVerifier, BlackboardSettings, BlackboardStaticConfig,
    Capacities, Duration, DynamicConfig, Error, EventId, EventSettings, EventStaticConfig,
    MessagingPattern, PublishSubscribeSettings, PublishSubscribeStaticConfig,
    RequestResponseSettings, RequestResponseStaticConfig, Requirements, ServiceName, ServiceNumbers,
    StaticConfig, TypeDetail, UniqueServiceId,
)

from . import TestCase, headers
from .test_messages import details

SERVICES: "tuple[Any, ...]" = (
    PublishSubscribeStaticConfig.new(details()),
    EventStaticConfig.new(EventSettings(deadline=Duration(1, 2))),
    RequestResponseStaticConfig.new(details(), details()),
    BlackboardStaticConfig.new(TypeDetail("Key", 8, 8)),
)


def others(value: object) -> object:
    """What a service with this value does not meet."""
    if isinstance(value, bool):
        return not value
    if isinstance(value, int):
        return value + 1
    if isinstance(value, Duration):
        return None
    return EventId(0)


class Satisfying(TestCase):
    def test_each_setting(self):
        seen = set()
        for service in SERVICES:
            self.assertIsNone(service.first_unmet(service))
            self.assertTrue(service.satisfies(service))
            for name in service.__dataclass_fields__:
                if name.endswith("type_details"):
                    continue
                seen.add(name)
                required = replace(service, **{name: others(getattr(service, name))})
                self.assertEqual(service.first_unmet(required), name)
                self.assertFalse(service.satisfies(required))
        self.assertEqual(len(seen), 25)

    def test_more_than_is_required(self):
        for service in SERVICES:
            self.assertTrue(service.satisfies(replace(service, max_nodes=1)))

    def test_the_first_of_two(self):
        for service, first in zip(SERVICES, ("max_subscribers", "max_notifiers")):
            required = replace(service, max_nodes=99, **{first: 99})
            self.assertEqual(service.first_unmet(required), first)

    def test_another_pattern(self):
        for service in SERVICES:
            for other in SERVICES:
                if other is not service:
                    self.assertRaises(iox2sd.WrongTypeError, service.satisfies, other)

    def test_an_invalid_deadline(self):
        service = SERVICES[1]
        required = replace(service)
        object.__setattr__(required, "deadline", iox2sd.Duration(0, 1))
        object.__setattr__(required.deadline, "nanoseconds", 10**9)
        self.assertRaises(iox2sd.BadDurationError, service.satisfies, required)

    def test_names_are_those_of_the_header(self):
        from iox2sd import static_config

        for i, name in enumerate(static_config._SETTINGS):
            self.assertEqual(headers.constant("FIELD", name.upper()), 8 + i)


RED = AttributeVerifier().require(AttributeKey("colour"), AttributeValue("red"))
ID = UniqueServiceId(1, 2, 3, 4)


class Opening(TestCase):
    """All that an opener requires, in one call."""

    def refused(self, service: Any, opener: Any, attributes: AttributeVerifier) -> "Error | None":
        """Why an opener is refused by a service without attributes."""
        described = StaticConfig(ServiceName("a"), ID, service)
        required = Requirements(pattern_config=opener, attributes=attributes)
        found = None
        try:
            described.check_satisfies(required)
        except Error as error:
            found = error
        self.assertEqual(described.satisfies(required), found is None)
        return found

    def test_each_pattern_meets_itself_and_no_other(self):
        for service in SERVICES:
            for opener in SERVICES:
                found = self.refused(service, opener, AttributeVerifier())
                if opener is service:
                    self.assertIsNone(found)
                else:
                    self.assertIsInstance(found, iox2sd.OtherPatternError)

    def test_the_first_reason(self):
        """The pattern comes before attributes, these before types, and the settings last."""
        sub, event, calls, board = SERVICES
        wide, large = details(alignment=16), details(size=16)
        none = AttributeVerifier()
        cases: "list[tuple[Any, Any, AttributeVerifier, type[Error], str]]" = [
            (sub, event, RED, iox2sd.OtherPatternError, "PUBLISH_SUBSCRIBE: "),
            (sub, replace(sub, message_type_details=wide), RED, iox2sd.MissingPairError, "Attr"),
            (sub, replace(sub, message_type_details=wide, max_nodes=99), none,
             iox2sd.GreaterAlignmentError, "the opener's payload: "),
            (calls, replace(calls, request_message_type_details=large,
                            response_message_type_details=wide), none,
             iox2sd.OtherSizeError, "the opener's payload: "),
            (calls, replace(calls, response_message_type_details=wide, max_nodes=99), none,
             iox2sd.GreaterAlignmentError, "the opener's payload: "),
            (board, replace(board, type_details=TypeDetail("Other", 8, 8), max_nodes=99), none,
             iox2sd.OtherNameError, "the opener's keys: "),
            (board, replace(board, type_details=TypeDetail("Key", 8, 4)), none,
             iox2sd.OtherAlignmentError, "the opener's keys: "),
            (sub, replace(sub, max_nodes=99), none, iox2sd.UnmetError, "max_nodes: "),
            (event, replace(event, deadline=None), none, iox2sd.UnmetError, "deadline: "),
        ]
        for service, opener, attributes, error, text in cases:
            with self.subTest(error=error, text=text):
                found = self.refused(service, opener, attributes)
                self.assertIs(type(found), error)
                self.assertTrue(str(found).startswith(text), found)

    def test_wrong_arguments(self):
        described = StaticConfig(ServiceName("a"), ID, SERVICES[1])
        wrong = (None, described, SERVICES[1], AttributeVerifier())
        self.refuses(iox2sd.WrongTypeError, described.satisfies, *wrong)
        self.assertRaises(iox2sd.WrongTypeError, Requirements, pattern_config=EventSettings())


class CapacitiesOfSettings(TestCase):
    def test_each_pattern(self):
        """A service is made of settings, of what is fixed, and of descriptions."""
        room = {"max_nodes": 3}
        samples = PublishSubscribeSettings(**room, max_publishers=4, max_subscribers=5)
        events = EventSettings(**room, max_listeners=4, max_notifiers=5)
        requests = RequestResponseSettings(**room, max_servers=4, max_clients=5)
        board = BlackboardSettings(**room, max_readers=4)
        for settings, fixed, pattern, second in (
            (samples, PublishSubscribeStaticConfig.new(details(), samples), 0, 5),
            (events, EventStaticConfig.new(events), 1, 5),
            (requests, RequestResponseStaticConfig.new(details(), details(), requests), 2, 5),
            (board, BlackboardStaticConfig.new(TypeDetail("Key", 8, 8), board), 3, 1),
        ):
            described = StaticConfig(ServiceName("a"), ID, fixed)
            self.assertEqual(described.capacities, Capacities(3, 4, second))
            for given in (settings, fixed, described):
                self.assertEqual(Capacities.of(given), described.capacities)
                with DynamicConfig.described(given, 7, tickets=2) as made:
                    self.assertIs(made.messaging_pattern, MessagingPattern(pattern))
                    again = DynamicConfig(made.messaging_pattern, 7, described.capacities)
                    with again:
                        self.assertEqual(repr(made), repr(again))
                    for counter in range(2):
                        made.register_node_id(iox2sd.UniqueNodeId(1, 0, 0, counter))
                    self.assertFalse(made.has_room_for_node)
                with DynamicConfig.described(given, 7) as made:
                    for _ in range(3):
                        made.register_node_id(iox2sd.UniqueNodeId(1, 0, 0, 0))

    def test_the_writers_of_a_blackboard(self):
        """As many as are fixed; one for settings, which have no such number, and for a description,
        which replaces it."""
        fixed = BlackboardStaticConfig(
            max_readers=4, max_writers=3, max_nodes=5, type_details=TypeDetail("Key", 8, 8)
        )
        self.assertEqual(Capacities.of(fixed), Capacities(5, 4, 3))
        self.assertEqual(Capacities.of(replace(fixed, max_writers=0)), Capacities(5, 4, 0))
        with DynamicConfig.described(fixed, 7) as made:
            self.assertEqual(made.max_ports(iox2sd.Role.WRITER), 3)
        described = StaticConfig(ServiceName("a"), ID, fixed)
        settings = BlackboardSettings(max_readers=4, max_nodes=5)
        for given in (described, described.pattern_config, settings):
            self.assertEqual(Capacities.of(given), Capacities(5, 4, 1))

    def test_wrong_arguments(self):
        for wrong in (None, Capacities(1, 2, 3), MessagingPattern.EVENT, ServiceName("a")):
            self.assertRaises(iox2sd.WrongTypeError, DynamicConfig.described, wrong, 7)
        self.refuses(iox2sd.WrongTypeError, Capacities.of, 3, None)


class Numbers(TestCase):
    def test_numbers_rise(self):
        numbers = ServiceNumbers()
        self.assertEqual((numbers.last, next(numbers), next(numbers), numbers.last), (0, 1, 2, 2))
        self.assertIs(iter(numbers), numbers)
        self.assertEqual(repr(numbers), "ServiceNumbers(2)")

    def test_none_after_the_last(self):
        numbers = ServiceNumbers(2**64 - 2)
        self.assertEqual(list(numbers), [2**64 - 1])
        self.assertEqual(list(numbers), [])

    def test_numbers_are_checked(self):
        self.refuses(iox2sd.OutOfRangeError, ServiceNumbers, -1, 2**64)
        self.refuses(iox2sd.WrongTypeError, ServiceNumbers, "1")
