from datetime import timedelta
from functools import partial
from typing import Any

import iox2sd
from iox2sd import (
    AllocationStrategy, BackpressureStrategy, BlackboardSettings, DefaultText, Duration, EventId,
    EventSettings, PublishSubscribeSettings, PublishSubscribeStaticConfig, RequestResponseSettings,
    RequestResponseStaticConfig,
)

from . import TestCase
from .test_messages import details

MOST = 2**64 - 1


class Spans(TestCase):
    def test_spans_of_the_standard_library(self):
        for span, seconds, nanoseconds in (
            (timedelta(), 0, 0), (timedelta(microseconds=1), 0, 1000),
            (timedelta(milliseconds=1500), 1, 500_000_000),
            (timedelta(microseconds=2**53 + 1), 9007199254, 740993000),
            (timedelta.max, 86399999999999, 999_999_000),
        ):
            made = Duration.from_timedelta(span)
            self.assertEqual(made, Duration(seconds, nanoseconds))
            self.assertEqual(made.to_timedelta(), span)
        self.assertEqual(Duration(0, 1999).to_timedelta(), timedelta(microseconds=1))

    def test_spans_that_are_none(self):
        read = Duration.from_timedelta
        self.assertRaises(iox2sd.OutOfRangeError, read, timedelta(microseconds=-1))
        for wrong in (5, None, "1", Duration(1)):
            self.raised(iox2sd.WrongTypeError, read, wrong, text="expected timedelta")
        for seconds in (86400000000000, MOST):
            self.assertRaises(iox2sd.TooLargeError, Duration(seconds).to_timedelta)


class Defaults(TestCase):
    def test_publish_subscribe(self):
        expected = PublishSubscribeSettings(
            max_subscribers=8, max_publishers=2, max_nodes=20, subscriber_max_buffer_size=2,
            subscriber_max_borrowed_samples=2, publisher_max_loaned_samples=2,
            publisher_history_size=0, subscriber_expired_connection_buffer=128,
            backpressure_strategy=BackpressureStrategy.RETRY_UNTIL_DELIVERED,
            publisher_allocation_strategy=AllocationStrategy.STATIC, enable_safe_overflow=True,
        )
        self.assertEqual(PublishSubscribeSettings(), expected)

    def test_event(self):
        expected = EventSettings(
            max_listeners=16, max_notifiers=16, max_nodes=36, event_id_max_value=255, deadline=None,
            notifier_created_event=None, notifier_dropped_event=None, notifier_dead_event=None,
        )
        self.assertEqual(EventSettings(), expected)

    def test_request_response(self):
        expected = RequestResponseSettings(
            max_active_requests_per_client=4, max_response_buffer_size=2, max_servers=2,
            max_clients=8, max_nodes=20, max_borrowed_responses_per_pending_response=2,
            max_loaned_requests=2, server_max_loaned_responses_per_request=2,
            client_expired_connection_buffer=128, server_expired_connection_buffer=128,
            client_backpressure_strategy=BackpressureStrategy.RETRY_UNTIL_DELIVERED,
            server_backpressure_strategy=BackpressureStrategy.RETRY_UNTIL_DELIVERED,
            client_allocation_strategy=AllocationStrategy.STATIC,
            server_allocation_strategy=AllocationStrategy.STATIC,
            enable_safe_overflow_for_requests=True, enable_safe_overflow_for_responses=True,
            enable_fire_and_forget_requests=True,
        )
        self.assertEqual(RequestResponseSettings(), expected)


class Settings(TestCase):
    def test_chunks_of_publish_subscribe(self):
        given: "dict[str, Any]" = dict(
            subscriber_max_buffer_size=5, subscriber_max_borrowed_samples=7,
            publisher_history_size=11, publisher_max_loaned_samples=13,
        )
        settings, largest = (
            PublishSubscribeSettings(max_subscribers=many, **given) for many in (3, MOST)
        )
        count = settings.required_amount_of_samples_per_data_segment
        self.assertEqual(count(), 3 * (5 + 7) + 11 + 13)
        count = largest.required_amount_of_samples_per_data_segment
        self.assertRaises(iox2sd.TooLargeError, count)
        config = PublishSubscribeStaticConfig.new(details(), settings)
        of_loaned = config.required_amount_of_samples_per_data_segment
        self.assertEqual(of_loaned(17), 3 * (5 + 7) + 11 + 17)
        self.wrong_numbers(of_loaned)

    def wrong_numbers(self, count: Any):
        self.refuses(iox2sd.TooLargeError, count, MOST)
        self.refuses(iox2sd.OutOfRangeError, count, -1, 2**64)
        self.refuses(iox2sd.WrongTypeError, count, True, None)

    def test_chunks_of_request_response(self):
        given: "dict[str, Any]" = dict(
            max_servers=3, max_clients=17, max_response_buffer_size=7,
            max_borrowed_responses_per_pending_response=11, max_loaned_requests=13,
            server_max_loaned_responses_per_request=19,
        )
        settings, largest = (
            RequestResponseSettings(max_active_requests_per_client=many, **given)
            for many in (5, MOST)
        )
        config = RequestResponseStaticConfig.new(details(), details(), settings)
        for side, number, fixed in (
            ("client", 3 * 2 * 5 + 13, 3 * 2 * 5 + 23),
            ("server", 17 * 2 * 5 * (7 + 11 + 19), 17 * 2 * 5 * (7 + 11 + 23)),
        ):
            name = f"required_amount_of_chunks_per_{side}_data_segment"
            self.assertEqual(getattr(settings, name)(), number)
            self.assertRaises(iox2sd.TooLargeError, getattr(largest, name))
            self.assertEqual(getattr(config, name)(23), fixed)
            self.wrong_numbers(getattr(config, name))

    def test_optional_settings(self):
        longest = Duration(MOST, 999_999_999)
        settings = EventSettings(deadline=longest, notifier_dead_event=EventId(3))
        self.assertEqual(settings.deadline, longest)
        self.assertEqual(settings.notifier_dead_event, EventId(3))
        self.assertLess(Duration(1, 5), Duration(2))
        text = "Duration(seconds=5, nanoseconds=1000000000): "
        self.raised(iox2sd.BadDurationError, Duration, 5, 1_000_000_000, text=text)
        for nanoseconds in (-1, 2**32):
            self.assertRaises(iox2sd.OutOfRangeError, Duration, 0, nanoseconds)

    def test_wrong_arguments(self):
        wrong: "list[tuple[Any, str, tuple[Any, ...]]]" = [
            (PublishSubscribeSettings, "max_nodes", (True,)),
            (PublishSubscribeSettings, "enable_safe_overflow", (1,)),
            (PublishSubscribeSettings, "backpressure_strategy", (0, AllocationStrategy.STATIC)),
            (EventSettings, "deadline", (5,)), (EventSettings, "notifier_created_event", (5, True)),
            (RequestResponseSettings, "client_allocation_strategy", (None,)),
            (RequestResponseSettings, "max_clients", ("8",)),
            (BlackboardSettings, "max_readers", (8.0,)), (EventId, "value", (False,)),
            (Duration, "seconds", (0.5,)), (iox2sd.GlobalConfig, "creation_timeout", (5,)),
            (iox2sd.ServiceConfig, "cleanup_dead_nodes_on_open", (1,)),
        ]
        for kind, name, values in wrong:
            for value in values:
                with self.subTest(kind=kind, name=name), self.assertRaises(iox2sd.WrongTypeError):
                    kind(**{name: value})
        for kind in (BlackboardSettings, EventSettings):
            for number in (-1, 2**64):
                text = f"{kind.__name__}.max_nodes: expected 0 to 2^64 - 1, got {number}"
                made = partial(kind, max_nodes=number)
                self.assertEqual(str(self.raised(iox2sd.OutOfRangeError, made)), text)


class Texts(TestCase):
    def test_texts_of_the_configuration(self):
        expected = [
            "/tmp/iceoryx2/", "iox2_", "services", ".data", ".service", ".dynamic", ".connection",
            ".event", ".blackboard_mgmt", ".blackboard_data", "nodes", ".node_monitor", ".details",
            ".service_tag", ".port_tag", ".global_mgmt", "iceoryx2.toml", "config/iceoryx2.toml",
            "iceoryx2", "iceoryx2/iceoryx2.toml",
        ]
        self.assertEqual([iox2sd.default_text(which) for which in DefaultText], expected)
        self.refuses(iox2sd.WrongTypeError, iox2sd.default_text, 0, "PREFIX", None)
