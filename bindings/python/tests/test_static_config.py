import pickle
from dataclasses import fields, replace
from typing import Any

import iox2sd
from iox2sd import (
    AttributeSet, BlackboardSettings, BlackboardStaticConfig, Duration, EventId, EventSettings,
    EventStaticConfig, InternalServiceName, MessagingPattern, PublishSubscribeSettings,
    PublishSubscribeStaticConfig, RequestResponseSettings, RequestResponseStaticConfig, ServiceHash,
    ServiceName, StaticConfig, TypeDetail, UniqueServiceId,
)

from . import TestCase
from .test_fields import all_changed, variants
from .test_messages import details

NAME = ServiceName("My/Service")
ID = UniqueServiceId(1, 2, 3, 4)
MOST = 2**64 - 1

PATTERNS: "list[tuple[Any, MessagingPattern]]" = [
    (PublishSubscribeStaticConfig.new(details()), MessagingPattern.PUBLISH_SUBSCRIBE),
    (EventStaticConfig.new(), MessagingPattern.EVENT),
    (RequestResponseStaticConfig.new(details(), details()), MessagingPattern.REQUEST_RESPONSE),
    (BlackboardStaticConfig.new(TypeDetail("Key", 8, 8)), MessagingPattern.BLACKBOARD),
]


def vars_of(value: Any) -> "dict[str, Any]":
    return {field.name: getattr(value, field.name) for field in fields(value)}


class StaticConfigs(TestCase):
    def test_each_pattern(self):
        for config, pattern in PATTERNS:
            described = StaticConfig(NAME, ID, config)
            self.assertIs(described.messaging_pattern, pattern)
            self.assertEqual(described.service_hash, ServiceHash.new(NAME, pattern))
            self.assertEqual(described.attributes, AttributeSet())
            self.assertEqual((described.name, described.unique_service_id), (NAME, ID))
            self.assertEqual(pickle.loads(pickle.dumps(described)), described)
            for other, other_pattern in PATTERNS:
                same = described.has_same_messaging_pattern(StaticConfig(NAME, ID, other))
                self.assertEqual(same, pattern is other_pattern)

    def test_settings_are_taken_over(self):
        types = (details(), details(size=16), TypeDetail("Key", 8, 8))
        for kind, settings, own in (
            (PublishSubscribeStaticConfig, PublishSubscribeSettings(), types[:1]),
            (EventStaticConfig, EventSettings(), ()),
            (RequestResponseStaticConfig, RequestResponseSettings(), types[:2]),
            (BlackboardStaticConfig, BlackboardSettings(), types[2:]),
        ):
            settings = all_changed(settings)
            values = vars_of(kind.new(*own, settings))
            given = vars_of(settings)
            given["history_size"] = given.get("publisher_history_size")
            given["max_writers"] = 1
            for name in set(values) & set(given):
                self.assertEqual(values.pop(name), given[name], name)
            self.assertEqual(tuple(values.values()), own)

    def test_descriptions_show_what_they_are_made_of(self):
        configs = [config for config, _ in PATTERNS]
        event = configs[1]
        for deadline in (Duration(0), Duration(MOST, 999_999_999)):
            configs.append(replace(event, deadline=deadline, notifier_dead_event=EventId(MOST)))
        configs.append(replace(event, notifier_dropped_event=EventId(0)))
        configs += [other for config in configs[:4] for _, other in variants(config)]
        for config in configs:
            for name in (NAME, InternalServiceName.prefixed("x")):
                described = StaticConfig(name, ID, config)
                self.assertEqual(described.name, name)
                if isinstance(config, BlackboardStaticConfig):
                    config = replace(config, max_writers=1)
                self.assertEqual(described.pattern_config, config)
                of_name = ServiceHash.new(name, described.messaging_pattern)
                self.assertEqual(described.service_hash, of_name)

    def test_wrong_arguments(self):
        config = EventStaticConfig.new()
        cases: "list[tuple[Any, Any, Any, Any]]" = [
            ("My/Service", ID, config, AttributeSet()), (NAME, 7, config, AttributeSet()),
            (NAME, ID, EventSettings(), AttributeSet()), (NAME, ID, config, []),
        ]
        for given in cases:
            self.assertRaises(iox2sd.WrongTypeError, StaticConfig, *given)
        wrong: Any = BlackboardSettings()
        for call in (
            lambda: PublishSubscribeStaticConfig.new(details(), wrong),
            lambda: PublishSubscribeStaticConfig.new(wrong), lambda: EventStaticConfig.new(wrong),
            lambda: RequestResponseStaticConfig.new(details(), wrong),
            lambda: RequestResponseStaticConfig.new(details(), details(), wrong),
            lambda: BlackboardStaticConfig.new(wrong),
            lambda: StaticConfig(NAME, ID, config).has_same_messaging_pattern(wrong),
        ):
            self.assertRaises(iox2sd.WrongTypeError, call)
