"""Each field of each value counts, and each field of a struct of C is read by its own name."""

import copy
import dataclasses
import enum
import importlib.util
import pickle
from typing import Any
from unittest import mock

import iox2sd
from iox2sd import _native, details, settings

from . import TestCase
from .test_attributes import pair
from .test_dynamic_config import (
    CLIENT, LISTENER, NODE, NOTIFIER, READER, SERVER, WRITER, publisher, subscriber,
)
from .test_texts import ALL

TYPE = iox2sd.TypeDetail("type", 4, 2)
OTHER_TYPE = iox2sd.TypeDetail("other", 4, 2)
MESSAGE = iox2sd.MessageTypeDetails(TYPE, TYPE, TYPE)

PORTS = (publisher(1), subscriber(1), LISTENER, NOTIFIER, SERVER, CLIENT, READER, WRITER)

EVENT = iox2sd.EventStaticConfig.new()


TOLD = iox2sd.Configuration((8,), "list", (NODE,), (1,))
UNKNOWN = iox2sd.UnknownKey("file", 1, 2, "key", "meant", iox2sd.Likeness.NEAR, "reason")

VALUES: "list[Any]" = [
    *(kind(1, 2, 3, 4) for kind in details.UniquePortId.__args__),  # type: ignore[attr-defined]
    NODE, iox2sd.UniqueServiceId(1, 2, 3, 4), iox2sd.ContainerHandle(7, iox2sd.Role.NODE, 1, 2),
    iox2sd.Capacities(1, 2, 3),
    iox2sd.DeadNodeRemoval(iox2sd.DeregisterNodeState.HAS_OWNERS, 1, 2),
    iox2sd.LogCommand.nodes(), iox2sd.LogReply.count(9),
    TOLD, iox2sd.Conforms(9), iox2sd.NoOrder(9, 9, "x", 8, "c", 7, (7,), (TOLD,)),
    iox2sd.TooManyConfigurations(9),
    iox2sd.TooManyOpenCalls(9),
    iox2sd.UnexpectedLine(9, iox2sd.Expected.REPLY),
    iox2sd.ConfigFault("file", 1, 2, "key", "reason", iox2sd.Status.BELOW_ZERO),
    UNKNOWN,
    iox2sd.ConfigFile(iox2sd.Config(), (UNKNOWN,)),
    *PORTS, TYPE, MESSAGE, pair("key", "value"), iox2sd.Layout(8, 4), iox2sd.Places(8, 16),
    iox2sd.Duration(1, 2), iox2sd.EventId(1),
    iox2sd.EventSettings(deadline=iox2sd.Duration(1, 2), notifier_dead_event=iox2sd.EventId(3)),
    *(kind() for kind in settings.PatternSettings.__args__),  # type: ignore[attr-defined]
    iox2sd.ServiceConfig(), iox2sd.NodeConfig(), iox2sd.GlobalConfig(), iox2sd.Defaults(),
    iox2sd.Config(), iox2sd.AttributeSpecifier(), iox2sd.AttributeVerifier(), EVENT,
    iox2sd.PublishSubscribeStaticConfig.new(MESSAGE), iox2sd.BlackboardStaticConfig.new(TYPE),
    iox2sd.RequestResponseStaticConfig.new(MESSAGE, MESSAGE),
    iox2sd.Requirements(pattern_config=EVENT),
    iox2sd.StaticConfig(iox2sd.ServiceName("name"), iox2sd.UniqueServiceId(1, 2, 3, 4), EVENT),
]
"""A value of each class."""


def changed(value: Any) -> "list[Any]":
    """Values of the same type, or of another that may stand there, that are not the same."""
    if isinstance(value, bool):
        return [not value]
    if isinstance(value, int):
        return [value - 1 if value else 1]
    if isinstance(value, enum.Enum):
        return [member for member in type(value) if member is not value]
    if isinstance(value, str):
        return [type(value)(value + "x")]
    if isinstance(value, tuple):
        return [(*value, iox2sd.AttributeKey("key"))]
    if isinstance(value, iox2sd.AttributeSet):
        return [iox2sd.AttributeSet([*value, pair("k", "v")])]
    if isinstance(value, iox2sd.TypeDetail):
        return [OTHER_TYPE]
    if isinstance(value, iox2sd.EventStaticConfig):
        return [dataclasses.replace(value, max_nodes=1), iox2sd.BlackboardStaticConfig.new(TYPE)]
    if isinstance(value, iox2sd.EventSettings):
        return [dataclasses.replace(value, max_nodes=1)]
    if isinstance(value, iox2sd.MessageTypeDetails):
        return [dataclasses.replace(value, payload=OTHER_TYPE)]
    return [
        dataclasses.replace(value, **{field.name: other})
        for field in dataclasses.fields(value)
        for other in changed(getattr(value, field.name))
    ]


OF_NONE = {
    "deadline": iox2sd.Duration(1, 2), "notifier_created_event": iox2sd.EventId(1),
    "notifier_dropped_event": iox2sd.EventId(1), "notifier_dead_event": iox2sd.EventId(1),
}
"""What may stand where None does."""

POWERS = {"alignment": [1, 8]}
"""What may stand where a number must be a power of two."""


def variants(value: Any) -> "list[tuple[str, Any]]":
    """The value with each field changed in turn, in each way."""
    found = []
    for field in dataclasses.fields(value):
        if not field.init:
            continue
        now = getattr(value, field.name)
        if now is None:
            others = [OF_NONE[field.name]]
        elif isinstance(value, iox2sd.TypeDetail) and field.name in POWERS:
            others = POWERS[field.name]
        else:
            others = changed(now)
            if field.name in OF_NONE:
                others.append(None)
        found += [(field.name, dataclasses.replace(value, **{field.name: o})) for o in others]
    return found


def all_changed(value: Any) -> Any:
    """The value with each field changed, those of its parts too."""
    others: "dict[str, Any]" = {}
    for name, other in variants(value):
        now = getattr(value, name)
        is_value = dataclasses.is_dataclass(now)
        others.setdefault(name, all_changed(now) if is_value else getattr(other, name))
    return dataclasses.replace(value, **others)


class Fields(TestCase):
    def differ(self, one: Any, other: Any):
        self.assertTrue(one != other and not one == other)
        self.assertNotEqual(hash(one), hash(other))
        self.assertNotEqual(repr(one), repr(other))
        self.assertEqual(len({one, other}), 2)

    def test_each_class_has_a_value(self):
        values = {
            kind
            for kind in vars(iox2sd).values()
            if isinstance(kind, type) and dataclasses.is_dataclass(kind)
        }
        self.assertEqual({iox2sd.UniqueId, *map(type, VALUES)}, values)

    def test_each_field_counts(self):
        for value in VALUES:
            same = copy.deepcopy(value)
            self.assertTrue(value == same and not value != same and hash(value) == hash(same))
            changes = variants(value)
            names = {field.name for field in dataclasses.fields(value) if field.init}
            self.assertEqual({name for name, _ in changes}, names)
            for name, other in changes:
                with self.subTest(value=value, field=name):
                    self.assertIs(type(other), type(value))
                    self.differ(value, other)

    def test_values_that_have_an_order(self):
        """They are ordered by the first field that differs."""
        rising: "list[list[Any]]" = [
            [pair("a", "v"), pair("a", "w"), pair("b", "u")],
            [iox2sd.Duration(1, 5), iox2sd.Duration(1, 6), iox2sd.Duration(2, 0)],
            [iox2sd.EventId(9), iox2sd.EventId(10)],
        ]
        for values in rising:
            self.assertEqual(sorted(reversed(values)), values)
            for less, greater in zip(values, values[1:]):
                self.assertTrue(less < greater and less <= greater and not less > greater)
                self.assertTrue(greater > less and greater >= less and not greater < less)

    def test_texts_that_evaluate(self):
        enums = [
            member
            for kind in vars(iox2sd).values()
            if isinstance(kind, type) and issubclass(kind, enum.Enum)
            for member in kind
        ]
        self.assertGreater(len(enums), 40)
        for value in [*VALUES, *enums]:
            again = eval(repr(value), vars(iox2sd))
            self.assertEqual((again, type(again)), (value, type(value)))

    def test_kinds_differ(self):
        for place, one in enumerate(VALUES):
            for other in VALUES[:place]:
                self.assertTrue(one != other and not one == other)
                self.assertNotEqual(repr(one), repr(other))

    def test_values_are_copied_and_pickled_in_every_protocol(self):
        others = [iox2sd.AttributeSet([pair("k", "v")] * 2), iox2sd.Role.NODE]
        for value in [*VALUES, *others, *(kind("abc") for kind in ALL)]:
            copies = [copy.copy(value), copy.deepcopy(value)]
            for protocol in range(pickle.HIGHEST_PROTOCOL + 1):
                copies.append(pickle.loads(pickle.dumps(value, protocol)))
            for again in copies:
                with self.subTest(value=value):
                    self.assertEqual((again, type(again)), (value, type(value)))

    def test_sets_have_repeats(self):
        letters = ["", "av", "aw", "bv", "avav", "avbv", "avavbv", "avbvbv"]
        sets = [
            iox2sd.AttributeSet(pair(text[at], text[at + 1]) for at in range(0, len(text), 2))
            for text in letters
        ]
        for place, one in enumerate(sets):
            for other in sets[:place]:
                self.differ(one, other)


class Structs(TestCase):
    """Each field of a struct is read and written by its own name."""

    def test_ports(self):
        names = [name for name, *_ in _native.PortDetails._fields_[3:]]
        numbers = {name: number for number, name in enumerate(names, 10)} | {"data_segment": 1}
        ids = {"port": _native.Id(1, 2, 3, 4), "node": _native.Id(5, 6, 7, 8)}
        for port in PORTS:
            c = _native.PortDetails(role=port.role.value, **ids, **numbers)
            read = details.details_of(c)
            self.assertEqual((type(read), read.role), (type(port), port.role))
            self.assertEqual(read.port_id, type(port.port_id)(1, 2, 3, 4))
            self.assertEqual(read.node_id, iox2sd.UniqueNodeId(5, 6, 7, 8))
            own = {field.name for field in dataclasses.fields(read)[2:]}
            if "data_segment_type" in own:
                self.assertIs(read.data_segment_type, iox2sd.DataSegmentType.STATIC)
                own = own - {"data_segment_type"} | {"data_segment"}
            for name in own - {"data_segment"}:
                self.assertEqual(getattr(read, name), numbers[name])
            others = dict.fromkeys(set(names) - own, 0)
            wanted = _native.PortDetails(role=c.role, **ids, **(numbers | others))
            self.assertEqual(bytes(read._lent()), bytes(wanted))

    def test_handles(self):
        handle = iox2sd.ContainerHandle._of(_native.Handle(1, 7, 3, 4))
        self.assertEqual(handle, iox2sd.ContainerHandle(1, iox2sd.Role.READER, 3, 4))
        self.assertEqual(bytes(handle._lent()), bytes(_native.Handle(1, 7, 3, 4)))

    def settings(self, kind: Any) -> Any:
        """Settings with a value of its own in each field."""
        c = kind()
        for number, (name, field, *_) in enumerate(kind._fields_, 10):
            if field is _native.c_bool:
                number = name != "enable_safe_overflow_for_responses"
            elif name.endswith("strategy"):
                number = int(name.startswith(("client", "backpressure")))
            of_struct = {
                _native.OptionalEventId: (number, True),
                _native.OptionalDuration: (number, number + 1, True),
            }
            setattr(c, name, field(*of_struct[field]) if field in of_struct else number)
        return c

    def test_settings(self):
        """Defaults are read by a second copy of the module."""
        kinds = {
            name: getattr(_native, "".join(map(str.capitalize, name.split("_"))) + "Settings")
            for name in ("publish_subscribe", "event", "request_response", "blackboard")
        }
        spec = importlib.util.spec_from_file_location("iox2sd.again", settings.__file__)
        assert spec is not None and spec.loader is not None
        again = importlib.util.module_from_spec(spec)
        with mock.patch.dict("sys.modules", {"iox2sd.again": again}):
            answers = {f"{n}_defaults": lambda k=k: self.settings(k) for n, k in kinds.items()}
            with mock.patch.multiple(_native, **answers):
                spec.loader.exec_module(again)
        for kind in kinds.values():
            read, written, c = getattr(again, kind.__name__)(), kind(), self.settings(kind)
            names = [name for name, *_ in kind._fields_]
            self.assertEqual([field.name for field in dataclasses.fields(read)], names)
            for name in names:
                found, wanted = getattr(read, name), getattr(c, name)
                with self.subTest(kind=kind.__name__, field=name):
                    if hasattr(wanted, "seconds"):
                        parts = (wanted.seconds, wanted.nanoseconds)
                        self.assertEqual((found.seconds, found.nanoseconds), parts)
                    else:
                        number = getattr(wanted, "number", wanted)
                        self.assertEqual(getattr(found, "value", found), number)
            again.put_settings(read, written)
            self.assertEqual(bytes(written), bytes(c))
