"""What values of all kinds can do: be formatted, weakly referenced, pickled, taken by pydantic."""

import inspect
import pickle
import weakref
from typing import Any

import iox2sd

from . import TestCase
from .test_attributes import pair
from .test_fields import VALUES
from .test_ids import KINDS
from .test_texts import ALL

TEXTS = [kind("abc") for kind in ALL]
ALL_VALUES = [*VALUES, *TEXTS, iox2sd.AttributeSet([pair("k", "v")]), iox2sd.Role.NODE]


def changed(value: object, was: object, now: object) -> object:
    """What a pickle of a value gives in which another one stands in the place of a part."""

    def other(part: Any) -> Any:
        if isinstance(part, dict):
            return {name: other(one) for name, one in part.items()}
        if type(part) is tuple:
            return tuple(map(other, part))
        return now if type(part) is type(was) and part == was else part

    make, arguments, *_ = value.__reduce_ex__(pickle.HIGHEST_PROTOCOL)
    return make(*other(arguments))


class Values(TestCase):
    def test_values_are_formatted(self):
        for value in ALL_VALUES:
            text = str(value)
            self.assertEqual((f"{value}", f"{value:>999}"), (text, text.rjust(999)))
        with iox2sd.DynamicConfig.event(7, max_nodes=1, max_listeners=1, max_notifiers=1) as made:
            self.assertEqual(f"{made:>99}", repr(made).rjust(99))
        for kind in KINDS:
            id = kind(0, 0, 1, 0x2F)
            self.assertEqual(f"{id:032X} {id:d}", f"{'10000002F':0>32} {2**32 + 0x2F}")
            self.assertEqual(f"{id:.3}|{id:^11}", "100| 10000002f ")

    def test_values_are_weakly_referenced(self):
        for value in [*ALL_VALUES, iox2sd.ServiceNumbers()]:
            self.assertIs(weakref.ref(value)(), value)

    def test_pickles_are_checked(self):
        """A value of a pickle is refused as it is where it is made."""
        port = iox2sd.ListenerDetails(
            listener_id=iox2sd.UniqueListenerId(5, 6, 7, 8), node_id=iox2sd.UniqueNodeId(1, 2, 3, 4)
        )
        cases: "list[tuple[Any, Any, Any, type[iox2sd.Error]]]" = [
            (iox2sd.UniqueListenerId(5, 6, 7, 8), 5, -1, iox2sd.OutOfRangeError),
            (iox2sd.UniqueNodeId(0, 0, 0, 9), 9, 0, iox2sd.NoNodeError),
            (port, iox2sd.UniqueListenerId(5, 6, 7, 8), None, iox2sd.WrongTypeError),
            (iox2sd.Duration(1, 2), 2, 10**9, iox2sd.BadDurationError),
            (iox2sd.EventSettings(), 255, "255", iox2sd.WrongTypeError),
            (iox2sd.ServiceName("abc"), "abc", "iox2://", iox2sd.ReservedPrefixError),
            (iox2sd.TypeDetail("T", 8, 16), 16, 3, iox2sd.BadAlignmentError),
            (iox2sd.AttributeSet([pair("k", "v")]), pair("k", "v"), 7, iox2sd.WrongTypeError),
        ]
        for value, was, now, error in cases:
            with self.subTest(value=value):
                self.assertEqual(changed(value, was, was), value)
                self.assertRaises(error, changed, value, was, now)

    def test_models_of_pydantic(self):
        try:
            from pydantic import create_model
        except ImportError:
            self.skipTest("not found: pydantic")
        for value in [*TEXTS, *(kind(1, 2, 3, 4) for kind in KINDS)]:
            model = create_model("Model", field=(type(value), ...))
            for given in (value, str(value)):
                made = model(field=given).field
                self.assertEqual((made, type(made)), (value, type(value)))
            for wrong in ("x\0", 5, None):
                self.assertRaises(ValueError, model, field=wrong)

    def test_bases_are_public(self):
        for kind in ALL:
            self.assertTrue(issubclass(kind, iox2sd.Text))
        for kind in KINDS:
            self.assertTrue(issubclass(kind, iox2sd.UniqueId))
        for value in VALUES:
            of_port = type(value).__name__.endswith("Details") and hasattr(value, "node_id")
            self.assertEqual(isinstance(value, iox2sd.Details), of_port)
            fixed = type(value).__name__.endswith("StaticConfig") and hasattr(value, "max_nodes")
            self.assertEqual(isinstance(value, iox2sd.FixedSettings), fixed)

    def test_signatures(self):
        for kind in (iox2sd.DynamicConfig, iox2sd.Recorder):
            names = " ".join(inspect.signature(kind).parameters)
            self.assertEqual(names, "messaging_pattern service_number capacities tickets")
