import ctypes
import pickle
from functools import partial
from unittest import mock

import iox2sd
from iox2sd import (
    Attribute, AttributeKey, AttributeSet, AttributeSpecifier, AttributeValue, AttributeVerifier,
    _native,
)

from . import TestCase


def pair(key: str, value: str) -> Attribute:
    return Attribute(AttributeKey(key), AttributeValue(value))


COLOUR = AttributeKey("colour")
SIZE = AttributeKey("size")
SET = AttributeSet([pair("size", "9"), pair("colour", "red"), pair("colour", "blue")])


class Sets(TestCase):
    def test_a_set_is_sorted(self):
        sorted_pairs = [pair("colour", "blue"), pair("colour", "red"), pair("size", "9")]
        self.assertEqual((list(SET), len(SET)), (sorted_pairs, 3))
        self.assertEqual((SET[0], SET[-1]), (sorted_pairs[0], sorted_pairs[2]))
        self.assertEqual(SET[1:], tuple(sorted_pairs[1:]))
        self.assertIn(pair("size", "9"), SET)
        self.assertEqual(SET, AttributeSet(reversed(sorted_pairs)))
        self.assertEqual(len({SET, AttributeSet(sorted_pairs)}), 1)
        self.assertNotEqual(SET, sorted_pairs)
        self.assertEqual(eval(repr(SET), vars(iox2sd)), SET)
        self.assertEqual(pickle.loads(pickle.dumps(SET)), SET)
        self.assertEqual(len(AttributeSet()), 0)

    def test_pairs_may_repeat(self):
        self.assertEqual(len(AttributeSet([pair("a", "b")] * 16)), 16)
        longest = pair("k" * 64, "v" * 256)
        made = AttributeSet([longest])
        self.assertEqual(made[0], longest)
        value = made.key_value(AttributeKey("k" * 64), 0)
        self.assertEqual((value, type(value)), ("v" * 256, AttributeValue))

    def test_seventeen_pairs(self):
        pairs = [pair("a", "b")] * 17
        self.raised(iox2sd.TooManyError, AttributeSet, pairs, at=16, unit="pair")

    def test_values_of_keys(self):
        self.assertEqual(SET.number_of_key_values(COLOUR), 2)
        self.assertEqual(SET.number_of_key_values(AttributeKey("other")), 0)
        self.assertEqual(list(SET.iter_key_values(COLOUR)), ["blue", "red"])
        self.assertEqual(list(SET.iter_key_values(AttributeKey("other"))), [])
        self.assertEqual(SET.key_value(COLOUR, 1), "red")
        self.assertIsInstance(SET.key_value(SIZE, 0), AttributeValue)
        self.assertIsNone(SET.key_value(COLOUR, 2))
        self.assertIsNone(SET.key_value(COLOUR, 2**64 - 1))

    def test_wrong_arguments(self):
        self.refuses(iox2sd.WrongTypeError, AttributeSet, [("a", "b")], [None], ["ab"])
        self.assertRaises(iox2sd.WrongTypeError, Attribute, "a", AttributeValue("b"))
        self.assertRaises(iox2sd.WrongTypeError, Attribute, AttributeKey("a"), AttributeKey("b"))
        for call in (SET.number_of_key_values, lambda key: SET.key_value(key, 0)):
            self.assertRaises(iox2sd.WrongTypeError, call, "colour")
        self.assertRaises(iox2sd.WrongTypeError, list, SET.iter_key_values("colour"))
        of_colour = partial(SET.key_value, COLOUR)
        self.refuses(iox2sd.WrongTypeError, of_colour, True, "0", 0.0)
        self.refuses(iox2sd.OutOfRangeError, of_colour, -1, 2**64)


class Specifiers(TestCase):
    def test_pairs_are_defined_one_after_another(self):
        specifier = AttributeSpecifier()
        for attribute in reversed(SET):
            specifier = specifier.define(attribute.key, attribute.value)
        self.assertEqual(specifier.attributes, SET)
        for _ in range(13):
            specifier = specifier.define(SIZE, AttributeValue("8"))
        self.assertRaises(iox2sd.TooManyError, specifier.define, SIZE, AttributeValue("8"))
        self.assertRaises(iox2sd.WrongTypeError, AttributeSpecifier, [])


class Verifiers(TestCase):
    def test_what_a_set_has(self):
        verifier = AttributeVerifier().require(COLOUR, AttributeValue("red")).require_key(SIZE)
        verifier.verify_requirements(SET)
        AttributeVerifier().verify_requirements(AttributeSet())
        self.assertEqual(list(verifier.required_attributes), [pair("colour", "red")])
        self.assertEqual(verifier.required_keys, (SIZE,))

    def test_required_keys_are_kept_as_a_plain_tuple(self):
        class Keys(tuple):
            """A tuple that may change, as it has attributes of its own."""

        verifier = AttributeVerifier(AttributeSet(), Keys([SIZE, COLOUR]))
        self.assertIs(type(verifier.required_keys), tuple)
        self.assertEqual(verifier.required_keys, (SIZE, COLOUR))

    def test_what_a_set_lacks(self):
        verifier = AttributeVerifier().require(COLOUR, AttributeValue("red"))
        verifier = verifier.require(COLOUR, AttributeValue("green")).require_key(SIZE)
        verify = verifier.verify_requirements
        self.raised(iox2sd.MissingPairError, verify, SET, text="green", at=0)
        verifier = AttributeVerifier().require_key(SIZE).require_key(AttributeKey("weight"))
        verify = verifier.verify_requirements
        self.raised(iox2sd.MissingKeyError, verify, SET, text="weight", at=1)

    def test_sixteen_requirements(self):
        verifier = AttributeVerifier()
        for _ in range(8):
            verifier = verifier.require(SIZE, AttributeValue("9")).require_key(COLOUR)
        verifier.verify_requirements(SET)
        self.assertRaises(iox2sd.TooManyRequiredError, verifier.require, SIZE, AttributeValue("9"))
        self.assertRaises(iox2sd.TooManyRequiredError, verifier.require_key, SIZE)

    def test_a_requirement_takes_one_call_of_the_library(self):
        counted = {
            name: mock.Mock(wraps=function)
            for name, function in vars(_native).items()
            if isinstance(function, ctypes._CFuncPtr)
        }
        verifier, specifier, value = AttributeVerifier(), AttributeSpecifier(), AttributeValue("v")
        with mock.patch.multiple(_native, **counted):
            for _ in range(16):
                verifier = verifier.require(SIZE, value)
                specifier = specifier.define(SIZE, value)
        called = {name: mocked.call_count for name, mocked in counted.items() if mocked.called}
        self.assertEqual(called, {"attributes_sort_at": 32})

    def test_wrong_arguments(self):
        verifier = AttributeVerifier()
        self.assertRaises(iox2sd.WrongTypeError, verifier.require, "size", "9")
        for call in (verifier.verify_requirements, verifier.require_key, AttributeVerifier):
            self.refuses(iox2sd.WrongTypeError, call, [], "size")
        self.assertRaises(iox2sd.WrongTypeError, AttributeVerifier, AttributeSet(), [SIZE])
