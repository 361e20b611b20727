"""Attributes of services, and what an opener requires of them."""

from collections.abc import Iterable, Iterator, Sequence
from dataclasses import dataclass
from typing import Any, overload

from . import _native
from ._arguments import Checked, Size, instance, items, number, shown
from .errors import Status, TooManyRequiredError, check
from .texts import AttributeKey, AttributeValue, lent


@dataclass(frozen=True, slots=True, order=True)
class Attribute(Checked):
    """A key with a value."""

    key: AttributeKey
    value: AttributeValue


def _pairs(attributes: "tuple[Attribute, ...]") -> "tuple[Any, int]":
    pairs = ((*lent(attribute.key), *lent(attribute.value)) for attribute in attributes)
    return (_native.Attribute * len(attributes))(*pairs), len(attributes)


def _key(key: AttributeKey, what: str) -> "tuple[bytes, int]":
    instance(key, AttributeKey, what)
    return lent(key)


class AttributeSet(Sequence[Attribute]):
    """At most sixteen attributes, sorted by the bytes of their keys and then of their values. A key
    may have several values, and a pair may be there twice.
    """

    __slots__ = ("_attributes", "__weakref__")
    _attributes: "tuple[Attribute, ...]"

    def __init__(self, attributes: Iterable[Attribute] = ()) -> None:
        """The set of the attributes, given in any order. Raises `TooManyError`."""
        given = items(attributes, Attribute, "AttributeSet")
        pairs, length = _pairs(given)
        answer = _native.attributes_sort_at(pairs, length)
        check(answer.status, "AttributeSet", answer.at, "pair")
        of_bytes = {(str.encode(one.key), str.encode(one.value)): one for one in given}
        self._attributes = tuple(of_bytes[pair.key, pair.value] for pair in pairs)

    def number_of_key_values(self, key: AttributeKey) -> int:
        """How many values a key has."""
        answer = _native.attributes_number_of_key_values_at(
            *_pairs(self._attributes), *_key(key, "AttributeSet.number_of_key_values")
        )
        check(answer.status, "AttributeSet.number_of_key_values")
        return int(answer.count)

    def key_value(self, key: AttributeKey, index: int) -> "AttributeValue | None":
        """The value at an index, counted from 0, of those that a key has; None where there is none.
        """
        what = "AttributeSet.key_value"
        index = number(index, Size, what)
        status, text = _native.written(
            _native.attributes_key_value_at, *_pairs(self._attributes), *_key(key, what), index
        )
        if status == Status.NO_SUCH_VALUE.value:
            return None
        check(status, what)
        return AttributeValue(text)

    def iter_key_values(self, key: AttributeKey) -> Iterator[AttributeValue]:
        """The values of a key, from the least."""
        for index in range(self.number_of_key_values(key)):
            value = self.key_value(key, index)
            assert value is not None
            yield value

    @overload
    def __getitem__(self, index: int) -> Attribute: ...

    @overload
    def __getitem__(self, index: slice) -> "tuple[Attribute, ...]": ...

    def __getitem__(self, index: "int | slice") -> "Attribute | tuple[Attribute, ...]":
        return self._attributes[index]

    def __len__(self) -> int:
        return len(self._attributes)

    def __eq__(self, other: object) -> bool:
        if not isinstance(other, AttributeSet):
            return NotImplemented
        return self._attributes == other._attributes

    def __hash__(self) -> int:
        return hash(self._attributes)

    def __repr__(self) -> str:
        return f"AttributeSet({list(self._attributes)!r})"

    def __format__(self, form: str) -> str:
        return format(str(self), form)

    def __reduce__(self) -> "tuple[type[AttributeSet], tuple[tuple[Attribute, ...]]]":
        return type(self), (self._attributes,)


@dataclass(frozen=True, slots=True)
class AttributeSpecifier(Checked):
    """The attributes that a service is to be made with, one after another."""

    attributes: AttributeSet = AttributeSet()

    def define(self, key: AttributeKey, value: AttributeValue) -> "AttributeSpecifier":
        """A specifier with one more pair. A key may have several values. Raises `TooManyError`."""
        return AttributeSpecifier(AttributeSet((*self.attributes, Attribute(key, value))))


def _capacity() -> int:
    """How many pairs and keys may be required together, as the library says where there are more.
    """
    length = 1
    while True:
        keys = (_native.Key * length)(*[lent("a")] * length)
        answer = _native.attributes_verify_at(*_pairs(()), *_pairs(()), keys, length)
        if answer.status == Status.TOO_MANY_REQUIRED.value:
            return int(answer.at)
        length *= 2


_CAPACITY = _capacity()


@dataclass(frozen=True, slots=True)
class AttributeVerifier(Checked):
    """What an opener requires of the attributes of a service: pairs, and keys with any value. All
    together are at most sixteen; raises `TooManyRequiredError`.
    """

    required_attributes: AttributeSet = AttributeSet()
    required_keys: "tuple[AttributeKey, ...]" = ()

    def __post_init__(self) -> None:
        instance(self.required_attributes, AttributeSet, "AttributeVerifier.required_attributes")
        instance(self.required_keys, tuple, "AttributeVerifier.required_keys")
        keys = items(self.required_keys, AttributeKey, "AttributeVerifier.required_keys")
        object.__setattr__(self, "required_keys", keys)
        if len(self.required_attributes) + len(keys) > _CAPACITY:
            raise TooManyRequiredError("AttributeVerifier", _CAPACITY, "requirement")

    def require(self, key: AttributeKey, value: AttributeValue) -> "AttributeVerifier":
        """A verifier that requires a pair too. Raises `TooManyError`, `TooManyRequiredError`."""
        pairs = AttributeSet((*self.required_attributes, Attribute(key, value)))
        return AttributeVerifier(pairs, self.required_keys)

    def require_key(self, key: AttributeKey) -> "AttributeVerifier":
        """A verifier that requires a key too. Raises `TooManyRequiredError`."""
        return AttributeVerifier(self.required_attributes, (*self.required_keys, key))

    def verify_requirements(self, attributes: AttributeSet) -> None:
        """Raises `MissingPairError` for the least required pair that the set lacks, with its index
        in `required_attributes`, and then `MissingKeyError` of the first required key that no pair
        has, with its index in `required_keys`.
        """
        instance(attributes, AttributeSet, "AttributeVerifier.verify_requirements")
        keys = (_native.Key * len(self.required_keys))(*map(lent, self.required_keys))
        required = _pairs(self.required_attributes._attributes)
        answer = _native.attributes_verify_at(
            *_pairs(attributes._attributes), *required, keys, len(keys)
        )
        if answer.status == Status.MISSING_KEY.value:
            check(answer.status, shown(self.required_keys[answer.at]), answer.at, "required key")
        if answer.status != _native.DONE:
            what = shown(self.required_attributes[answer.at])
            check(answer.status, what, answer.at, "required pair")
