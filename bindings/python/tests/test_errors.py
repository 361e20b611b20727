import copy
import pickle

import iox2sd
from iox2sd import Status, errors

from . import TestCase, headers


def is_error(kind):
    return isinstance(kind, type) and issubclass(kind, BaseException)


class Errors(TestCase):
    def test_each_status_has_a_text(self):
        self.assertEqual({one.name: one.value for one in Status}, headers.STATUSES)
        self.assertEqual(len({str(status) for status in Status}), len(Status))
        self.assertEqual(f"{Status.IS_LOCKED}", "the service is locked for good")

    def test_all_have_one_base(self):
        for name in filter(lambda name: is_error(getattr(iox2sd, name)), iox2sd.__all__):
            self.assertTrue(issubclass(getattr(iox2sd, name), iox2sd.Error), name)
        for kind in errors._KINDS.values():
            self.assertIn(kind.__name__, iox2sd.__all__)

    def test_bases_of_each_error(self):
        """Which classes of Python, and which of this package, an error is one of. Each has its
        status, and a name as errors of Python have."""
        refused = {
            ValueError: "BadAlignment BadConfig BadDuration BadLine Empty IllegalByte NoFileName"
            " NoNode NotUtf8 ReservedPrefix RoleNotInPattern TooLong TooMany TooManyRequired",
            LookupError: "ForeignHandle MissingKey MissingPair NodeNotRegistered",
            OverflowError: "NoTomlInteger TooLarge",
            MemoryError: "NoMemory",
            iox2sd.IncompatibleError: "OtherPattern OtherName OtherVariant OtherSize OtherAlignment"
            " GreaterAlignment Unmet",
            object: "CallerIsBusy CallerIsDead HasService IllegalHash Incompatible IsLocked NoOpenCall"
            " NoService OutOfSpace PortsStillAttached",
        }
        expected: "dict[str, tuple[type, ...]]" = {
            "Error": (Exception,), "RefusedError": (iox2sd.Error,),
            "WrongTypeError": (iox2sd.Error, TypeError),
            "OutOfRangeError": (iox2sd.Error, OverflowError),
        }
        for base, names in refused.items():
            of_python = (base,) * (base is not object)
            bases = of_python if base is iox2sd.IncompatibleError else (
                iox2sd.RefusedError, *of_python
            )
            expected |= {f"{name}Error": bases for name in names.split()}
        found = {name: kind for name, kind in vars(iox2sd).items() if is_error(kind)}
        self.assertEqual({name: kind.__bases__ for name, kind in found.items()}, expected)
        for name, kind in found.items():
            self.assertIsInstance(kind.status, Status)
            self.assertTrue(name.endswith("Error"))

    def test_the_status_of_an_argument_that_is_none(self):
        cases = {Status.WRONG_TYPE: "1", Status.BELOW_ZERO: -1, Status.TOO_LARGE: 2**64}
        for status, given in cases.items():
            self.raised(iox2sd.Error, iox2sd.EventId, given, status=status)

    def test_an_error_says_what_and_where(self):
        error = self.raised(iox2sd.IllegalByteError, iox2sd.ServiceName, "a\0")
        text = iox2sd.IllegalByteError.status
        self.assertEqual(str(error), f"ServiceName 'a\\x00': {text}, at byte 1")
        for made in (copy.copy(error), pickle.loads(pickle.dumps(error))):
            self.assertIs(type(made), iox2sd.IllegalByteError)
            self.assertEqual(str(made), str(error))
            self.assertEqual((made.at, made.what), (1, "ServiceName 'a\\x00'"))

    def test_long_texts_are_shown_in_part(self):
        error = self.raised(iox2sd.TooLongError, iox2sd.ServiceName, "a" * 10**6)
        self.assertLess(len(str(error)), 200)

    def test_values_that_cannot_be_printed(self):
        class Unprintable:
            def __repr__(self):
                raise ValueError

        cases = {
            iox2sd.OutOfRangeError: (10**5000, "0 to 2^64 - 1, got a value of type int"),
            iox2sd.WrongTypeError: (Unprintable(), "int, got a value of type Unprintable"),
        }
        for error, (value, text) in cases.items():
            found = str(self.raised(error, iox2sd.EventId, value))
            self.assertEqual(found, f"EventId.value: expected {text}")

    def test_a_status_without_a_class(self):
        unknown = Status.UNKNOWN_STATUS
        error = self.raised(iox2sd.RefusedError, errors.check, 2**32 - 1, "a call", status=unknown)
        self.assertEqual((str(error), type(error)), ("a call: unknown status", iox2sd.RefusedError))

    def test_names_of_the_package(self):
        for name in iox2sd.__all__:
            self.assertTrue(hasattr(iox2sd, name), name)
        self.assertEqual((iox2sd.__version__, iox2sd.LAYER_VERSION), ("0.1.0", "0.9.3"))
