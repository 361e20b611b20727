from dataclasses import replace

import iox2sd
from iox2sd import Layout, MessageTypeDetails, Places, TypeDetail, TypeVariant

from . import TestCase


def details(
    size: int = 8, alignment: int = 8, variant: TypeVariant = TypeVariant.FIXED_SIZE,
    name: str = "Payload",
) -> MessageTypeDetails:
    return MessageTypeDetails(
        TypeDetail("Header", 8, 8), TypeDetail("UserHeader", 4, 4),
        TypeDetail(name, size, alignment, variant),
    )


class Types(TestCase):
    def test_names(self):
        self.assertEqual(TypeDetail("", 0, 1).type_name, "")
        self.assertEqual(len(TypeDetail("n" * 256, 0, 1).type_name), 256)
        self.assertRaises(iox2sd.TooLongError, TypeDetail, "n" * 257, 0, 1)
        for wrong in ("a\0", "é"):
            self.assertRaises(iox2sd.IllegalByteError, TypeDetail, wrong, 0, 1)
        self.assertRaises(iox2sd.NotUtf8Error, TypeDetail, "\ud800", 0, 1)

    def test_a_type_is_of_one_value_where_nothing_else_is_said(self):
        self.assertIs(TypeDetail("T", 8, 8).variant, TypeVariant.FIXED_SIZE)

    def test_alignments(self):
        for alignment in (1, 2, 2**63):
            self.assertEqual(TypeDetail("T", 2**64 - 1, alignment).alignment, alignment)
        for alignment in (0, 3, 2**64 - 1):
            text = f"alignment={alignment}"
            self.raised(iox2sd.BadAlignmentError, TypeDetail, "T", 0, alignment, text=text)

    def test_wrong_arguments(self):
        for given in ((b"T", 8, 8), ("T", True, 8), ("T", 8, 8.0), ("T", 8, 8, 0)):
            self.assertRaises(iox2sd.WrongTypeError, TypeDetail, *given)
        for size, alignment in ((-1, 8), (2**64, 8), (8, -8), (8, 2**64)):
            self.assertRaises(iox2sd.OutOfRangeError, TypeDetail, "T", size, alignment)
        parts = (*[TypeDetail("T", 8, 8)] * 2, None)
        self.assertRaises(iox2sd.WrongTypeError, MessageTypeDetails, *parts)


class Messages(TestCase):
    def test_layout(self):
        # 8 + 4 and at most 3 before it, 2 * 8 and at most 7 before it: 38, in eights
        self.assertEqual(details().sample_layout(2), Layout(40, 8))
        self.assertRaises(iox2sd.TooLargeError, details(size=2**64 - 1).sample_layout, 2**64 - 1)
        self.refuses(iox2sd.WrongTypeError, details().sample_layout, True, 2.0, None)
        self.refuses(iox2sd.OutOfRangeError, details().sample_layout, -1, 2**64)

    def test_an_opener_lays_out_otherwise(self):
        """So a message is laid out by the service's details."""
        service, opener = details(4, 16), details(4, 4)
        self.assertTrue(opener.is_compatible_to(service))
        sizes = [one.sample_layout(1).size for one in (service, opener)]
        offsets = [one.places(0).payload for one in (service, opener)]
        self.assertEqual((sizes, offsets), ([40, 24], [16, 12]))

    def test_places(self):
        self.assertEqual(details().places(64), Places(72, 80))
        self.assertRaises(iox2sd.TooLargeError, details().places, 2**64 - 1)
        self.assertRaises(iox2sd.OutOfRangeError, details().places, -8)
        self.assertRaises(iox2sd.WrongTypeError, details().places, "64")

    def test_compatible(self):
        self.assertTrue(details().is_compatible_to(details()))
        self.assertTrue(details().is_compatible_to(details(alignment=16)))
        self.assertTrue(details(name="").is_compatible_to(details(name="")))

    def test_incompatible(self):
        cases = [
            (details(name="Other"), details(), iox2sd.OtherNameError, "payload"),
            (details(variant=TypeVariant.DYNAMIC), details(), iox2sd.OtherVariantError, "payload"),
            (details(size=16), details(), iox2sd.OtherSizeError, "payload"),
            (details(alignment=16), details(), iox2sd.GreaterAlignmentError, "payload"),
            (replace(details(), header=TypeDetail("Header", 8, 16)), details(),
             iox2sd.OtherAlignmentError, "header"),
            (replace(details(), user_header=TypeDetail("UserHeader", 4, 8)), details(),
             iox2sd.GreaterAlignmentError, "user header"),
        ]
        for opener, service, error, part in cases:
            with self.subTest(error=error):
                self.assertFalse(opener.is_compatible_to(service))
                text = f"the opener's {part}: "
                found = self.raised(error, opener.check_compatible_to, service, text=text)
                self.assertIsInstance(found, iox2sd.IncompatibleError)
        self.assertRaises(iox2sd.WrongTypeError, details().is_compatible_to, None)
