import base64
import hashlib

import iox2sd
from iox2sd import (
    AttributeKey, AttributeValue, FileName, FilePath, InternalServiceName, MessagingPattern, Path,
    RestrictedFileName, ServiceHash, ServiceName,
)

from . import TestCase

ALL = [
    ServiceName, InternalServiceName, AttributeKey, AttributeValue, Path, FileName, FilePath,
    RestrictedFileName, ServiceHash,
]

LONGEST = dict(zip(ALL, (255, 255, 64, 256, 255, 255, 255, 64, 64)))


class Texts(TestCase):
    def test_a_text_is_a_str(self):
        for kind in ALL:
            text = kind("abc.d")
            self.assertEqual(text, "abc.d")
            self.assertEqual(repr(text), f"{kind.__name__}('abc.d')")
            self.assertEqual(f"{text}-{len(text)}", "abc.d-5")
            self.assertEqual(hash(text), hash("abc.d"))
            self.assertRaises(AttributeError, setattr, text, "other", 1)

    def test_longest_texts(self):
        for kind, length in LONGEST.items():
            self.assertEqual(len(kind("a" * length)), length)
            self.raised(iox2sd.TooLongError, kind, "a" * (length + 1), at=length)

    def test_empty_texts(self):
        self.assertEqual(Path(""), "")
        for kind in ALL:
            if kind is not Path:
                self.raised(iox2sd.EmptyError, kind, "", at=None)

    def test_each_byte(self):
        for kind in (ServiceName, InternalServiceName, AttributeKey, AttributeValue, Path):
            self.assertEqual(kind("a\x01\x7f/ "), "a\x01\x7f/ ")
        for kind in ALL:
            for wrong, at in (("ab\0", 2), ("\0", 0), ("a\x80", 1), ("aé", 1), ("\U0001f980", 0)):
                with self.subTest(kind=kind, wrong=wrong):
                    text = str(self.raised(iox2sd.IllegalByteError, kind, wrong, at=at))
                    self.assertRegex(text, f"^{kind.__name__} '.*, at byte {at}$")
        for kind in (RestrictedFileName, ServiceHash):
            self.assertRaises(iox2sd.IllegalByteError, kind, "a b")

    def test_halves_of_surrogate_pairs(self):
        for kind in ALL:
            self.raised(iox2sd.NotUtf8Error, kind, "ab\ud800", text="at character 2", at=2,
                        unit="character")

    def test_other_types(self):
        for kind in ALL:
            others = (0, 5, None, b"abc", ["abc"], bytearray(b"abc"), True)
            self.refuses(iox2sd.WrongTypeError, kind, *others)

    def test_names_of_services(self):
        self.assertRaises(iox2sd.ReservedPrefixError, ServiceName, "iox2://x")
        self.assertEqual(InternalServiceName("iox2://x"), "iox2://x")
        self.assertEqual(InternalServiceName.prefixed("x"), "iox2://x")
        self.assertEqual(len(InternalServiceName.prefixed("x" * 248)), 255)
        self.assertEqual(type(InternalServiceName.prefixed("x")), InternalServiceName)
        self.assertTrue(ServiceName.has_iox2_prefix("iox2://"))
        self.assertFalse(ServiceName.has_iox2_prefix("iox2:/x"))
        self.assertRaises(iox2sd.TooLongError, InternalServiceName.prefixed, "x" * 249)
        self.assertRaises(iox2sd.IllegalByteError, InternalServiceName.prefixed, "x\0")
        for call in (InternalServiceName.prefixed, ServiceName.has_iox2_prefix):
            self.refuses(iox2sd.WrongTypeError, call, b"x", 7)
        self.assertRaises(iox2sd.NotUtf8Error, InternalServiceName.prefixed, "\udfff")

    def test_names_of_files(self):
        for kind in (FileName, FilePath, RestrictedFileName, ServiceHash):
            self.refuses(iox2sd.NoFileNameError, kind, ".", "..")
        self.raised(iox2sd.IllegalByteError, FileName, "a/b", at=1)
        self.assertEqual(FilePath("a/b"), "a/b")
        self.refuses(iox2sd.NoFileNameError, FilePath, "a/", "a/.", "a/..")

    def test_joining(self):
        cases = (("a", "b", "a/b"), ("a/", "b", "a/b"), ("", "b", "b"), ("/", "", "/"))
        for path, entry, joined in cases:
            made = Path(path).add_path_entry(Path(entry))
            self.assertEqual((made, type(made)), (joined, Path))
        made = FilePath.from_path_and_file(Path("/tmp"), FileName("a.b"))
        self.assertEqual((made, type(made)), ("/tmp/a.b", FilePath))
        self.assertEqual(len(Path("a" * 127).add_path_entry(Path("b" * 127))), 255)
        self.assertRaises(iox2sd.TooLongError, Path("a" * 128).add_path_entry, Path("b" * 127))
        self.assertRaises(iox2sd.WrongTypeError, Path("a").add_path_entry, "b")
        for error, path, name in (
            (iox2sd.TooLongError, Path("a" * 128), FileName("b" * 127)),
            (iox2sd.WrongTypeError, "a", FileName("b")), (iox2sd.WrongTypeError, Path("a"), "b"),
        ):
            self.assertRaises(error, FilePath.from_path_and_file, path, name)

    def test_hash_texts_are_those_of_sha1_in_base64(self):
        names = [ServiceName("My/Service"), InternalServiceName("iox2://x"), ServiceName("a" * 255)]
        for pattern in MessagingPattern:
            for name in names:
                digest = hashlib.sha1(f"{pattern.value}{name}".encode()).digest()
                expected = base64.urlsafe_b64encode(digest).rstrip(b"=").decode()
                made = ServiceHash.new(name, pattern)
                self.assertEqual((made, type(made)), (expected, ServiceHash))
        for wrong in (1, "EVENT", iox2sd.Role.PUBLISHER):
            self.assertRaises(iox2sd.WrongTypeError, ServiceHash.new, names[0], wrong)
        event = MessagingPattern.EVENT
        self.assertRaises(iox2sd.WrongTypeError, ServiceHash.new, "My/Service", event)
