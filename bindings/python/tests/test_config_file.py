import copy
import ctypes
import pickle
import tempfile
import threading
from dataclasses import replace
from pathlib import Path as SystemPath

import iox2sd
from iox2sd import (
    BadConfigError, Config, ConfigFault, ConfigFile, FileName, Likeness, Status, UnknownKey, _native,
)

from . import TestCase
from .test_fields import all_changed

ALL = all_changed(Config())
"""Settings that all differ from the defaults."""


class ConfigFiles(TestCase):
    def refused(self, text: str) -> BadConfigError:
        error: BadConfigError = self.raised(BadConfigError, Config.from_toml, text)
        return error

    def test_an_empty_text_has_the_defaults(self):
        self.assertEqual(Config.from_toml(""), ConfigFile(Config(), ()))

    def test_each_setting_is_read_and_written(self):
        text = ALL.to_toml()
        for line in (
            'root-path = "/tmp/iceoryx2/x"', "creation-timeout = { nanos = 499999999, secs = 1 }",
            'static-config-suffix = ".detailsx"', "cleanup-dead-nodes-on-creation = false",
            "cleanup-dead-nodes-on-destruction = false", 'backpressure-strategy = "DiscardData"',
            "deadline = { nanos = 2, secs = 1 }", "notifier-dead-event = 1",
            'server-allocation-strategy = "BestFit"', "max-readers = 7",
        ):
            self.assertIn(f"\n{line}\n", text)
        self.assertEqual(Config.from_toml(text), ConfigFile(ALL, ()))
        self.assertEqual(Config.from_toml(Config().to_toml()), ConfigFile(Config(), ()))

    def test_one_setting(self):
        read = Config.from_toml("[global]\nprefix = 'own_'\n").config
        wanted = replace(Config().global_cfg, prefix=FileName("own_"))
        self.assertEqual(read, Config(global_cfg=wanted))

    def test_faults(self):
        refused = self.refused(
            "[defaults.blackboard]\nmax-nodes = 1.5\n  max-readers = -1\n[global]\nprefix = 1\n"
        )
        wanted = [
            (None, 2, 1, "defaults.blackboard.max-nodes", "is a float, and an integer is wanted",
             Status.WRONG_TYPE),
            (None, 3, 3, "defaults.blackboard.max-readers",
             "is not an integer from 0 to 9223372036854775807", Status.BELOW_ZERO),
            (None, 5, 1, "global.prefix",
             "is an integer, and a string with the name of a file is wanted", Status.WRONG_TYPE),
        ]
        self.assertEqual(refused.faults, tuple(ConfigFault(*fault) for fault in wanted))
        self.assertIs(refused.status, Status.WRONG_TYPE)
        lines = "\n".join(f"{row}:{column}: {key}: {reason}"
                          for _, row, column, key, reason, _ in wanted)
        self.assertEqual(str(refused), lines)
        for made in (copy.copy(refused), pickle.loads(pickle.dumps(refused))):
            self.assertEqual((made.faults, str(made)), (refused.faults, lines))

    def test_a_text_past_128_kib_has_no_positions(self):
        faulty = "[global]\nprefix = 1\n#"
        for more, place in ((131_072 - len(faulty), (2, 1)), (131_073 - len(faulty), (None, None))):
            fault = self.refused(faulty + "x" * more).faults[0]
            self.assertEqual((fault.line, fault.column), place)
        self.assertEqual(str(fault), f"global.prefix: {fault.reason}")

    def test_what_an_array_has_no_room_for_is_cut_off(self):
        array = (ctypes.c_uint8 * 80)(*b"x" * 80)
        for length in (0, 1, 79, 80, 81, 300):
            self.assertEqual(_native.front(array, length), "x" * min(length, 80))

    def test_no_toml(self):
        refused = self.refused("[global]\nprefix\n")
        self.assertEqual((refused.status, len(refused.faults)), (Status.NOT_TOML, 1))
        fault = refused.faults[0]
        self.assertEqual((fault.file, fault.line, fault.column, fault.key), (None, 2, 7, ""))
        self.assertEqual(str(refused), f"2:7: {fault.reason}")
        self.assertNotIn("\n", fault.reason)

    def test_texts_that_are_too_deep(self):
        """A thread with a stack of 256 KiB reads them."""
        key, arrays = ".".join("a" * 40_000), "x = " + "[" * 40_000
        table = f"[{'.'.join('a' * 81)}]\n"
        causes: "list[Status]" = []

        def read():
            for text in (f"{key} = 1\n", f"{arrays}\n", f"{table}b.{key} = 1\n"):
                causes.append(self.refused(text).status)

        thread, before = threading.Thread(target=read), threading.stack_size(256 * 1024)
        thread.start()
        threading.stack_size(before)
        thread.join()
        self.assertEqual(causes, [Status.TOO_DEEP] * 3)

    def test_unknown_keys(self):
        file = Config.from_toml(
            "[defaults.publish-subscribe]\n  max-publisher = 3\n[global]\n'\u00e4' = 1\n"
            "max_nodes = 1\n'node.directory' = 'a'\n[other]\n"
        )
        none, table = "this table has no such key", "defaults.publish-subscribe"
        wanted = (
            (2, 3, f"{table}.max-publisher", f"{table}.max-publishers", Likeness.NEAR,
             f"{none}, {table}.max-publishers may be meant"),
            (4, 1, 'global."\u00e4"', None, None, none),
            (5, 1, "global.max_nodes", f"{table}.max-nodes", Likeness.OTHER_TABLE,
             f"{none}, {table}.max-nodes may be meant"),
            (6, 1, 'global."node.directory"', "global.node.directory", Likeness.QUOTED,
             f"{none}, global.node.directory without the quotes may be meant"),
            (7, 2, "other", None, None, none),
        )
        self.assertEqual(file.unknown, tuple(UnknownKey(None, *one) for one in wanted))
        for found, (line, column, key, *_, reason) in zip(file.unknown, wanted):
            self.assertEqual(str(found), f"{line}:{column}: {key}: {reason}")
        self.assertEqual(file.config, Config())

    def test_how_a_known_key_is_like_an_unknown_one(self):
        file = Config.from_toml("[global.service]\ncreation-timeout = 1\nDATA_SEGMENT_SUFFIX = 1\n")
        found = [(one.meant, one.likeness) for one in file.unknown]
        self.assertEqual(found, [
            ("global.creation-timeout", Likeness.OTHER_TABLE),
            ("global.service.data-segment-suffix", Likeness.SPELLING),
        ])

    def test_numbers_that_toml_lacks(self):
        board = iox2sd.BlackboardSettings(max_readers=2**63)
        large = Config(defaults=iox2sd.Defaults(blackboard=board))
        text = "defaults.blackboard.max-readers: "
        self.raised(iox2sd.NoTomlIntegerError, large.to_toml, text=text)
        board = iox2sd.BlackboardSettings(max_readers=2**63 - 1)
        large = Config(defaults=iox2sd.Defaults(blackboard=board))
        self.assertEqual(Config.from_toml(large.to_toml()).config, large)

    def test_files(self):
        with tempfile.TemporaryDirectory() as folder:
            path = SystemPath(folder, "iceoryx2.toml")
            path.write_text(ALL.to_toml())
            for given in (path, str(path)):
                self.assertEqual(Config.from_toml_file(given).config, ALL)
            path.write_text("[global]\n prefix = 1\n  prefx = 1\n")
            refused = self.raised(BadConfigError, Config.from_toml_file, path)
            fault = refused.faults[0]
            self.assertEqual((fault.file, fault.line, fault.column), (str(path), 2, 2))
            self.assertEqual(str(refused), f"{path}:2:2: global.prefix: {fault.reason}")
            path.write_text("[global]\n  prefx = 1\n")
            key = Config.from_toml_file(path).unknown[0]
            self.assertEqual((key.file, key.line, key.column), (str(path), 2, 3))
            self.assertEqual(str(key), f"{path}:2:3: global.prefx: {key.reason}")
            path.write_bytes(b"a = 1\n \xff")
            status = iox2sd.NotUtf8Error.status
            refused = self.raised(BadConfigError, Config.from_toml_file, path, status=status)
            self.assertEqual(str(refused), f"{path}:2:2: the file is no UTF-8")
            self.assertRaises(FileNotFoundError, Config.from_toml_file, path.with_name("none"))

    def test_paths_that_no_file_has(self):
        class Bytes:
            def __fspath__(self):
                return b"/nowhere"

        read = Config.from_toml_file
        self.refuses(iox2sd.WrongTypeError, read, None, 5, b"/nowhere", ["a"], Bytes())
        for given in ("/no\0where", SystemPath("/no\0where")):
            self.raised(iox2sd.IllegalByteError, read, given, at=3)
        self.raised(iox2sd.NotUtf8Error, read, "/n\ud800", at=2)

    def test_arguments(self):
        self.refuses(iox2sd.WrongTypeError, Config.from_toml, None, 5, b"", ["a"])
        self.assertRaises(iox2sd.NotUtf8Error, Config.from_toml, "\ud800")
