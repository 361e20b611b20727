import pickle

import iox2sd
from iox2sd import run_script

from . import PROJECT, TestCase

REPLAY = PROJECT / "crates" / "iox2_replay"


class Scripts(TestCase):
    def test_the_first_script(self):
        script = (REPLAY / "stdin").read_bytes()
        replies = (REPLAY / "stdout").read_text()
        self.assertEqual(run_script(script), replies)
        self.assertEqual(run_script(script.decode()), replies)

    def test_replies_of_any_length(self):
        nodes = [f"register 1.0.0.{counter}\n" for counter in range(1, 2001)]
        replies = run_script("service event 7 2000 0 0\n" + "".join(nodes) + "nodes\n" * 9)
        listed = " ".join(["list", *(f"{(1 << 96) + counter:x}" for counter in range(1, 2001))])
        self.assertTrue(replies.splitlines()[2000:] == [listed] * 9)

    def test_bad_lines(self):
        cases = [
            ("service event 7 1 2 2\nregister 1.0.0.1\nnonsense\n", 3, "handle 0 0\n"), ("", 1, ""),
            (b"\xff\xfe\n", 1, ""), ("service event 7 1 2 2\nregister 1.0.0.1", 2, ""),
            ("service event 7 1 2 2\nnodes\0\n", 2, ""),
            (b"service event 7 1 2 2\nnodes\n\0", 3, "list\n"),
            ("service event 7 1 2 2\nnodes\n\0", 3, "list\n"),
        ]
        for script, line, replies in cases:
            with self.subTest(script=script):
                error = self.raised(
                    iox2sd.BadLineError, run_script, script, line=line, replies=replies
                )
                self.assertTrue(str(error).endswith(f", at line {line}"))
                again = pickle.loads(pickle.dumps(error))
                self.assertEqual((again.line, str(again)), (line, str(error)))

    def test_no_memory(self):
        self.assertRaises(iox2sd.NoMemoryError, run_script, f"service event 7 {2**64 - 1} 2 2\n")

    def test_wrong_arguments(self):
        self.refuses(iox2sd.WrongTypeError, run_script, 0, 5, None, bytearray(b""), ["service"])
        self.assertRaises(iox2sd.NotUtf8Error, run_script, "service\ud800\n")
