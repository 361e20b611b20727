"""Programs of users pass `mypy --strict`, those of docstrings too."""

import doctest
import os
import shutil
import subprocess
import tempfile
import unittest
from pathlib import Path

import iox2sd
from iox2sd import recorder

from . import PACKAGE, PROJECT

USES = """
import iox2sd

def title(text: iox2sd.Text, id: iox2sd.UniqueId, port: iox2sd.Details) -> str:
    return f"{text} {id:>32} {port.port_id}"

class Counted(iox2sd.Recorder):
    calls = 0

made: Counted = Counted.event(7, max_nodes=1, max_listeners=1, max_notifiers=1)
entered: Counted = made.__enter__()
described: Counted = Counted.described(iox2sd.EventSettings(), 7)
"""


class Typing(unittest.TestCase):
    def test_programs_pass_mypy_strict(self):
        checker = shutil.which("mypy")
        if checker is None:
            self.skipTest("not found: mypy")
        with tempfile.TemporaryDirectory() as folder:
            programs = {"uses": USES}
            for module in (iox2sd, recorder):
                for test in doctest.DocTestFinder().find(module):
                    name = f"of_{test.name}".replace(".", "_")
                    programs[name] = "".join(example.source for example in test.examples)
            files = [*PROJECT.glob("examples/*.py"), *PACKAGE.glob("examples/*.py")]
            for name, text in programs.items():
                if text:
                    files.append(Path(folder, f"{name}.py"))
                    files[-1].write_text(text)
            self.assertGreater(len(files), 8)
            command = [checker, "--strict", "--cache-dir", Path(folder, "cache"), *files]
            environment = os.environ | {"MYPYPATH": str(PACKAGE)}
            done = subprocess.run(
                command, capture_output=True, text=True, cwd=PACKAGE, env=environment
            )
            self.assertEqual((done.returncode, done.stderr), (0, ""), done.stdout)
