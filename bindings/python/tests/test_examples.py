"""The examples print what they are to print, and so do the programs of the pages."""

import doctest
import os
import re
import subprocess
import sys
import tempfile
import unittest

import iox2sd

from . import PACKAGE, PROJECT

BUILDER = """\
Camera/Images JtFig-6tUnCFgFtxiQEiaa2kw30 Layout(size=1048680, alignment=8)
opened
refused: Attribute(key=AttributeKey('camera'), value=AttributeValue('rear')): \
a required pair is not in the set, at required pair 0
refused: the opener's payload: the types of a part have other sizes
DynamicConfig(MessagingPattern.PUBLISH_SUBSCRIBE, 7, Capacities(nodes=20, first=1, second=8))
"""

MONITOR = """\
node b000003e80000000000000001: 0 listeners and 1 notifiers are removed, 1 stay, 3 nodes are left
node b000003e80000000000000001: 1 listeners and 0 notifiers are removed, 0 stay, 2 nodes are left
node c000003e80000000000000001: 1 listeners and 1 notifiers are removed, 0 stay, 1 nodes are left
node d000003e80000000000000001: 1 listeners and 1 notifiers are removed, 0 stay, 0 nodes are left
it is locked
"""

SETTINGS = """\
FILE:5:1: defaults.publish-subscribe.max-publisher: this table has no such key, \
defaults.publish-subscribe.max-publishers may be meant
Capacities(nodes=20, first=2, second=10)
42 samples of each publisher
services lie in /run/robot/services
"""

DISCOVERY = """\
Motor/State, EVENT, osAtO-F2X_TX2oVnKwOhVjRbe8M
  node 15000003e80000000000000001
  1 of 2: LISTENER
    15000003e80000000000000002 of node 15000003e80000000000000001
  0 of 2: NOTIFIER
Motor/State, BLACKBOARD, NzAuNAriDO7klQEK5bFDJ3ueS0s
  node 15000003e80000000000000001
  2 of 2: READER
    15000003e80000000000000003 of node 15000003e80000000000000001
    15000003e80000000000000004 of node 15000003e80000000000000001
  0 of 1: WRITER
PUBLISH_SUBSCRIBE not found
EVENT found
REQUEST_RESPONSE not found
BLACKBOARD found
"""

FACTORY = """\
publisher in slot 0: 58 samples of 12064 bytes
subscriber in slot 0: a buffer of 5 samples
attach publisher 1f000003e80000000000000004: no slot or no ticket is left
0 ports are left
"""

EXPECTED = {"builder": BUILDER, "monitor": MONITOR, "discovery": DISCOVERY, "factory": FACTORY}

OF_FILES = {
    "[global]\nroot-path = '/run/robot'\n"
    "[defaults.publish-subscribe]\nmax-subscribers = 10\nmax-publisher = 3\n": (0, SETTINGS, ""),
    "[defaults.event]\nmax-nodes = -1\nmax-listeners = 1.5\n":
    (1, "", "FILE:2:1: defaults.event.max-nodes: is not an integer from 0 to 9223372036854775807\n"
     "FILE:3:1: defaults.event.max-listeners: is a float, and an integer is wanted\n"),
}
"""The status of the program settings.py of files, and what it prints of them."""

LAST = "DeregisterNodeState.NO_MORE_OWNERS\n"
FIRST = """\
slot 0 of service 7
it is locked
"""


class Examples(unittest.TestCase):
    def run_program(self, *arguments):
        environment = os.environ | {"PYTHONPATH": str(PACKAGE), "PYTHONDONTWRITEBYTECODE": "1"}
        command = [sys.executable, "-W", "error", *arguments]
        folder = PROJECT / "docs"  # It has an iceoryx2.toml.
        return subprocess.run(command, capture_output=True, text=True, env=environment, cwd=folder)

    def printed(self, *arguments):
        ended = self.run_program(*arguments)
        self.assertEqual((ended.returncode, ended.stderr), (0, ""))
        return ended.stdout

    def test_examples(self):
        folders = (PROJECT / "examples", PACKAGE / "examples")
        found = {path for folder in folders for path in folder.glob("*.py")}
        elsewhere = {"first", "settings"}
        self.assertEqual({path.stem for path in found} - elsewhere, set(EXPECTED))
        for path in found:
            if path.stem in EXPECTED:
                self.assertEqual(self.printed(path), EXPECTED[path.stem], path)

    def test_the_program_that_reads_settings(self):
        program = PROJECT / "examples" / "settings.py"
        for text, expected in OF_FILES.items():
            with tempfile.NamedTemporaryFile("w+") as file:
                file.write(text)
                file.flush()
                ended = self.run_program(program, file.name)
                printed = (text.replace(file.name, "FILE") for text in (ended.stdout, ended.stderr))
                self.assertEqual((ended.returncode, *printed), expected)
        ended = self.run_program(program, "/nowhere")
        self.assertEqual((ended.returncode, ended.stdout), (1, ""))
        self.assertIn("No such file", ended.stderr)

    def test_programs_of_the_pages(self):
        pages = {PROJECT / "docs" / "PYTHON.md": FIRST, PACKAGE / "README.md": LAST}
        for page, expected in pages.items():
            program = re.search(r"```python\n(.*?)```", page.read_text(), re.DOTALL).group(1)
            with self.subTest(page=page):
                self.assertEqual(self.printed("-c", program), expected)

    def test_the_program_of_the_package(self):
        self.assertEqual(doctest.testmod(iox2sd), (0, 2))

    def test_a_service_that_is_never_closed(self):
        made = "DynamicConfig.event(7, max_nodes=1, max_listeners=1, max_notifiers=1)"
        self.assertEqual(self.printed("-c", f"import iox2sd\nkept = iox2sd.{made}"), "")
