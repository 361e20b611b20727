"""The wheel, built and installed into a fresh environment outside the repository."""

import base64
import csv
import email
import hashlib
import io
import os
import subprocess
import sys
import tarfile
import tempfile
import unittest
import zipfile
from pathlib import Path

from . import LIBRARY, PACKAGE, PROJECT

USE = """
import pathlib, sys, iox2sd
assert pathlib.Path(iox2sd.__file__).is_relative_to(sys.prefix), iox2sd.__file__
loaded = {line.split()[-1] for line in open("/proc/self/maps") if "libiox2sd" in line}
print(*[pathlib.Path(path).is_relative_to(sys.prefix) for path in loaded])
print(iox2sd.__version__, iox2sd.ServiceHash.new.__name__)
"""


@unittest.skipIf(sys.version_info < (3, 11), "Python 3.11 is needed to build the wheel")
class Wheel(unittest.TestCase):
    def setUp(self):
        folder = tempfile.TemporaryDirectory()
        self.addCleanup(folder.cleanup)
        self.folder = Path(folder.name)
        self.wheel = self.built("built")

    def built(self, name, *option):
        command = [sys.executable, "-B", PACKAGE / "build_wheel.py", *option, self.folder / name]
        return Path(self.run_command(command, os.environ).strip())

    def run_command(self, command, environment):
        ended = subprocess.run(
            command, capture_output=True, text=True, cwd=self.folder, env=environment
        )
        self.assertEqual(ended.returncode, 0, ended.stdout + ended.stderr)
        return ended.stdout

    def test_the_record_names_each_file(self):
        with zipfile.ZipFile(self.wheel) as archive:
            names = archive.namelist()
            files = {name: archive.read(name) for name in names}
        record = next(name for name in names if name.endswith(".dist-info/RECORD"))
        rows = {row[0]: row[1:] for row in csv.reader(io.StringIO(files[record].decode()))}
        self.assertEqual(list(rows), names)
        self.assertEqual(rows.pop(record), ["", ""])
        for name, (digest, size) in rows.items():
            found = base64.urlsafe_b64encode(hashlib.sha256(files[name]).digest())
            self.assertEqual(digest, f"sha256={found.rstrip(b'=').decode()}")
            self.assertEqual(int(size), len(files[name]))
        for name in ("libiox2sd.so.2", "py.typed", "fields.txt", "__init__.py"):
            self.assertIn(f"iox2sd/{name}", rows)

    def test_equal_files_make_equal_wheels(self):
        self.assertEqual(self.wheel.read_bytes(), self.built("again").read_bytes())

    def test_an_installed_wheel_needs_nothing_else(self):
        own = ("IOX2SD_", "PYTHON", "PIP_")
        environment = {name: os.environ[name] for name in os.environ if not name.startswith(own)}
        environment["PATH"] = ""  # neither a compiler nor any other program
        python = self.folder / "venv" / "bin" / "python"
        self.run_command([sys.executable, "-m", "venv", self.folder / "venv"], environment)
        install = [python, "-m", "pip", "install", "--no-index", "--quiet", self.wheel]
        self.run_command(install, environment)
        printed = self.run_command([python, "-c", USE], environment)
        self.assertEqual(printed, "True\n0.1.0 new\n")
        for example in [*PACKAGE.glob("examples/*.py"), PROJECT / "examples" / "builder.py"]:
            copied = self.folder / example.name
            copied.write_bytes(example.read_bytes())
            self.assertNotEqual(self.run_command([python, copied], environment), "")
        pip = [python, "-m", "pip", "uninstall", "--yes", "--quiet", "iox2sd"]
        self.run_command(pip, environment)
        self.assertEqual(list((self.folder / "venv").rglob("*iox2sd*")), [])

    def test_pip_builds_the_same_wheel_of_the_folder_and_of_its_archive(self):
        sdist = self.built("sdist", "--sdist")
        self.assertEqual(sdist.read_bytes(), self.built("again", "--sdist").read_bytes())
        environment = os.environ | {"PYTHONDONTWRITEBYTECODE": "1"}
        pip = [sys.executable, "-m", "pip", "wheel", "--no-index", "--no-deps", "--quiet"]
        for source in (PACKAGE, sdist):
            made = self.folder / source.name / self.wheel.name
            self.run_command([*pip, "--wheel-dir", made.parent, source], environment)
            self.assertEqual(made.read_bytes(), self.wheel.read_bytes())

    def test_the_metadata_is_that_of_the_project(self):
        with zipfile.ZipFile(self.wheel) as archive:
            name = next(name for name in archive.namelist() if name.endswith("METADATA"))
            wheel = email.message_from_bytes(archive.read(name))
        with tarfile.open(self.built("sdist", "--sdist")) as archive:
            root = f"iox2sd-{wheel['Version']}"
            info = email.message_from_bytes(archive.extractfile(f"{root}/PKG-INFO").read())
            self.assertIn(f"{root}/iox2sd/py.typed", archive.getnames())
            self.assertFalse([name for name in archive.getnames() if ".so" in name])
        self.assertEqual(info.items(), wheel.items())
        self.assertIn("Programming Language :: Python :: 3.10", wheel.get_all("Classifier"))
        self.assertTrue(wheel["Author"] and wheel["Keywords"] and wheel["Project-URL"])

    def test_the_library_of_the_system_is_found(self):
        """A copy of the sources finds the library in the folder of the interpreter."""
        copied = self.folder / "copied"
        with tarfile.open(self.built("sdist", "--sdist")) as archive:
            archive.extractall(copied)
        (script,) = copied.glob("*/build_wheel.py")
        environment = {key: value for key, value in os.environ.items() if key != "IOX2SD_LIBRARY"}
        command = (
            "import pathlib, sys; sys.path.insert(0, sys.argv[1]); sys.prefix = sys.argv[2];"
            " import build_wheel; print(build_wheel.found_library())"
        )
        lib = self.folder / "prefix" / "lib" / Path(LIBRARY).name
        lib.parent.mkdir(parents=True)
        lib.write_bytes(b"")
        found = self.run_command(
            [sys.executable, "-B", "-c", command, script.parent, lib.parents[1]], environment
        )
        self.assertEqual(Path(found.strip()), lib.resolve())
