"""What a program's run costs, beside time: instructions and memory, and the marks of such figures.
A figure is `None` where what gives it is not installed."""

import os
import re
import shutil
import subprocess
import sys
import tempfile
from pathlib import Path

CRATES = Path(__file__).resolve().parent.parent / "crates"
SECONDS = 300
GNU_TIME = "/usr/bin/time"


class Marks:
    """Figures that are printed beside the most that they may be, and which of them are more."""

    def __init__(self):
        self.count, self.left_out, self.missed = 0, 0, []

    def show(self, name, figures, most, compared=None, form=",.0f"):
        """Prints figures, as of the proved program and of the plain one, with what they come to
        where they are compared, and the most that this, or else the first, may be."""
        found = compared(*figures) if compared else figures[0]
        words = [" / ".join("-" if figure is None else f"{figure:{form}}" for figure in figures)]
        if compared and found is not None:
            words.append(f"{compared.__name__} {found:,.2f}")
        words.append(f"at most {most:,}")
        self.count += 1
        self.left_out += found is None
        if found is not None and round(found, 2) > most:
            self.missed.append(f"{name}: {found:,.2f}, mark {most:,}")
            words.append("MISSED")
        print(f"{name}: {', '.join(words)}", flush=True)

    def print_summary(self):
        """Prints how many marks there are, and which are missed. Ends where none was measured."""
        print(f"\nMarks: {self.count}, missed: {len(self.missed)}, "
              f"not measured: {self.left_out}", *self.missed, sep="\n")
        if self.left_out == self.count:
            sys.exit("nothing was measured")


def ratio(one, other):
    return None if None in (one, other) else one / other


def difference(more, fewer, times=1):
    """By how much one figure is above another, for each time."""
    return None if None in (more, fewer) else (more - fewer) / times


def told_by(command, script):
    """What a command, if it is installed, says of a program's run on a file, on standard error."""
    if shutil.which(command[0]) is None:
        return None
    with open(script, "rb") as stdin:
        return subprocess.run(command, stdin=stdin, stdout=subprocess.DEVNULL,
                              stderr=subprocess.PIPE, timeout=SECONDS, check=True).stderr


def instructions(program, script):
    """How many instructions the program takes on the file, by callgrind."""
    callgrind = ["valgrind", "--tool=callgrind", f"--callgrind-out-file={os.devnull}"]
    told = told_by([*callgrind, program], script)
    return told and int(re.search(rb"Collected : (\d+)", told)[1])


def peak(program, script):
    """The program's peak memory on the file, in megabytes, by GNU time, since a child of this
    process counts its memory too."""
    told = told_by([GNU_TIME, "-f", "%M", program], script)
    return told and int(told) * 1024 / 1e6


def check_same(programs, script):
    """Ends where the programs do not show the same for the file, or one refuses it."""
    runs = [subprocess.run([program], input=script.read_bytes(), capture_output=True,
                           timeout=SECONDS) for program in programs]
    shown = {(ended.returncode, ended.stdout, ended.stderr) for ended in runs}
    if len(shown) > 1 or runs[0].returncode:
        kept = shutil.copy(script, tempfile.mkdtemp())
        sys.exit(f"it is not carried out, or the programs show different output or errors: "
                 f"{runs[0].stderr}; the script is left at {kept}")


def built(crate, name=None, *command):
    """A program of a crate, proved and built first where it is missing or older than a source."""
    program, given = CRATES / crate / "out" / (name or crate), CRATES / crate / "stdin"
    sources = [*CRATES.glob("*/src/**/*.rt"), *CRATES.glob("*/specs/**/*.antt")]
    if not program.exists() or any(
            source.stat().st_mtime > program.stat().st_mtime for source in sources):
        with open(given if given.exists() else os.devnull) as stdin:
            subprocess.run(["rt", *(command or ["run"])], cwd=CRATES / crate, stdin=stdin,
                           stdout=sys.stderr, check=True)
    return program
