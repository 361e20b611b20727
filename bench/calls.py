#!/usr/bin/env -S python3 -B
"""Typed calls: `bench_calls` beside `plain_calls`, a program without proofs, and calls from C and
Rust beside plain programs of the same calls, and from C beside those inside. Alone it prints these
figures. A program takes lines of a call, the capacities of a service, a number of rounds and of
calls in a round; a round sets up the same whatever the number of calls. So the instructions of a
call are the difference of two runs that differ in that number alone."""

import os
import shutil
import subprocess
import tempfile
from pathlib import Path
from typing import NamedTuple

import measure
from measure import difference, ratio

HERE = Path(__file__).resolve().parent
FFI = HERE / "ffi"
DEBIAN = Path("/usr/share/cargo/registry")
ARCHIVE = HERE.parent / "bindings" / "out" / "libiox2sd.a"


class Call(NamedTuple):
    """A call with the capacities of its service (nodes, subscribers, publishers; for a layout the
    size of the header, the alignment and the size of an element), how often it is made in each of
    some rounds, and its mark, the most that its instructions come to beside those of the other
    program."""

    name: str
    capacities: str
    rounds: int
    few: int
    many: int
    mark: float = 1.0

    def instructions(self, programs, work):
        """Instructions of one call in each of the programs, if there are such."""
        if programs is None:
            return [None, None]
        scripts = [work / str(self.few), work / str(self.many)]
        for script in scripts:
            script.write_text(f"{self.name} {self.capacities} {self.rounds} {script.name}\n")
            measure.check_same(programs, script)
        made = self.rounds * (self.many - self.few)
        counted = ([measure.instructions(program, script) for script in scripts]
                   for program in programs)
        return [difference(many, few, made) for few, many in counted]


DEFAULT, LARGE, SIZES, NONE = "20 8 2", "500 250 250", "40 8 24", "0 0 0"
SINGLE = [
    Call("register", DEFAULT, 50, 10, 20),
    Call("register", LARGE, 2, 250, 500),
    *(Call(name, capacities, 1, 100, 200) for name in ("list", "nodes", "ports")
      for capacities in (DEFAULT, LARGE)),
    *(Call(name, *at) for name in ("attach", "release", "deregister", "death")
      for at in ((DEFAULT, 50, 4, 8), (LARGE, 2, 125, 250))),
    Call("layout", SIZES, 1, 1_000, 2_000),
    Call("verification", NONE, 1, 100, 200, 0.78),
    Call("hash-text", NONE, 1, 100, 200, 1.18),
]
BESIDE_PLAIN_CPP = [
    *(Call("attach-release", capacities, 1, 100, 200, 1.1) for capacities in ("1 8 2", "19 8 2")),
    Call("ports", "1 15 0", 1, 100, 200, 1.1),
    Call("ports", "1 999 0", 1, 10, 20, 1.1),
    Call("port", DEFAULT, 1, 100, 200, 1.1),
]
BEYOND_INSIDE = [
    Call("register", DEFAULT, 50, 10, 20, 12),
    *(Call(name, DEFAULT, 50, 4, 8, 12) for name in ("attach", "release", "deregister", "death")),
]
BESIDE_PLAIN_RUST = [
    *(Call(name, DEFAULT, 1, 100, 200, 1.5)
      for name in ("port", "attach-release", "ports", "ports-of", "count", "make")),
    Call("death", DEFAULT, 50, 0, 2, 1.5),
]
# A death that keeps all ports. Where it takes n log n, 16,000 take 16 * log(16,000) / log(1,000)
# times as much as 1,000, which is 22.4.
KEPT = [Call("keep", f"1 {kept} 0", 1, 2, 4, 22.5) for kept in (16_000, 1_000)]


def cargo(folder, *names, **more):
    """The paths of programs that cargo builds in a folder."""
    subprocess.run(["cargo", "build", "--release", "--quiet", "--offline"], cwd=folder, check=True,
                   **more)
    return [folder / "target" / "release" / name for name in names]


def built_for_c(work):
    """The paths of the programs of `ffi`: on the library, and the plain one."""
    include = f"-I{HERE.parent / 'include'}"
    c, plain = ["cc", "-std=c99", "-O2", include, FFI / "calls.c"], work / "calls.o"
    for command in (
        [*c, ARCHIVE, "-o", work / "from_c"], [*c, "-DPLAIN", "-c", "-o", plain],
        ["g++", "-std=c++17", "-O2", include, FFI / "plain.cpp", plain, "-o", work / "plain"],
    ):
        subprocess.run(command, check=True)
    return [work / "from_c", work / "plain"]


def measure_all(marks):
    """Prints what the calls of each pair of programs take, beside their marks. The plain programs
    are built each time."""
    inside = c = rust = None
    with tempfile.TemporaryDirectory() as folder:
        work = Path(folder)
        if all(any(DEBIAN.glob(f"{library}-*")) for library in ("sha1", "base64")):
            inside = [measure.built("bench_calls"), *cargo(HERE / "plain_calls", "plain_calls")]
        else:
            print("Single calls are not measured: there is no librust-sha1-dev, or no "
                  "librust-base64-dev.")
        absent = [tool for tool in ("cc", "g++", "cargo") if shutil.which(tool) is None]
        absent += [] if ARCHIVE.exists() else ["bindings/out/libiox2sd.a"]
        if absent:
            print(f"Calls from C and Rust are not measured: there is no {', no '.join(absent)}.")
        else:
            library = os.environ | {"IOX2SD_LIB_DIR": str(ARCHIVE.parent)}
            c, rust = built_for_c(work), cargo(FFI / "rust", "from_rust", "plain", env=library)
        for pair, compared, rows, programs in (
            ("Inside / plain", ratio, SINGLE, inside),
            ("From C / plain C++", ratio, BESIDE_PLAIN_CPP, c),
            ("From C / inside", difference, BEYOND_INSIDE, c and inside and [c[0], inside[0]]),
            # Inside, it is one read, as in the plain program.
            ("From C / plain C++", difference, [Call("is-locked", DEFAULT, 1, 100, 200, 12)], c),
            ("From Rust / plain Rust", ratio, BESIDE_PLAIN_RUST, rust),
        ):
            print(f"\n{pair}, instructions a call")
            for call in rows:
                name = f"{call.name} {call.capacities}".removesuffix(f" {NONE}")
                marks.show(name, call.instructions(programs, work), call.mark, compared)
        kept = [call.instructions(c, work)[0] for call in KEPT]
        marks.show("\na death from C that keeps 16,000 ports, beside one that keeps 1,000", kept,
                   KEPT[0].mark, ratio)


if __name__ == "__main__":
    found = measure.Marks()
    measure_all(found)
    found.print_summary()
