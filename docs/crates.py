"""The crates of the repository, lowest first, as crates.txt has them."""

from pathlib import Path

TOP = Path(__file__).resolve().parent.parent
LINES = [line.partition("#")[0].partition(":")
         for line in (TOP / "crates.txt").read_text().splitlines()]
# What each crate uses; and of that the crates of the repository, without the toolchain's.
NAMED = {head.split()[0]: names.split() for head, _, names in LINES if head.strip()}
USES = {crate: [name for name in names if name in NAMED] for crate, names in NAMED.items()}


def below(crate):
    """The crates that a crate stands on, with itself."""
    return {crate}.union(*map(below, USES[crate]))
