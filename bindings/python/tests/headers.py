"""What stands in the headers."""

import re

from . import PROJECT

FILES = sorted(
    path for path in (PROJECT / "include").glob("iox2sd*.h") if path.name != "iox2sd_log.h"
)
"""Those of the library: iox2sd_log.h defines all its functions."""

TEXT = "".join(path.read_text() for path in FILES).replace("IOX2SD_CHECKED ", "")

CONSTANTS = {
    name: int(number) for name, number in re.findall(r"^ +IOX2SD_(\w+) = (\d+)", TEXT, re.MULTILINE)
}
"""The members of all enums."""

STATUSES = {
    name.removeprefix("STATUS_"): number
    for name, number in CONSTANTS.items()
    if name.startswith("STATUS_")
}


def constant(kind: str, name: str) -> int:
    """The number of a member of an enum, whose name the enum may be a part of."""
    names = (f"{kind}_{name}", name, f"{name}_{kind}")
    return next(CONSTANTS[one] for one in names if one in CONSTANTS)


ABI = int(TEXT.partition("#define IOX2SD_ABI ")[2].split()[0])

FUNCTIONS = set(re.findall(r"\biox2sd_(\w+)\(", re.sub(r"/\*.*?\*/", "", TEXT, flags=re.DOTALL)))
"""All functions of the library."""

EXPORTS = {name for name in FUNCTIONS if f"{name.removesuffix('_str')}_at" not in FUNCTIONS}
"""Those that are no other's with checks for NULL, or for texts that end in a zero byte."""
