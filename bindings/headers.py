"""The C headers of the library, by their names."""

import re
from pathlib import Path

TOP = Path(__file__).resolve().parent.parent
TEXTS = {file.name: file.read_text() for file in sorted(TOP.glob("include/*.h"))}
WITHOUT_COMMENTS = {name: re.sub(r"/\*.*?\*/", "", text, flags=re.S)
                    for name, text in TEXTS.items()}
# All but the one that defines all its functions, of which the library has none.
CODE = {name: code for name, code in WITHOUT_COMMENTS.items() if name != "iox2sd_log.h"}


def declared(code):
    """The functions that are named with their parameters."""
    return set(re.findall(r"\b(iox2sd_\w+)\(", code))
