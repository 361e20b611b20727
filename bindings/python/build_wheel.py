#!/usr/bin/env python3
"""Builds the wheel of iox2sd, with the shared library in it, or the archive of its sources, by
Python's standard library alone: setuptools would have to be fetched for each build, and its wheels
have the times of their files.

    bindings/python/build_wheel.py [--sdist] DIRECTORY

prints the path of the file. The library is the file that IOX2SD_LIBRARY names, that of
`bindings/out`, or an installed one. Python 3.11 or later is needed to build, not to install. `pip
install` of this folder and of the archive call `build_wheel` too, since pyproject.toml names this
file.
"""

import base64
import gzip
import hashlib
import io
import os
import re
import subprocess
import sys
import tarfile
import tomllib
import zipfile
from pathlib import Path
from typing import Any

HERE = Path(__file__).resolve().parent
SHARED = "libiox2sd.so.2"
SYSTEM = ("/usr/local/lib", "/usr/lib/x86_64-linux-gnu", "/lib/x86_64-linux-gnu", "/usr/lib64")
# What pyproject.toml says of the project.
PROJECT: "dict[str, Any]" = tomllib.loads((HERE / "pyproject.toml").read_text())["project"]

Files = dict[str, bytes]


def build_wheel(
    wheel_directory: str, config_settings: Any = None, metadata_directory: "str | None" = None
) -> str:
    """Writes the wheel into a directory, and answers its name (PEP 517). It has a fixed time, so
    that equal files make equal wheels.
    """
    library = found_library()
    name = f"{PROJECT['name']}-{library_version(library)}"
    tag = f"py3-none-{platform_tag(library.read_bytes())}"
    info, wheel = f"{name}.dist-info", f"{name}-{tag}.whl"
    files = package() | {f"iox2sd/{SHARED}": library.read_bytes()}
    files |= {f"{info}/licenses/{licence}": content for licence, content in licences().items()}
    files[f"{info}/WHEEL"] = (
        f"Wheel-Version: 1.0\nGenerator: build_wheel.py\nRoot-Is-Purelib: false\nTag: {tag}\n"
    ).encode()
    files[f"{info}/METADATA"] = metadata(library)
    files[f"{info}/RECORD"] = record(files, f"{info}/RECORD")
    with zipfile.ZipFile(Path(wheel_directory, wheel), "w", zipfile.ZIP_DEFLATED) as archive:
        for path, content in files.items():
            entry = zipfile.ZipInfo(path)
            entry.compress_type = zipfile.ZIP_DEFLATED
            entry.external_attr = 0o100644 << 16
            archive.writestr(entry, content)
    return wheel


def build_sdist(sdist_directory: str, config_settings: Any = None) -> str:
    """Writes the archive of the sources into a directory, and answers its name (PEP 517)."""
    library = found_library()
    own = ("README.md", "build_wheel.py", "pyproject.toml")
    files = package() | licences() | {name: (HERE / name).read_bytes() for name in own}
    files["PKG-INFO"] = metadata(library)
    name, packed = f"{PROJECT['name']}-{library_version(library)}", io.BytesIO()
    with tarfile.open(fileobj=packed, mode="w", format=tarfile.PAX_FORMAT) as archive:
        for path, content in sorted(files.items()):
            entry = tarfile.TarInfo(f"{name}/{path}")
            entry.size = len(content)
            archive.addfile(entry, io.BytesIO(content))
    Path(sdist_directory, f"{name}.tar.gz").write_bytes(gzip.compress(packed.getvalue(), mtime=0))
    return f"{name}.tar.gz"


def package() -> Files:
    """The files of the package, without the library: its sources, and the table of structs, which
    lies beside this folder, and in an archive of sources among them.
    """
    table = HERE / "iox2sd" / "fields.txt"
    paths = [*(HERE / "iox2sd").glob("*.py"), HERE / "iox2sd" / "py.typed"]
    paths.append(table if table.is_file() else HERE.parent / table.name)
    paths.sort(key=lambda path: path.name)
    return {f"iox2sd/{path.name}": path.read_bytes() for path in paths}


def licences() -> Files:
    """The licences, which lie in the project's folder, and in an archive of sources beside this."""
    folder = HERE if (HERE / "PKG-INFO").is_file() else HERE.parents[1]
    return {name: (folder / name).read_bytes() for name in PROJECT["license-files"]}


def found_library() -> Path:
    """The library that goes into the wheel."""
    if named := os.environ.get("IOX2SD_LIBRARY"):
        return Path(named).resolve()
    for folder in (HERE.parent / "out", Path(sys.prefix, "lib"), *map(Path, SYSTEM)):
        if (folder / SHARED).is_file():
            return (folder / SHARED).resolve()
    raise SystemExit(f"{SHARED} was not found: install it, or name the file by IOX2SD_LIBRARY")


def library_version(library: Path) -> str:
    """The version that the library reports, which is that of the package."""
    environment = os.environ | {"IOX2SD_LIBRARY": str(library), "PYTHONPATH": str(HERE)}
    command = [sys.executable, "-B", "-c", "import iox2sd; print(iox2sd.__version__)"]
    return subprocess.check_output(command, env=environment, text=True).strip()


def platform_tag(library: bytes) -> str:
    """The tag of the systems that have all symbols that the library wants of the C library."""
    if library[:5] != b"\x7fELF\x02" or int.from_bytes(library[18:20], "little") != 62:
        raise SystemExit("the library is not for x86-64 Linux")
    wanted = re.findall(rb"\0GLIBC_(\d+)\.(\d+)(?:\.\d+)?(?=\0)", library)
    if not wanted:
        raise SystemExit("the library wants no version of the C library")
    major, minor = max((2, 5), *((int(major), int(minor)) for major, minor in wanted))
    return f"manylinux_{major}_{minor}_x86_64"


def metadata(library: Path) -> bytes:
    """The file METADATA, as the core metadata specification 2.4 has it."""
    lines = [
        "Metadata-Version: 2.4", f"Name: {PROJECT['name']}",
        f"Version: {library_version(library)}", f"Summary: {PROJECT['description']}",
        f"Keywords: {','.join(PROJECT['keywords'])}",
        *(f"Author: {author['name']}" for author in PROJECT["authors"]),
        f"License-Expression: {PROJECT['license']}",
        *(f"License-File: {licence}" for licence in PROJECT["license-files"]),
        *(f"Classifier: {classifier}" for classifier in PROJECT["classifiers"]),
        *(f"Project-URL: {label}, {url}" for label, url in PROJECT["urls"].items()),
        f"Requires-Python: {PROJECT['requires-python']}",
        "Description-Content-Type: text/markdown",
    ]
    return ("\n".join(lines) + "\n\n" + Path(HERE, PROJECT["readme"]).read_text()).encode()


def record(files: Files, own_name: str) -> bytes:
    """The file RECORD: each file with its digest and size, and itself without."""
    lines = []
    for name, content in files.items():
        digest = base64.urlsafe_b64encode(hashlib.sha256(content).digest()).rstrip(b"=").decode()
        lines.append(f"{name},sha256={digest},{len(content)}\n")
    return "".join([*lines, f"{own_name},,\n"]).encode()


if __name__ == "__main__":
    *option, folder = sys.argv[1:] or [""]
    if option not in ([], ["--sdist"]) or folder in ("", "--sdist"):
        raise SystemExit("usage: build_wheel.py [--sdist] DIRECTORY")
    Path(folder).mkdir(parents=True, exist_ok=True)
    print(Path(folder) / (build_sdist if option else build_wheel)(folder))
