"""The declarations in `_native` are those of the headers."""

import ctypes
import enum
import re
import shutil
import subprocess
import tempfile
from pathlib import Path
from typing import Any

import iox2sd
from iox2sd import _native, errors

from . import PROJECT, TestCase, headers

NO_CLASS = {
    "no refusal": "DONE DONE_LOCKED",
    "a call is made again with a longer buffer": "BUFFER_TOO_SHORT",
    "members of enums are passed": "UNKNOWN_PATTERN UNKNOWN_ROLE UNKNOWN_SEGMENT UNKNOWN_VARIANT"
    " UNKNOWN_TEXT UNKNOWN_STRATEGY",
    "texts are legal": "BAD_KEY BAD_VALUE BAD_SERVICE_NAME BAD_PATH BAD_ENTRY BAD_REQUIRED_KEY"
    " BAD_REQUIRED_VALUE BAD_ASKED_KEY",
    "no NULL is passed": "NULL",
    "it is the status of an error without one": "UNKNOWN_STATUS",
    "it is answered as None": "NO_SUCH_VALUE",
    "it is a fault of a BadConfigError": "NOT_TOML WRONG_TYPE BELOW_ZERO NO_DURATION TOO_DEEP",
    "the system's own errors are raised": "NO_FILE",
    "it is a verdict on a log": "NO_ORDER NO_SERVICE_LINE NO_CALL_LINE NO_REPLY_LINE"
    " TOO_MANY_CONFIGURATIONS TOO_MANY_OPEN_CALLS UNKNOWN_CALLER NO_NEWLINE CARRIAGE_RETURN"
    " NO_STATE_LINE",
}
"""The statuses that no call of the package meets, by the reason."""

NOT_CALLED = {
    r"(publish_subscribe|event|request_response)_settings_check_at": "their fields are valid",
    r"attributes_check_at": "sets are sorted where they are made",
    r"(service|node)_dir_at": "paths are joined",
    r"has_same_messaging_pattern": "patterns are members of an enum",
    r"(\w+_)?capacities_of_\w+": "those of settings are called",
    r"service_create_\w+": "services are made of capacities",
    r"handle_(is_)?none": "a handle is one, or None",
    r"\w+_str": "texts have their length",
    r"(samples|requests|responses)_of": "the numbers are passed one by one",
    r"open_(check|text)": "its parts are called one after another",
}
"""The exports that the package has no use for."""


def snake(name: str) -> str:
    return re.sub(r"(?<!^)(?=[A-Z])", "_", name).lower()


def of_type(kind: type) -> "dict[str, Any]":
    """The names of the declarations that are of a type, as its structs and its functions."""
    return {
        name: value
        for name, value in vars(_native).items()
        if isinstance(value, kind)
        or isinstance(value, type) and issubclass(value, kind) and value is not kind
    }


STRUCTS = {f"iox2sd_{snake(n)}": kind for n, kind in of_type(ctypes.Structure).items()}
CALLS = of_type(ctypes._CFuncPtr)

C_TYPES = {
    ctypes.c_bool: "bool", ctypes.c_uint8: "uint8_t", ctypes.c_uint32: "uint32_t",
    ctypes.c_uint64: "uint64_t", ctypes.c_char_p: "uint8_t *",
    **{kind: name for name, kind in STRUCTS.items()},
}


def c_type(kind: Any) -> str:
    return C_TYPES.get(kind) or f"{c_type(kind._type_)} *"


def layout(name: str, kind: Any) -> "list[str]":
    """The lines that the C program prints of a struct."""
    places = ((field, getattr(kind, field)) for field, *_ in kind._fields_)
    own = (f"{name}.{field} {place.offset} {place.size}" for field, place in places)
    return [f"{name} {ctypes.sizeof(kind)}", *own]


def program() -> str:
    """A C program that declares each function again, and prints the layout of each struct."""
    lines = [f"#include <{name}.h>" for name in ("stdbool", "stddef", "stdint", "stdio")]
    lines += ["#define const", *(f'#include "{path.name}"' for path in headers.FILES)]
    for name, function in CALLS.items():
        parameters = ", ".join(map(c_type, function.argtypes)) or "void"
        lines.append(f"{c_type(function.restype)} iox2sd_{name}({parameters});")
    lines.append("int main(void) {")
    for name, kind in STRUCTS.items():
        lines.append(f'printf("{name} %zu\\n", sizeof({name}));')
        for field, *_ in kind._fields_:
            size = f"sizeof((({name} *)0)->{field})"
            offset = f"offsetof({name}, {field})"
            lines.append(f'printf("{name}.{field} %zu %zu\\n", {offset}, {size});')
    return "\n".join([*lines, "return 0;", "}", ""])


class Declarations(TestCase):
    def test_structs_and_functions_are_those_that_a_c_compiler_sees(self):
        compiler = shutil.which("cc")
        if compiler is None:
            self.skipTest("not found: cc")
        with tempfile.TemporaryDirectory() as folder:
            source, binary = Path(folder, "layout.c"), Path(folder, "layout")
            source.write_text(program())
            include = f"-I{PROJECT / 'include'}"
            command = [compiler, "-std=c99", "-Wall", "-Werror", include, source, "-o", binary]
            built = subprocess.run(command, capture_output=True, text=True)
            self.assertEqual((built.returncode, built.stderr), (0, ""))
            printed = subprocess.run([binary], capture_output=True, text=True, check=True).stdout
        declared = [line for struct in STRUCTS.items() for line in layout(*struct)]
        self.assertEqual(printed.splitlines(), declared)
        self.assertGreater(len(declared), 100)

    def test_each_export_is_declared(self):
        self.assertLessEqual(set(CALLS), headers.EXPORTS)
        for name in headers.EXPORTS - set(CALLS):
            self.assertTrue(any(re.fullmatch(pattern, name) for pattern in NOT_CALLED), name)

    def test_the_interface_is_that_of_the_header(self):
        self.assertEqual((_native.ABI, _native.abi()), (headers.ABI, headers.ABI))

    def test_constants_are_those_of_the_header(self):
        kinds: "dict[str, type[enum.Enum]]" = {
            "PATTERN": iox2sd.MessagingPattern, "ROLE": iox2sd.Role,
            "SEGMENT": iox2sd.DataSegmentType, "VARIANT": iox2sd.TypeVariant,
            "BACKPRESSURE": iox2sd.BackpressureStrategy, "ALLOCATION": iox2sd.AllocationStrategy,
            "TEXT": iox2sd.DefaultText, "LIKENESS": iox2sd.Likeness,
        }
        for front, kind in kinds.items():
            for member in kind:
                with self.subTest(member=member):
                    self.assertEqual(headers.constant(front, member.name), member.value)
        self.assertEqual(
            [iox2sd.Status(member.value).name for member in iox2sd.Expected],
            "NO_SERVICE_LINE NO_CALL_LINE NO_REPLY_LINE CALLER_IS_BUSY NO_OPEN_CALL CALLER_IS_DEAD"
            " UNKNOWN_CALLER NO_NEWLINE CARRIAGE_RETURN NO_STATE_LINE".split(),
        )
        for name in ("DONE", "DONE_LOCKED", "BUFFER_TOO_SHORT"):
            self.assertEqual(headers.STATUSES[name], getattr(_native, name))
        for name in ("DEADLINE", "MAX_SUBSCRIBERS"):
            self.assertEqual(headers.constant("FIELD", name), getattr(_native, name))

    def test_each_refusal_has_a_class(self):
        named = {
            snake(kind.__name__).upper().removesuffix("_ERROR"): status.value
            for status, kind in errors._KINDS.items()
        }
        others = " ".join(NO_CLASS.values()).split()
        self.assertEqual(named, {n: s for n, s in headers.STATUSES.items() if n not in others})
        self.assertLessEqual(set(others), set(headers.STATUSES))
