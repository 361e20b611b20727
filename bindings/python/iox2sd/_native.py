"""The exports of libiox2sd, declared as the headers `include/iox2sd*.h` do.

ctypes cuts a number to the bits of its parameter without a word, so each number and each text
passes `_arguments` before it comes here.

The library is loaded by `PyDLL`: a call keeps the interpreter's global lock, so it is carried out
whole before or after any other, and no lock is taken that a finalizer or the child of a fork could
wait for. Scripts and logs alone may take long; they share nothing, and let other threads run
meanwhile.
"""

import ctypes
import os
import struct
import sys
from ctypes import POINTER, c_bool, c_char_p, c_size_t, c_uint8, c_uint32, c_uint64, c_void_p
from functools import cache
from pathlib import Path
from typing import Any

ABI = 2
"""The number that the library's `iox2sd_abi` is to answer."""

DONE = 0
DONE_LOCKED = 1
BUFFER_TOO_SHORT = 2
DEADLINE = 2
MAX_SUBSCRIBERS = 8

_PATH = os.environ.get("IOX2SD_LIBRARY") or str(Path(__file__).with_name("libiox2sd.so.2"))


def _load() -> ctypes.PyDLL:
    if not getattr(sys, "_is_gil_enabled", lambda: True)():
        raise ImportError(
            "iox2sd needs the interpreter's global lock, which keeps calls on a service apart:"
            " start Python with -X gil=1 or PYTHON_GIL=1"
        )
    try:
        library = ctypes.PyDLL(_PATH)
    except (OSError, ValueError) as error:
        raise ImportError(
            f"libiox2sd was not loaded: {error}. It stands in the wheel of this package; in a"
            " source tree, IOX2SD_LIBRARY names the file."
        ) from error
    try:
        abi = library.iox2sd_abi
    except AttributeError as error:
        raise ImportError(f"{_PATH} is no libiox2sd: it has no iox2sd_abi") from error
    abi.restype = c_uint32
    abi.argtypes = []
    found = abi()
    if found != ABI:
        raise ImportError(f"{_PATH} has the binary interface {found}, this package needs {ABI}")
    return library


_KINDS: "dict[str, Any]" = {
    "bool": c_bool, "u8": c_uint8, "u32": c_uint32, "u64": c_uint64, "size": c_size_t,
    "slot": c_void_p,
}
"""The types of fields and parameters, by the words of the tables; `fields.txt` has the others."""


def _fields(line: str) -> "list[tuple[str, Any]]":
    """What a line of `fields.txt` declares: a field, a text and its length, or nothing."""
    kind, *names = line.partition(":")[0].split()
    kind, _, length = kind.rstrip("]").partition("[")
    if kind == "text":
        return [(names[0], c_char_p), (names[1], c_size_t)]
    if kind not in _KINDS:
        return []
    return [(names[0], _KINDS[kind] * int(length) if length else _KINDS[kind])]


def _read_structs() -> None:
    """Makes the structs of `fields.txt`, which are names of this module, as `PortDetails`. It lies
    beside this file in a wheel, and in `bindings` in a source tree.
    """
    table = Path(__file__).with_name("fields.txt")
    if not table.exists():
        table = Path(__file__).resolve().parents[2] / table.name
    for block in table.read_text().replace("iox2sd_", "").split("\n\n"):
        head, *lines = block.strip().split("\n")
        for line in lines:
            if line.startswith("enum "):
                _, enumeration, integer = line.split()
                _KINDS[enumeration] = _KINDS[integer]
        if not head.startswith("#") and "in C alone" not in head:
            name = head.partition(",")[0]
            called = "".join(word.capitalize() for word in name.split("_"))
            members = [field for line in lines for field in _fields(line)]
            _KINDS[name] = type(called, (ctypes.Structure,), {"_fields_": members})
            globals()[called] = _KINDS[name]


def _letters(kind: Any) -> str:
    """The fields of a struct as `struct` has them, without what stands behind the last one."""
    if issubclass(kind, ctypes.Structure):
        return "".join(_letters(field) for _, field, *_ in kind._fields_)
    return str(kind._type_)


@cache
def row(kind: Any) -> struct.Struct:
    """A struct as a row of numbers, in the order of its fields, for lists."""
    letters = _letters(kind)
    return struct.Struct(f"{letters}{ctypes.sizeof(kind) - struct.calcsize(letters)}x")


_EXPORTS = """
u32: abi
text_answer out: version_at layer_version_at
text_answer u32 out: status_text_at default_text_at
bool id: id_is_node
bool id id: id_is_before
u64 id: id_owner_id
id_answer text: id_from_text_at
text_answer id out: id_text_at
u32 *service u64 u64 capacities u64: service_create_at
u32 *service: service_free_at
number_answer *service_numbers: next_service_number_at
handle_answer *service id: register_node_id_at
handle_answer *service *port_details: attach_at
u32 *service handle: deregister_node_id_at release_port_at
dead_node_removal *service id *port_id: remove_dead_node_id_at
number_answer *service: messaging_pattern_at service_number_at
roles_answer *service: port_roles_at
flag_answer *service: is_locked_at has_room_for_node_at
flag_answer *service u64: has_role_at has_room_at
count_answer *service: number_of_nodes_at max_nodes_at
count_answer *service u64: count_ports_at max_ports_at
id_answer *service handle: node_at
port_answer *service handle: port_at
count_answer *service *id: nodes_at
count_answer *service u64 *port_details: ports_at
count_answer *service id *port_details: ports_of_at
place_answer text: service_name_check_at internal_service_name_check_at attribute_key_check_at
place_answer text: attribute_value_check_at path_check_at file_name_check_at file_path_check_at
place_answer text: restricted_file_name_check_at
bool text: has_iox2_prefix_at
text_answer text out: internal_service_name_at
text_answer text text out: path_add_path_entry_at file_path_from_path_and_file_at
text_answer u64 text out: hash_text_at internal_hash_text_at
place_answer *attribute: attributes_sort_at
count_answer *attribute text: attributes_number_of_key_values_at
text_answer *attribute text size out: attributes_key_value_at
place_answer *attribute *attribute *key: attributes_verify_at
u32 *type_detail: type_detail_check_at
layout_answer *message_details size: message_sample_layout_at
places_answer *message_details size: message_places_at
part_answer *message_details *message_details: message_is_compatible_to_at
count_answer size size size: required_amount_of_chunks_per_client_data_segment
count_answer size size size size size: required_amount_of_chunks_per_server_data_segment
count_answer size size size size size: required_amount_of_samples_per_data_segment
global_settings: global_defaults
field_answer *global_settings: global_settings_check_at
config_answer text *config: config_read_at
count_answer text *config_fault: config_faults_at
unknown_answer text *unknown_key out: config_unknown_at
config_write_answer *config out: config_write_at
"""
"""What each export returns, and what it takes: a `text` and an array are a pointer and a length."""

_OF_PATTERN = """PATTERN_settings: PATTERN_defaults
field_answer *PATTERN_settings text bool id *description: describe_PATTERN_at
field_answer *PATTERN_config *PATTERN_config: PATTERN_satisfies_at
PATTERN_capacities *PATTERN_settings: PATTERN_capacities_of_settings_at
"""
"""The same of each pattern."""

_OF_LOGS = """script_answer text out: script_run_at
conform_answer text out: conform_run_at
"""
"""The exports that let other threads run meanwhile."""


def _taken(word: str) -> "list[Any]":
    """The types of what a word of the table stands for."""
    if word == "text":
        return [c_char_p, c_size_t]
    if word == "out":
        return [POINTER(c_uint8), c_size_t]
    return [POINTER(_KINDS[word[1:]]), c_size_t] if word[0] == "*" else [_KINDS[word]]


def _declare(library: ctypes.CDLL, exports: str) -> None:
    """Makes these exports of a library functions of this module."""
    for line in exports.split("\n"):
        signature, _, names = line.partition(": ")
        for name in names.split():
            try:
                function = getattr(library, f"iox2sd_{name}")
            except AttributeError as error:
                raise ImportError(f"libiox2sd has no iox2sd_{name}") from error
            returned, *words = signature.split()
            function.restype = _KINDS[returned]
            function.argtypes = [kind for word in words for kind in _taken(word)]
            globals()[name] = function


def __getattr__(name: str) -> Any:
    """The structs and the exports are the other names of this module."""
    raise AttributeError(name)


_read_structs()
_library = _load()
_declare(_library, _EXPORTS)
for _pattern in ("publish_subscribe", "event", "request_response", "blackboard"):
    _declare(_library, _OF_PATTERN.replace("PATTERN", _pattern))
_declare(ctypes.CDLL(_PATH), _OF_LOGS)


def front(array: Any, length: int) -> str:
    """The text at the front of an array, of which there may be more than it holds."""
    return bytes(array)[:length].decode(errors="ignore")


def filled(capacity: int, function: Any, *arguments: Any) -> "tuple[Any, bytes]":
    """The answer of a call that writes bytes, and these; it is called again with the capacity that
    it needs.
    """
    while True:
        out = (c_uint8 * capacity)()
        answer = function(*arguments, out, capacity)
        if answer.status != BUFFER_TOO_SHORT:
            return answer, ctypes.string_at(out, answer.length)
        capacity = answer.length


def written(function: Any, *arguments: Any) -> "tuple[int, str]":
    """The status of a call that writes a text, and the text."""
    answer, text = filled(64, function, *arguments)
    return answer.status, text.decode()
