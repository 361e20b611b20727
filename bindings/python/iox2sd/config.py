"""The configuration of a system: where its files lie, how they are called, and what services get
where nothing else is said; and the file that has it, `iceoryx2.toml`.

The defaults of all fields are those of the library, and a `Config()` is what a system has without a
configuration of its own.
"""

import ctypes
import os
from dataclasses import dataclass, fields
from functools import partial
from typing import Any, Optional, Union, cast

from . import _native
from ._arguments import Checked, shown, utf8, wrong_type
from ._values import Choice, Value
from .errors import (
    BadConfigError, ConfigFault, IllegalByteError, NotUtf8Error, RefusedError, Status, check,
    positioned,
)
from .settings import (
    LIBRARY, BlackboardSettings, Duration, EventSettings, PublishSubscribeSettings,
    RequestResponseSettings, defaults, put_settings, read, read_all,
)
from .texts import FileName, Path, Text, lent


def _name(c: Any, part: str, own: str) -> str:
    """The name that the library has for a text of a part of a `GlobalConfig`."""
    return own if hasattr(c.texts, own) else f"{part}_{own}"


def _values(c: Any, part: str, kind: Any) -> "dict[str, Any]":
    """What the library answered of a part of a `GlobalConfig`, but for the parts of that."""
    shared, found = getattr(c, "global"), {}
    for own, type_ in kind.__annotations__.items():
        if type_ in (Path, FileName):
            text = getattr(c.texts, _name(c, part, own))
            found[own] = type_(_native.front(text.bytes, text.length))
        elif hasattr(shared, own):
            found[own] = read(shared, own)
    return found


_defaults = _native.Config()
check(_native.config_read_at(b"", 0, _defaults, 1).status, "defaults of Config")


@dataclass(frozen=True, slots=True, kw_only=True)
@defaults(partial(_values, _defaults, "service"))
class ServiceConfig(Checked):
    """Where the files of services lie, and how their names end."""

    directory: Path = LIBRARY
    """The directory of services, below the root path."""
    data_segment_suffix: FileName = LIBRARY
    """The end of the name of a port's data segment."""
    static_config_storage_suffix: FileName = LIBRARY
    """The end of the name of a service's static configuration."""
    dynamic_config_storage_suffix: FileName = LIBRARY
    """The end of the name of a service's dynamic configuration."""
    connection_suffix: FileName = LIBRARY
    """The end of the name of a connection between two ports."""
    event_connection_suffix: FileName = LIBRARY
    """The end of the name of a connection for events."""
    blackboard_mgmt_suffix: FileName = LIBRARY
    """The end of the name of the segment by which a blackboard is managed."""
    blackboard_data_suffix: FileName = LIBRARY
    """The end of the name of the segment with a blackboard's values."""
    cleanup_dead_nodes_on_open: bool = LIBRARY
    """Whether what dead nodes left is removed first when a service is opened."""


@dataclass(frozen=True, slots=True, kw_only=True)
@defaults(partial(_values, _defaults, "node"))
class NodeConfig(Checked):
    """Where the files of nodes lie, and how their names end."""

    directory: Path = LIBRARY
    """The directory of nodes, below the root path."""
    monitor_suffix: FileName = LIBRARY
    """The end of the name of the token by which others see that a node lives."""
    static_config_suffix: FileName = LIBRARY
    """The end of the name of a node's static configuration."""
    service_tag_suffix: FileName = LIBRARY
    """The end of the name of the tag that a node leaves for each service that it uses."""
    port_tag_suffix: FileName = LIBRARY
    """The end of the name of the tag that a node leaves for each of its ports."""
    global_mgmt_suffix: FileName = LIBRARY
    """The end of the name of the segment with which nodes are managed."""
    cleanup_dead_nodes_on_creation: bool = LIBRARY
    """Whether what dead nodes left is removed first when a node is created."""
    cleanup_dead_nodes_on_destruction: bool = LIBRARY
    """The same when a node is dropped."""


@dataclass(frozen=True, slots=True, kw_only=True)
@defaults(partial(_values, _defaults, ""))
class GlobalConfig(Checked):
    """What all services and nodes of one system share."""

    root_path: Path = LIBRARY
    """The path below which everything else lies."""
    prefix: FileName = LIBRARY
    """What the name of each file begins with."""
    service: ServiceConfig = ServiceConfig()
    node: NodeConfig = NodeConfig()
    creation_timeout: Duration = LIBRARY
    """How long an opener waits until the creator is ready."""

    def service_dir(self) -> Path:
        """The directory of services: the root path and `service.directory`, joined as by
        `Path.add_path_entry`. Raises `TooLongError` past 255 bytes.
        """
        return self.root_path.add_path_entry(self.service.directory)

    def node_dir(self) -> Path:
        """The directory of nodes: the root path and `node.directory`, in the same way."""
        return self.root_path.add_path_entry(self.node.directory)


@dataclass(frozen=True, slots=True, kw_only=True)
class Defaults(Checked):
    """The settings that services of each pattern get where nothing else is said."""

    publish_subscribe: PublishSubscribeSettings = PublishSubscribeSettings()
    event: EventSettings = EventSettings()
    request_response: RequestResponseSettings = RequestResponseSettings()
    blackboard: BlackboardSettings = BlackboardSettings()


@dataclass(frozen=True, slots=True, kw_only=True)
class Config(Checked):
    """All settings: those of the system, and those that services get by default. `global` is a word
    of Python's own, so the first is `global_cfg`. `dataclasses.replace` makes others of it.
    """

    global_cfg: GlobalConfig = GlobalConfig()
    defaults: Defaults = Defaults()

    @classmethod
    def from_toml(cls, text: str) -> "ConfigFile":
        """The settings of the text of a file, where each key that it does not have has its default,
        and the keys that no setting has. Raises `BadConfigError` with all that is wrong, and
        `NoMemoryError`.
        """
        return _read_file(utf8(text, "Config.from_toml"))

    @classmethod
    def from_toml_file(cls, path: Union[str, "os.PathLike[str]"]) -> "ConfigFile":
        """The same of a file, which is read whole. Raises `OSError` too, and of a path that no
        file can have `IllegalByteError` and `NotUtf8Error`.
        """
        with open(_system_path(path, "Config.from_toml_file"), "rb") as file:
            return _read_file(file.read(), os.fspath(path))

    def to_toml(self) -> str:
        """The settings as the text of a file, each below a comment with what it is and its default.
        Raises `NoTomlIntegerError`, of a number or of the seconds of a duration above 2^63 - 1, and
        `NoMemoryError`.
        """
        answer, text = _native.filled(16384, _native.config_write_at, _plain_config(self), 1)
        check(answer.status, _native.front(answer.key, answer.key_length) or "Config.to_toml")
        return text.decode()


def _system_path(path: object, what: str) -> str:
    """A path of the system, of a `str` or of what is one by `os.fspath`."""
    if not isinstance(path, (str, os.PathLike)):
        raise wrong_type(what, "str or os.PathLike", path)
    plain_path = os.fspath(path)
    if not isinstance(plain_path, str):
        raise wrong_type(what, "a path of str", path)
    try:
        zero = os.fsencode(plain_path).find(0)
    except UnicodeEncodeError as error:
        raise NotUtf8Error(f"{what} {shown(plain_path)}", error.start, "character") from None
    if zero >= 0:
        raise IllegalByteError(f"{what} {shown(plain_path)}", zero)
    return plain_path


class Likeness(Choice):
    """How a known key is like one that no setting has."""

    SPELLING = 1
    """It is the same but for `-`, `_` and the case of letters."""
    OTHER_TABLE = 2
    """It is a key of another table, and the same but for `-`, `_` and the case of letters."""
    QUOTED = 3
    """Its path stands in quotes."""
    NEAR = 4
    """It is the nearest key of the table."""


@dataclass(frozen=True, slots=True)
class UnknownKey(Value):
    """A key of a file that no setting has."""

    file: Optional[str]
    """The path of the file, or None of a text."""
    line: Optional[int]
    """The line where it begins, from 1, or None in a file of more than 128 KiB."""
    column: Optional[int]
    """The column, in bytes from 1, or None."""
    key: str
    """Its path as TOML writes it, as `defaults.event.max-node`."""
    meant: Optional[str]
    """The path of the known key that was probably meant: the same key but for `-`, `_` and case, or
    else such a key of another table, the one whose path stands in quotes, or the nearest one."""
    likeness: Optional[Likeness]
    """How that key is like this one."""
    reason: str
    """What is wrong and was probably meant, in words."""

    def __str__(self) -> str:
        return positioned(self.file, self.line, self.column, self.key, self.reason)


@dataclass(frozen=True, slots=True)
class ConfigFile(Value):
    """What stands in a file of settings."""

    config: Config
    unknown: "tuple[UnknownKey, ...]"
    """The keys that no setting has, in the order of the file."""


def _config(c: Any) -> Config:
    """All settings that the library answered."""
    service = ServiceConfig(**_values(c, "service", ServiceConfig))
    node = NodeConfig(**_values(c, "node", NodeConfig))
    shared = _values(c, "", GlobalConfig)
    of_patterns: "dict[str, Any]" = {
        one.name: one.type(**read_all(getattr(c, one.name), one.type)) for one in fields(Defaults)
    }
    global_cfg = GlobalConfig(**shared, service=service, node=node)
    return Config(global_cfg=global_cfg, defaults=Defaults(**of_patterns))


def _plain_config(config: Config) -> Any:
    """All settings as the library takes them."""
    made, shared = _native.Config(), config.global_cfg
    plain_shared = getattr(made, "global")
    for part, of in {"": shared, "service": shared.service, "node": shared.node}.items():
        for own in fields(cast(Any, of)):
            value = getattr(of, own.name)
            if isinstance(value, Text):
                plain_text = getattr(made.texts, _name(made, part, own.name))
                encoded, plain_text.length = lent(value)
                ctypes.memmove(plain_text.bytes, encoded, plain_text.length)
            elif isinstance(value, Duration):
                setattr(plain_shared, own.name, _native.Duration(value.seconds, value.nanoseconds))
            elif isinstance(value, bool):
                setattr(plain_shared, own.name, value)
    for one in fields(Defaults):
        put_settings(getattr(config.defaults, one.name), getattr(made, one.name))
    return made


def _refused(text: bytes, file: Optional[str], first: Any) -> RefusedError:
    """Why the text of a file with this first fault gives no settings."""
    found, front = [first], _native.front
    if first.key_length != 0:
        needed = _native.config_faults_at(text, len(text), None, 0)
        _check_needed(needed.status)
        found = (_native.ConfigFault * needed.count)()
        answer = _native.config_faults_at(text, len(text), found, needed.count)
        check(answer.status, "Config.from_toml")
    return BadConfigError(tuple(
        ConfigFault(
            file, c.line or None, c.column or None, front(c.key, c.key_length),
            front(c.reason, c.reason_length), Status(c.status),
        )
        for c in found
    ))


def _check_needed(status: int) -> None:
    """Raises the error of a call without a buffer, unless it said what buffer it needs."""
    if status != _native.BUFFER_TOO_SHORT:
        check(status, "Config.from_toml")


def _unknown(text: bytes, file: Optional[str]) -> "tuple[UnknownKey, ...]":
    """The unknown keys of the text of a file that gives settings."""
    needed = _native.config_unknown_at(text, len(text), None, 0, None, 0)
    _check_needed(needed.status)
    keys = (_native.UnknownKey * needed.count)()
    paths = (ctypes.c_uint8 * needed.length)()
    answer = _native.config_unknown_at(text, len(text), keys, needed.count, paths, needed.length)
    check(answer.status, "Config.from_toml")
    found, at, whole, front = [], 0, bytes(paths), _native.front
    for key in keys:
        path = whole[at : at + key.key_length].decode()
        found.append(UnknownKey(
            file, key.line or None, key.column or None, path,
            front(key.meant, key.meant_length) or None,
            Likeness(key.likeness) if key.likeness else None,
            front(key.reason, key.reason_length),
        ))
        at += key.key_length
    return tuple(found)


def _read_file(text: bytes, file: Optional[str] = None) -> ConfigFile:
    """The settings and the unknown keys of the text of a file, or of a text alone."""
    made = _native.Config()
    answer = _native.config_read_at(text, len(text), made, 1)
    if answer.status == Status.NO_MEMORY.value:
        check(answer.status, "Config.from_toml")
    if answer.status != _native.DONE:
        raise _refused(text, file, answer.fault)
    return ConfigFile(_config(made), _unknown(text, file))
