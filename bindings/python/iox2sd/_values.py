"""What values have in common: how they are made, copied, printed and helped with."""

import ast
import enum
import inspect
import textwrap
from collections.abc import Iterable
from dataclasses import fields
from functools import cache
from typing import Annotated, Any, TypeVar, cast, get_origin

_Kind = TypeVar("_Kind")


class Choice(enum.Enum):
    """An enum whose members are printed as they are written."""

    def __repr__(self) -> str:
        return f"{type(self).__name__}.{self.name}"


class Value:
    """A dataclass that can be formatted and weakly referenced. A copy or an unpickled one is made,
    and so checked, as any other.
    """

    __slots__ = ("__weakref__",)

    def __format__(self, form: str) -> str:
        return format(str(self), form)

    def __reduce__(self) -> "tuple[Any, ...]":
        of: Any = self
        return _made, (type(self), {f.name: getattr(self, f.name) for f in fields(of) if f.init})


def _made(kind: Any, given: "dict[str, object]") -> Any:
    return kind(**given)


@cache
def setters(kind: Any) -> "tuple[Any, ...]":
    """What sets each field of a class, whatever it forbids."""
    return tuple(getattr(kind, field.name).__set__ for field in fields(kind))


def unchecked(kind: "type[_Kind]", values: "Iterable[object]") -> _Kind:
    """A value with these fields, which are not checked again."""
    made = object.__new__(kind)
    for set_field, value in zip(setters(cast(Any, kind)), values):
        set_field(made, value)
    return made


class _FieldTexts(dict[str, str]):
    """The slots of a class with what `help` prints of each: the text that stands below a field in
    the source, which is read when it is needed.
    """

    def __init__(self, kind: Any) -> None:
        super().__init__((name, "") for name in vars(kind)["__slots__"])
        self._kind = kind

    def __getitem__(self, name: str) -> str:
        try:
            source = textwrap.dedent(inspect.getsource(self._kind))
        except OSError:  # There is no source.
            return ""
        lines = cast(ast.ClassDef, ast.parse(source).body[0]).body
        for field, text in zip(lines, lines[1:]):
            is_field = isinstance(field, ast.AnnAssign) and ast.unparse(field.target) == name
            if is_field and isinstance(text, ast.Expr):
                return inspect.cleandoc(ast.literal_eval(text.value))
        return ""


def readable(kind: Any) -> None:
    """Lets `help` print a dataclass of this package as it reads: its integers as `int`, and what
    its fields are.
    """
    for part in kind.__mro__:
        if issubclass(part, Value) and "__init__" in vars(part):
            hints = part.__init__.__annotations__
            for name, hint in hints.items():
                hints[name] = int if get_origin(hint) is Annotated else hint
            part.__slots__ = _FieldTexts(part)
