"""The numbers in a struct of the library, all at once: by ctypes each takes some 150 ns by itself."""

from __future__ import annotations

import ctypes
import struct
from typing import Any, Callable, Dict, Iterator, Tuple, Type

Struct = Type[ctypes.Structure]
Numbers = Tuple[int, ...]
_LETTERS = {1: "b", 2: "h", 4: "i", 8: "q"}


def _fields(kind: Struct, start: int = 0) -> Iterator[Tuple[int, Any]]:
    """The place and the type of each number, those of a struct within it where that stands."""
    for name, form, *_ in kind._fields_:
        at = start + getattr(kind, name).offset
        if issubclass(form, ctypes.Structure):
            yield from _fields(form, at)
        else:
            yield at, form


def reader(kind: Struct) -> Callable[..., Numbers]:
    """What reads the numbers of such a struct, in the order of its fields, from a place of bytes on."""
    layout, end = "=", 0
    for at, form in _fields(kind):
        size, is_signed = ctypes.sizeof(form), form(-1).value < 0
        letter = _LETTERS[size] if is_signed else _LETTERS[size].upper()
        layout, end = f"{layout}{at - end}x{letter}", at + size
    return struct.Struct(layout).unpack_from


def places(kind: Struct) -> Dict[str, int]:
    """By the name of a field: the place of its first byte."""
    return {name: getattr(kind, name).offset for name, *_ in kind._fields_}
