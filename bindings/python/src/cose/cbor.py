"""The CBOR (RFC 8949) of keys, claims and sequences: definite lengths, and what is written has shortest heads."""

from __future__ import annotations

import struct
from dataclasses import dataclass
from typing import Any, Dict, Iterator, List, Mapping, Sequence, Tuple

# the simple values that have a type in Python (section 3.3), and how floats are packed, by the width of their heads
_SIMPLE = {20: False, 21: True, 22: None}
_FLOATS = {3: ">e", 5: ">f", 9: ">d"}


@dataclass(frozen=True)
class Tagged:
    """An item under a tag (RFC 8949 section 3.4)."""

    number: int
    value: Any


@dataclass(frozen=True)
class Simple:
    """A simple value that Python has no type for (RFC 8949 section 3.3): 23 is undefined."""

    number: int


def _head(major: int, argument: int) -> bytes:
    if argument < 24:
        return bytes([major << 5 | argument])
    width = next(width for width in range(4) if argument < 256 ** (1 << width))
    return bytes([major << 5 | 24 + width]) + argument.to_bytes(1 << width, "big")


def encode(value: Any) -> bytes:
    """An integer, bytes, a text, a boolean, a sequence or a mapping as CBOR."""
    if isinstance(value, bool):
        return b"\xf5" if value else b"\xf4"
    if isinstance(value, int):
        return _head(0, value) if value >= 0 else _head(1, -1 - value)
    if isinstance(value, bytes):
        return _head(2, len(value)) + value
    if isinstance(value, str):
        data = value.encode()
        return _head(3, len(data)) + data
    if isinstance(value, Mapping):
        pairs = b"".join(encode(name) + encode(it) for name, it in value.items())
        return _head(5, len(value)) + pairs
    if isinstance(value, Sequence):
        return _head(4, len(value)) + b"".join(map(encode, value))
    raise TypeError(f"{type(value).__name__} isn't written as CBOR here")


def decode(data: bytes) -> Any:
    """The item that the bytes are, which the library has read: they are well-formed, and nest at most 32 deep.

    An integer, bytes, a str, a list, a dict, a boolean, None, a float, `Tagged` or `Simple`. Raises
    `ValueError` where a text isn't UTF-8, a map has a key twice, or one that no dict can have.
    """
    value, end = _item(data, 0)
    if end != len(data):
        raise ValueError(f"{len(data) - end} bytes follow the item")
    return value


def _item(data: bytes, at: int) -> Tuple[Any, int]:
    """The item at a place, and where it ends."""
    major, argument = data[at] >> 5, data[at] & 31
    end = at + 1
    if argument >= 24:
        end += 1 << (argument - 24)
        argument = int.from_bytes(data[at + 1 : end], "big")
    if major < 2:
        return (-1 - argument if major else argument), end
    if major < 4:
        content = data[end : end + argument]
        return (content.decode() if major == 3 else content), end + argument
    if major == 4:
        return _items(data, end, argument)
    if major == 5:
        items, end = _items(data, end, 2 * argument)
        return _pairs(items), end
    if major == 6:
        value, after = _item(data, end)
        return Tagged(argument, value), after
    if end - at in _FLOATS:
        return struct.unpack(_FLOATS[end - at], data[at + 1 : end])[0], end
    return _SIMPLE[argument] if argument in _SIMPLE else Simple(argument), end


def _items(data: bytes, at: int, count: int) -> Tuple[List[Any], int]:
    found = []
    for _ in range(count):
        value, at = _item(data, at)
        found.append(value)
    return found, at


def _pairs(items: List[Any]) -> Dict[Any, Any]:
    """The pairs of a map. (The integer 1, the float 1.0 and true are one key of a dict.)"""
    names = items[::2]
    if any(isinstance(it, (list, dict, Tagged)) for it in names):
        raise ValueError("a key of a map is an array, a map or a tag")
    if len(set(names)) < len(names):
        raise ValueError("a map has a key twice")
    return dict(zip(names, items[1::2]))


def end_of_item(data: bytes, at: int = 0) -> int:
    """The place after the item at a place (RFC 8949 section 3).

    Raises `ValueError` where the bytes end before, or a length is indefinite.
    """
    left, size = 1, len(data)
    while left and at < size:
        major, argument = data[at] >> 5, data[at] & 31
        at += 1
        if argument > 23:
            if argument > 27:
                raise ValueError(f"no item of definite length is at {at - 1}")
            width = 1 << argument - 24
            argument, at = int.from_bytes(data[at : at + width], "big"), at + width
        left -= 1
        if major in (2, 3):
            at += argument
        elif major in (4, 5):
            left += argument * (major - 3)
        elif major == 6:
            left += 1
    if left or at > size:
        raise ValueError("the item is cut off")
    return at


def items(data: bytes, at: int = 0) -> Iterator[bytes]:
    """The items of a sequence (RFC 8742) from a place on, in their order.

    Where no whole item of definite length follows, the rest is the last one.
    """
    while at < len(data):
        begin = at
        try:
            at = end_of_item(data, at)
        except ValueError:
            at = len(data)
        yield data[begin:at]
