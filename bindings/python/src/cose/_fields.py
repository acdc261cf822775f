"""The fields of a token's claims, each read of the library's answer where it is asked for first.

The extension has `Found`, `field` and `made` too.
"""

from __future__ import annotations

from functools import partial
from struct import Struct
from typing import Any, Callable, Dict, Optional, Tuple, Type, TypeVar

from ._library import ClaimsStruct, DateStruct
from ._numbers import Numbers, places, reader

_new, _set = object.__new__, object.__setattr__
AT = places(ClaimsStruct)
PAYLOAD = AT["payload_at"]
# what reads two numbers of the library's answer, or a date, from a place on
pair_at, _date_at = Struct("=QQ").unpack_from, reader(DateStruct)
Reader = Callable[..., Numbers]


class Found:
    """The bytes of a token or of a payload, and those of the library's answer about it."""

    _token = _found = b""


_F = TypeVar("_F", bound=Found)


class Field:
    """A field that is read of the library's answer where it is asked for first.

    What is written into the object under the field's name goes before this.
    """

    def __init__(self, read: Callable[[Any], object], *default: object) -> None:
        self._read, self._default, self._name = read, default, ""

    def __set_name__(self, owner: object, name: str) -> None:
        self._name = name

    def __get__(self, claims: Optional[Found], owner: object = None) -> Any:
        if claims is not None:
            value = self._read(claims)
            # (as the class's own __init__ writes, since it is frozen)
            _set(claims, self._name, value)
            return value
        if self._default:
            return self._default[0]
        raise AttributeError(self._name)


def range_of(name: str) -> Reader:
    """What reads, from where it says where the payload begins on, that and a range of the payload."""
    return Struct(f"=Q{AT[name] - PAYLOAD - 8}xQQB").unpack_from


def _payload(claims: Found) -> bytes:
    at, length = pair_at(claims._found, PAYLOAD)
    return claims._token[at : at + length]


def bytes_in(read: Reader, claims: Found) -> Optional[bytes]:
    """Those of a range, or None."""
    begin, at, length, present = read(claims._found, PAYLOAD)
    return claims._token[begin + at : begin + at + length] if present else None


def _text(read: Reader, claims: Found) -> Optional[str]:
    begin, at, length, present = read(claims._found, PAYLOAD)
    return claims._token[begin + at : begin + at + length].decode() if present else None


def _date(place: int, claims: Found) -> Optional[int]:
    number, present, negative = _date_at(claims._found, place)
    if not present:
        return None
    return -1 - number if negative else number


# by a field's name: what reads it, and what it is by default, if anything
_READS: Dict[str, Tuple[Any, ...]] = {
    "payload": (_payload,),
    "iss": (partial(_text, range_of("iss")), None),
    "sub": (partial(_text, range_of("sub")), None),
    "exp": (partial(_date, AT["exp"]), None),
    "nbf": (partial(_date, AT["nbf"]), None),
    "iat": (partial(_date, AT["iat"]), None),
    "cti": (partial(bytes_in, range_of("cti")), None),
}


def field(name: str, /) -> Any:
    """What reads a field with one value."""
    return Field(*_READS[name])


def made(kind: Type[_F], token: bytes, found: bytes, /) -> _F:
    """An object of a class, of a token or a payload and the library's answer about it."""
    it = _new(kind)
    _set(it, "_token", token)
    _set(it, "_found", found)
    return it
