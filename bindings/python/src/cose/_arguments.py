"""What callers pass, checked: ctypes itself cuts numbers that are out of range."""

from __future__ import annotations

import enum
import mmap
import operator
from typing import Optional, Union

Buffer = Union[bytes, bytearray, memoryview, mmap.mmap]


class Kind(enum.IntEnum):
    """The two kinds of messages, by their tags (RFC 9052 section 2)."""

    MAC0 = 17
    SIGN1 = 18


class Algorithm(enum.IntEnum):
    """The algorithms, by their numbers (RFC 9053 sections 2.1 and 3.1, RFC 9864 section 2.1)."""

    # made by ci/edge_tables: algorithms
    HMAC_256_64 = 4
    HMAC_256 = 5
    HMAC_384 = 6
    HMAC_512 = 7
    ES256 = -7
    ES384 = -35
    ES512 = -36
    ESP256 = -9
    ESP384 = -51
    ESP512 = -52
    # end of what ci/edge_tables makes


def bytes_of(value: Buffer, name: str) -> bytes:
    """The bytes of an argument, which don't change while they are read."""
    if isinstance(value, bytes):
        return value
    if isinstance(value, (bytearray, memoryview, mmap.mmap)):
        return bytes(value)
    raise TypeError(f"{name} should be bytes, and is {type(value).__name__}")


def number_of(value: int, name: str, least: int, most: int) -> int:
    """The number of an argument, which is in a range."""
    try:
        number = operator.index(value)
    except TypeError:
        kind = type(value).__name__
        raise TypeError(f"{name} should be an integer, and is {kind}") from None
    if not least <= number <= most:
        raise ValueError(f"{name} should be from {least} to {most}, and is {number}")
    return number


def text_of(value: str, name: str) -> bytes:
    """The text of an argument in UTF-8."""
    if not isinstance(value, str):
        raise TypeError(f"{name} should be a str, and is {type(value).__name__}")
    try:
        return value.encode()
    except UnicodeEncodeError as error:
        raise ValueError(f"{name} isn't a text that UTF-8 can say: {error.reason}") from None


def wanted_of(value: Optional[Kind]) -> int:
    """The kind that is wanted, by its number: 0 where the message's tag says it."""
    return 0 if value is None else Kind(value).value


def says_signed(token: bytes) -> bool:
    """Whether the tags that a token begins with are those of one that is signed (RFC 8392 section 6).

    Such a token is verified as a message, so that it is read once. One that spells its tags otherwise
    is read twice.
    """
    return token.startswith((b"\xd2", b"\xd8\x3d\xd2"))
