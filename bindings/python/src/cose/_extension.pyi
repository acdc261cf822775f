"""The calls of bindings/python/extension/calls.c, which `_by_ctypes` has too."""

from typing import Any, List, Optional, Tuple, Type

from ._fields import Found as Found
from ._fields import field as field
from ._fields import made as made

def verify(keys: bytes, large: bool, aad: bytes, kind: int, message: bytes, /) -> bytes: ...
def table_verify(block: int, aad: bytes, kind: int, message: bytes, /) -> bytes: ...
def table_authenticate(block: int, message: bytes, /) -> bytes: ...
def table_admit(block: int, requirements: bytes, token: bytes, /) -> bytes: ...
def verify_cwt(
    keys: bytes,
    large: bool,
    aad: bytes,
    now: int,
    leeway: int,
    audience: Optional[bytes],
    token: bytes,
    /,
) -> bytes: ...
def table_verify_cwt(
    block: int, aad: bytes, now: int, leeway: int, audience: Optional[bytes], token: bytes, /
) -> bytes: ...
def table_verify_cwts(
    block: int,
    aad: bytes,
    now: int,
    leeway: int,
    audience: Optional[bytes],
    tokens: Tuple[bytes, ...],
    kind: Type[Found],
    /,
) -> Tuple[List[Any], List[int]]: ...
def feed(block: int, large: bool, piece: bytes, /) -> bytes: ...
def items(data: bytes, at: int, most: int, /) -> Tuple[bytes, ...]: ...
