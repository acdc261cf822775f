"""The calls that are made most, by ctypes: what `_extension` does, where it wasn't built.

Each returns the bytes of the library's structs, which the readers of `_numbers` take apart: of a message
the verdict and, where it is signed, what the signature is verified with; of a token its claims.
"""

from __future__ import annotations

import itertools
from ctypes import byref
from typing import Any, List, Optional, Tuple, Type

from . import _library, cbor
from ._arguments import says_signed
from ._fields import Found, made
from ._library import (
    ClaimsStruct,
    FedStruct,
    HandleStruct,
    PolicyStruct,
    RequirementsStruct,
    SignInputStruct,
    Status,
    VerdictStruct,
    small,
)

_AUTHENTIC = Status.AUTHENTIC.value
# of a token that says that it is signed
_SIGNED = bytes(ClaimsStruct(status=Status.SIGNED.value))


def _answer(call: Any, *arguments: object) -> bytes:
    """What a call answers to a message."""
    verdict, sign_input = VerdictStruct(), SignInputStruct()
    call(*arguments, byref(verdict), byref(sign_input))
    return bytes(verdict) + (bytes(sign_input) if verdict.status == Status.SIGNED else b"")


def _policy(now: int, leeway: int, audience: Optional[bytes]) -> Any:
    """The conditions of admission, by reference."""
    name = audience or b""
    return byref(PolicyStruct(now, leeway, audience is not None, name, len(name)))


def verify(keys: bytes, large: bool, aad: bytes, kind: int, message: bytes, /) -> bytes:
    """`cose_verify`, or `cose_large_verify`"""
    call = (_library.large if large else small).edge_verify
    return _answer(call, keys, len(keys), aad, len(aad), kind, message, len(message))


def table_verify(block: int, aad: bytes, kind: int, message: bytes, /) -> bytes:
    """`cose_table_verify`"""
    table = byref(HandleStruct(block))
    return _answer(small.edge_table_verify, table, aad, len(aad), kind, message, len(message))


def table_authenticate(block: int, message: bytes, /) -> bytes:
    """`cose_table_authenticate`"""
    table = byref(HandleStruct(block))
    return _answer(small.edge_table_authenticate, table, message, len(message))


def verify_cwt(
    keys: bytes,
    large: bool,
    aad: bytes,
    now: int,
    leeway: int,
    audience: Optional[bytes],
    token: bytes,
    /,
) -> bytes:
    """`cose_verify_cwt`, or `cose_large_verify_cwt`"""
    claims, policy = ClaimsStruct(), _policy(now, leeway, audience)
    call = (_library.large if large else small).edge_verify_cwt
    call(keys, len(keys), aad, len(aad), policy, token, len(token), byref(claims))
    return bytes(claims)


def table_verify_cwt(
    block: int, aad: bytes, now: int, leeway: int, audience: Optional[bytes], token: bytes, /
) -> bytes:
    """`cose_table_verify_cwt`"""
    claims, policy, table = ClaimsStruct(), _policy(now, leeway, audience), HandleStruct(block)
    given = (byref(table), aad, len(aad), policy, token, len(token))
    small.edge_table_verify_cwt(*given, byref(claims))
    return bytes(claims)


def table_verify_cwts(
    block: int,
    aad: bytes,
    now: int,
    leeway: int,
    audience: Optional[bytes],
    tokens: Tuple[bytes, ...],
    kind: Type[Found],
    /,
) -> Tuple[List[Any], List[int]]:
    """`cose_table_verify_cwt` of each of the tokens: what each gives, and which aren't admitted.

    One that is admitted gives an object of a class, and any other the bytes of its answer.
    """
    answers: List[Any] = []
    others = []
    for place, token in enumerate(tokens):
        if says_signed(token):
            found = _SIGNED
        else:
            found = table_verify_cwt(block, aad, now, leeway, audience, token)
        if found[0] == _AUTHENTIC:
            answers.append(made(kind, token, found))
        else:
            answers.append(found)
            others.append(place)
    return answers, others


def table_admit(block: int, requirements: bytes, token: bytes, /) -> bytes:
    """`cose_table_admit`, under the bytes of `struct cose_requirements`"""
    claims, table = ClaimsStruct(), byref(HandleStruct(block))
    required = byref(RequirementsStruct.from_buffer_copy(requirements))
    small.edge_table_admit(table, required, token, len(token), byref(claims))
    return bytes(claims)


def feed(block: int, large: bool, piece: bytes, /) -> bytes:
    """`cose_feed`, or `cose_large_feed`"""
    fed, call = FedStruct(), (_library.large if large else small).edge_feed
    call(byref(HandleStruct(block)), piece, len(piece), byref(fed))
    return bytes(fed)


def items(data: bytes, at: int, most: int, /) -> Tuple[bytes, ...]:
    """Items of a sequence (RFC 8742) from a place on, so many at most."""
    return tuple(itertools.islice(cbor.items(data, at), most))
