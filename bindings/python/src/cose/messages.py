"""Messages in memory."""

from __future__ import annotations

from ctypes import byref, sizeof
from dataclasses import dataclass, field
from enum import IntEnum
from typing import Any, Optional, Tuple, Union

from . import _calls, _library, cbor
from ._answers import Ecdsa, fail, is_good
from ._arguments import Algorithm, Buffer, Kind, bytes_of, number_of, text_of, wanted_of
from ._library import ItemStruct, ShapeStruct, SignInputStruct, Status, VerdictStruct, small
from ._numbers import reader
from .errors import Refused
from .keys import Keys, KeyTable, data_of
from .reasons import Reason


class Label(IntEnum):
    """The labels of header parameters: RFC 9052 section 3.1, and RFC 9360 section 2 for certificates."""

    ALG = 1
    CRIT = 2
    CONTENT_TYPE = 3
    KID = 4
    IV = 5
    PARTIAL_IV = 6
    X5BAG = 32
    X5CHAIN = 33
    X5T = 34
    X5U = 35


# a message as it was received, the kind that was wanted, and whether its header may be large
Received = Tuple[bytes, int, bool]


@dataclass(frozen=True)
class Message:
    """An authentic message. `taken` is the number of its bytes."""

    kind: Kind
    alg: Algorithm
    payload: bytes
    taken: int
    _received: Received = field(default=(b"", 0, False), repr=False, compare=False)

    def protected(self, label: Union[int, str]) -> Any:
        """A parameter of the protected header, as `cose.cbor.decode` gives it: it is authentic.

        Raises `KeyError` where it isn't there.
        """
        return self._parameter(label, 1)

    def unprotected(self, label: Union[int, str]) -> Any:
        """A parameter of the unprotected header, which is not authentic: anyone may have changed it.

        Raises `KeyError` where it isn't there.
        """
        return self._parameter(label, 0)

    def _parameter(self, label: Union[int, str], is_protected: int) -> Any:
        data, wanted, large = self._received
        calls, found = _library.large if large else small, ItemStruct()
        if isinstance(label, str):
            name = text_of(label, "label")
            rest = (is_protected, name, len(name), byref(found))
            calls.edge_parameter_named(wanted, data, len(data), *rest)
        else:
            number = number_of(label, "label", -(2**63), 2**63 - 1)
            calls.edge_parameter(wanted, data, len(data), is_protected, number, byref(found))
        if not found.present:
            raise KeyError(label)
        return cbor.decode(data[found.at : found.at + found.length])


@dataclass(frozen=True)
class Shape:
    """The lengths of a message's parts in bytes. Nothing of it is authenticated."""

    kind: Kind
    payload_length: int
    auth_length: int
    taken: int


_numbers_of = reader(VerdictStruct)
# (to look a number up is faster than to call the enum, and a number compares faster than a member does)
_KINDS = {it.value: it for it in Kind}
_ALGORITHMS = {it.value: it for it in Algorithm}
_AUTHENTIC, _SIGNED = Status.AUTHENTIC.value, Status.SIGNED.value


def _read(keys: Keys, aad: bytes, wanted: int, message: bytes, large: bool) -> bytes:
    """The verdict, and of a message that is signed what its signature is verified with."""
    if isinstance(keys, KeyTable) and not large:
        return _calls.table_verify(keys._memory.at, aad, wanted, message)
    return _calls.verify(data_of(keys), large, aad, wanted, message)


def _read_detached(
    keys: Keys, aad: bytes, wanted: int, message: bytes, payload: bytes, large: bool
) -> bytes:
    verdict, sign_input = VerdictStruct(), SignInputStruct()
    calls, data = _library.large if large else small, data_of(keys)
    calls.edge_verify_detached(
        data,
        len(data),
        aad,
        len(aad),
        wanted,
        message,
        len(message),
        payload,
        len(payload),
        byref(verdict),
        byref(sign_input),
    )
    return bytes(verdict) + bytes(sign_input)


def bad_signature(sign_input: SignInputStruct) -> Refused:
    """What a message is refused with whose signature isn't good."""
    return Refused(Reason.BadAuth, sign_input.place)


def message_of(
    found: bytes, content: Optional[bytes], ecdsa: Optional[Ecdsa], received: Received
) -> Message:
    """The message of a verdict, and of what its signature is verified with where it is signed."""
    status, _, kind, alg, _, at, length, taken = _numbers_of(found)
    if status == _SIGNED:
        sign_input = SignInputStruct.from_buffer_copy(found, sizeof(VerdictStruct))
        if not is_good(sign_input, ecdsa):
            raise bad_signature(sign_input)
    elif status != _AUTHENTIC:
        fail(VerdictStruct.from_buffer_copy(found))
    if content is None:
        content = received[0][at : at + length]
    return Message(_KINDS[kind], _ALGORITHMS[alg], content, taken, received)


def shape(message: Buffer, *, wanted: Optional[Kind] = None) -> Shape:
    """The shape of a message, which is parsed and not authenticated. Raises `Refused`."""
    data, found = bytes_of(message, "message"), ShapeStruct()
    small.edge_shape(wanted_of(wanted), data, len(data), byref(found))
    if found.status != Status.COMPLETE:
        fail(found)
    return Shape(Kind(found.kind), found.payload_length, found.auth_length, found.taken)


def verify(
    keys: Keys,
    message: Buffer,
    *,
    aad: Buffer = b"",
    wanted: Optional[Kind] = None,
    payload: Optional[Buffer] = None,
    ecdsa: Optional[Ecdsa] = None,
    large: bool = False,
) -> Message:
    """Verifies a COSE_Mac0 or a COSE_Sign1 (RFC 9052), and returns it where it is authentic.

    keys: a COSE_Key, a COSE_KeySet, or a `KeyTable`, of which exactly one key has to fit.
    message: the bytes of one message, with no byte after it.
    aad: the externally supplied data (RFC 9052 section 4.3), at most 65,535 bytes.
    wanted: the kind of a message with its tag or without. By default the tag has to say it.
    payload: the payload of a message that doesn't have it (a detached one).
    ecdsa: what verifies the signature of a COSE_Sign1: `cose.ecdsa()`, or a function.
    large: allow header buckets of 65,535 bytes, nested 16 deep, in place of 1,024 and 8.

    Raises `Refused`, `KeysRefused`, and `SignatureUnverified` for a COSE_Sign1 without `ecdsa`.
    """
    data, external, number = bytes_of(message, "message"), bytes_of(aad, "aad"), wanted_of(wanted)
    content = None if payload is None else bytes_of(payload, "payload")
    if content is None:
        found = _read(keys, external, number, data, large)
    else:
        found = _read_detached(keys, external, number, data, content, large)
    return message_of(found, content, ecdsa, (data, number, large))
