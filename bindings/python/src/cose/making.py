"""COSE_Mac0 messages that are made."""

from __future__ import annotations

import ctypes
from ctypes import byref
from typing import NoReturn

from ._arguments import Buffer, bytes_of, number_of
from ._library import Block, MadeStruct, Status, small
from .reasons import Reason

# room for what precedes and what follows a payload
_HEAD, _TAIL = 384, 128


_WHY = {
    Status.MORE: "bytes of the payload are to come",
    Status.AAD_TOO_LONG: "aad has more than 65,535 bytes",
    Status.CLOSED: "no message is being made",
    Status.BAD_ARGUMENT: "kid has more than 255 bytes, or the payload 2^56 or more",
}


def _fail(made: MadeStruct) -> NoReturn:
    """Raises why no message is made."""
    status = Status(made.status)
    if status == Status.KEYS_REFUSED and made.reason:
        raise ValueError(f"the key is refused: {Reason(made.reason).name}")
    raise ValueError(_WHY.get(status, "the key makes no MAC with this algorithm"))


class Maker:
    """Makes a COSE_Mac0 over pieces of its payload: `head`, the pieces and `end()` are the message.

    The arguments are those of `cose.make`; `payload_length` is the length of all pieces together.
    Threads may pass pieces at once: each is hashed whole, in the order in which they come.
    """

    def __init__(
        self,
        key: Buffer,
        payload_length: int,
        *,
        alg: int,
        kid: Buffer = b"",
        aad: Buffer = b"",
    ) -> None:
        secret, name, external = bytes_of(key, "key"), bytes_of(kid, "kid"), bytes_of(aad, "aad")
        length = number_of(payload_length, "payload_length", 0, 2**64 - 1)
        number = number_of(alg, "alg", 4, 7)
        self._block = Block("maker", small.maker_size(), small.maker_align())
        room, made = ctypes.create_string_buffer(_HEAD), MadeStruct()
        given = (secret, len(secret), name, len(name), external, len(external))
        with self._block as handle:
            small.maker_begin(self._block.at)
            small.edge_make(handle, number, *given, length, room, _HEAD, byref(made))
        if made.status != Status.MORE:
            _fail(made)
        # what precedes the payload
        self.head = room.raw[: made.length]

    def piece(self, piece: Buffer) -> int:
        """Takes bytes of the payload, and returns how many: none after its last one."""
        data = bytes_of(piece, "piece")
        with self._block as handle:
            used: int = small.edge_make_piece(handle, data, len(data))
        return used

    def end(self) -> bytes:
        """What follows the payload. Raises `ValueError` where the payload isn't whole."""
        room, made = ctypes.create_string_buffer(_TAIL), MadeStruct()
        with self._block as handle:
            small.edge_make_end(handle, room, _TAIL, byref(made))
        if made.status != Status.COMPLETE:
            _fail(made)
        return room.raw[: made.length]


def make(
    key: Buffer, payload: Buffer, *, alg: int = 5, kid: Buffer = b"", aad: Buffer = b""
) -> bytes:
    """Makes a COSE_Mac0.

    key: a COSE_Key of a symmetric key.
    alg: 4, 5, 6 or 7 (RFC 9053 section 3.1).
    kid: the key identifier to write, at most 255 bytes; none where it is empty.
    aad: the externally supplied data, at most 65,535 bytes.
    """
    data = bytes_of(payload, "payload")
    maker = Maker(key, len(data), alg=alg, kid=kid, aad=aad)
    maker.piece(data)
    return maker.head + data + maker.end()
