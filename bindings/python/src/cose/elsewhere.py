"""Messages that the caller authenticates, since it has the hash or the key."""

from __future__ import annotations

from ctypes import byref, create_string_buffer
from dataclasses import dataclass
from typing import Any, NoReturn, Optional, Tuple, Union

from ._answers import fail, octets_at, pieces_of
from ._arguments import Algorithm, Buffer, Kind, bytes_of
from ._library import (
    AskedKeyStruct,
    AskedSignatureStruct,
    FrontPiecesStruct,
    Status,
    StatusStruct,
    VerdictStruct,
)
from .keys import Keys, data_of
from .verifier import Verdict, Verifier, _authentic


@dataclass(frozen=True)
class AskedKey:
    """The key that was chosen for a message, and the algorithm that it is used with.

    `k` are the bytes of a symmetric key, or whatever handle stands in their place. `crv`, `x` and
    `y` are those of a point, as `cose.SignInput` has them. What a key doesn't have is None.
    """

    alg: Algorithm
    kid: Optional[bytes]
    k: Optional[bytes]
    crv: Optional[int]
    x: Optional[bytes]
    y: Optional[Union[bytes, bool]]


def _key_of(struct: AskedKeyStruct) -> AskedKey:
    alg, kid = Algorithm(struct.alg), octets_at(struct, "kid") if struct.has_kid else None
    if struct.crv == 0:
        return AskedKey(alg, kid, octets_at(struct, "k"), None, None, None)
    y = octets_at(struct, "y") if struct.y_sign == 0 else struct.y_sign == 2
    return AskedKey(alg, kid, None, struct.crv, octets_at(struct, "x"), y)


class Elsewhere(Verifier):
    """Verifies messages in pieces that the caller authenticates: with the hash of a device, or a
    key that is elsewhere.

    Nothing is hashed here, and the bytes of a symmetric key are not used: they may be any handle.
    `feed` the pieces. Once the payload's head was read, `front` gives what is hashed before the
    payload, and `asked_key` the key. Then hash the payload that `feed` gives (or what
    `feed_payload` takes), and nothing after. At last `verdict_of_mac` compares the tag of a
    COSE_Mac0 with the MAC of all that under that key; `verdict_of_answer` is told whether
    `asked_signature` is the signature of all that. The first verdict stands until `reset`.
    """

    _OPENING = ("edge_open_elsewhere", "edge_open_elsewhere_detached")

    def __init__(
        self,
        keys: Keys,
        *,
        aad: Buffer = b"",
        wanted: Optional[Kind] = None,
        payload_length: Optional[int] = None,
        large: bool = False,
    ) -> None:
        # (there is no call that opens one under a table)
        given = data_of(keys)
        super().__init__(given, aad=aad, wanted=wanted, payload_length=payload_length, large=large)
        # of the message whose signature was asked for: an answer is about no other
        self._asked = self._call("message_number")

    def front(self) -> Optional[Tuple[bytes, ...]]:
        """The six pieces before the payload, from its head on and until the verdict, or None."""
        room = create_string_buffer(65_535 if self._is_large else 1_024)
        found = FrontPiecesStruct()
        if self._call("edge_front_pieces", room, len(room), byref(found)) == 0:
            return None
        return pieces_of(found, room.raw[: found.protected_length], self._aad)

    def asked_key(self) -> Optional[AskedKey]:
        """The key that was chosen, from the payload's head on and until the verdict, or None."""
        found = AskedKeyStruct()
        return _key_of(found) if self._call("edge_asked_key", byref(found)) == 1 else None

    def asked_signature(self) -> Optional[bytes]:
        """The signature of a COSE_Sign1, once all bytes are there and until the verdict, or None."""
        found = AskedSignatureStruct()
        with self._block as handle:
            self._asked = self._calls.message_number(handle)
            if self._calls.asked_signature(handle, byref(found)) == 0:
                return None
        return bytes(found.signature[: found.length])

    @classmethod
    def under(cls, *_arguments: Any, **_named: Any) -> NoReturn:
        """Raises `TypeError`: a message that is authenticated elsewhere has no terms."""
        raise TypeError("use cose.Verifier.under")

    def verdict(self) -> NoReturn:
        """Raises `TypeError`: there is a verdict only by what the caller states."""
        raise TypeError("use verdict_of_mac or verdict_of_answer")

    def verdict_of_mac(self, mac: Buffer) -> Verdict:
        """The verdict on a COSE_Mac0, whose tag is compared with this MAC. Raises `Refused`.

        Raises `ValueError` where no such MAC is asked for: of a COSE_Sign1, of another length, or
        after a verdict.
        """
        data = bytes_of(mac, "mac")
        return self._stated("edge_verdict_of_mac", data, len(data))

    def verdict_of_answer(self, holds: bool) -> Verdict:
        """The verdict on a COSE_Sign1, whose signature holds or doesn't. Raises `Refused`.

        Raises `ValueError` where no such answer is asked for: of a COSE_Mac0, after a verdict, or
        where `asked_signature` gave that of another message.
        """
        if not isinstance(holds, bool):
            raise TypeError(f"holds should be a bool, and is {type(holds).__name__}")
        return self._stated("verdict_of_answer", self._asked, int(holds))

    def _stated(self, name: str, *stated: Any) -> Verdict:
        status, verdict = StatusStruct(), VerdictStruct()
        with self._block as handle:
            self._calls.end(handle, byref(status))
            if status.status != Status.COMPLETE:
                fail(status)
            getattr(self._calls, name)(handle, *stated, byref(verdict))
            self._kind = verdict.kind or self._kind
        return _authentic(verdict)
