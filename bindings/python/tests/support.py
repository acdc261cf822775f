"""What the tests have in common: messages that Python's hmac authenticates."""

from __future__ import annotations

import hashlib
import hmac
import pathlib
from typing import Any, Optional

from cose import cbor

REPOSITORY = pathlib.Path(__file__).resolve().parents[3]
EXAMPLES = REPOSITORY / "examples"

SECRET = b"a secret of the tests"
KEYS = cbor.encode({1: 4, -1: SECRET})
TAG_CWT, TAG_MAC0, TAG_SIGN1 = b"\xd8\x3d", b"\xd1", b"\xd2"


def mac_of(protected: bytes, aad: bytes, payload: bytes, secret: bytes = SECRET) -> bytes:
    """HMAC 256/256 of the MAC_structure (RFC 9052 section 6.3)."""
    structure = cbor.encode(["MAC0", protected, aad, payload])
    return hmac.new(secret, structure, hashlib.sha256).digest()


def mac0(
    payload: bytes,
    *,
    aad: bytes = b"",
    tag: bytes = TAG_MAC0,
    detached: bool = False,
    kid: Any = None,
) -> bytes:
    """A COSE_Mac0 with HMAC 256/256 under `KEYS`."""
    protected = cbor.encode({1: 5})
    unprotected = cbor.encode({} if kid is None else {4: kid})
    content = b"\xf6" if detached else cbor.encode(payload)
    mac = cbor.encode(mac_of(protected, aad, payload))
    return tag + b"\x84" + cbor.encode(protected) + unprotected + content + mac


def sign1_parts(payload: bytes, alg: int, aad: bytes = b"") -> "tuple[bytes, bytes]":
    """The protected header of a COSE_Sign1, and what is signed (RFC 9052 section 4.4)."""
    protected = cbor.encode({1: alg})
    return protected, cbor.encode(["Signature1", protected, aad, payload])


def sign1(payload: Optional[bytes], protected: bytes, signature: bytes) -> bytes:
    """A COSE_Sign1 with this signature; its payload is detached where it is None."""
    content = b"\xf6" if payload is None else cbor.encode(payload)
    return TAG_SIGN1 + b"\x84" + cbor.encode(protected) + b"\xa0" + content + cbor.encode(signature)
