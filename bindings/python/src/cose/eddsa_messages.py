"""Messages that are signed by EdDSA (RFC 9053 section 2.2), whose signature another library verifies."""

from __future__ import annotations

from ctypes import byref
from dataclasses import dataclass
from typing import Any, Callable, Optional

from ._answers import a_bool, fail, octets_at, pieces_of
from ._arguments import Buffer, Kind, bytes_of, wanted_of
from ._library import EddsaInputStruct, FrontPiecesStruct, Status, small
from .errors import Refused
from .keys import Keys, data_of
from .reasons import Reason


@dataclass(frozen=True)
class EddsaInput:
    """What an EdDSA signature is verified with: a public key, what is signed, and the signature.

    `alg` is -8 for EdDSA, -19 for Ed25519 and -53 for Ed448; `crv` is 6 for Ed25519 and 7 for
    Ed448. `kid` is the identifier of the key that fits, if it has one. `structure` is what the
    signature is one of (RFC 9052 section 4.4): EdDSA hashes it itself.
    """

    alg: int
    crv: int
    kid: Optional[bytes]
    x: bytes
    structure: bytes
    signature: bytes


# returns whether a signature is good
Eddsa = Callable[[EddsaInput], bool]


def verify_eddsa(
    keys: Keys,
    message: Buffer,
    eddsa: Eddsa,
    *,
    aad: Buffer = b"",
    wanted: Optional[Kind] = None,
    payload: Optional[Buffer] = None,
) -> bytes:
    """The payload of a COSE_Sign1 that is signed by EdDSA, Ed25519 or Ed448, and authentic.

    keys: a COSE_Key or a COSE_KeySet, of whose OKP keys (RFC 9053 section 7.2) exactly one has to
    fit.
    eddsa: what verifies the signature: `cose.eddsa()`, or a function.

    The others are those of `verify`, which refuses such a message: it knows no EdDSA. Raises
    `Refused` and `KeysRefused`.
    """
    data, given, external = bytes_of(message, "message"), data_of(keys), bytes_of(aad, "aad")
    found, pieces = EddsaInputStruct(), FrontPiecesStruct()
    arguments = [given, len(given), external, len(external), wanted_of(wanted), data, len(data)]
    call = small.edge_verify_eddsa
    if payload is not None:
        content = bytes_of(payload, "payload")
        arguments += [content, len(content)]
        call = small.edge_verify_eddsa_detached
    call(*arguments, byref(found), byref(pieces))
    if found.status != Status.SIGNED:
        fail(found)
    content = octets_at(found, "payload")
    front = b"".join(pieces_of(pieces, octets_at(found, "header"), external))
    kid = octets_at(found, "kid") if found.has_kid else None
    key, signature = octets_at(found, "x"), octets_at(found, "signature")
    asked = EddsaInput(found.alg, found.crv, kid, key, front + content, signature)
    if not a_bool(eddsa(asked), "eddsa"):
        raise Refused(Reason.BadAuth, found.place)
    return content


def eddsa() -> Eddsa:
    """What verifies EdDSA, Ed25519 and Ed448 by the package `cryptography`: pass it as `eddsa`.

    Raises `ModuleNotFoundError` where that isn't installed.
    """
    try:
        from cryptography.exceptions import InvalidSignature
        from cryptography.hazmat.primitives.asymmetric import ed448, ed25519
    except ImportError as error:
        raise ModuleNotFoundError(
            "cose.eddsa() needs the package 'cryptography', which isn't installed; a function that"
            " takes a cose.EddsaInput and returns whether its signature is good serves too"
        ) from error
    keys: Any = {6: ed25519.Ed25519PublicKey, 7: ed448.Ed448PublicKey}

    def is_good(given: EddsaInput) -> bool:
        try:
            keys[given.crv].from_public_bytes(given.x).verify(given.signature, given.structure)
        except InvalidSignature:
            return False
        return True

    return is_good
