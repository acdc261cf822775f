"""COSE_Sign1 messages that are made, with a signature of the caller's."""

from __future__ import annotations

import ctypes
from ctypes import byref
from typing import Any, Callable, NoReturn

from ._arguments import Algorithm, Buffer, bytes_of, number_of
from ._library import Block, MadeStruct, Status, small

# gets the digest of the Sig_structure, and returns the signature: r and then s (RFC 9053 section 2.1)
Sign = Callable[[bytes], bytes]

# room for what precedes and what follows a payload, and for a digest
_HEAD, _TAIL, _DIGEST = 384, 134, 64

_WHY = {
    Status.MORE: "bytes of the payload are to come",
    Status.AAD_TOO_LONG: "aad has more than 65,535 bytes",
    Status.CLOSED: "no message is being made",
}
_LENGTHS = "kid has more than 255 bytes, or the payload 2^56 or more"
_SIGNATURE = "the signature hasn't the length of those of the algorithm"


def _fail(made: MadeStruct, bad_argument: str) -> NoReturn:
    """Raises why no message is made."""
    raise ValueError(_WHY.get(Status(made.status), bad_argument))


def _algorithm_of(alg: int) -> int:
    """The number of an algorithm of signatures."""
    number = number_of(alg, "alg", -(2**31), 2**31 - 1)
    if number >= 0 or number not in {it.value for it in Algorithm}:
        raise ValueError(f"alg should be an algorithm of signatures, and is {number}")
    return number


class Sign1Maker:
    """Makes a COSE_Sign1 over pieces of its payload: `head`, the pieces and `end(..)` are the message.

    The arguments are those of `cose.sign1`; `payload_length` is the length of all pieces together.
    Threads may pass pieces at once: each is hashed whole, in the order in which they come.
    """

    def __init__(
        self, payload_length: int, *, alg: int, kid: Buffer = b"", aad: Buffer = b""
    ) -> None:
        name, external = bytes_of(kid, "kid"), bytes_of(aad, "aad")
        length = number_of(payload_length, "payload_length", 0, 2**64 - 1)
        number = _algorithm_of(alg)
        self._block = Block("maker", small.signer_size(), small.signer_align())
        room, made = ctypes.create_string_buffer(_HEAD), MadeStruct()
        given = (name, len(name), external, len(external))
        with self._block as handle:
            small.signer_begin(self._block.at)
            small.edge_make_sign1(handle, number, *given, length, room, _HEAD, byref(made))
        if made.status != Status.MORE:
            _fail(made, _LENGTHS)
        # what precedes the payload
        self.head = room.raw[: made.length]

    def piece(self, piece: Buffer) -> int:
        """Takes bytes of the payload, and returns how many: none after its last one."""
        data = bytes_of(piece, "piece")
        with self._block as handle:
            used: int = small.edge_make_sign1_piece(handle, data, len(data))
        return used

    def digest(self) -> bytes:
        """The digest of the Sig_structure (RFC 9052 section 4.4), which is to be signed.

        Raises `ValueError` where the payload isn't whole.
        """
        room, made = ctypes.create_string_buffer(_DIGEST), MadeStruct()
        with self._block as handle:
            small.edge_make_sign1_digest(handle, room, _DIGEST, byref(made))
        if made.status != Status.COMPLETE:
            _fail(made, "no room for the digest")
        return room.raw[: made.length]

    def end(self, signature: Buffer) -> bytes:
        """What follows the payload. The signature is r and then s, and isn't verified.

        Raises `ValueError` where the payload isn't whole, or the signature hasn't the length of those of
        the algorithm: another one may be given then.
        """
        given = bytes_of(signature, "signature")
        room, made = ctypes.create_string_buffer(_TAIL), MadeStruct()
        with self._block as handle:
            small.edge_make_sign1_end(handle, given, len(given), room, _TAIL, byref(made))
        if made.status != Status.COMPLETE:
            _fail(made, _SIGNATURE)
        return room.raw[: made.length]


def sign1(payload: Buffer, *, alg: int, sign: Sign, kid: Buffer = b"", aad: Buffer = b"") -> bytes:
    """Makes a COSE_Sign1 with a signature that `sign` makes.

    alg: an algorithm of signatures (RFC 9053 table 1, RFC 9864 section 2.1).
    sign: gets the digest of the Sig_structure, and returns r and then s (RFC 9053 section 2.1);
        `cose.ecdsa_signer` makes one of a private key of the package `cryptography`.
    kid: the key identifier to write, at most 255 bytes; none where it is empty.
    aad: the externally supplied data, at most 65,535 bytes.
    """
    data = bytes_of(payload, "payload")
    maker = Sign1Maker(len(data), alg=alg, kid=kid, aad=aad)
    maker.piece(data)
    return maker.head + data + maker.end(sign(maker.digest()))


def ecdsa_signer(private_key: Any) -> Sign:
    """What signs by a private key of the package `cryptography`, on P-256, P-384 or P-521.

    The key's curve must be that of the algorithm: a digest for another one is refused, by its length,
    with `ValueError`. Raises `ModuleNotFoundError` where the package isn't installed.
    """
    try:
        from cryptography.hazmat.primitives import hashes
        from cryptography.hazmat.primitives.asymmetric import ec, utils
    except ImportError as error:
        raise ModuleNotFoundError(
            "cose.ecdsa_signer needs the package 'cryptography', which isn't installed; a function that"
            " takes a digest and returns r and then s serves too"
        ) from error
    if not isinstance(private_key, ec.EllipticCurvePrivateKey):
        raise TypeError("private_key should be a private key on an elliptic curve")
    known: Any = {
        "secp256r1": (hashes.SHA256(), 32),
        "secp384r1": (hashes.SHA384(), 48),
        "secp521r1": (hashes.SHA512(), 66),
    }
    if private_key.curve.name not in known:
        raise ValueError(
            f"private_key should be on P-256, P-384 or P-521: {private_key.curve.name}"
        )
    digest_of, size = known[private_key.curve.name]

    def sign(digest: bytes) -> bytes:
        if len(digest) != digest_of.digest_size:
            raise ValueError(f"the key on {private_key.curve.name} isn't one of the algorithm")
        der = private_key.sign(digest, ec.ECDSA(utils.Prehashed(digest_of)))
        r, s = utils.decode_dss_signature(der)
        return r.to_bytes(size, "big") + s.to_bytes(size, "big")

    return sign
