"""ECDSA by the package `cryptography`, which verifies a signature over a digest in one call."""

from __future__ import annotations

from typing import Any

from ._answers import Ecdsa, SignInput

_NAMES = {1: "P-256", 2: "P-384", 3: "P-521"}


def ecdsa() -> Ecdsa:
    """What verifies ES256, ES384, ES512, ESP256, ESP384 and ESP512: pass it as `ecdsa`.

    Raises `ModuleNotFoundError` where the package `cryptography` isn't installed.
    """
    try:
        from cryptography.exceptions import InvalidSignature
        from cryptography.hazmat.primitives import hashes
        from cryptography.hazmat.primitives.asymmetric import ec, utils
    except ImportError as error:
        raise ModuleNotFoundError(
            "cose.ecdsa() needs the package 'cryptography', which isn't installed; a function that"
            " takes a cose.SignInput and returns whether its signature is good serves too"
        ) from error
    curves: Any = {1: ec.SECP256R1(), 2: ec.SECP384R1(), 3: ec.SECP521R1()}
    digests: Any = {32: hashes.SHA256(), 48: hashes.SHA384(), 64: hashes.SHA512()}

    def is_good(given: SignInput) -> bool:
        if isinstance(given.y, bool):
            point = (b"\x03" if given.y else b"\x02") + given.x
        else:
            point = b"\x04" + given.x + given.y
        try:
            key = ec.EllipticCurvePublicKey.from_encoded_point(curves[given.crv], point)
        except ValueError as error:
            raise ValueError(f"the key that fits isn't a point of {_NAMES[given.crv]}") from error
        half = len(given.signature) // 2
        r, s = (
            int.from_bytes(it, "big") for it in (given.signature[:half], given.signature[half:])
        )
        algorithm = ec.ECDSA(utils.Prehashed(digests[len(given.digest)]))
        try:
            key.verify(utils.encode_dss_signature(r, s), given.digest, algorithm)
        except InvalidSignature:
            return False
        return True

    return is_good
