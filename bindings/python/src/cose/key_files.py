"""Files of keys: a COSE_Key or a COSE_KeySet, a PEM, a JWK or a JWK set."""

from __future__ import annotations

from . import spelling
from .keys import from_cose, from_jwk, from_pem


def read(data: bytes) -> bytes:
    """The COSE_Key or the COSE_KeySet of a file's content. Raises `ValueError` or `KeysRefused`.

    A COSE_Key and a COSE_KeySet may be in hexadecimal or base64url too.
    """
    text = data.decode("ascii", "replace").lstrip()
    if "-----BEGIN " in text:
        return from_pem(text)
    if text.startswith("{"):
        return from_jwk(data)
    return from_cose(spelling.detect(data))
