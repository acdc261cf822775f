"""Keys in the forms in which people have them, as COSE_Keys: secrets, JWKs, and PEM of elliptic curves.

No private part is read. This needs the standard library alone, and no other file of the package, so that
`examples/cose_key` uses it without the library.
"""

from __future__ import annotations

import base64
import json
import re
from typing import Any, Callable, Dict, List, Mapping, NamedTuple, Union

# members of a COSE_Key (RFC 9052 section 7.1), and of its types (RFC 9053 sections 7.1.1 and 7.2)
KTY, KID, ALG, KEY_OPS = 1, 2, 3, 4
CRV, X, Y, K = -1, -2, -3, -1
# types (RFC 9053 section 7)
EC2, SYMMETRIC = 2, 4

Key = Dict[int, Any]


class BadKey(ValueError):
    """What is no key that is used here, with the sentence that says why."""


class Curve(NamedTuple):
    """A curve, by its number (RFC 9053 section 7.1) and the names that JWK and SEC 2 give it.

    `identifier` is its object identifier (RFC 5480 section 2.1.1.1), and `coordinate` the number of
    bytes of a coordinate.
    """

    number: int
    name: str
    sec_name: str
    identifier: bytes
    coordinate: int


CURVES = (
    Curve(1, "P-256", "secp256r1", bytes.fromhex("2a8648ce3d030107"), 32),
    Curve(2, "P-384", "secp384r1", bytes.fromhex("2b81040022"), 48),
    Curve(3, "P-521", "secp521r1", bytes.fromhex("2b81040023"), 66),
)
EC_PUBLIC_KEY = bytes.fromhex("2a8648ce3d0201")

# RFC 7518 section 3.1 and RFC 9053
_ALGORITHMS = {"HS256": 5, "HS384": 6, "HS512": 7, "ES256": -7, "ES384": -35, "ES512": -36}
# RFC 7517 section 4.3 and RFC 9052 section 7.1: for MACs two of them have other numbers
_OPERATIONS = {
    "sign": 1,
    "verify": 2,
    "encrypt": 3,
    "decrypt": 4,
    "wrapKey": 5,
    "unwrapKey": 6,
    "deriveKey": 7,
    "deriveBits": 8,
}
_MAC_OPERATIONS = {**_OPERATIONS, "sign": 9, "verify": 10}


def of_secret(secret: bytes) -> Key:
    """The COSE_Key of a secret for HMAC."""
    return {KTY: SYMMETRIC, K: secret}


# ---- elliptic curves


def of_point(curve: Curve, point: bytes) -> Key:
    """The COSE_Key of a point in the form of SEC 1 section 2.3.3, compressed or not."""
    x, rest = point[1 : 1 + curve.coordinate], point[1 + curve.coordinate :]
    is_whole = point[:1] == b"\x04" and len(rest) == curve.coordinate
    is_compressed = point[:1] in (b"\x02", b"\x03") and not rest and len(x) == curve.coordinate
    if not is_whole and not is_compressed:
        raise BadKey(f"it isn't a point of {curve.name}")
    return {KTY: EC2, CRV: curve.number, X: x, Y: rest if is_whole else point[:1] == b"\x03"}


class _Element(NamedTuple):
    """An element of DER, and what follows it."""

    content: bytes
    whole: bytes
    rest: bytes


_SEQUENCE, _BIT_STRING, _IDENTIFIER, _INTEGER, _VERSION = 0x30, 0x03, 0x06, 0x02, 0xA0


def _element(data: bytes, tag: int) -> _Element:
    """The DER element with this tag that data begins with."""
    if data[:1] != bytes([tag]):
        raise BadKey("it isn't an EC public key")
    length, at = int.from_bytes(data[1:2], "big"), 2
    if length > 127:
        at += length - 128
        length = int.from_bytes(data[2:at], "big")
    end = at + length
    if len(data) < end:
        raise BadKey("it is cut off")
    return _Element(data[at:end], data[:end], data[end:])


def of_info(info: bytes) -> Key:
    """The COSE_Key of a SubjectPublicKeyInfo on one of the named curves (RFC 5480 section 2)."""
    outer = _element(info, _SEQUENCE)
    algorithm = _element(outer.content, _SEQUENCE)
    kind = _element(algorithm.content, _IDENTIFIER)
    parameters = _element(kind.rest, _IDENTIFIER)
    bits = _element(algorithm.rest, _BIT_STRING)
    after = outer.rest + parameters.rest + bits.rest
    if kind.content != EC_PUBLIC_KEY or after or bits.content[:1] != b"\x00":
        raise BadKey("it isn't an EC public key")
    curve = next((it for it in CURVES if it.identifier == parameters.content), None)
    if curve is None:
        raise BadKey("its curve isn't P-256, P-384 or P-521")
    return of_point(curve, bits.content[1:])


def _info_of_certificate(certificate: bytes) -> bytes:
    """The SubjectPublicKeyInfo of a certificate (RFC 5280 section 4.1), of which nothing is verified."""
    rest = _element(_element(certificate, _SEQUENCE).content, _SEQUENCE).content
    if rest[:1] == bytes([_VERSION]):
        rest = _element(rest, _VERSION).rest
    # the serial number; then the signature's algorithm, the issuer, the validity and the subject
    for tag in (_INTEGER, *[_SEQUENCE] * 4):
        rest = _element(rest, tag).rest
    return _element(rest, _SEQUENCE).whole


def infos_of_pem(text: str) -> List[bytes]:
    """The SubjectPublicKeyInfo of each public key and each certificate of a PEM (RFC 7468)."""
    found = re.findall(r"-----BEGIN (PUBLIC KEY|CERTIFICATE)-----(.*?)-----END \1-----", text, re.S)
    if not found:
        label = re.search(r"-----BEGIN ([A-Z0-9 ]+)-----", text)
        what = label[1] if label else "nothing"
        raise BadKey(f"it has a {what}, and a PUBLIC KEY is wanted (openssl pkey -pubout)")
    ders = [(label, _base64(content)) for label, content in found]
    return [der if label == "PUBLIC KEY" else _info_of_certificate(der) for label, der in ders]


def _base64(text: str) -> bytes:
    try:
        return base64.b64decode(re.sub(r"\s", "", text), validate=True)
    except ValueError:
        raise BadKey("it isn't base64") from None


# ---- JWK


def base64url(value: object, name: str) -> bytes:
    """The bytes of a member in base64url, with its padding or without (RFC 7515 section 2)."""
    if not isinstance(value, str):
        raise BadKey(f"its {name} is no text")
    digits = value.rstrip("=")
    if not re.fullmatch(r"[A-Za-z0-9_-]*", digits) or len(digits) % 4 == 1:
        raise BadKey(f"its {name} isn't base64url")
    return base64.urlsafe_b64decode(digits + "=" * (-len(digits) % 4))


def coordinate(jwk: Mapping[str, Any], name: str, curve: Curve) -> bytes:
    """A number of a JWK on a curve (RFC 7518 section 6.2)."""
    number = base64url(jwk.get(name), name)
    if len(number) != curve.coordinate:
        raise BadKey(f"its {name} has {len(number)} bytes in place of {curve.coordinate}")
    return number


def curve_of(jwk: Mapping[str, Any]) -> Curve:
    """The curve that a JWK names."""
    curve = next((it for it in CURVES if it.name == jwk.get("crv")), None)
    if curve is None:
        raise BadKey("its crv is none of P-256, P-384 and P-521")
    return curve


def _operations_of(names: object, numbers: Dict[str, int]) -> List[int]:
    """The operations of a JWK. Those that aren't registered are left out, but not all of them."""
    if not isinstance(names, list) or not all(isinstance(name, str) for name in names):
        raise BadKey("its key_ops aren't an array of texts")
    known = [numbers[name] for name in names if name in numbers]
    if not known:
        raise BadKey("its key_ops hold no operation that is registered")
    return known


def of_jwk(jwk: object) -> Key:
    """The COSE_Key of a JWK (RFC 7517), without a private part. Raises `BadKey`."""
    if not isinstance(jwk, Mapping) or jwk.get("kty") not in ("EC", "oct"):
        raise BadKey("it has no kty of EC or oct")
    if jwk.get("use", "sig") != "sig":
        raise BadKey("its use isn't sig")
    is_secret = jwk["kty"] == "oct"
    key: Key = {KTY: SYMMETRIC if is_secret else EC2}
    if "kid" in jwk:
        if not isinstance(jwk["kid"], str):
            raise BadKey("its kid is no text")
        key[KID] = jwk["kid"].encode()
    if "alg" in jwk:
        if not isinstance(jwk["alg"], str) or jwk["alg"] not in _ALGORITHMS:
            raise BadKey("its alg is none of HS256, HS384, HS512, ES256, ES384 and ES512")
        key[ALG] = _ALGORITHMS[jwk["alg"]]
    if "key_ops" in jwk:
        numbers = _MAC_OPERATIONS if is_secret else _OPERATIONS
        key[KEY_OPS] = _operations_of(jwk["key_ops"], numbers)
    if is_secret:
        return {**key, K: base64url(jwk.get("k"), "k")}
    curve = curve_of(jwk)
    x, y = (coordinate(jwk, name, curve) for name in ("x", "y"))
    return {**key, CRV: curve.number, X: x, Y: y}


def _skip(number: int, why: BadKey) -> None:
    """Says nothing of a key that is skipped."""


def parsed(text: Union[str, bytes]) -> object:
    """What a text of JSON says."""
    try:
        return json.loads(text)
    except (ValueError, RecursionError):
        raise BadKey("it isn't JSON") from None


def of_jwks(
    value: object,
    make: Callable[[object], Key] = of_jwk,
    skip: Callable[[int, BadKey], None] = _skip,
) -> List[Key]:
    """The keys of a JWK or a JWK set (RFC 7517 section 5): of a set those that can be made."""
    if not isinstance(value, Mapping) or "keys" not in value:
        return [make(value)]
    keys: List[Key] = []
    for number, jwk in enumerate(value["keys"] if isinstance(value["keys"], list) else []):
        try:
            keys.append(make(jwk))
        except BadKey as why:
            skip(number, why)
    if not keys:
        raise BadKey("no key of its set can be made")
    return keys
