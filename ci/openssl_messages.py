"""COSE messages in CBOR, and ECDSA signatures that the command `openssl` makes, independent of the libraries here."""
import pathlib
import subprocess
from typing import NamedTuple


class Curve(NamedTuple):
    """A curve, and the algorithm on it."""
    name: str  # for OpenSSL
    number: int  # in a key (RFC 9053 section 7.1)
    alg: int  # in a message (RFC 9053 section 2.1, RFC 9864 section 2.1)
    hash: str  # for OpenSSL
    coordinate: int  # the bytes of a coordinate, and of r and of s


CURVES = (
    Curve("P-256", 1, -7, "sha256", 32),
    Curve("P-384", 2, -35, "sha384", 48),
    Curve("P-521", 3, -36, "sha512", 66),
    Curve("P-256", 1, -9, "sha256", 32),
    Curve("P-384", 2, -51, "sha384", 48),
    Curve("P-521", 3, -52, "sha512", 66),
)


class Tagged(NamedTuple):
    """An item with a tag."""
    number: int
    item: object


def head(major, number):
    """The shortest head (RFC 8949 section 3)."""
    if number < 24:
        return bytes([major << 5 | number])
    width = next(width for width in range(4) if number < 256 ** (1 << width))
    return bytes([major << 5 | 24 + width]) + number.to_bytes(1 << width, "big")


def cbor(value):
    """A value in CBOR; a tuple is an array, None is nil."""
    if isinstance(value, Tagged):
        return head(6, value.number) + cbor(value.item)
    if value is None:
        return b"\xf6"
    if isinstance(value, bool):
        return b"\xf5" if value else b"\xf4"
    if isinstance(value, int):
        return head(0, value) if value >= 0 else head(1, -1 - value)
    if isinstance(value, bytes):
        return head(2, len(value)) + value
    if isinstance(value, str):
        return head(3, len(value.encode())) + value.encode()
    if isinstance(value, tuple):
        return head(4, len(value)) + b"".join(map(cbor, value))
    return head(5, len(value)) + b"".join(cbor(label) + cbor(item) for label, item in value.items())


def openssl(*arguments, text=b""):
    """What OpenSSL prints."""
    return subprocess.run(["openssl", *arguments], input=text, stdout=subprocess.PIPE, check=True).stdout


class Pair(NamedTuple):
    """A private key, and its point."""
    curve: Curve
    path: pathlib.Path
    x: bytes
    y: bytes

    def sign(self, protected, payload, data):
        """The signature of a Sig_structure (RFC 9052 section 4.4), r and s joined."""
        structure = cbor(("Signature1", protected, data, payload))
        value = openssl("dgst", "-" + self.curve.hash, "-sign", self.path, text=structure)
        # ECDSA-Sig-Value (RFC 3279 section 2.2.3): a sequence, whose length may take a second byte, of two integers
        integers = value[2:] if value[1] < 0x80 else value[3:]
        r, s = integers[2:2 + integers[1]], integers[4 + integers[1]:]
        return b"".join(int.from_bytes(half, "big").to_bytes(self.curve.coordinate, "big") for half in (r, s))


def new_pair(folder, curve, odd):
    """A pair whose y is odd, or even."""
    path = pathlib.Path(folder, f"{curve.name}{curve.alg}-{odd}")
    while True:
        openssl("genpkey", "-algorithm", "EC", "-pkeyopt", f"ec_paramgen_curve:{curve.name}", "-out", path)
        point = openssl("pkey", "-in", path, "-pubout", "-outform", "DER")[-2 * curve.coordinate:]
        x, y = point[:curve.coordinate], point[curve.coordinate:]
        if y[-1] % 2 == odd:
            return Pair(curve, path, x, y)


def flipped(content, index):
    """The bytes with one bit changed."""
    content = bytearray(content)
    content[index] ^= 1
    return bytes(content)
