"""Messages for ci/edge_device.c, each with the line that it has to print: those of rows/, as the second reading reads them within the
limits of the verifier for devices, and header buckets at the ends of these limits.
"""
import hashlib
import hmac
import json
import struct
from typing import NamedTuple, Optional

import second_reading as reading
from edge_source import TOP
from openssl_messages import cbor
from row_reading import keys_of

HEADER, NESTING = 256, 4
KINDS = {"tagged": 0, "mac0": 17, "sign1": 18}
SECRET = b"a key of some 24 bytes.."
KEYS = cbor({1: 4, 3: 5, -1: SECRET})


class Given(NamedTuple):
    """A message, what it is verified under, and what is found of its signature. A detached payload has a stated length."""

    keys: bytes
    aad: bytes
    wanted: str
    message: bytes
    payload: bytes = b""
    stated: Optional[int] = None
    holds: bool = True

    def record(self):
        """What the program reads of it."""
        parts = self.keys, self.aad, self.message, self.payload
        numbers = KINDS[self.wanted], self.holds, self.stated is not None, self.stated or 0, *map(len, parts)
        return struct.pack("=8Q", *numbers) + b"".join(parts)

    def context(self):
        """What the second reading reads it with."""
        limits = {"header_limit": HEADER, "nesting": NESTING}
        if self.stated is not None:
            limits.update(payload=self.payload[: self.stated], payload_length=self.stated)
        return reading.Context(self.wanted, keys_of(reading, self.keys), self.aad, **limits)

    def line(self):
        """What the program prints of it."""
        said, context = "", self.context()
        try:
            found = reading.read_message(self.message, context)
            if found.kind == "mac0":
                reading.authenticate(found, context)
            else:
                said = f"asked {reading.signed_digest(found, self.aad).hex()} {found.auth.hex()} "
                reading.demand(self.holds, reading.Reason.BadAuth, found.auth_place)
        except reading.Refused as refusal:
            return f"{said}refused {refusal.reason.value} {refusal.place}"
        payload = found.payload.hex() if self.stated is None else ""
        return f"{said}authentic {KINDS[found.kind]} {found.alg} {found.taken} {payload} "


def of_rows():
    """The messages of the rows, detached ones too."""
    for name in "messages", "detached":
        for group in json.loads((TOP / "rows" / f"{name}.json").read_text())["testGroups"]:
            keys, aad = (bytes.fromhex(group[it]) for it in ("keys", "aad"))
            stated = int(group["payloadLength"]) if name == "detached" else None
            for test in group["tests"]:
                message, payload = (bytes.fromhex(test.get(it, "")) for it in ("message", "payload"))
                yield Given(keys, aad, group["wanted"], message, payload, stated, test.get("signature", {}).get("holds", True))


def with_buckets(protected, unprotected):
    """A COSE_Mac0 under HMAC 256/256 (RFC 9052 section 6.3) with these buckets, each in CBOR."""
    tag = hmac.new(SECRET, cbor(("MAC0", protected, b"", b"on")), hashlib.sha256).digest()
    return Given(KEYS, b"", "tagged", b"\xd1\x84" + cbor(protected) + unprotected + cbor(b"on") + cbor(tag))


# a protected bucket with an algorithm, and an unprotected one, up to the value of a label that nobody knows
PROTECTED, UNPROTECTED = b"\xa2\x01\x05\x18\x64", b"\xa1\x18\x64"


def filled(front, length):
    """A bucket of so many bytes, whose last value is a byte string."""
    return front + cbor(bytes(length - len(front) - 2))


def of_ends():
    """Buckets of 256 and of 257 bytes, and such that nest 4 and 5 deep: each with the reason of its refusal, if it is refused."""
    alg, nothing = cbor({1: 5}), cbor({})
    for length, reason in (HEADER, None), (HEADER + 1, "PastRoom"):
        yield with_buckets(filled(PROTECTED, length), nothing), reason
        yield with_buckets(alg, filled(UNPROTECTED, length)), reason
    for depth, reason in (NESTING, None), (NESTING + 1, "TooDeep"):
        nested = b"\x81" * (depth - 2) + b"\x80"
        yield with_buckets(PROTECTED + nested, nothing), reason
        yield with_buckets(alg, UNPROTECTED + nested), reason


def messages():
    """All messages, as the program reads them, and the line that it prints of each."""
    given = list(of_rows())
    for it, reason in of_ends():
        number = reading.Reason[reason].value if reason else None
        if it.line().split()[:2] != (["refused", str(number)] if reason else ["authentic", "17"]):
            raise AssertionError(f"{reason or 'authentic'} is wanted of {it.message.hex()}: {it.line()}")
        given.append(it)
    return b"".join(it.record() for it in given), [it.line() for it in given]
