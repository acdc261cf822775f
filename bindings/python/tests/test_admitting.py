"""Messages and tokens under what a caller states and requires: what the rows don't ask."""

import time
import unittest
from typing import Any

import cose
from cose import cbor
from support import SECRET, TAG_CWT, mac0, sign1, sign1_parts

KEYS = cbor.encode({1: 4, 3: 5, -1: SECRET})
POINT = {1: 2, 3: -7, -1: 1, -2: b"\x11" * 32, -3: b"\x22" * 32}
NOW = 1444064943
CLAIMS = {1: "as", 2: "erikw", 3: ["a", "b"], 4: NOW + 1, 6: NOW}
PAYLOAD = cbor.encode(CLAIMS)


class Messages(unittest.TestCase):
    def test_arguments(self) -> None:
        """External data, the kind, a detached payload and a large header are those of `verify`."""
        data = mac0(b"hi", aad=b"data", tag=b"")
        found = cose.authenticate(KEYS, data, aad=b"data", wanted=cose.Kind.MAC0)
        wanted = cose.Message(cose.Kind.MAC0, cose.Algorithm.HMAC_256, b"hi", len(data))
        self.assertEqual(found, wanted)
        detached = mac0(b"hi", detached=True)
        for large in (False, True):
            found = cose.authenticate(KEYS, detached, payload=b"hi", large=large)
            self.assertEqual(found.payload, b"hi")
        self.assertEqual(cose.authenticate(cose.KeyTable(KEYS), mac0(b"hi")).payload, b"hi")
        long = mac0(b"hi", kid=b"k" * 2_000)
        self.assertEqual(cose.authenticate(KEYS, long, large=True).payload, b"hi")
        for keys, message, options in (
            (KEYS, data, {}),
            (KEYS, mac0(b"hi", aad=b"data"), {}),
            (KEYS, mac0(b"hi"), {"wanted": cose.Kind.SIGN1}),
            (KEYS, detached, {}),
            (KEYS, detached, {"payload": b"ho"}),
            (KEYS, long, {}),
        ):
            with self.subTest(options), self.assertRaises(cose.Refused):
                cose.authenticate(keys, message, **options)  # type: ignore[arg-type]

    def test_signature(self) -> None:
        """A signature is asked about once, and its head is the place where it isn't good."""
        protected, _ = sign1_parts(PAYLOAD, -7)
        keys = cbor.encode(POINT)
        for payload in (PAYLOAD, None):
            data = sign1(payload, protected, b"\x33" * 64)
            options: Any = {} if payload else {"payload": PAYLOAD}
            for large in (False, True):
                asked = []
                found = cose.authenticate(
                    keys, data, ecdsa=lambda it: asked.append(it) is None, large=large, **options
                )
                self.assertEqual((found.payload, len(asked)), (PAYLOAD, 1))
                with self.assertRaises(cose.Refused) as raised:
                    cose.authenticate(keys, data, ecdsa=lambda _: False, large=large, **options)
                place = len(data) - 66
                self.assertEqual(raised.exception.reason, cose.Reason.BadAuth)
                self.assertEqual(raised.exception.place, place)
            with self.assertRaises(cose.SignatureUnverified):
                cose.authenticate(keys, data, **options)
        longer = sign1(PAYLOAD, protected, b"")[:-1]
        longer += b"\x5b" + (64).to_bytes(8, "big") + b"\x33" * 64
        with self.assertRaises(cose.Refused) as raised:
            cose.authenticate(keys, longer, ecdsa=lambda _: False)
        self.assertEqual(raised.exception.place, len(longer) - 73)

    def test_keys_of_points(self) -> None:
        """A point that names no algorithm is left out by default."""
        keys = cbor.encode({label: it for label, it in POINT.items() if label != 3})
        data = sign1(PAYLOAD, sign1_parts(PAYLOAD, -7)[0], b"\x33" * 64)
        with self.assertRaises(cose.Refused) as raised:
            cose.authenticate(keys, data, ecdsa=lambda _: True)
        self.assertEqual(raised.exception.reason, cose.Reason.NoKey)
        found = cose.authenticate(keys, data, ecdsa=lambda _: True, without_alg=True)
        self.assertEqual(found.payload, PAYLOAD)

    def test_bad_arguments(self) -> None:
        for options in (
            {"algorithms": []},
            {"algorithms": [0]},
            {"algorithms": [5] * 17},
            {"algorithms": [2**31]},
            {"understood": [0]},
            {"understood": [2**63]},
            {"payload_limit": 0},
            {"least_secret": -1},
            {"least_secret": 2**64},
        ):
            with self.subTest(options), self.assertRaises(ValueError):
                cose.authenticate(KEYS, mac0(b"hi"), **options)  # type: ignore[arg-type]
        with self.assertRaises(ValueError):
            cose.authenticate(KEYS, mac0(b"hi"), aad=b"a" * 65_536)
        with self.assertRaises(cose.KeysRefused):
            cose.authenticate(b"\x80", mac0(b"hi"))


class Tokens(unittest.TestCase):
    def test_arguments(self) -> None:
        options: Any = {"now": NOW, "issuer": "as", "subject": "erikw", "audience": "b"}
        data = mac0(PAYLOAD, aad=b"data")
        for token in (data, TAG_CWT + data):
            found = cose.admit(KEYS, token, aad=b"data", **options)
            self.assertEqual((found.iss, found.aud, found.payload), ("as", ("a", "b"), PAYLOAD))
        untagged = mac0(PAYLOAD, tag=b"")
        self.assertEqual(cose.admit(KEYS, untagged, wanted=cose.Kind.MAC0, **options).sub, "erikw")
        signed = sign1(PAYLOAD, sign1_parts(PAYLOAD, -7)[0], b"\x33" * 64)
        keys = cbor.encode(POINT)
        for large in (False, True):
            found = cose.admit(keys, signed, ecdsa=lambda _: True, large=large, **options)
            self.assertEqual(found.sub, "erikw")
        with self.assertRaises(cose.Unmet) as raised:
            cose.admit(keys, signed, now=NOW, issuer="a", ecdsa=lambda _: True)
        self.assertEqual(str(raised.exception), "requirement not met: ISSUER at 2")
        self.assertEqual(raised.exception.requirement, cose.Requirement.ISSUER)
        with self.assertRaises(cose.Refused):
            cose.admit(keys, signed, ecdsa=lambda _: False, **options)
        with self.assertRaises(cose.SignatureUnverified):
            cose.admit(keys, signed, **options)

    def test_large_header_of_a_signed_token(self) -> None:
        """A header of more than 1,024 bytes is read in the large size, of a token that is signed too."""
        signed = sign1(PAYLOAD, cbor.encode({1: -7, 1000: bytes(1_024)}), b"\x33" * 64)
        options: Any = {"now": NOW, "ecdsa": lambda _: True}
        self.assertEqual(cose.admit(cbor.encode(POINT), signed, large=True, **options).sub, "erikw")
        with self.assertRaisesRegex(cose.Refused, "PastRoom"):
            cose.admit(cbor.encode(POINT), signed, **options)

    def test_clock(self) -> None:
        """By default the time is that of the machine's clock."""
        moment = int(time.time())
        payload = cbor.encode({4: moment + 1_000})
        self.assertEqual(cose.admit(KEYS, mac0(payload)).exp, moment + 1_000)
        with self.assertRaises(cose.ClaimsRefused):
            cose.admit_claims(cbor.encode({4: moment - 1_000}))

    def test_nesting(self) -> None:
        """Claims nest 8 deep, or 16 in the large size."""
        deep: Any = 0
        for _ in range(9):
            deep = [deep]
        payload = cbor.encode({4: NOW + 1, 100: deep})
        self.assertEqual(cose.admit_claims(payload, now=NOW, large=True).exp, NOW + 1)
        self.assertEqual(cose.admit(KEYS, mac0(payload), now=NOW, large=True).exp, NOW + 1)
        signed, keys = sign1(payload, sign1_parts(payload, -7)[0], b"\x33" * 64), cbor.encode(POINT)
        found = cose.admit(keys, signed, ecdsa=lambda _: True, now=NOW, large=True)
        self.assertEqual(found.exp, NOW + 1)
        with self.assertRaises(cose.ClaimsRefused):
            cose.admit_claims(payload, now=NOW)
        with self.assertRaises(cose.ClaimsRefused):
            cose.admit(KEYS, mac0(payload), now=NOW)

    def test_bad_arguments(self) -> None:
        for options in (
            {"issuer": ""},
            {"subject": ""},
            {"audience": ""},
            {"issuer": "\ud800"},
            {"present": ["exp", "scope"]},
            {"max_lifetime": 0},
            {"max_age": 0},
            {"leeway": -1},
            {"leeway": 2**32},
            {"now": 0},
            {"now": 2**63},
        ):
            with self.subTest(options), self.assertRaises(ValueError):
                cose.admit_claims(PAYLOAD, **{"now": NOW, **options})  # type: ignore[arg-type]


if __name__ == "__main__":
    unittest.main()
