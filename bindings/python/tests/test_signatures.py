"""COSE_Sign1 messages, with the package cryptography and without it."""

import hashlib
import subprocess
import sys
import unittest
from typing import Any
from unittest import mock

import cose
from cose import cbor
from support import EXAMPLES, TAG_CWT, sign1, sign1_parts

try:
    from cryptography.hazmat.primitives import hashes
    from cryptography.hazmat.primitives.asymmetric import ec, utils

    CURVES: Any = (
        (1, -7, ec.SECP256R1(), hashes.SHA256(), 32),
        (2, -35, ec.SECP384R1(), hashes.SHA384(), 48),
        (3, -36, ec.SECP521R1(), hashes.SHA512(), 66),
    )
except ImportError:
    CURVES = ()

KEYS = (EXAMPLES / "sign1_key.cbor").read_bytes()
MESSAGE = (EXAMPLES / "sign1.cbor").read_bytes()


def bad(message: bytes) -> bytes:
    return message[:-1] + bytes([message[-1] ^ 1])


def signed(key: Any, alg: int, digest: Any, size: int, payload: bytes) -> "tuple[bytes, bytes]":
    """The protected header of a message, and its signature."""
    protected, content = sign1_parts(payload, alg)
    r, s = utils.decode_dss_signature(key.sign(content, ec.ECDSA(digest)))
    return protected, r.to_bytes(size, "big") + s.to_bytes(size, "big")


class WithoutCryptography(unittest.TestCase):
    def test_no_answer(self) -> None:
        with self.assertRaisesRegex(cose.SignatureUnverified, r"pass ecdsa=cose\.ecdsa\(\)"):
            cose.verify(KEYS, MESSAGE)
        with self.assertRaises(cose.SignatureUnverified):
            cose.verify_cwt(KEYS, MESSAGE)
        with cose.Verifier(KEYS) as verifier:
            verifier.feed(MESSAGE)
            with self.assertRaises(cose.SignatureUnverified):
                verifier.verdict()

    def test_not_installed(self) -> None:
        with mock.patch.dict(sys.modules, {"cryptography.exceptions": None}):
            with self.assertRaisesRegex(ModuleNotFoundError, "needs the package 'cryptography'"):
                cose.ecdsa()

    def test_function(self) -> None:
        asked = []

        def ecdsa(given: cose.SignInput) -> bool:
            asked.append(given)
            return len(asked) == 1

        found = cose.verify(KEYS, MESSAGE, ecdsa=ecdsa)
        wanted = cose.Message(cose.Kind.SIGN1, cose.Algorithm.ES256, b"This is the content.", 98)
        self.assertEqual(found, wanted)
        with self.assertRaises(cose.Refused) as raised:
            cose.verify(KEYS, MESSAGE, ecdsa=ecdsa)
        self.assertEqual((raised.exception.reason, raised.exception.place), (28, 32))
        content = cbor.encode(["Signature1", b"\xa1\x01\x26", b"", b"This is the content."])
        for given in asked:
            self.assertEqual(given.digest, hashlib.sha256(content).digest())
            self.assertEqual((given.crv, given.signature), (1, MESSAGE[-64:]))
        self.assertEqual(len(asked), 2)

    def test_no_boolean(self) -> None:
        async def later(given: cose.SignInput) -> bool:
            return False

        for ecdsa in (lambda given: 1, lambda given: None):
            with self.assertRaisesRegex(TypeError, "bool"):
                cose.verify(KEYS, MESSAGE, ecdsa=ecdsa)  # type: ignore[arg-type]
        with mock.patch("warnings.warn"), self.assertRaisesRegex(TypeError, "coroutine"):
            cose.verify(KEYS, MESSAGE, ecdsa=lambda given: _closed(later(given)))


def _closed(coroutine: Any) -> Any:
    coroutine.close()
    return coroutine


@unittest.skipUnless(CURVES, "the package cryptography isn't installed")
class WithCryptography(unittest.TestCase):
    def test_example(self) -> None:
        self.assertEqual(
            cose.verify(KEYS, MESSAGE, ecdsa=cose.ecdsa()).payload, b"This is the content."
        )
        with self.assertRaises(cose.Refused) as raised:
            cose.verify(KEYS, bad(MESSAGE), ecdsa=cose.ecdsa())
        self.assertEqual((raised.exception.reason, raised.exception.place), (28, 32))

    def each(self) -> Any:
        for crv, alg, curve, digest, size in CURVES:
            secret = ec.generate_private_key(curve)
            point = secret.public_key().public_numbers()
            x, y = point.x.to_bytes(size, "big"), point.y.to_bytes(size, "big")
            for given in (y, point.y % 2 == 1):
                keys = cbor.encode({1: 2, -1: crv, -2: x, -3: given})
                yield keys, lambda payload: signed(secret, alg, digest, size, payload)

    def test_curves(self) -> None:
        for keys, sign in self.each():
            message = sign1(b"hi", *sign(b"hi"))
            for held in (keys, cose.KeyTable(keys)):
                self.assertEqual(cose.verify(held, message, ecdsa=cose.ecdsa()).payload, b"hi")
                with self.assertRaises(cose.Refused) as raised:
                    cose.verify(held, bad(message), ecdsa=cose.ecdsa())
                self.assertEqual(raised.exception.reason, cose.Reason.BadAuth)
            with cose.Verifier(keys, ecdsa=cose.ecdsa()) as verifier:
                verifier.feed(message)
                self.assertEqual(verifier.verdict().kind, cose.Kind.SIGN1)
                verifier.reset()
                verifier.feed(bad(message))
                with self.assertRaises(cose.Refused) as streamed:
                    verifier.verdict()
                self.assertEqual(streamed.exception.place, raised.exception.place)

    def test_detached(self) -> None:
        for keys, sign in self.each():
            message = sign1(None, *sign(b"hi"))
            found = cose.verify(keys, message, payload=b"hi", ecdsa=cose.ecdsa())
            self.assertEqual(found.payload, b"hi")
            for it, payload in ((bad(message), b"hi"), (message, b"ho")):
                with self.assertRaises(cose.Refused) as raised:
                    cose.verify(keys, it, payload=payload, ecdsa=cose.ecdsa())
                place = message.index(b"\xa0\xf6") + 2
                self.assertEqual((raised.exception.reason, raised.exception.place), (28, place))

    def test_tokens(self) -> None:
        claims = cbor.encode({2: "erikw", 4: 1_000})
        for keys, sign in self.each():
            token = TAG_CWT + sign1(claims, *sign(claims))
            for held in (keys, cose.KeyTable(keys)):
                self.assertEqual(
                    cose.verify_cwt(held, token, now=999, ecdsa=cose.ecdsa()).sub, "erikw"
                )
                with self.assertRaises(cose.ClaimsRefused):
                    cose.verify_cwt(held, token, now=1_000, ecdsa=cose.ecdsa())
                with self.assertRaises(cose.Refused):
                    cose.verify_cwt(held, bad(token), now=999, ecdsa=cose.ecdsa())

    def test_no_point(self) -> None:
        keys = cbor.encode({1: 2, -1: 1, -2: bytes(32), -3: bytes(32)})
        with self.assertRaisesRegex(ValueError, "isn't a point of P-256"):
            cose.verify(keys, MESSAGE, ecdsa=cose.ecdsa())


class Import(unittest.TestCase):
    def test_alone(self) -> None:
        """The package needs nothing but the standard library until ecdsa() is called."""
        code = "import sys; sys.modules['cryptography'] = None; import cose"
        subprocess.run([sys.executable, "-c", code], check=True)


if __name__ == "__main__":
    unittest.main()
