"""COSE_Sign1 messages that are signed by EdDSA, with the package cryptography and without it."""

import sys
import unittest
from typing import Any
from unittest import mock

import cose
from cose import cbor
from support import sign1, sign1_parts

try:
    from cryptography.hazmat.primitives.asymmetric import ed448, ed25519
    from cryptography.hazmat.primitives.serialization import Encoding, PublicFormat

    CURVES: Any = (
        (6, ed25519.Ed25519PrivateKey, (-8, -19)),
        (7, ed448.Ed448PrivateKey, (-8, -53)),
    )
except ImportError:
    CURVES = ()


def signed(private: Any, alg: int, payload: bytes) -> bytes:
    protected, content = sign1_parts(payload, alg)
    return sign1(payload, protected, private.sign(content))


class WithoutCryptography(unittest.TestCase):
    def test_not_installed(self) -> None:
        with mock.patch.dict(sys.modules, {"cryptography.exceptions": None}):
            with self.assertRaisesRegex(ModuleNotFoundError, "needs the package 'cryptography'"):
                cose.eddsa()


@unittest.skipUnless(CURVES, "the package cryptography isn't installed")
class Signatures(unittest.TestCase):
    def test_curves(self) -> None:
        for crv, private_key, algorithms in CURVES:
            private = private_key.generate()
            x = private.public_key().public_bytes(Encoding.Raw, PublicFormat.Raw)
            keys = cbor.encode({1: 1, -1: crv, -2: x})
            for alg in algorithms:
                with self.subTest(crv=crv, alg=alg):
                    message = signed(private, alg, b"hi")
                    self.assertEqual(cose.verify_eddsa(keys, message, cose.eddsa()), b"hi")
                    # no other door knows the algorithm
                    with self.assertRaises(cose.Refused) as other:
                        cose.verify(keys, message, ecdsa=lambda _given: True)
                    self.assertEqual(other.exception.reason, cose.Reason.UnknownAlg)

    def test_bad(self) -> None:
        for crv, private_key, algorithms in CURVES:
            private = private_key.generate()
            x = private.public_key().public_bytes(Encoding.Raw, PublicFormat.Raw)
            keys = cbor.encode({1: 1, -1: crv, -2: x})
            good = signed(private, algorithms[0], b"hi")
            of_another = signed(private_key.generate(), algorithms[0], b"hi")
            flipped = good[:-1] + bytes([good[-1] ^ 1])
            for message in (of_another, flipped, good.replace(b"hi", b"ho")):
                with self.assertRaises(cose.Refused) as refused:
                    cose.verify_eddsa(keys, message, cose.eddsa())
                place = len(good) - len(private.sign(b"")) - 2
                self.assertEqual(
                    (refused.exception.reason, refused.exception.place),
                    (cose.Reason.BadAuth, place),
                )

    def test_no_answer(self) -> None:
        crv, private_key, algorithms = CURVES[0]
        private = private_key.generate()
        x = private.public_key().public_bytes(Encoding.Raw, PublicFormat.Raw)
        keys = cbor.encode({1: 1, -1: crv, -2: x, 2: b"a"})
        asked = []

        def said(given: cose.EddsaInput) -> Any:
            asked.append(given)

        with self.assertRaisesRegex(TypeError, "eddsa should return a bool, and returned NoneType"):
            cose.verify_eddsa(keys, signed(private, algorithms[1], b"hi"), said)
        self.assertEqual(
            [(it.alg, it.crv, it.kid, it.x) for it in asked], [(algorithms[1], crv, b"a", x)]
        )


if __name__ == "__main__":
    unittest.main()
