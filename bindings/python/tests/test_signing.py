"""COSE_Sign1 messages that are made, with signatures of the package cryptography and of OpenSSL."""

import hashlib
import shutil
import subprocess
import tempfile
import unittest
from pathlib import Path
from typing import Any, List

import cose
from support import sign1, sign1_parts
from test_threads import in_threads

try:
    from cryptography.hazmat.primitives import serialization
    from cryptography.hazmat.primitives.asymmetric import ec

    CURVES: Any = (
        (-7, ec.SECP256R1(), "sha256"),
        (-35, ec.SECP384R1(), "sha384"),
        (-36, ec.SECP521R1(), "sha512"),
        (-9, ec.SECP256R1(), "sha256"),
        (-51, ec.SECP384R1(), "sha384"),
        (-52, ec.SECP521R1(), "sha512"),
    )
except ImportError:
    CURVES = ()

SIGNATURE = bytes(range(64))


class Signing(unittest.TestCase):
    def test_made(self) -> None:
        asked: List[bytes] = []

        def sign(digest: bytes) -> bytes:
            asked.append(digest)
            return SIGNATURE

        message = cose.sign1(b"hi", alg=-7, sign=sign, aad=b"a")
        protected, content = sign1_parts(b"hi", -7, b"a")
        self.assertEqual(message, sign1(b"hi", protected, SIGNATURE))
        self.assertEqual(asked, [hashlib.sha256(content).digest()])
        self.assertIn(b"\xa1\x04\x41k", cose.sign1(b"hi", alg=-7, sign=sign, kid=b"k"))

    def test_pieces(self) -> None:
        payload = b"a payload" * 1_000
        maker = cose.Sign1Maker(len(payload), alg=-7)
        with self.assertRaisesRegex(ValueError, "to come"):
            maker.digest()
        self.assertEqual(maker.piece(payload[:100]), 100)
        with self.assertRaisesRegex(ValueError, "to come"):
            maker.end(SIGNATURE)
        self.assertEqual(maker.piece(payload[100:] + b"more"), len(payload) - 100)
        protected, content = sign1_parts(payload, -7)
        for _ in range(2):
            self.assertEqual(maker.digest(), hashlib.sha256(content).digest())
        self.assertEqual(maker.piece(b"more"), 0)
        for wrong in (b"", SIGNATURE[1:], SIGNATURE + b"\0"):
            with self.assertRaisesRegex(ValueError, "the length"):
                maker.end(wrong)
        message = maker.head + payload + maker.end(SIGNATURE)
        self.assertEqual(message, sign1(payload, protected, SIGNATURE))
        with self.assertRaisesRegex(ValueError, "no message"):
            maker.end(SIGNATURE)

    def test_not_made(self) -> None:
        for alg in (5, 0, -8, -37):
            with self.assertRaisesRegex(ValueError, "alg"):
                cose.Sign1Maker(2, alg=alg)
        for given in ({"kid": bytes(256)}, {"aad": bytes(65_536)}):
            with self.assertRaises(ValueError):
                cose.Sign1Maker(2, alg=-7, **given)  # type: ignore[arg-type]
        with self.assertRaises(ValueError):
            cose.Sign1Maker(2**56, alg=-7)
        with self.assertRaises(ZeroDivisionError):
            cose.sign1(b"hi", alg=-7, sign=lambda _: bytes(1 // 0))

    def test_again(self) -> None:
        """What signs may make messages itself: of its own, not of this block."""

        def sign(_: bytes) -> bytes:
            return cose.sign1(b"", alg=-7, sign=lambda _: SIGNATURE)[-64:]

        self.assertEqual(cose.sign1(b"hi", alg=-7, sign=sign)[-64:], SIGNATURE)

    def test_threads(self) -> None:
        """Pieces of four threads are each hashed once, whatever their order."""
        protected, content = sign1_parts(bytes(16_000), -7)
        for _ in range(20):
            maker, used = cose.Sign1Maker(4 * 40 * 100, alg=-7), []

            def run(maker: cose.Sign1Maker = maker, used: List[int] = used) -> None:
                used.extend(maker.piece(bytes(100)) for _ in range(40))

            in_threads(4, run)
            self.assertEqual(used, [100] * 160)
            self.assertEqual(maker.digest(), hashlib.sha256(content).digest())


@unittest.skipUnless(CURVES, "needs the package cryptography")
class WithCryptography(unittest.TestCase):
    def test_verified(self) -> None:
        """What is made by a private key is authentic under its public key, and nothing else is."""
        for alg, curve, _ in CURVES:
            private = ec.generate_private_key(curve)
            pem = private.public_key().public_bytes(
                serialization.Encoding.PEM, serialization.PublicFormat.SubjectPublicKeyInfo
            )
            message = cose.sign1(b"hi", alg=alg, sign=cose.ecdsa_signer(private), kid=b"k")
            keys = cose.keys.from_pem(pem)
            found = cose.verify(keys, message, ecdsa=cose.ecdsa())
            self.assertEqual((found.alg, found.payload), (alg, b"hi"))
            with self.assertRaises(cose.Refused):
                cose.verify(keys, message, aad=b"a", ecdsa=cose.ecdsa())

    def test_refused(self) -> None:
        sign = cose.ecdsa_signer(ec.generate_private_key(ec.SECP256R1()))
        with self.assertRaisesRegex(ValueError, "isn't one of the algorithm"):
            cose.sign1(b"hi", alg=-35, sign=sign)
        with self.assertRaisesRegex(ValueError, "P-256, P-384 or P-521"):
            cose.ecdsa_signer(ec.generate_private_key(ec.SECP256K1()))
        with self.assertRaises(TypeError):
            cose.ecdsa_signer("key")

    @unittest.skipUnless(shutil.which("openssl"), "needs openssl")
    def test_openssl(self) -> None:
        """OpenSSL verifies the signature over the Sig_structure, which is written by another encoder."""
        with tempfile.TemporaryDirectory() as folder:
            for alg, curve, digest in CURVES:
                self.verified_by_openssl(Path(folder), alg, curve, digest)

    def verified_by_openssl(self, folder: Path, alg: int, curve: Any, digest: str) -> None:
        name = {"secp256r1": "P-256", "secp384r1": "P-384", "secp521r1": "P-521"}[curve.name]
        made = ["openssl", "genpkey", "-algorithm", "EC", "-pkeyopt", f"ec_paramgen_curve:{name}"]
        pem = subprocess.run(made, check=True, capture_output=True).stdout
        key = serialization.load_pem_private_key(pem, None)
        message = cose.sign1(b"hi", alg=alg, sign=cose.ecdsa_signer(key), aad=b"a")
        size = (curve.key_size + 7) // 8
        r, s = (int.from_bytes(it, "big") for it in (message[-2 * size : -size], message[-size:]))
        (folder / "key").write_bytes(pem)
        (folder / "signed").write_bytes(sign1_parts(b"hi", alg, b"a")[1])
        (folder / "signature").write_bytes(der_of(r, s))
        how = ["-verify", "-inkey", "key", "-rawin", "-in", "signed", "-digest", digest]
        subprocess.run(
            ["openssl", "pkeyutl", *how, "-sigfile", "signature"],
            check=True,
            capture_output=True,
            cwd=folder,
        )


def der_of(r: int, s: int) -> bytes:
    """An ECDSA signature as OpenSSL reads it (RFC 3279 section 2.2.3)."""
    parts = [it.to_bytes(it.bit_length() // 8 + 1, "big") for it in (r, s)]
    content = b"".join(b"\x02" + bytes([len(it)]) + it for it in parts)
    return b"\x30" + (b"\x81" if len(content) > 127 else b"") + bytes([len(content)]) + content


if __name__ == "__main__":
    unittest.main()
