"""The program `python -m cose`."""

import base64
import contextlib
import io
import json
import pathlib
import subprocess
import sys
import tempfile
import unittest
from typing import Any, List, Tuple
from unittest import mock

import cose
from cose import __main__ as program
from cose import cbor, key_files, spelling
from support import EXAMPLES, KEYS, SECRET, mac0

try:
    from cryptography.hazmat.primitives import serialization
    from cryptography.hazmat.primitives.asymmetric import ec
except ImportError:
    ec = None  # type: ignore[assignment]

TOKEN = mac0(cbor.encode({1: "an issuer", 3: ["a", "b"], 4: 2_000, 7: b"\x0b\x71", 8: {3: b"k"}}))
# the key of examples/sign1_key.cbor, as openssl writes it
PEM = """\
-----BEGIN PUBLIC KEY-----
MFkwEwYHKoZIzj0CAQYIKoZIzj0DAQcDQgAEusWxHK2PmfnHKwXPS54m0kTcGJ90
UiglWiGahtagnv8gE4v4LcG21WK+D6VKt4BKOmS21yzP7Wtvtu0ou/wRfg==
-----END PUBLIC KEY-----
"""


def base64url(data: bytes) -> str:
    return base64.urlsafe_b64encode(data).rstrip(b"=").decode()


class Program(unittest.TestCase):
    def setUp(self) -> None:
        folder = tempfile.TemporaryDirectory()
        self.addCleanup(folder.cleanup)
        self.folder = pathlib.Path(folder.name)

    def file(self, name: str, content: Any) -> str:
        path = self.folder / name
        path.write_bytes(content if isinstance(content, bytes) else content.encode())
        return str(path)

    def run_program(self, *words: str, given: bytes = b"") -> Tuple[int, Any, str]:
        """The status of a run in this process, what it prints as JSON, and its standard error."""
        output, errors = io.StringIO(), io.StringIO()
        source = mock.Mock(buffer=io.BytesIO(given))
        with contextlib.redirect_stdout(output), contextlib.redirect_stderr(errors):
            with mock.patch("sys.stdin", source):
                status = program.main(list(words))
        text = output.getvalue()
        return status, json.loads(text) if text else None, errors.getvalue()

    def spellings(self, data: bytes) -> List[bytes]:
        padded = base64.urlsafe_b64encode(data)
        return [
            data,
            data.hex().encode() + b"\n",
            data.hex().upper().encode(),
            padded,
            padded.rstrip(b"="),
        ]

    def test_message(self) -> None:
        wanted = {"verdict": "authentic", "kind": "mac0", "alg": 5, "payload": "6869", "taken": 44}
        for keys in self.spellings(KEYS):
            name = self.file("keys", keys)
            for message in self.spellings(mac0(b"hi")):
                status, printed, _ = self.run_program("verify", "--keys", name, given=message)
                self.assertEqual((status, printed), (0, wanted))
        status, printed, _ = self.run_program("verify", "--keys", name, self.file("m", mac0(b"hi")))
        self.assertEqual((status, printed), (0, wanted))

    def test_refused(self) -> None:
        name = self.file("keys", KEYS)
        status, printed, _ = self.run_program("verify", "--keys", name, given=mac0(b"hi")[:-1])
        self.assertEqual(
            (status, printed), (1, {"verdict": "refused", "reason": "Truncated", "place": 43})
        )
        # what isn't text is taken as it is
        status, printed, _ = self.run_program("verify", "--keys", name, given=b"hello")
        self.assertEqual((status, printed["reason"]), (1, "WrongType"))

    def test_options(self) -> None:
        keys, message = self.file("keys", KEYS), mac0(b"hi", aad=b"\x01", tag=b"", detached=True)
        words = ["verify", "--keys", keys, "--aad", "01", "--kind", "mac0", "--form", "hex"]
        words += ["--payload", self.file("payload", b"hi"), "--large"]
        status, printed, _ = self.run_program(*words, given=message.hex().encode())
        self.assertEqual((status, printed["payload"]), (0, "6869"))

    def test_large(self) -> None:
        words = ["verify", "--keys", self.file("keys", KEYS)]
        message = mac0(b"hi", kid=bytes(2_000))
        self.assertEqual(self.run_program(*words, "--large", given=message)[0], 0)
        status, printed, _ = self.run_program(*words, given=message)
        self.assertEqual((status, printed["reason"]), (1, "PastRoom"))

    def test_token(self) -> None:
        words = ["cwt", "--keys", self.file("keys", KEYS), self.file("token", TOKEN)]
        claims = {
            "iss": "an issuer",
            "aud": ["a", "b"],
            "exp": 2_000,
            "cti": "0b71",
            "cnf": {"kid": "6b"},
        }
        status, printed, _ = self.run_program(*words, "--now", "1999", "--aud", "b")
        self.assertEqual((status, printed), (0, {"verdict": "admitted", "claims": claims}))
        status, printed, _ = self.run_program(*words)
        refused = {"verdict": "refused claims", "reason": "Expired"}
        self.assertEqual((status, {**printed, **refused}), (1, printed))
        status, printed, _ = self.run_program(*words[:-1], given=TOKEN + b"\0")
        self.assertEqual((status, printed["verdict"]), (1, "refused message"))

    def test_faults(self) -> None:
        keys = self.file("keys", KEYS)
        for words, text in (
            (["verify", "--keys", str(self.folder / "none")], "No such file"),
            (["verify", "--keys", self.file("bad", b"\x80")], "keys refused: BadKeySet at 0"),
            (
                ["verify", "--keys", self.file("unusable", b"\xa1\x01\x01")],
                "none of its keys is usable",
            ),
            (["verify", "--keys", keys, "--form", "hex", self.file("m", b"zz")], "isn't hex"),
            (["cwt", "--keys", keys, "--leeway", "-1", self.file("t", TOKEN)], "leeway"),
        ):
            with self.subTest(words):
                status, printed, errors = self.run_program(*words)
                self.assertEqual((status, printed), (2, None))
                self.assertIn(text, errors)
        with mock.patch("cose.verify", side_effect=RuntimeError("a mistake")):
            status, printed, errors = self.run_program("verify", "--keys", keys, given=b"")
            self.assertEqual((status, printed), (2, None))

    def test_processes(self) -> None:
        keys = self.file("keys", KEYS)
        words = [sys.executable, "-m", "cose", "verify", "--keys"]
        for message, status in ((mac0(b"hi"), 0), (b"", 1)):
            ended = subprocess.run([*words, keys], input=message, stdout=subprocess.PIPE)
            self.assertEqual(ended.returncode, status)
        ended = subprocess.run([*words[:-1]], input=b"", stderr=subprocess.DEVNULL)
        self.assertEqual(ended.returncode, 2)
        if pathlib.Path("/dev/full").exists():
            with open("/dev/full", "w") as full:
                ended = subprocess.run(
                    [*words, keys], input=mac0(b"hi"), stdout=full, stderr=subprocess.DEVNULL
                )
            self.assertEqual(ended.returncode, 2)

    @unittest.skipUnless(ec, "the package cryptography isn't installed")
    def test_signed(self) -> None:
        key = self.file("key.pem", PEM)
        status, printed, _ = self.run_program("verify", "--keys", key, str(EXAMPLES / "sign1.cbor"))
        self.assertEqual((status, printed["alg"]), (0, -7))

    def test_signed_alone(self) -> None:
        """Without the package cryptography that is a fault, and no refusal."""
        with mock.patch.dict(sys.modules, {"cryptography": None, "cryptography.exceptions": None}):
            key = self.file("key.pem", PEM)
            status, printed, errors = self.run_program(
                "verify", "--keys", key, str(EXAMPLES / "sign1.cbor")
            )
        self.assertEqual((status, printed), (2, None))
        self.assertIn("cryptography", errors)


class KeyFiles(unittest.TestCase):
    EXAMPLE = {1: 2, -1: 1}

    def both(self, pem: str) -> List[bytes]:
        """What is read of a PEM without the package cryptography, and with it if it is there."""
        with mock.patch.dict(sys.modules, {"cryptography.exceptions": None}):
            alone = key_files.read(pem.encode())
        return [alone, key_files.read(pem.encode())] if ec else [alone]

    def test_pem(self) -> None:
        example = (EXAMPLES / "sign1_key.cbor").read_bytes()
        point = example[example.index(b"\x58\x20") + 2 :][:32]
        for keys in self.both("a comment\n" + PEM):
            self.assertIn(point, keys)
            self.assertEqual(cose.count_keys(keys), 1)

    @unittest.skipUnless(ec, "the package cryptography isn't installed")
    def test_curves(self) -> None:
        encoding, form = serialization.Encoding, serialization.PublicFormat
        for curve in (ec.SECP256R1(), ec.SECP384R1(), ec.SECP521R1()):
            key = ec.generate_private_key(curve).public_key()
            pem = key.public_bytes(encoding.PEM, form.SubjectPublicKeyInfo)
            alone, checked = self.both(pem.decode())
            self.assertEqual(alone, checked)
        other = ec.generate_private_key(ec.SECP256K1()).public_key()
        pem = other.public_bytes(encoding.PEM, form.SubjectPublicKeyInfo)
        with self.assertRaisesRegex(ValueError, "P-256, P-384 or P-521"):
            self.both(pem.decode())

    def test_no_public_key(self) -> None:
        for text, what in (
            (PEM.replace("PUBLIC", "PRIVATE"), "a PRIVATE KEY"),
            (PEM.replace("MFkw", "MFkx"), ""),
        ):
            with mock.patch.dict(sys.modules, {"cryptography.exceptions": None}):
                with self.assertRaisesRegex(ValueError, what):
                    key_files.read(text.encode())

    def test_jwk(self) -> None:
        key = {
            "kty": "oct",
            "k": base64url(SECRET),
            "kid": "a key",
            "alg": "HS256",
            "key_ops": ["verify"],
        }
        wanted = cbor.encode([{1: 4, 2: b"a key", 3: 5, 4: [10], -1: SECRET}])
        self.assertEqual(key_files.read(json.dumps(key).encode()), wanted)
        self.assertEqual(cose.verify(wanted, mac0(b"hi", kid=b"a key")).payload, b"hi")
        others = [
            {"kty": "RSA"},
            {**key, "use": "enc"},
            {**key, "alg": "A128KW"},
            {**key, "key_ops": ["else"]},
        ]
        both = json.dumps({"keys": [*others, key]}).encode()
        self.assertEqual(key_files.read(both), wanted)
        made = [{1: 4, -1: bytes([it + 1])} for it in range(16)]
        many = [{"kty": "oct", "k": base64url(bytes([it + 1]))} for it in range(16)]
        many_keys = json.dumps({"keys": many}).encode()
        self.assertEqual(key_files.read(many_keys), cbor.encode(made))
        for other in others:
            with self.assertRaises(ValueError):
                key_files.read(json.dumps(other).encode())

    def test_jwk_of_a_point(self) -> None:
        x, y = bytes(32), bytes(range(32))
        key = {"kty": "EC", "crv": "P-256", "x": base64url(x), "y": base64url(y)}
        self.assertEqual(
            key_files.read(json.dumps(key).encode()), cbor.encode([{1: 2, -1: 1, -2: x, -3: y}])
        )
        for change in (
            {"x": base64url(x[1:])},
            {"y": base64url(y[1:])},
            {"y": base64url(y + b"0")},
            {"x": base64url(x[1:]), "y": base64url(y + b"0")},
            {"x": 1},
        ):
            with self.assertRaises(ValueError):
                key_files.read(json.dumps({**key, **change}).encode())

    def test_spelling(self) -> None:
        for text in (b"", b"hello", b"\x01", b"84", b"hEA="):
            self.assertEqual(spelling.detect(text)[:1] > b"\x7f", text in (b"84", b"hEA="))


if __name__ == "__main__":
    unittest.main()
