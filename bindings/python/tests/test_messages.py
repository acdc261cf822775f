"""Messages in memory."""

import mmap
import pickle
import re
import unittest

import cose
from support import EXAMPLES, KEYS, REPOSITORY, SECRET, TAG_CWT, mac0
from cose import cbor


class Messages(unittest.TestCase):
    def test_authentic(self) -> None:
        found = cose.verify(KEYS, mac0(b"hi"))
        self.assertEqual(found, cose.Message(cose.Kind.MAC0, cose.Algorithm.HMAC_256, b"hi", 44))

    def test_example(self) -> None:
        keys, message = (EXAMPLES / it for it in ("key.cbor", "mac0.cbor"))
        self.assertEqual(cose.verify(keys.read_bytes(), message.read_bytes()).taken, 44)

    def test_any_bytes(self) -> None:
        message = mac0(b"")
        for kind in (bytes, bytearray, memoryview):
            self.assertEqual(cose.verify(kind(KEYS), kind(message)).payload, b"")
        with mmap.mmap(-1, len(message)) as mapped:
            mapped[:] = message
            self.assertEqual(cose.verify(KEYS, mapped).taken, len(message))
        with self.assertRaisesRegex(TypeError, "^message should be bytes, and is str$"):
            cose.verify(KEYS, message.hex())  # type: ignore[arg-type]

    def test_refused(self) -> None:
        message = bytearray(mac0(b"hi"))
        message[-1] ^= 1
        with self.assertRaises(cose.Refused) as raised:
            cose.verify(KEYS, message)
        refused = raised.exception
        self.assertEqual((refused.reason, refused.place), (cose.Reason.BadAuth, 10))
        self.assertEqual(str(refused), "message refused: BadAuth at 10")
        again = pickle.loads(pickle.dumps(refused))
        self.assertEqual((again.reason, again.place), (cose.Reason.BadAuth, 10))

    def test_bytes_after_it(self) -> None:
        with self.assertRaises(cose.Refused) as raised:
            cose.verify(KEYS, mac0(b"hi") + b"\0")
        self.assertEqual(raised.exception.reason, cose.Reason.Trailing)

    def test_external_data(self) -> None:
        message = mac0(b"hi", aad=b"data")
        self.assertEqual(cose.verify(KEYS, message, aad=b"data").payload, b"hi")
        with self.assertRaises(cose.Refused):
            cose.verify(KEYS, message)
        most = b"a" * 65_535
        cose.verify(KEYS, mac0(b"hi", aad=most), aad=most)
        with self.assertRaisesRegex(ValueError, "65,535"):
            cose.verify(KEYS, message, aad=most + b"a")

    def test_wanted(self) -> None:
        message = mac0(b"hi", tag=b"")
        self.assertEqual(cose.verify(KEYS, message, wanted=cose.Kind.MAC0).taken, 43)
        for wanted in (None, cose.Kind.SIGN1):
            with self.assertRaises(cose.Refused):
                cose.verify(KEYS, message, wanted=wanted)
        with self.assertRaises(ValueError):
            cose.verify(KEYS, message, wanted=19)  # type: ignore[arg-type]

    def test_detached(self) -> None:
        message = mac0(b"a payload", detached=True)
        found = cose.verify(KEYS, message, payload=b"a payload")
        self.assertEqual((found.payload, found.taken), (b"a payload", len(message)))
        for payload, reason in ((b"a payloaf", "BadAuth"), (None, "Detached")):
            with self.assertRaises(cose.Refused) as raised:
                cose.verify(KEYS, message, payload=payload)
            self.assertEqual(raised.exception.reason.name, reason)
        with self.assertRaises(cose.Refused) as raised:
            cose.verify(KEYS, mac0(b"hi"), payload=b"hi")
        self.assertEqual(raised.exception.reason, cose.Reason.Attached)

    def test_large(self) -> None:
        message = mac0(b"hi", kid=bytes(2_000))
        with self.assertRaises(cose.Refused) as raised:
            cose.verify(KEYS, message)
        self.assertEqual(raised.exception.reason, cose.Reason.PastRoom)
        self.assertEqual(cose.verify(KEYS, message, large=True).payload, b"hi")
        self.assertEqual(cose.verify(cose.KeyTable(KEYS), message, large=True).payload, b"hi")

    def test_shape(self) -> None:
        message = TAG_CWT + mac0(b"hi")
        self.assertEqual(cose.shape(message), cose.Shape(cose.Kind.MAC0, 2, 32, 46))
        with self.assertRaises(cose.Refused):
            cose.shape(message[:-1])


class Keys(unittest.TestCase):
    def test_table(self) -> None:
        table = cose.KeyTable(cbor.encode([{1: 4, -1: SECRET, 2: b"1"}, {1: 4, -1: b"k", 2: b"2"}]))
        self.assertEqual(len(table), 2)
        self.assertEqual(cose.verify(table, mac0(b"hi", kid=b"1")).payload, b"hi")
        self.assertNotIn(SECRET.decode(), repr(table))
        message = mac0(b"hi", detached=True, kid=b"1")
        self.assertEqual(cose.verify(table, message, payload=b"hi").payload, b"hi")

    def test_count(self) -> None:
        self.assertEqual(cose.count_keys(cbor.encode([{1: 4, -1: b"k"}, {1: 1}])), 1)
        self.assertEqual(
            len(cose.KeyTable(cbor.encode([{1: 4, -1: b"k", 2: bytes([it])} for it in range(64)]))),
            64,
        )

    def test_refused(self) -> None:
        for call in (cose.count_keys, cose.KeyTable, cose.Verifier):
            with self.assertRaises(cose.KeysRefused) as raised:
                call(b"\x80")
            self.assertEqual(raised.exception.reason, cose.Reason.BadKeySet)
            self.assertEqual(str(raised.exception), "keys refused: BadKeySet at 0")
            self.assertNotIsInstance(raised.exception, cose.Refused)
        with self.assertRaises(cose.KeysRefused):
            cose.verify(b"", mac0(b"hi"))
        with self.assertRaises(cose.KeysRefused):
            cose.KeyTable(cbor.encode([{1: 4, -1: b"k", 2: bytes([it])} for it in range(65)]))


class Reasons(unittest.TestCase):
    def test_page(self) -> None:
        page = (REPOSITORY / "docs" / "REASONS.md").read_text()
        named = re.findall(r"^\| (\d+) \| `(\w+)` \|", page, re.M)
        self.assertEqual([(str(it.value), it.name) for it in cose.Reason], named)
        self.assertEqual(len(named), 43)


if __name__ == "__main__":
    unittest.main()
