"""Which key of a set a message is verified with, and why the others aren't."""

import unittest
from typing import Any

import cose
from cose import Kind, Mismatch, Reason

SECRET = b"Jefe"


def key(alg: int, kid: bytes = b"") -> bytes:
    """A symmetric key that names an algorithm, with an identifier or without."""
    head = bytes([0xA3 + bool(kid)]) + b"\x01\x04"
    named = bytes([0x02, 0x40 + len(kid)]) + kid if kid else b""
    return head + named + bytes([0x03, alg, 0x20, 0x44]) + SECRET


class Choosing(unittest.TestCase):
    """Of three keys the second one is that of the message."""

    def setUp(self) -> None:
        self.keys = b"\x84" + key(6) + key(5, b"11") + key(4) + b"\xa1\x01\x04"
        self.message = cose.make(key(5), b"hi", alg=5)

    def test_which(self) -> None:
        found = cose.key_of(self.keys, self.message)
        self.assertEqual(found, cose.ChosenKey(1 + len(key(6)), b"11"))
        self.assertEqual(cose.key_of(self.keys, self.message, wanted=Kind.MAC0), found)
        self.assertIsNone(cose.key_of(key(6), self.message))
        self.assertIsNone(cose.key_of(self.keys, self.message, least_secret=5))

    def test_why(self) -> None:
        first, second = 1 + len(key(6)), 1 + len(key(6)) + len(key(5, b"11"))
        found = cose.mismatches(self.keys, self.message)
        self.assertEqual(found[0], (1, Mismatch.ALGORITHM))
        self.assertEqual(found[1], (first, None))
        self.assertEqual(found[2], (second, Mismatch.NOT_PERMITTED))
        self.assertEqual(found[3][0], second + len(key(4)))
        self.assertIsInstance(found[3][1], cose.Refused)
        self.assertEqual(len(found), 4)

    def test_stated(self) -> None:
        """What is stated of keys counts, and the kind of a message without its tag."""
        unnamed, named = b"\xa2\x01\x04\x20\x44" + SECRET, key(5)
        both = {"short_mac": True, "without_alg": True}
        for keys, stated, condition in (
            (unnamed, {}, Mismatch.NOT_PERMITTED),
            (unnamed, {"short_mac": True}, Mismatch.NOT_PERMITTED),
            (unnamed, {"without_alg": True}, Mismatch.NOT_PERMITTED),
            (unnamed, both, None),
            (named, {"algorithms": [5]}, None),
            (named, {"algorithms": [6]}, Mismatch.NOT_PERMITTED),
            (named, {"least_secret": 4}, None),
            (named, {"least_secret": 5}, Mismatch.NOT_PERMITTED),
        ):
            wanted = None if condition else cose.ChosenKey(0, None)
            for large in (False, True):
                given: Any = stated
                found = cose.mismatches(keys, self.message, large=large, **given)
                self.assertEqual(found, [(0, condition)], stated)
                chosen = cose.key_of(keys, self.message, large=large, **given)
                self.assertEqual(chosen, wanted, stated)
                with cose.Verifier(named, wanted=Kind.MAC0, large=large) as verifier:
                    verifier.feed(self.message)
                    self.assertEqual(verifier.key_of(keys, **given), wanted, stated)
        untagged = self.message[1:]
        self.assertIsNotNone(cose.key_of(named, untagged, wanted=Kind.MAC0))
        self.assertEqual(cose.mismatches(named, untagged, wanted=Kind.MAC0), [(0, None)])
        for call in (cose.key_of, cose.mismatches):
            with self.assertRaises(cose.Refused):
                call(named, untagged)

    def test_one_key(self) -> None:
        self.assertEqual(cose.mismatches(key(5), self.message), [(0, None)])

    def test_refused(self) -> None:
        with self.assertRaises(cose.Refused) as caught:
            cose.mismatches(self.keys, self.message[:-1], wanted=Kind.SIGN1)
        self.assertEqual(caught.exception.reason, Reason.WrongTag)
        with self.assertRaises(cose.KeysRefused):
            cose.mismatches(b"\x00", self.message)


if __name__ == "__main__":
    unittest.main()
