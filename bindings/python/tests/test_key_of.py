"""Which key a message is verified with that has large header buckets, or that a verifier is fed."""

import unittest
from typing import Any, Optional

import cose
from cose import Kind, Mismatch, Reason, cbor
from support import KEYS, SECRET, TAG_SIGN1, mac0

# two keys of a set, of which the second one is that of the messages
OTHER = cbor.encode({1: 4, 3: 6, -1: SECRET})
SET = b"\x82" + OTHER + cbor.encode({1: 4, 2: b"11", 3: 5, -1: SECRET})
PLACE = 1 + len(OTHER)
CHOSEN = cose.ChosenKey(PLACE, b"11")
# the unprotected bucket ends with the seventh byte
SHORT = mac0(b"hi")
HEADERS = 7
# its MAC ends with 0xbf
FORGED = SHORT[:-1] + b"\0"
# buckets with more than 1,024 bytes, and that nest 12 deep
LONG = SHORT.replace(b"\xa0", cbor.encode({100: bytes(2_000)}), 1)
DEEP = SHORT.replace(b"\xa0", b"\xa1\x18\x64" + b"\x81" * 10 + b"\x80", 1)
# a COSE_Sign1 with such a bucket, and its key, of a set with that of COSE_Mac0
SIGNED = TAG_SIGN1 + LONG[1:].replace(b"\x01\x05", b"\x01\x26", 1)[:-34] + b"\x58\x40" + bytes(64)
POINT = cbor.encode({1: 2, 3: -7, -1: 1, -2: bytes(32), -3: bytes(32)})


class Large(unittest.TestCase):
    """Messages that only the large size has room for."""

    def test_large(self) -> None:
        for message, reason in ((LONG, Reason.PastRoom), (DEEP, Reason.TooDeep)):
            for kind in (None, Kind.MAC0):
                found = cose.key_of(SET, message, wanted=kind, large=True)
                self.assertEqual(found, CHOSEN)
                why = cose.mismatches(SET, message, wanted=kind, large=True)
                self.assertEqual(why, [(1, Mismatch.ALGORITHM), (PLACE, None)])
            self.assertEqual(cose.authenticate(SET, message, large=True).payload, b"hi")
            self.assertIsNone(cose.key_of(SET, message, least_secret=22, large=True))
            for call in (cose.key_of, cose.mismatches):
                with self.assertRaises(cose.Refused) as raised:
                    call(SET, message)
                self.assertEqual(raised.exception.reason, reason)

    def test_kinds(self) -> None:
        """The kind is that of the tag, or the one that is wanted."""
        keys = b"\x82" + cbor.encode({1: 4, 3: 5, -1: SECRET}) + POINT
        second = len(keys) - len(POINT)
        self.assertEqual(cose.key_of(keys, LONG, large=True), cose.ChosenKey(1, None))
        self.assertEqual(cose.key_of(keys, SIGNED, large=True), cose.ChosenKey(second, None))
        for message, kind, other, place in (
            (LONG, Kind.MAC0, Kind.SIGN1, 1),
            (SIGNED, Kind.SIGN1, Kind.MAC0, second),
        ):
            for wanted, data in ((None, message[1:]), (other, message)):
                with self.assertRaises(cose.Refused) as raised:
                    cose.key_of(keys, data, wanted=wanted, large=True)
                self.assertEqual((raised.exception.reason, raised.exception.place), (7, 0))
            found = cose.key_of(keys, message[1:], wanted=kind, large=True)
            self.assertEqual(found, cose.ChosenKey(place, None))
            self.assertIsNone(cose.key_of(keys, message[1:], wanted=other, large=True))

    def test_not_whole(self) -> None:
        """What is refused, also where the fault comes after what the usual size has room for."""
        size = len(LONG)
        longer = SHORT.replace(b"\xa0", cbor.encode({100: bytes(65_535)}), 1)
        for message, reason, place in (
            (LONG[:-1], Reason.Truncated, size - 1),
            (LONG + b"\0", Reason.Trailing, size),
            (LONG.replace(b"\x42hi", b"\x62hi"), Reason.WrongType, size - 37),
            (SHORT[:-1], Reason.Truncated, len(SHORT) - 1),
            (longer, Reason.PastRoom, 9),
        ):
            for call in (cose.key_of, cose.mismatches):
                for kind in (None, Kind.MAC0):
                    with self.assertRaises(cose.Refused) as raised:
                        call(SET, message, wanted=kind, large=True)
                    refused = raised.exception
                    self.assertEqual((refused.reason, refused.place), (reason, place))


class Fed(unittest.TestCase):
    """The key of a message that a verifier was fed."""

    def found(
        self, message: bytes, keys: bytes = SET, large: bool = False, **stated: Any
    ) -> Optional[cose.ChosenKey]:
        with cose.Verifier(KEYS, large=large) as verifier:
            try:
                verifier.feed(message)
            except cose.Refused:
                pass
            return verifier.key_of(keys, **{"wanted": Kind.MAC0, **stated})

    def test_when(self) -> None:
        """From the end of the headers on, until the verifier is reset."""
        for large in (False, True):
            for count in range(len(SHORT) + 1):
                wanted = CHOSEN if count >= HEADERS else None
                self.assertEqual(self.found(SHORT[:count], large=large), wanted, count)
            with cose.Verifier(KEYS, large=large) as verifier:
                for _ in range(2):
                    self.assertIsNone(verifier.key_of(SET, wanted=Kind.MAC0))
                    verifier.feed(SHORT)
                    self.assertEqual(verifier.key_of(SET, wanted=Kind.MAC0), CHOSEN)
                    verifier.verdict()
                    self.assertEqual(verifier.key_of(SET, wanted=Kind.MAC0), CHOSEN)
                    verifier.reset()
                self.assertIsNone(verifier.key_of(SET, wanted=Kind.MAC0))

    def test_kind(self) -> None:
        """By default it is that of the verifier, or of the verdict."""
        with cose.Verifier(KEYS) as verifier:
            for _ in range(2):
                verifier.feed(SHORT)
                with self.assertRaisesRegex(ValueError, "wanted isn't stated"):
                    verifier.key_of(SET)
                verifier.verdict()
                self.assertEqual(verifier.key_of(SET), CHOSEN)
                self.assertIsNone(verifier.key_of(SET, wanted=Kind.SIGN1))
                verifier.reset()
        with cose.Verifier(KEYS, wanted=Kind.MAC0) as verifier:
            for message in (SHORT, SHORT[1:]):
                self.assertIsNone(verifier.key_of(SET))
                verifier.feed(message)
                self.assertEqual(verifier.key_of(SET), CHOSEN)
                verifier.reset()
        with cose.Verifier.under(SET, wanted=Kind.MAC0) as verifier:
            verifier.feed(SHORT)
            self.assertEqual(verifier.key_of(SET), CHOSEN)

    def test_refused(self) -> None:
        """A message that was refused has a key, and its kind isn't known."""
        with cose.Verifier(KEYS) as verifier:
            for call in (lambda: verifier.feed(FORGED), verifier.verdict):
                with self.assertRaises(cose.Refused) as raised:
                    call()
                self.assertEqual(raised.exception.reason, Reason.BadAuth)
            self.assertEqual(verifier.key_of(SET, wanted=Kind.MAC0), CHOSEN)
            with self.assertRaisesRegex(ValueError, "wanted isn't stated"):
                verifier.key_of(SET)
        # the verifier has no key for it, and the set has
        with cose.Verifier(POINT) as verifier:
            with self.assertRaises(cose.Refused):
                verifier.feed(SHORT)
            self.assertEqual(verifier.key_of(SET, wanted=Kind.MAC0), CHOSEN)

    def test_signed(self) -> None:
        with cose.Verifier(POINT, large=True, ecdsa=lambda _: True) as verifier:
            verifier.feed(SIGNED)
            self.assertIsNone(verifier.key_of(POINT, wanted=Kind.MAC0))
            self.assertEqual(verifier.key_of(POINT, wanted=Kind.SIGN1), cose.ChosenKey(0, None))
            verifier.verdict()
            self.assertEqual(verifier.key_of(POINT), cose.ChosenKey(0, None))

    def test_elsewhere(self) -> None:
        with cose.Elsewhere(KEYS) as verifier:
            verifier.feed(SHORT)
            self.assertEqual(verifier.key_of(SET, wanted=Kind.MAC0), CHOSEN)
            verifier.verdict_of_mac(SHORT[-32:])
            self.assertEqual(verifier.key_of(SET), CHOSEN)

    def test_large(self) -> None:
        for message in (LONG, DEEP):
            self.assertEqual(self.found(message, large=True), CHOSEN)
            self.assertIsNone(self.found(message))

    def test_none(self) -> None:
        """No key of the set is the message's, or none that the terms permit."""
        self.assertIsNone(self.found(SHORT, OTHER))
        self.assertIsNone(self.found(SHORT, b"\x80"))
        self.assertIsNone(self.found(SHORT, b"\0"))
        self.assertIsNone(self.found(SHORT, wanted=Kind.SIGN1))
        self.assertIsNone(self.found(mac0(b"hi", kid=b"12")))
        self.assertIsNone(self.found(SHORT, least_secret=22))
        self.assertIsNone(self.found(SHORT, algorithms=[6]))
        self.assertEqual(self.found(SHORT, algorithms=[5], least_secret=21), CHOSEN)
        self.assertEqual(self.found(mac0(b"hi", kid=b"11")), CHOSEN)
        # keys that name no algorithm
        self.assertIsNone(self.found(SHORT, KEYS))
        found = self.found(SHORT, KEYS, short_mac=True, without_alg=True)
        self.assertEqual(found, cose.ChosenKey(0, None))

    def test_table(self) -> None:
        """A table has the bytes of its keys."""
        with cose.Verifier(cose.KeyTable(SET)) as verifier:
            verifier.feed(SHORT)
            verifier.verdict()
            self.assertEqual(verifier.key_of(cose.KeyTable(SET)), CHOSEN)

    def test_closed(self) -> None:
        verifier = cose.Verifier(KEYS, wanted=Kind.MAC0)
        verifier.close()
        with self.assertRaisesRegex(ValueError, "closed"):
            verifier.key_of(SET)


if __name__ == "__main__":
    unittest.main()
