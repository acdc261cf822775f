"""Messages in pieces, and messages that are made."""

import gc
import unittest
import weakref
from typing import Any
from unittest import mock

import cose
from cose import _library, cbor
from support import EXAMPLES, KEYS, SECRET, mac0


class Verifier(unittest.TestCase):
    def test_pieces(self) -> None:
        message, payload = mac0(b"a payload"), b""
        with cose.Verifier(KEYS) as verifier:
            for byte in message:
                self.assertGreater(verifier.wanted, 0)
                fed = verifier.feed(bytes([byte]))
                payload += fed.payload
            self.assertEqual(fed.status, cose.Status.COMPLETE)
            found = verifier.verdict()
            self.assertEqual((verifier.taken, verifier.wanted), (len(message), 0))
        self.assertEqual(payload, b"a payload")
        wanted = cose.Verdict(cose.Kind.MAC0, cose.Algorithm.HMAC_256, 9, len(message))
        self.assertEqual(found, wanted)

    def test_long_piece(self) -> None:
        """The payload of a piece is one part of it, however long."""
        payload = bytes(range(256)) * 1_000
        for before in (1, 9, 70_000):
            message = mac0(payload)
            with cose.Verifier(KEYS) as verifier:
                first = verifier.feed(message[:before]).payload
                self.assertEqual(first + verifier.feed(message[before:]).payload, payload)
                verifier.verdict()

    def test_bytes_after_it(self) -> None:
        message = mac0(b"hi")
        with cose.Verifier(KEYS) as verifier:
            self.assertEqual(verifier.feed(message + b"next").used, len(message))
            verifier.verdict()

    def test_next_message(self) -> None:
        with cose.Verifier(KEYS) as verifier:
            for payload in (b"one", b"two"):
                self.assertEqual(verifier.feed(mac0(payload)).payload, payload)
                verifier.verdict()
                verifier.reset()

    def test_truncated(self) -> None:
        with cose.Verifier(KEYS) as verifier:
            verifier.feed(mac0(b"hi")[:20])
            with self.assertRaises(cose.Refused) as raised:
                verifier.verdict()
            self.assertEqual((raised.exception.reason, raised.exception.place), (1, 20))

    def test_refused(self) -> None:
        with cose.Verifier(KEYS) as verifier:
            for call in (
                lambda: verifier.feed(b"\xa0"),
                lambda: verifier.feed(b"\0"),
                verifier.verdict,
            ):
                with self.assertRaises(cose.Refused) as raised:
                    call()
                self.assertEqual((raised.exception.reason, raised.exception.place), (11, 0))

    def test_detached(self) -> None:
        payload = b"a payload" * 1_000
        message = mac0(payload, detached=True)
        for kid_of in (lambda data: data, cose.KeyTable):
            with cose.Verifier(kid_of(KEYS), payload_length=len(payload)) as verifier:
                fed = verifier.feed(message)
                self.assertEqual(fed.status, cose.Status.PAYLOAD_NEXT)
                self.assertEqual(verifier.feed_payload(payload[:5_000]), 5_000)
                self.assertEqual(verifier.payload_wanted, 4_000)
                self.assertEqual(verifier.feed_payload(payload[5_000:] + b"more"), 4_000)
                verifier.feed(message[fed.used :])
                self.assertEqual(verifier.verdict().payload_length, 9_000)

    def test_held(self) -> None:
        with cose.Verifier(KEYS) as verifier:
            verifier.feed(mac0(bytes(100_000))[:50_000])
            self.assertLess(verifier.held, 2_560)

    def test_closed(self) -> None:
        verifier = cose.Verifier(KEYS)
        verifier.close()
        verifier.close()
        for call in (lambda: verifier.feed(b""), verifier.verdict, verifier.reset):
            with self.assertRaisesRegex(ValueError, "closed"):
                call()

    def test_arguments(self) -> None:
        with self.assertRaisesRegex(ValueError, "65,535"):
            cose.Verifier(KEYS, aad=bytes(65_536))
        with self.assertRaises(ValueError):
            cose.Verifier(KEYS, payload_length=-1)

    def test_large(self) -> None:
        message = mac0(b"hi", kid=bytes(60_000))
        with cose.Verifier(KEYS, large=True) as verifier:
            self.assertEqual(verifier.feed(message).payload, b"hi")
            verifier.verdict()


def verdict_of(keys: Any, message: bytes, **options: Any) -> Any:
    """The payload of a message that is fed in two pieces, or the reason why it is refused."""
    with cose.Verifier(keys, **options) as verifier:
        try:
            payload = verifier.feed(message[:20]).payload + verifier.feed(message[20:]).payload
            verifier.verdict()
        except cose.Refused as refused:
            return refused.reason
    return payload


class UnderTable(unittest.TestCase):
    """The keys of a table are those of its bytes, and aren't read again."""

    def test_messages(self) -> None:
        """Good and forged, in both sizes, one after the other."""
        table, good = cose.KeyTable(KEYS), mac0(b"hi")
        forged = good.replace(b"hi", b"ho")
        for large in (False, True):
            self.assertEqual(verdict_of(table, good, large=large), b"hi")
            self.assertEqual(verdict_of(table, forged, large=large), cose.Reason.BadAuth)
            with cose.Verifier(table, large=large) as verifier:
                for payload in (b"one", b"two"):
                    self.assertEqual(verifier.feed(mac0(payload)).payload, payload)
                    verifier.verdict()
                    verifier.reset()
                    with self.assertRaises(cose.Refused):
                        verifier.feed(forged)
                    verifier.reset()

    def test_read_once(self) -> None:
        """The calls that read the bytes of keys aren't made."""
        tables = [cose.KeyTable(KEYS) for _ in range(2)]
        message, detached = mac0(b"hi"), mac0(b"hi", detached=True)
        for calls in (_library.small, _library.large):
            large = calls is _library.large
            with mock.patch.multiple(calls, edge_open=None, edge_open_detached=None):
                for table in tables:
                    self.assertEqual(verdict_of(table, message, large=large), b"hi")
                with cose.Verifier(tables[0], payload_length=2, large=large) as verifier:
                    used = verifier.feed(detached).used
                    self.assertEqual(verifier.feed_payload(b"hi"), 2)
                    verifier.feed(detached[used:])
                    self.assertEqual(verifier.verdict().payload_length, 2)
                with self.assertRaises(TypeError):
                    cose.Verifier(KEYS, large=large)

    def test_two_keys(self) -> None:
        """The identifier chooses, and a message without one fits both."""
        keys = cbor.encode([{1: 4, 2: b"1", -1: SECRET}, {1: 4, 2: b"2", -1: b"another"}])
        table = cose.KeyTable(keys)
        for kid, wanted in (
            (b"1", b"hi"),
            (b"2", cose.Reason.BadAuth),
            (b"3", cose.Reason.NoKey),
            (None, cose.Reason.AmbiguousKey),
        ):
            for large in (False, True):
                self.assertEqual(verdict_of(table, mac0(b"hi", kid=kid), large=large), wanted)
        with cose.Verifier(table, wanted=cose.Kind.MAC0) as verifier:
            verifier.feed(mac0(b"hi", kid=b"1"))
            found = verifier.key_of(table, short_mac=True, without_alg=True)
            self.assertEqual(found, cose.ChosenKey(1, b"1"))

    def test_signature(self) -> None:
        table = cose.KeyTable((EXAMPLES / "sign1_key.cbor").read_bytes())
        message = (EXAMPLES / "sign1.cbor").read_bytes()
        for good, wanted in ((True, b"This is the content."), (False, cose.Reason.BadAuth)):
            self.assertEqual(verdict_of(table, message, ecdsa=lambda _: good), wanted)
        with self.assertRaises(cose.SignatureUnverified):
            verdict_of(table, message)

    def test_no_usable_key(self) -> None:
        for keys in (b"\xa1\x01\x04", cbor.encode({1: 4, 3: 6, -1: SECRET})):
            self.assertEqual(verdict_of(cose.KeyTable(keys), mac0(b"hi")), cose.Reason.NoKey)

    def test_large(self) -> None:
        """A table has one size, and a large header is one of the verifier."""
        table, message = cose.KeyTable(KEYS), mac0(b"hi", kid=bytes(60_000))
        self.assertEqual(verdict_of(table, message, large=True), b"hi")
        self.assertEqual(verdict_of(table, message), cose.Reason.PastRoom)

    def test_arguments(self) -> None:
        table = cose.KeyTable(KEYS)
        with self.assertRaisesRegex(ValueError, "65,535"):
            cose.Verifier(table, aad=bytes(65_536))
        with self.assertRaises(ValueError):
            cose.Verifier(table, payload_length=-1)
        # what terms state besides their keys wouldn't count
        with self.assertRaisesRegex(TypeError, "keys should be bytes, and is TermsTable"):
            cose.Verifier(cose.TermsTable(KEYS))  # type: ignore[arg-type]

    def test_elsewhere(self) -> None:
        """One whose messages the caller authenticates takes the bytes of a table's keys."""
        message = mac0(b"hi")
        with cose.Elsewhere(cose.KeyTable(KEYS)) as verifier:
            verifier.feed(message)
            asked = verifier.asked_key()
            self.assertEqual(asked and asked.k, SECRET)
            self.assertEqual(verifier.verdict_of_mac(message[-32:]).payload_length, 2)

    def test_owner_goes_first(self) -> None:
        """A table whose owner goes is there for its verifiers, and goes with the last of them."""
        table = cose.KeyTable(KEYS)
        is_there, verifiers = weakref.ref(table), [cose.Verifier(table) for _ in range(2)]
        del table
        gc.collect()
        # memory that would be taken where it was given back
        others = [cose.KeyTable(cbor.encode({1: 4, -1: b"another"})) for _ in range(100)]
        for verifier in verifiers:
            self.assertEqual(verifier.feed(mac0(b"hi")).payload, b"hi")
            verifier.verdict()
        self.assertEqual(len(others), 100)
        self.assertIsNotNone(is_there())
        del verifier, verifiers
        gc.collect()
        self.assertIsNone(is_there())


class Making(unittest.TestCase):
    def test_made(self) -> None:
        self.assertEqual(cose.make(KEYS, b"hi"), mac0(b"hi"))
        self.assertEqual(
            cose.make(KEYS, b"hi", kid=b"k", aad=b"a"), mac0(b"hi", kid=b"k", aad=b"a")
        )
        self.assertEqual(
            cose.verify(KEYS, cose.make(KEYS, b"", alg=7)).alg, cose.Algorithm.HMAC_512
        )

    def test_pieces(self) -> None:
        payload = b"a payload" * 1_000
        maker = cose.Maker(KEYS, len(payload), alg=5)
        self.assertEqual(maker.piece(payload[:100]), 100)
        self.assertEqual(maker.piece(payload[100:] + b"more"), len(payload) - 100)
        self.assertEqual(maker.head + payload + maker.end(), mac0(payload))

    def test_not_made(self) -> None:
        with self.assertRaises(ValueError):
            cose.make(KEYS, b"hi", alg=8)
        with self.assertRaises(ValueError):
            cose.make(KEYS, b"hi", kid=bytes(256))
        with self.assertRaises(ValueError):
            cose.Maker(KEYS, 2, alg=5).end()
        with self.assertRaises((ValueError, cose.KeysRefused)):
            cose.make(b"\xa0", b"hi")


if __name__ == "__main__":
    unittest.main()
