"""What one call writes isn't used by another, of a thread or of a function that is asked.

What is only read, as a table, is shared by them.
"""

import itertools
import threading
import unittest
from collections import Counter
from functools import partial
from typing import Any, Callable, Dict, List
from unittest import mock

import cose
from cose import _calls, cbor
from support import EXAMPLES, KEYS, SECRET, mac0

SIGN1_KEYS = (EXAMPLES / "sign1_key.cbor").read_bytes()
GENUINE = (EXAMPLES / "sign1.cbor").read_bytes()
# another message, whose signature nobody made
FORGED = GENUINE.replace(b"This is the content.", b"This was forged")
FORGED = FORGED.replace(b"\x54This was forged", b"\x4fThis was forged")
# a secret that names HMAC 256/256, and the key of the genuine message
NAMED = cbor.encode({1: 4, 3: 5, -1: SECRET})
BOTH = cbor.encode([cbor.decode(NAMED), cbor.decode(SIGN1_KEYS)])
NOW = 1444064943


def is_genuine(given: cose.SignInput, genuine: List[bytes]) -> bool:
    """Whether the digest is that of the first message that was asked about."""
    genuine.append(given.digest)
    return given.digest == genuine[0]


def in_threads(count: int, run: Callable[[], Any]) -> None:
    threads = [threading.Thread(target=run) for _ in range(count)]
    for thread in threads:
        thread.start()
    for thread in threads:
        thread.join()


class Answers(unittest.TestCase):
    def test_messages(self) -> None:
        """The forged message is well formed, and refused for its signature alone."""
        self.assertEqual(cose.shape(FORGED).payload_length, 15)
        with self.assertRaises(cose.Refused) as raised:
            cose.verify(SIGN1_KEYS, FORGED, ecdsa=lambda _: False)
        self.assertEqual(raised.exception.reason, cose.Reason.BadAuth)

    def test_reentry(self) -> None:
        """A function that is asked about one message can't put another one into its place."""
        refused, asked = [], []

        def ecdsa(given: cose.SignInput) -> bool:
            calls = (
                verifier.reset,
                lambda: verifier.feed(FORGED),
                lambda: verifier.feed_payload(b""),
                verifier.end,
                verifier.verdict,
                verifier.close,
                lambda: verifier.key_of(SIGN1_KEYS),
                lambda: verifier.taken,
            )
            for call in calls:
                try:
                    call()
                except RuntimeError as error:
                    refused.append(str(error))
            return is_genuine(given, asked)

        with cose.Verifier(SIGN1_KEYS, ecdsa=ecdsa) as verifier:
            verifier.feed(GENUINE)
            found = verifier.verdict()
            self.assertEqual((found.payload_length, found.taken), (20, len(GENUINE)))
            self.assertEqual(refused, ["the verifier is in use"] * 8)
            # it serves again, and the answer about the first message counts for it alone
            verifier.reset()
            verifier.feed(FORGED)
            with self.assertRaises(cose.Refused):
                verifier.verdict()

    def test_error(self) -> None:
        """A function that raises leaves the verifier as one that serves."""

        def ecdsa(_: cose.SignInput) -> bool:
            verifier.reset()
            return True

        with cose.Verifier(SIGN1_KEYS, ecdsa=ecdsa) as verifier:
            verifier.feed(GENUINE)
            with self.assertRaisesRegex(RuntimeError, "in use"):
                verifier.verdict()
            self.assertEqual(verifier.taken, len(GENUINE))

    def test_other_thread(self) -> None:
        """Another thread waits with its message until there is a verdict on the first one."""
        asked: List[bytes] = []
        started, threads = threading.Event(), []

        def swap() -> None:
            started.set()
            verifier.reset()
            verifier.feed(FORGED)

        def ecdsa(given: cose.SignInput) -> bool:
            if not asked:
                threads.append(threading.Thread(target=swap))
                threads[0].start()
                started.wait()
                # time enough for it, if nothing held it back
                threads[0].join(0.2)
            return is_genuine(given, asked)

        with cose.Verifier(SIGN1_KEYS, ecdsa=ecdsa) as verifier:
            verifier.feed(GENUINE)
            found = verifier.verdict()
            self.assertEqual((found.payload_length, found.taken), (20, len(GENUINE)))
            threads[0].join()
            self.assertEqual(verifier.taken, len(FORGED))
            with self.assertRaises(cose.Refused):
                verifier.verdict()


class Threads(unittest.TestCase):
    def test_maker(self) -> None:
        """Pieces of four threads are each hashed once, whatever their order."""
        for _ in range(50):
            maker, used = cose.Maker(KEYS, 4 * 40 * 100, alg=5), []

            def run(maker: cose.Maker = maker, used: List[int] = used) -> None:
                used.extend(maker.piece(bytes(100)) for _ in range(40))

            in_threads(4, run)
            self.assertEqual(used, [100] * 160)
            self.assertEqual(maker.head + bytes(16_000) + maker.end(), mac0(bytes(16_000)))

    def test_verifier(self) -> None:
        """So are the pieces that four threads feed."""
        message = mac0(bytes(16_000))
        with cose.Verifier(KEYS) as verifier:
            for _ in range(20):
                verifier.feed(message[:-16_034])
                in_threads(4, lambda: [verifier.feed(bytes(100)) for _ in range(40)])
                verifier.feed(message[-34:])
                self.assertEqual(verifier.verdict().payload_length, 16_000)
                verifier.reset()


def token(subject: str) -> bytes:
    """A token that is long enough for other threads to run while it is verified."""
    return mac0(cbor.encode({2: subject, 4: NOW + 1, 100: bytes(5_000)}))


def forged(data: bytes) -> bytes:
    """The same with another tag."""
    return data[:-1] + bytes([data[-1] ^ 1])


def answer(call: Callable[..., Any], data: bytes, **options: Any) -> Any:
    """The payload of a message or the subject of a token, or the reason why it is refused."""
    try:
        found = call(data, **options)
    except cose.Refused as refused:
        return refused.reason
    return found.sub if isinstance(found, cose.Claims) else found.payload


class Tables(unittest.TestCase):
    """A table is only read: calls of any number of threads verify under it at once."""

    def setUp(self) -> None:
        self.keys, self.terms = cose.KeyTable(BOTH), cose.TermsTable(BOTH, without_alg=True)

    def messages(self, data: bytes, **options: Any) -> List[Any]:
        """What both tables answer to a message."""
        calls = partial(cose.verify, self.keys), self.terms.authenticate
        return [answer(call, data, **options) for call in calls]

    def tokens(self, data: bytes) -> List[Any]:
        """What both tables answer to a token."""
        calls = partial(cose.verify_cwt, self.keys), self.terms.admit
        return [answer(call, data, now=NOW) for call in calls]

    def test_answers(self) -> None:
        """Each thread is answered about its own messages and tokens, good and forged."""
        numbers, right, bad = itertools.count(), [], cose.Reason.BadAuth

        def run() -> None:
            name = str(next(numbers))
            payload, claims = name.encode() * 5_000, token(name)
            message = mac0(payload)
            for _ in range(100):
                found = [
                    *self.messages(message),
                    *self.messages(forged(message)),
                    *self.tokens(claims),
                    *self.tokens(forged(claims)),
                ]
                right.append(found == [payload, payload, bad, bad, name, name, bad, bad])

        in_threads(4, run)
        self.assertEqual(right, [True] * 400)

    def test_verifiers(self) -> None:
        """So is each thread that feeds a verifier of its own, of which all are under one table."""
        numbers, right = itertools.count(), []

        def run() -> None:
            number = next(numbers)
            payload = b"%d" % number * 5_000
            message = mac0(payload)
            for turn in range(100):
                found: List[Any] = []
                with cose.Verifier(self.keys, large=(number + turn) % 2 == 1) as verifier:
                    for data in (message, forged(message), message):
                        fed = [verifier.feed(it).payload for it in (data[:99], data[99:-1])]
                        try:
                            verifier.feed(data[-1:])
                            found.append((b"".join(fed), verifier.verdict().taken))
                        except cose.Refused as refused:
                            found.append(refused.reason)
                        verifier.reset()
                good = (payload, len(message))
                right.append(found == [good, cose.Reason.BadAuth, good])

        in_threads(4, run)
        self.assertEqual(right, [True] * 400)

    def test_many(self) -> None:
        """So it is about many tokens."""
        numbers, found = itertools.count(), {}

        def run() -> None:
            name = str(next(numbers))
            tokens = [token(name), forged(token(name))] * 300
            found[name] = cose.verify_many(self.keys, tokens, now=NOW)

        in_threads(4, run)
        self.assertEqual(sorted(found), ["0", "1", "2", "3"])
        for name, answers in found.items():
            self.assertEqual({it.sub for it in answers[::2]}, {name})
            self.assertEqual({it.reason for it in answers[1::2]}, {cose.Reason.BadAuth})

    def test_signatures(self) -> None:
        """A function that is asked verifies under the same table, about other messages."""
        found: List[Any] = []
        cose.verify(self.keys, GENUINE, ecdsa=lambda it: is_genuine(it, found))
        genuine = found.pop()

        def ecdsa(given: cose.SignInput) -> bool:
            found.extend(self.messages(mac0(b"hi")) + self.tokens(token("s")))
            found.extend(it.sub for it in cose.verify_many(self.keys, [token("s")], now=NOW))
            found.extend(self.messages(FORGED, ecdsa=lambda _: False))
            return given.digest == genuine

        def run() -> None:
            for _ in range(20):
                for message in (GENUINE, FORGED):
                    found.extend(self.messages(message, ecdsa=ecdsa))

        in_threads(4, run)
        wanted = {b"hi": 640, "s": 960, cose.Reason.BadAuth: 800, b"This is the content.": 160}
        self.assertEqual(Counter(found), wanted)

    def test_at_once(self) -> None:
        """No call under a table waits for another one, which waits for it here."""
        calls: Dict[str, Callable[[], Any]] = {
            "table_verify": lambda: cose.verify(self.keys, mac0(b"hi")),
            "table_verify_cwt": lambda: cose.verify_cwt(self.keys, token("s"), now=NOW),
            "table_verify_cwts": lambda: cose.verify_many(self.keys, [token("s")], now=NOW),
            "table_authenticate": lambda: self.terms.authenticate(mac0(b"hi")),
            "table_admit": lambda: self.terms.admit(token("s"), now=NOW),
            "feed": lambda: cose.Verifier(self.keys).feed(mac0(b"hi")),
        }
        for name, call in calls.items():
            both, real, found = threading.Barrier(2, timeout=20), getattr(_calls, name), []

            def meet(*given: Any, both: Any = both, real: Any = real) -> Any:
                both.wait()
                return real(*given)

            def run(call: Callable[[], Any] = call, found: List[Any] = found) -> None:
                found.append(call())

            with self.subTest(name), mock.patch.object(_calls, name, meet):
                in_threads(2, run)
                self.assertEqual(len(found), 2)


if __name__ == "__main__":
    unittest.main()
