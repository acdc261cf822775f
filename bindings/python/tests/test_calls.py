"""The calls that are made most, by the extension and by ctypes."""

import gc
import json
import random
import sys
import threading
import time
import unittest
from typing import Any, Callable, Dict, Iterator, List, Tuple

import cose
from cose import _by_ctypes, _calls, _fields, cbor
from cose._library import Block, ClaimsStruct, FedStruct, SignInputStruct, VerdictStruct, small
from cose._numbers import reader
from support import EXAMPLES, KEYS, REPOSITORY, mac0

try:
    from cose import _extension
except ImportError:
    _extension = None  # type: ignore[assignment]

SIGN1_KEYS = (EXAMPLES / "sign1_key.cbor").read_bytes()
SIGN1 = (EXAMPLES / "sign1.cbor").read_bytes()
TOKEN = mac0(cbor.encode({1: "i", 3: ["a", "b"], 4: 9, 8: {3: b"k"}}))
# the answer to a token that isn't read, since its tags say that it is signed
SIGNED = bytes(ClaimsStruct(status=cose.Status.SIGNED))
ITEMS = REPOSITORY / "rows" / "items.json"
# first bytes of items, short and long, definite and not
HEADS = bytes.fromhex("0018191a1b1f2038404142585b5f606178808182989b9fa0a1b8bbbfc0d8dbe0f7f8f9fbff")
VERDICT, CLAIMS, FED = reader(VerdictStruct), reader(ClaimsStruct), reader(FedStruct)
# the fields with one value, and the labels of those after the first
FIELDS = ("payload", "iss", "sub", "exp", "nbf", "iat", "cti")
LABELS = (1, 2, 4, 5, 6, 7)


def messages() -> Iterator[bytes]:
    """A message with each verdict: authentic, signed, refused, and without its end."""
    yield from (mac0(b"hi"), SIGN1, mac0(b"hi")[:-1], b"", mac0(bytes(100_000)), b"\xa0")


def verdict_of(found: bytes) -> Tuple[Any, ...]:
    """What is answered to a message."""
    numbers, rest = VERDICT(found), found[40:]
    if numbers[0] != cose.Status.SIGNED:
        return numbers, rest
    signed = SignInputStruct.from_buffer_copy(rest)
    return numbers, bytes(signed.digest), bytes(signed.signature), bytes(signed.x), signed.y_sign


def kind_of(way: Any) -> Any:
    """A class with the fields with one value."""
    return type("Kind", (way.Found,), {name: way.field(name) for name in FIELDS})


def all_fields(found: Any) -> List[Any]:
    return [getattr(found, name) for name in FIELDS]


@unittest.skipUnless(_extension, "the extension isn't built")
class Same(unittest.TestCase):
    """Both ways give the same numbers."""

    def same(self, name: str, read: Callable[[Any], Any], *arguments: Any) -> Any:
        found = read(getattr(_extension, name)(*arguments))
        self.assertEqual(found, read(getattr(_by_ctypes, name)(*arguments)), (name, arguments))
        return found

    def table(self, keys: bytes) -> Tuple[cose.KeyTable, int]:
        table = cose.KeyTable(keys)
        return table, table._memory.at

    def test_verify(self) -> None:
        statuses = set()
        for keys in (KEYS, SIGN1_KEYS, b"\x80"):
            for message in messages():
                for large in (False, True):
                    for aad, kind in ((b"", 0), (b"", 17), (b"a", 18), (bytes(65_536), 0)):
                        given = (keys, large, aad, kind, message)
                        statuses.add(self.same("verify", verdict_of, *given)[0][0])
        self.assertEqual(statuses, {1, 2, 3, 4, 5})
        for keys in (KEYS, SIGN1_KEYS):
            table, at = self.table(keys)
            for message in messages():
                self.same("table_verify", verdict_of, at, b"", 0, message)
                self.same("table_verify", verdict_of, at, b"a", 17, message)
            del table

    def test_tokens(self) -> None:
        table, at = self.table(KEYS)
        policies = (
            (8, 0, None),
            (9, 0, None),
            (9, 1, b"b"),
            (8, 0, b"c"),
            (-(2**63), 2**32 - 1, b""),
        )
        for now, leeway, audience in policies:
            policy, tokens = (now, leeway, audience), (TOKEN, TOKEN[:-1], SIGN1, b"")
            for token in tokens:
                self.same("verify_cwt", CLAIMS, KEYS, False, b"", *policy, token)
                self.same("verify_cwt", CLAIMS, KEYS, True, b"a", *policy, token)
                self.same("table_verify_cwt", CLAIMS, at, b"", *policy, token)
            for some in ((), tokens[:1], tokens, tokens * 100):
                each = [_by_ctypes.table_verify_cwt(at, b"", *policy, it) for it in some]
                # one whose tags say that it is signed isn't read here
                each = [SIGNED if it == SIGN1 else found for it, found in zip(some, each)]
                self.each_of_many(each, at, b"", *policy, some)
        del table

    def each_of_many(self, each: List[bytes], *given: Any) -> None:
        """A call for many tokens gives these answers: as bytes, and of one that is admitted in an object."""
        refused = [place for place, it in enumerate(each) if it[0] != cose.Status.AUTHENTIC]
        for way, kind in ((_extension, kind_of(_extension)), (_by_ctypes, kind_of(_fields))):
            answers, others = way.table_verify_cwts(*given, kind)
            self.assertEqual(others, refused)
            for place, answer in enumerate(answers):
                self.assertIs(type(answer), bytes if place in refused else kind)
            found = [getattr(it, "_found", it) for it in answers]
            self.assertEqual([CLAIMS(it) for it in found], [CLAIMS(it) for it in each])

    def test_feed(self) -> None:
        message = mac0(b"what is said" * 1_000)
        for large in (False, True):
            calls = cose._library.large if large else small
            found = []
            for way in (_extension, _by_ctypes):
                block = Block("verifier", calls.verifier_size(), calls.verifier_align())
                calls.begin(block.at)
                with block as handle:
                    status = cose._library.StatusStruct()
                    calls.edge_open(handle, KEYS, len(KEYS), b"", 0, 0, status)
                    pieces = [message[it : it + 5_000] for it in range(0, len(message), 5_000)]
                    found.append([FED(way.feed(block.at, large, it)) for it in pieces])
            self.assertEqual(*found)
            self.assertEqual(sum(fed[3] for fed in found[0]), len(message))

    def test_items(self) -> None:
        """Items, cut off and not, and bytes at random."""
        rows = [
            row for group in json.loads(ITEMS.read_text())["testGroups"] for row in group["tests"]
        ]
        chance, pieces = random.Random(0), [bytes.fromhex(row["item"]) for row in rows]
        for _ in range(5_000):
            pieces.append(bytes(chance.choices(HEADS, k=chance.randrange(24))))
        for piece in pieces:
            for data in (piece, TOKEN + piece, piece + TOKEN):
                self.same("items", tuple, data, 0, 100)
        long = (TOKEN + SIGN1) * 3
        for at, most in ((0, 0), (0, 1), (0, 6), (0, 7), (len(TOKEN), 2), (1, 100), (len(long), 1)):
            self.same("items", tuple, long, at, most)

    def test_types(self) -> None:
        """What isn't bytes isn't read, since it may change meanwhile."""
        for wrong in (bytearray(TOKEN), memoryview(TOKEN), "token", None, 1):
            with self.assertRaises(TypeError):
                _extension.verify_cwt(KEYS, False, b"", 8, 0, None, wrong)  # type: ignore[arg-type]
            with self.assertRaises(TypeError):
                _extension.verify(wrong, False, b"", 0, TOKEN)  # type: ignore[arg-type]
            with self.assertRaises(TypeError):
                given = (self.table(KEYS)[1], b"", 8, 0, None, (TOKEN, wrong))
                _extension.table_verify_cwts(*given, kind_of(_extension))  # type: ignore[arg-type]
        with self.assertRaises(TypeError):
            _extension.verify_cwt(KEYS, False, b"", 8)  # type: ignore[call-arg]
        with self.assertRaises(OverflowError):
            _extension.verify_cwt(KEYS, False, b"", 2**63, 0, None, TOKEN)


@unittest.skipUnless(_extension, "the extension isn't built")
class Fields(unittest.TestCase):
    """What is read of an answer, by the extension and by Python."""

    def test_values(self) -> None:
        least, most = -(2**64), 2**64 - 1
        kinds = [(way, kind_of(way)) for way in (_extension, _fields)]
        claims: Dict[int, Any]
        for claims in (
            {},
            {1: "i", 2: "", 4: most, 5: least, 6: -1, 7: b""},
            {3: ["a", "b"], 8: {3: b"k"}},
            {2: "\u00e9\U0001f600" * 1_000, 4: 24, 6: 0, 7: bytes(70_000)},
        ):
            payload = cbor.encode(claims)
            for token in (mac0(payload), b"\xd8\x3d" + mac0(payload)):
                found = _calls.verify_cwt(KEYS, False, b"", 0, 0, None, token)
                of_c, of_python = (way.made(kind, token, found) for way, kind in kinds)
                self.assertEqual(all_fields(of_c), all_fields(of_python))
                self.assertEqual(all_fields(of_c), [payload, *map(claims.get, LABELS)])
                for one, other in zip(all_fields(of_c), all_fields(of_c)):
                    self.assertIs(one, other)
                self.assertIs(of_c._token, token)
                self.assertEqual(CLAIMS(of_c._found), CLAIMS(found))
        for _, kind in kinds:
            self.assertEqual([getattr(kind, name) for name in FIELDS[1:]], [None] * 6)
            with self.assertRaisesRegex(AttributeError, "payload"):
                kind.payload

    def test_whole_payload(self) -> None:
        """A payload that is all of the bytes isn't copied."""
        payload = cbor.encode({2: "s"})
        self.assertIs(cose.claims(payload, now=0).payload, payload)

    def test_other_bytes(self) -> None:
        """An answer about other bytes is refused, and nothing beyond them is read."""
        kind = kind_of(_extension)
        token = mac0(cbor.encode({2: "s", 7: b"c"}))
        found = _extension.verify_cwt(KEYS, False, b"", 0, 0, None, token)
        for it in (token[:10], b"", found):
            made = _extension.made(kind, it, found[:9] + b"\xfe" * 63 + found[72:])
            for name in ("payload", "iss"):
                with self.assertRaises(ValueError):
                    getattr(made, name)
        for length in range(len(token)):
            made = _extension.made(kind, token[:length], found)
            try:
                self.assertEqual(made.cti, b"c")
                self.assertGreater(length, token.index(b"\x41c") + 1)
            except ValueError:
                self.assertLess(length, token.index(b"\x41c") + 2)

    def test_attributes(self) -> None:
        """What is written into an object counts from then on, and is bytes."""
        kind = kind_of(_extension)
        first, second = (mac0(cbor.encode({2: it})) for it in ("a", "b"))
        found = _extension.verify_cwt(KEYS, False, b"", 0, 0, None, first)
        made = _extension.made(kind, first, found)
        self.assertEqual(made.sub, "a")
        made._token = second
        self.assertEqual(made.sub, "b")
        made._found = b""
        self.assertIsNone(made.sub)
        for name, wrong, error in (
            ("_token", None, TypeError),
            ("_found", "a", TypeError),
            ("_found", found[:-1], ValueError),
        ):
            with self.assertRaises(error):
                setattr(made, name, wrong)
        with self.assertRaises(TypeError):
            del made._token
        new = kind.__new__(kind)
        self.assertEqual((new._token, new._found), (b"", b""))
        with self.assertRaisesRegex(AttributeError, "sub"):
            new.sub

    def test_types(self) -> None:
        kind = kind_of(_extension)
        found = _extension.verify_cwt(KEYS, False, b"", 0, 0, None, TOKEN)
        for given in (
            (object, TOKEN, found),
            (_extension.Found, TOKEN, found),
            ("kind", TOKEN, found),
            (kind, bytearray(TOKEN), found),
            (kind, TOKEN, None),
        ):
            with self.assertRaises(TypeError):
                _extension.made(*given)  # type: ignore[arg-type, type-var]
        with self.assertRaises(ValueError):
            _extension.made(kind, TOKEN, found + b"\0")
        with self.assertRaises(KeyError):
            _extension.field("aud")
        read = vars(kind)["sub"]
        for field in (read, type(read)()):
            with self.assertRaises(TypeError):
                field.__get__(object())

    @unittest.skipUnless(_calls.IS_BUILT, "all calls are made by ctypes")
    def test_references(self) -> None:
        """What was made keeps its token as long as it is there itself, and the collector of cycles passes it by."""
        table, token = cose.KeyTable(KEYS), mac0(cbor.encode({2: "s"}))
        held = sys.getrefcount(token)
        for _ in range(3):
            answers = cose.verify_many(table, [token, token, token[:-1]])
            self.assertEqual([getattr(it, "sub", None) for it in answers], ["s", "s", None])
            self.assertEqual(sys.getrefcount(token), held + 2)
            self.assertFalse(any(map(gc.is_tracked, answers[:2])))
            del answers
            self.assertEqual(sys.getrefcount(token), held)


class Others(unittest.TestCase):
    """Other threads run during a long call."""

    def longest_wait(self, call: Callable[[], object]) -> float:
        """The longest time between two looks of this thread, as a part of the time of a call in another one."""
        took = []

        def run() -> None:
            began = time.perf_counter()
            call()
            took.append(time.perf_counter() - began)

        thread, waited, last = threading.Thread(target=run), 0.0, time.perf_counter()
        thread.start()
        while not took:
            now = time.perf_counter()
            waited, last = max(waited, now - last), now
        thread.join()
        return waited / took[0]

    def lets_others_run(self, call: Callable[[], object]) -> None:
        """In one of some runs: a machine may have something else to do."""
        self.assertTrue(any(self.longest_wait(call) < 0.5 for _ in range(10)))

    def test_message(self) -> None:
        message, table = mac0(bytes(20_000_000)), cose.KeyTable(KEYS)
        verifier = cose.Verifier(KEYS)
        at = table._memory.at
        self.lets_others_run(lambda: _calls.verify(KEYS, False, b"", 0, message))
        self.lets_others_run(lambda: _calls.table_verify(at, b"", 0, message))

        def fed() -> None:
            verifier.reset()
            verifier.feed(message)

        self.lets_others_run(fed)

    def test_tokens(self) -> None:
        """Of many short tokens too, and of a long one."""
        table = cose.KeyTable(KEYS)
        long_token = mac0(cbor.encode({100: bytes(20_000_000)}))
        given = (b"", 0, 0, None)
        self.lets_others_run(lambda: _calls.verify_cwt(KEYS, False, *given, long_token))
        self.lets_others_run(lambda: _calls.table_verify_cwt(table._memory.at, *given, long_token))
        tokens = (TOKEN,) * 20_000
        kind, at = cose.Claims, table._memory.at
        self.lets_others_run(lambda: _calls.table_verify_cwts(at, *given, tokens, kind))


if __name__ == "__main__":
    unittest.main()
