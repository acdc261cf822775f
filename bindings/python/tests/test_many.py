"""Many tokens at once."""

import hashlib
import json
import threading
import unittest
from typing import Any, Callable, Dict, List, Tuple
from unittest import mock

import cose
from cose import _calls, cbor
from support import EXAMPLES, KEYS, REPOSITORY, TAG_CWT, mac0, sign1, sign1_parts

NOW = 1_000
ITEMS = REPOSITORY / "rows" / "items.json"
SIGN1_KEYS = (EXAMPLES / "sign1_key.cbor").read_bytes()


def token(number: int) -> bytes:
    """A token with this subject, of which each seventh has expired and each eleventh has a wrong tag."""
    claims = {2: f"user {number}", 4: NOW if number % 7 == 6 else NOW + 1}
    made = (TAG_CWT if number % 2 else b"") + mac0(cbor.encode(claims))
    return made[:-1] + bytes([made[-1] ^ (number % 11 == 10)])


def alone(call: Callable[[], cose.Claims]) -> Tuple[Any, ...]:
    """What a call for one token returns or raises."""
    try:
        return (call(),)
    except cose.Error as error:
        return type(error), error.args


def seen(answer: Any) -> Tuple[Any, ...]:
    """The same of an answer of many."""
    return (type(answer), answer.args) if isinstance(answer, Exception) else (answer,)


class Many(unittest.TestCase):
    def each(self, tokens: List[bytes], given: Any = None, **options: Any) -> List[Any]:
        """The answers, which are those of `verify_cwt` to each token, in their order."""
        keys = options.pop("keys", KEYS)
        options = {"now": NOW, **options}
        answers = cose.verify_many(keys, tokens if given is None else given, **options)
        wanted = [alone(lambda it=it: cose.verify_cwt(keys, it, **options)) for it in tokens]  # type: ignore[misc]
        self.assertEqual([seen(it) for it in answers], wanted)
        return answers

    def test_list(self) -> None:
        """As many tokens as one call to the library takes, one less and one more; and none."""
        for count in (0, 1, 255, 256, 257, 600):
            tokens = [token(number) for number in range(count)]
            answers = self.each(tokens)
            admitted = [it for it in answers if isinstance(it, cose.Claims)]
            good = [number for number in range(count) if number % 7 != 6 and number % 11 != 10]
            self.assertEqual([it.sub for it in admitted], [f"user {number}" for number in good])
            self.each(tokens, iter(tokens))
            self.each(tokens, tuple(tokens))
            self.each(tokens, [*map(memoryview, tokens[:300]), *map(bytearray, tokens[300:])])
            self.each(tokens, map(bytearray, tokens))
            self.each(tokens, keys=cose.KeyTable(KEYS))

    def test_errors(self) -> None:
        """What is raised of one token is returned of each, and says nothing of where."""
        answers = self.each([token(6), token(10), b"", token(0) + b"\0"])
        kinds = [cose.ClaimsRefused, cose.Refused, cose.Refused, cose.Refused]
        self.assertEqual([type(it) for it in answers], kinds)
        names = [it.reason.name for it in answers]
        self.assertEqual(names, ["Expired", "BadAuth", "Truncated", "Trailing"])
        self.assertEqual([it.__traceback__ for it in answers], [None] * 4)

    def test_options(self) -> None:
        """Each option counts, as it does for one token, of either kind."""
        payload = cbor.encode({3: "reader", 4: NOW})
        protected, structure = sign1_parts(payload, -7, b"data")
        digest = hashlib.sha256(structure).digest()
        signed = sign1(payload, protected, bytes(64))
        common: Dict[str, Any] = {"now": NOW, "leeway": 1, "audience": "reader", "aad": b"data"}
        for made, rest in (
            (mac0(payload, aad=b"data"), {"keys": KEYS}),
            (signed, {"keys": SIGN1_KEYS, "ecdsa": lambda it: it.digest == digest}),
        ):
            good = {**common, **rest}
            self.assertIsInstance(self.each([made], **good)[0], cose.Claims)
            for wrong in ({"now": NOW + 1}, {"leeway": 0}, {"audience": "read"}, {"aad": b""}):
                answer = self.each([made], **{**good, **wrong})[0]
                self.assertIsInstance(answer, cose.Refused, wrong)
            # without a time, that of the clock counts
            answer = cose.verify_many(tokens=[made], **{**good, "now": None})[0]
            self.assertEqual(answer.reason, cose.Reason.Expired)  # type: ignore[union-attr]

    def test_arguments(self) -> None:
        for keys, tokens, options, kind, text in (
            (KEYS, ["a"], {}, TypeError, "a token should be bytes, and is str"),
            (KEYS, "a", {}, TypeError, "a token should be bytes, and is str"),
            (KEYS, [token(0)], {"aad": bytes(65_536)}, ValueError, "aad has more than 65,535"),
            (KEYS, [], {"leeway": -1}, ValueError, "leeway should be from 0"),
            (b"\x80", [], {}, cose.KeysRefused, "keys refused: BadKeySet at 0"),
        ):
            with self.assertRaisesRegex(kind, text):
                cose.verify_many(keys, tokens, **options)  # type: ignore[arg-type]

    def test_sequence(self) -> None:
        """A CBOR sequence has the tokens, and at last what is no whole item."""
        tokens = [token(number) for number in range(300)]
        for rest in ([], [b"\xd1\x84"], [tokens[0][:-1]], [b"\x9f\xff" + tokens[0]], [b"\x1c"]):
            for data in (b"".join(tokens + rest), bytearray(b"".join(tokens + rest))):
                self.each(tokens + rest, data)
        self.assertEqual(cose.verify_many(KEYS, b""), [])

    def test_items(self) -> None:
        """An item ends where the rows say, and none with an indefinite length has an end."""
        for group in json.loads(ITEMS.read_text())["testGroups"]:
            for row in group["tests"]:
                item, result = bytes.fromhex(row["item"]), row["result"]
                if result["verdict"] == "item":
                    self.assertEqual(cbor.end_of_item(item), result["length"], row)
                elif result["reason"] in ("Indefinite", "Truncated"):
                    with self.assertRaises(ValueError):
                        cbor.end_of_item(item)

    def test_signed_is_read_once(self) -> None:
        """A token whose tags say that it is signed is verified as a message, and by no call for tokens."""
        protected, _ = sign1_parts(b"", -7)
        signed = sign1(cbor.encode({2: "s", 4: NOW}), protected, bytes(64))
        options: Dict[str, Any] = {"now": NOW - 1, "ecdsa": lambda _: True}
        table, terms = cose.KeyTable(SIGN1_KEYS), cose.TermsTable(SIGN1_KEYS, without_alg=True)
        wanted = cose.Claims(cbor.encode({2: "s", 4: NOW}), sub="s", exp=NOW)
        for token_call, message_call, verified in (
            ("verify_cwt", "verify", lambda it: cose.verify_cwt(SIGN1_KEYS, it, **options)),
            ("table_verify_cwt", "table_verify", lambda it: cose.verify_cwt(table, it, **options)),
            (
                "table_verify_cwt",
                "table_verify",
                lambda it: cose.verify_many(table, [it], **options)[0],
            ),
            ("table_admit", "table_authenticate", lambda it: terms.admit(it, **options)),
        ):
            for data in (signed, TAG_CWT + signed):
                with self.subTest(token_call), mock.patch.object(_calls, token_call) as of_tokens:
                    call = getattr(_calls, message_call)
                    with mock.patch.object(_calls, message_call, side_effect=call) as of_messages:
                        self.assertEqual(verified(data), wanted)
                    self.assertEqual((of_tokens.call_count, of_messages.call_count), (0, 1))

    def test_signed(self) -> None:
        """Signatures are asked about one by one."""
        protected, _ = sign1_parts(b"", -7)
        tokens = [sign1(cbor.encode({2: str(it)}), protected, bytes([it] * 64)) for it in range(3)]
        options: Dict[str, Any] = {"keys": SIGN1_KEYS, "ecdsa": lambda it: it.signature[0] == 1}
        answers = self.each(tokens, **options)
        self.assertEqual(answers[1], cose.Claims(cbor.encode({2: "1"}), sub="1"))
        self.assertEqual([str(answers[it]) for it in (0, 2)], [str(answers[0])] * 2)
        self.assertEqual(answers[0].reason, cose.Reason.BadAuth)
        answers = self.each(tokens, keys=SIGN1_KEYS)
        self.assertEqual([type(it) for it in answers], [cose.SignatureUnverified] * 3)

        def broken(_: cose.SignInput) -> bool:
            raise RuntimeError("a fault of the caller's")

        with self.assertRaisesRegex(RuntimeError, "a fault of the caller's"):
            cose.verify_many(SIGN1_KEYS, tokens, ecdsa=broken)

    def test_mixed(self) -> None:
        """Each answer is in its token's place, where tokens of both kinds are next to refused ones."""
        keys = cbor.encode([cbor.decode(KEYS), cbor.decode(SIGN1_KEYS)])
        protected, _ = sign1_parts(b"", -7)
        tokens, asked = [token(number) for number in range(300)], bytearray()
        subjects = {it: f"user {it}" for it in range(300) if it % 7 != 6 and it % 11 != 10}
        for place in (0, 3, 6, 7, 254, 255, 256, 257, 299):
            subjects.pop(place, None)
            payload = cbor.encode({2: f"signed {place}"})
            tokens[place] = sign1(payload, protected, bytes([place % 2] * 64))
        subjects.update({it: f"signed {it}" for it in (3, 7, 255, 257, 299)})

        def ecdsa(given: cose.SignInput) -> bool:
            asked.append(given.signature[0])
            return given.signature[0] == 1

        answers = cose.verify_many(keys, tokens, now=NOW, ecdsa=ecdsa)
        self.assertEqual(asked, bytes([0, 1, 0, 1, 0, 1, 0, 1, 1]))
        found = {at: it.sub for at, it in enumerate(answers) if isinstance(it, cose.Claims)}
        self.assertEqual(found, subjects)
        for it in (tokens, iter(tokens), b"".join(tokens)):
            self.each(tokens, it, keys=keys, ecdsa=ecdsa)
            self.each(tokens, keys=keys)

    def test_appended(self) -> None:
        """What is appended to a list after its last batch was taken isn't looked at, as in a loop over it."""
        protected, _ = sign1_parts(b"", -7)
        signed = sign1(cbor.encode({2: "s"}), protected, bytes(64))
        tokens = [signed]

        def ecdsa(_: cose.SignInput) -> bool:
            tokens.append(signed)
            return True

        self.assertEqual(len(cose.verify_many(SIGN1_KEYS, tokens, ecdsa=ecdsa)), 1)
        self.assertEqual(len(tokens), 2)

    def test_reentry(self) -> None:
        """A function that is asked may verify many tokens under the same table."""
        table, found = cose.KeyTable(SIGN1_KEYS), []
        protected, _ = sign1_parts(b"", -7)
        signed = sign1(cbor.encode({2: "s"}), protected, bytes(64))

        def ecdsa(_: cose.SignInput) -> bool:
            found.append(cose.verify_many(table, [signed], now=NOW))
            return True

        self.assertIsInstance(cose.verify_many(table, [signed], ecdsa=ecdsa)[0], cose.Claims)
        self.assertIsInstance(found[0][0], cose.SignatureUnverified)

    def test_threads(self) -> None:
        """Threads under one table, each with its own tokens."""
        table, found = cose.KeyTable(KEYS), {}

        def run(first: int) -> None:
            tokens = [mac0(cbor.encode({2: str(it)})) for it in range(first, first + 700)]
            found[first] = [it.sub for it in cose.verify_many(table, tokens)]  # type: ignore[union-attr]

        threads = [threading.Thread(target=run, args=(1_000 * it,)) for it in range(4)]
        for thread in threads:
            thread.start()
        for thread in threads:
            thread.join()
        for first in range(0, 4_000, 1_000):
            self.assertEqual(found[first], [str(it) for it in range(first, first + 700)])


if __name__ == "__main__":
    unittest.main()
