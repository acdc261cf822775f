"""CBOR Web Tokens."""

import copy
import dataclasses
import pickle
import threading
import time
import unittest
import weakref

import cose
from cose import cbor
from support import KEYS, TAG_CWT, mac0

# the claims of RFC 8392 appendix A.1
EXAMPLE = {
    1: "coap://as.example.com",
    2: "erikw",
    3: "coap://light.example.com",
    4: 1444064944,
    5: 1443944944,
    6: 1443944944,
    7: b"\x0b\x71",
}
NOW = 1444064943


def token(claims: dict, **options: object) -> bytes:  # type: ignore[type-arg]
    return mac0(cbor.encode(claims), **options)  # type: ignore[arg-type]


class Tokens(unittest.TestCase):
    def test_claims(self) -> None:
        wanted = cose.Claims(
            payload=cbor.encode(EXAMPLE),
            iss="coap://as.example.com",
            sub="erikw",
            aud=("coap://light.example.com",),
            exp=1444064944,
            nbf=1443944944,
            iat=1443944944,
            cti=b"\x0b\x71",
        )
        for data in (token(EXAMPLE), TAG_CWT + token(EXAMPLE)):
            for keys in (KEYS, cose.KeyTable(KEYS)):
                self.assertEqual(cose.verify_cwt(keys, data, now=NOW), wanted)
        self.assertEqual(cose.claims(cbor.encode(EXAMPLE), now=NOW), wanted)
        self.assertEqual(cose.verify_cwt(KEYS, token(EXAMPLE), now=NOW, large=True), wanted)

    def test_no_claims(self) -> None:
        self.assertEqual(cose.verify_cwt(KEYS, token({})), cose.Claims(b"\xa0"))

    def test_several_audiences(self) -> None:
        claims = {3: ["a", "b", "\u00e9"], 4: -1, 5: -(2**64)}
        found = cose.verify_cwt(KEYS, token(claims), now=-2, audience="\u00e9")
        self.assertEqual(found.aud, ("a", "b", "\u00e9"))
        self.assertEqual((found.exp, found.nbf), (-1, -(2**64)))

    def test_many_audiences(self) -> None:
        """Texts of every length up to 300 bytes, and one of 65,536, are read in one pass."""
        names = [("\u00e9" * it + "a" * (it % 2)) for it in range(150)] * 2 + ["b" * 65_536]
        payload = cbor.encode({2: "s", 3: names, 4: 1})
        found = cose.claims(payload, now=0)
        self.assertEqual(found, cose.Claims(payload, sub="s", aud=tuple(names), exp=1))
        self.assertIs(found.aud, found.aud)
        again = pickle.loads(pickle.dumps(cose.claims(payload, now=0)))
        self.assertEqual((again, hash(again)), (found, hash(found)))
        self.assertEqual(cose.verify_cwt(KEYS, token({3: names})).aud, tuple(names))

    def test_copies(self) -> None:
        """Claims are copied, and pickled by each protocol, whatever was read of them before."""
        wanted = cose.verify_cwt(KEYS, token(EXAMPLE), now=NOW)
        for names in ((), ("sub",), ("payload", "aud", "cnf", "sub")):
            found = cose.verify_cwt(KEYS, token(EXAMPLE), now=NOW)
            for name in names:
                self.assertIs(getattr(found, name), getattr(found, name))
            copies = [copy.copy(found), copy.deepcopy(found), dataclasses.replace(found)]
            for protocol in range(pickle.HIGHEST_PROTOCOL + 1):
                copies += pickle.loads(pickle.dumps([found, copies[-1]], protocol))
            for it in copies:
                self.assertEqual((it, hash(it), repr(it)), (wanted, hash(wanted), repr(wanted)))
            self.assertIs(weakref.ref(found)(), found)

    def test_state(self) -> None:
        """What is pickled is the same by the extension and by ctypes, where nothing was read."""
        data = token({2: "s"})
        found = cose.verify_cwt(KEYS, data)
        state = found.__getstate__()
        self.assertEqual(sorted(state), ["_found", "_token"])
        self.assertEqual(state["_token"], data)
        made = cose.Claims.__new__(cose.Claims)
        made.__setstate__({**state, "iss": "i"})
        self.assertEqual(made, cose.Claims(found.payload, iss="i", sub="s"))

    def test_frozen(self) -> None:
        found = cose.verify_cwt(KEYS, token({2: "s"}))
        for name in ("sub", "payload", "_token", "_found", "other"):
            with self.assertRaises(dataclasses.FrozenInstanceError):
                setattr(found, name, b"")
            with self.assertRaises(dataclasses.FrozenInstanceError):
                delattr(found, name)
        self.assertEqual(dataclasses.replace(found, sub="t"), cose.Claims(found.payload, sub="t"))
        with self.assertRaisesRegex(TypeError, "payload"):
            cose.Claims()  # type: ignore[call-arg]

    def test_admission(self) -> None:
        cases = (
            ({"now": NOW + 1}, "Expired"),
            ({"now": NOW + 1, "leeway": 1}, None),
            ({"now": 1443944943}, "NotYet"),
            ({"now": NOW, "audience": "other"}, "WrongAudience"),
            ({"now": NOW, "audience": "coap://light.example.com"}, None),
        )
        for policy, reason in cases:
            with self.subTest(policy):
                if reason is None:
                    cose.verify_cwt(KEYS, token(EXAMPLE), **policy)
                    continue
                with self.assertRaises(cose.ClaimsRefused) as raised:
                    cose.verify_cwt(KEYS, token(EXAMPLE), **policy)
                self.assertEqual(raised.exception.reason.name, reason)
                self.assertIn("claims refused", str(raised.exception))

    def test_clock(self) -> None:
        now = int(time.time())
        self.assertEqual(cose.verify_cwt(KEYS, token({4: now + 1_000})).exp, now + 1_000)
        with self.assertRaises(cose.ClaimsRefused):
            cose.verify_cwt(KEYS, token({4: now - 1_000}))

    def test_numbers_out_of_range(self) -> None:
        for policy in ({"now": 2**63}, {"now": 0, "leeway": 2**32}, {"now": 0, "leeway": -1}):
            with self.assertRaises(ValueError):
                cose.verify_cwt(KEYS, token({}), **policy)

    def test_types(self) -> None:
        """An error names the argument."""
        cases = (
            ({"now": 1.5}, TypeError, "now should be an integer, and is float"),
            ({"now": 0, "leeway": "1"}, TypeError, "leeway should be an integer, and is str"),
            ({"now": 0, "audience": ["a"]}, TypeError, "audience should be a str, and is list"),
            ({"now": 0, "audience": []}, TypeError, "audience should be a str, and is list"),
            ({"now": 0, "audience": b"a"}, TypeError, "audience should be a str, and is bytes"),
            ({"now": 0, "audience": "\ud800"}, ValueError, "audience isn't a text"),
        )
        for policy, kind, text in cases:
            for call in (
                lambda: cose.verify_cwt(KEYS, token({}), **policy),
                lambda: cose.claims(b"\xa0", **policy),
            ):
                with self.subTest(policy), self.assertRaisesRegex(kind, text):
                    call()

    def test_message_refused(self) -> None:
        with self.assertRaises(cose.Refused) as raised:
            cose.verify_cwt(KEYS, token(EXAMPLE, aad=b"data"), now=NOW)
        self.assertEqual(raised.exception.reason, cose.Reason.BadAuth)
        self.assertNotIsInstance(raised.exception, cose.ClaimsRefused)
        self.assertEqual(cose.verify_cwt(KEYS, token({}, aad=b"data"), aad=b"data").aud, ())

    def test_confirmation(self) -> None:
        x, y = bytes(range(32)), bytes(range(32, 64))
        key = {1: 2, -1: 1, -2: x, -3: y}
        found = cose.verify_cwt(KEYS, token({8: {1: key}})).cnf
        self.assertEqual(found, cose.Confirmation(None, cose.ConfirmationKey(1, x, y)))
        assert found and found.key
        self.assertEqual(found.key.cose_key(), cbor.encode(key))
        found = cose.verify_cwt(KEYS, token({8: {1: {**key, -3: True}, 3: b"k"}})).cnf
        self.assertEqual(found, cose.Confirmation(b"k", cose.ConfirmationKey(1, x, True)))
        found = cose.verify_cwt(KEYS, token({8: {1: {**key, -3: False}}})).cnf
        self.assertEqual(found, cose.Confirmation(None, cose.ConfirmationKey(1, x, False)))

    def test_threads(self) -> None:
        """A table serves several threads at once."""
        table, good = cose.KeyTable(KEYS), []
        tokens = [token({2: str(it)}) for it in range(200)]

        def run() -> None:
            good.append([cose.verify_cwt(table, it).sub for it in tokens])

        threads = [threading.Thread(target=run) for _ in range(4)]
        for thread in threads:
            thread.start()
        for thread in threads:
            thread.join()
        self.assertEqual(good, [[str(it) for it in range(200)]] * 4)


if __name__ == "__main__":
    unittest.main()
