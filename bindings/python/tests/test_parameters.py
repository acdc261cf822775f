"""Each parameter: a call that is accepted with it and refused without, and the other way round."""

import hashlib
import unittest
from functools import partial
from typing import Any, Callable, Dict, Tuple

import cose
from cose import cbor
from support import KEYS, SECRET, TAG_MAC0, TAG_SIGN1, mac_of

# a key of ES256; no signature under it is computed, since `agrees` decides
POINT = cbor.encode({1: 2, -1: 1, -2: bytes(32), -3: bytes(32)})
MAC, SIGNED = cose.Kind.MAC0, cose.Kind.SIGN1
Parameters = Dict[str, Any]


def agrees(payload: bytes, protected: bytes, aad: bytes) -> Callable[[cose.SignInput], bool]:
    """What finds the signature good that this structure is signed with, and no other."""
    structure = cbor.encode(["Signature1", protected, aad, payload])
    return lambda given: given.digest == hashlib.sha256(structure).digest()


class Made:
    """A message of either kind, and what it is verified with."""

    def __init__(
        self,
        kind: cose.Kind,
        payload: bytes = b"what is said",
        *,
        aad: bytes = b"",
        tagged: bool = True,
        detached: bool = False,
        long: bool = False,
    ) -> None:
        kid = {4: bytes(2_000)} if long else {}
        protected = cbor.encode({1: 5 if kind == MAC else -7, **kid})
        tag = (TAG_MAC0 if kind == MAC else TAG_SIGN1) if tagged else b""
        content = b"\xf6" if detached else cbor.encode(payload)
        auth = mac_of(protected, aad, payload) if kind == MAC else bytes(64)
        self.keys = KEYS if kind == MAC else POINT
        self.data = tag + b"\x84" + cbor.encode(protected) + b"\xa0" + content + cbor.encode(auth)
        self.rest: Parameters = {}
        if kind == SIGNED:
            self.rest = {"ecdsa": agrees(payload, protected, aad)}

    def verify(self, **given: Any) -> bytes:
        return cose.verify(self.keys, self.data, **{**self.rest, **given}).payload

    def verify_cwt(self, **given: Any) -> cose.Claims:
        return cose.verify_cwt(self.keys, self.data, **{"now": 0, **self.rest, **given})

    def fed(self, payload: bytes = b"", *, table: bool = False, **given: Any) -> cose.Verdict:
        """By a verifier that is fed, under a table of the keys where that is wanted."""
        keys = cose.KeyTable(self.keys) if table else self.keys
        with cose.Verifier(keys, **{**self.rest, **given}) as verifier:
            used = verifier.feed(self.data).used
            if payload:
                verifier.feed_payload(payload)
                verifier.feed(self.data[used:])
            return verifier.verdict()


class Parameter(unittest.TestCase):
    """The losses of ci/dropped are of these parameters."""

    def both(self, call: Callable[..., Any], good: Parameters, bad: Parameters, why: str) -> None:
        """The call is accepted with the good parameters, and refused with the bad ones."""
        with self.subTest(call=call, good=good):
            call(**good)
        with self.subTest(call=call, bad=bad):
            with self.assertRaises(cose.Error) as raised:
                call(**bad)
            reason = getattr(raised.exception, "reason", None)
            self.assertEqual(reason.name if reason else type(raised.exception).__name__, why)

    def calls(self, kind: cose.Kind, **made: Any) -> Tuple[Callable[..., Any], ...]:
        """The calls that verify a message, in memory and in pieces."""
        it = Made(kind, **made)
        return it.verify, it.fed, partial(it.fed, table=True)

    def test_aad(self) -> None:
        for kind in (MAC, SIGNED):
            for call in self.calls(kind, aad=b"data"):
                self.both(call, {"aad": b"data"}, {}, "BadAuth")
            for call in self.calls(kind):
                self.both(call, {}, {"aad": b"data"}, "BadAuth")
            it = Made(kind, aad=b"data", detached=True)
            detached = partial(it.verify, payload=b"what is said")
            self.both(detached, {"aad": b"data"}, {}, "BadAuth")

    def test_wanted(self) -> None:
        for kind, other in ((MAC, SIGNED), (SIGNED, MAC)):
            for call in self.calls(kind, tagged=False):
                self.both(call, {"wanted": kind}, {}, "WrongTag")
                self.both(call, {"wanted": kind}, {"wanted": other}, "UnknownAlg")
            for call in self.calls(kind):
                self.both(call, {}, {"wanted": other}, "WrongTag")
            it = Made(kind, tagged=False, detached=True)
            detached = partial(it.verify, payload=b"what is said")
            self.both(detached, {"wanted": kind}, {}, "WrongTag")
            shape = partial(cose.shape, it.data.replace(b"\xf6", b"\x40"))
            self.both(shape, {"wanted": kind}, {}, "WrongTag")

    def test_payload(self) -> None:
        payload = b"what is said"
        for kind in (MAC, SIGNED):
            it = Made(kind, detached=True)
            self.both(it.verify, {"payload": payload}, {}, "Detached")
            self.both(it.verify, {"payload": payload}, {"payload": b"what is sadi"}, "BadAuth")
            length = {"payload_length": len(payload)}
            for fed in (partial(it.fed, payload), partial(it.fed, payload, table=True)):
                self.both(fed, length, {}, "Detached")
                self.both(fed, length, {"payload_length": 4}, "BadAuth")
            for call, bad in zip(self.calls(kind), ({"payload": payload}, length, length)):
                self.both(call, {}, bad, "Attached")

    def test_large(self) -> None:
        for kind in (MAC, SIGNED):
            for call in self.calls(kind, long=True):
                self.both(call, {"large": True}, {}, "PastRoom")
            it = Made(kind, long=True, detached=True)
            detached = partial(it.verify, payload=b"what is said")
            self.both(detached, {"large": True}, {}, "PastRoom")

    def test_signature(self) -> None:
        """Where it isn't good, the parameters count for the refusal as well."""
        for made, given in (
            ({}, {}),
            ({"aad": b"data"}, {"aad": b"data"}),
            ({"tagged": False}, {"wanted": SIGNED}),
            ({"detached": True}, {"payload": b"what is said"}),
            ({"long": True}, {"large": True}),
        ):
            it = Made(SIGNED, **made)  # type: ignore[arg-type]
            self.both(partial(it.verify, **given), {}, {"ecdsa": lambda _: False}, "BadAuth")
            self.both(partial(it.verify, **given), {}, {"ecdsa": None}, "SignatureUnverified")
        fed = Made(SIGNED).fed
        self.both(fed, {}, {"ecdsa": lambda _: False}, "BadAuth")
        self.both(fed, {}, {"ecdsa": None}, "SignatureUnverified")

    def tokens(self, claims: Any, **made: Any) -> Any:
        """Calls on a token: of each kind, by its tag and as that kind, and on the claims alone."""
        payload = cbor.encode(claims) if isinstance(claims, dict) else claims
        for kind in (MAC, SIGNED):
            it = Made(kind, payload, **made)
            yield it.verify_cwt
            yield partial(it.verify_cwt, wanted=kind)
        if not made:
            yield partial(cose.claims, payload)

    def test_time(self) -> None:
        for call in self.tokens({4: 1_000, 5: 500}):
            self.both(call, {"now": 999}, {"now": 1_000}, "Expired")
            self.both(call, {"now": 500}, {"now": 499}, "NotYet")
            self.both(call, {"now": 999}, {"now": None}, "Expired")
            self.both(call, {"now": 1_000, "leeway": 1}, {"now": 1_000}, "Expired")
            self.both(call, {"now": 499, "leeway": 1}, {"now": 499}, "NotYet")

    def test_audience(self) -> None:
        for call in self.tokens({3: ["reader", "writer"]}):
            call = partial(call, now=0)
            self.both(call, {"audience": "writer"}, {"audience": "write"}, "WrongAudience")
            self.both(call, {}, {"audience": ""}, "WrongAudience")

    def test_token_message(self) -> None:
        """The parameters of a token's message."""
        for call in self.tokens({2: "s"}, aad=b"data"):
            self.both(call, {"aad": b"data"}, {}, "BadAuth")
        for call in self.tokens({2: "s"}, long=True):
            self.both(call, {"large": True}, {}, "PastRoom")
        for kind in (MAC, SIGNED):
            it = Made(kind, cbor.encode({2: "s"}), long=True)
            table = partial(cose.verify_cwt, cose.KeyTable(it.keys), it.data, now=0, **it.rest)
            self.both(table, {"large": True}, {}, "PastRoom")
        for kind, other in ((MAC, SIGNED), (SIGNED, MAC)):
            untagged = Made(kind, cbor.encode({}), tagged=False).verify_cwt
            self.both(untagged, {"wanted": kind}, {}, "WrongTag")
            tagged = Made(kind, cbor.encode({})).verify_cwt
            self.both(tagged, {}, {"wanted": other}, "WrongTag")
        signed = Made(SIGNED, cbor.encode({})).verify_cwt
        self.both(signed, {}, {"ecdsa": lambda _: False}, "BadAuth")
        self.both(signed, {}, {"ecdsa": None}, "SignatureUnverified")

    def test_large_claims(self) -> None:
        """Claims that nest 12 deep, in a message with short headers."""
        for call in self.tokens(b"\xa1\x18\x64" + b"\x81" * 10 + b"\x80"):
            self.both(call, {"now": 0, "large": True}, {"now": 0}, "TooDeep")

    def test_making(self) -> None:
        """What is made is what Python's hmac makes under the same parameters."""
        for given in ({}, {"aad": b"data"}, {"kid": b"k"}, {"alg": 4}, {"alg": 7}):
            message = cose.make(KEYS, b"hi", **given)  # type: ignore[arg-type]
            aad = given.get("aad", b"")
            found = cose.verify(KEYS, message, aad=aad)  # type: ignore[arg-type]
            self.assertEqual((found.alg, found.payload), (given.get("alg", 5), b"hi"))
            self.assertEqual(b"\x04\x41k" in message, "kid" in given)
            with self.assertRaises(cose.Refused):
                cose.verify(KEYS, message, aad=b"" if aad else b"data")

    def test_used(self) -> None:
        """How many bytes were used: none after the message, the payload and what is made."""
        it = Made(MAC, detached=True)
        with cose.Verifier(KEYS, payload_length=12) as verifier:
            self.assertEqual(verifier.feed_payload(b"what is said"), 0)
            used = verifier.feed(it.data).used
            self.assertEqual(verifier.feed(it.data[used:]).used, 0)
            self.assertEqual(verifier.feed_payload(b"what is said and more"), 12)
            self.assertEqual(verifier.feed_payload(b" and more"), 0)
            self.assertEqual(verifier.feed(it.data[used:] + b"more").used, len(it.data) - used)
            self.assertEqual(verifier.feed(b"more").used, 0)
        maker = cose.Maker(cbor.encode({1: 4, -1: SECRET}), 2, alg=5)
        self.assertEqual((maker.piece(b"hi!"), maker.piece(b"!")), (2, 0))


if __name__ == "__main__":
    unittest.main()
