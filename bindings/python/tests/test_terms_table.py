"""Keys that terms permit, which are read once: what the rows don't ask."""

import threading
import time
import unittest
from typing import Any, Callable, List

import cose
from cose import cbor
from support import EXAMPLES, SECRET, TAG_CWT, mac0, sign1, sign1_parts

KEYS = cbor.encode({1: 4, 3: 5, -1: SECRET})
POINT = cbor.encode({1: 2, 3: -7, -1: 1, -2: b"\x11" * 32, -3: b"\x22" * 32})
NOW = 1444064943
PAYLOAD = cbor.encode({1: "as", 2: "erikw", 3: ["a", "b"], 4: NOW + 1, 6: NOW})
SIGNED = sign1(PAYLOAD, sign1_parts(PAYLOAD, -7)[0], b"\x33" * 64)
SIGN1_KEYS = (EXAMPLES / "sign1_key.cbor").read_bytes()
GENUINE = (EXAMPLES / "sign1.cbor").read_bytes()


class Reading(unittest.TestCase):
    def test_count(self) -> None:
        """A key that isn't permitted takes none of the 64 places."""
        own, other = {1: 4, 3: 5, -1: SECRET}, {1: 4, 3: 6, -1: SECRET}
        table = cose.TermsTable(cbor.encode([other] * 80 + [own]), algorithms=[5])
        self.assertEqual((len(table), str(table)), (1, "<cose.TermsTable of 1 usable keys>"))
        self.assertEqual(table.authenticate(mac0(b"hi")).payload, b"hi")
        self.assertEqual(len(cose.TermsTable(cbor.encode([own] * 64))), 64)
        with self.assertRaises(cose.KeysRefused) as raised:
            cose.TermsTable(cbor.encode([own] * 65))
        self.assertEqual(raised.exception.reason, cose.Reason.BadKeySet)
        self.assertEqual(len(cose.TermsTable(cose.KeyTable(KEYS))), 1)
        self.assertEqual(len(cose.TermsTable(KEYS, least_secret=len(SECRET) + 1)), 0)

    def test_bad_arguments(self) -> None:
        for options in (
            {"algorithms": []},
            {"algorithms": [0]},
            {"understood": [0]},
            {"payload_limit": 0},
            {"least_secret": -1},
            {"aad": b"a" * 65_536},
            {"wanted": 5},
        ):
            with self.subTest(options), self.assertRaises(ValueError):
                cose.TermsTable(KEYS, **options)  # type: ignore[arg-type]
        with self.assertRaises(cose.KeysRefused):
            cose.TermsTable(b"\x80")

    def test_keys_are_kept(self) -> None:
        """The table has the keys and the external data that it was read with."""
        keys, aad = bytearray(KEYS), bytearray(b"data")
        table = cose.TermsTable(keys, aad=aad)
        keys[:], aad[:] = bytes(len(keys)), bytes(len(aad))
        self.assertEqual(table.authenticate(mac0(b"hi", aad=b"data")).payload, b"hi")


class Messages(unittest.TestCase):
    def test_arguments(self) -> None:
        data = mac0(b"hi", aad=b"data", tag=b"")
        table = cose.TermsTable(KEYS, aad=b"data", wanted=cose.Kind.MAC0, payload_limit=2)
        found = table.authenticate(bytearray(data))
        wanted = cose.Message(cose.Kind.MAC0, cose.Algorithm.HMAC_256, b"hi", len(data))
        self.assertEqual((found, found.protected(1)), (wanted, 5))
        for message in (
            mac0(b"hi", tag=b""),
            mac0(b"hi", aad=b"data", detached=True),
            mac0(b"hi!", aad=b"data", tag=b""),
            data + b"\0",
            mac0(b"hi", aad=b"data", tag=b"", kid=b"k" * 2_000),
        ):
            with self.subTest(message), self.assertRaises(cose.Refused):
                table.authenticate(message)
        self.assertEqual(table.authenticate(data).payload, b"hi")

    def test_signature(self) -> None:
        """A signature is asked about once, and its head is the place where it isn't good."""
        table, asked = cose.TermsTable(POINT), []
        found = table.authenticate(SIGNED, ecdsa=lambda it: asked.append(it) is None)
        self.assertEqual((found.payload, len(asked)), (PAYLOAD, 1))
        with self.assertRaises(cose.Refused) as raised:
            table.authenticate(SIGNED, ecdsa=lambda _: False)
        self.assertEqual(raised.exception.reason, cose.Reason.BadAuth)
        self.assertEqual(raised.exception.place, len(SIGNED) - 66)
        with self.assertRaises(cose.SignatureUnverified):
            table.authenticate(SIGNED)


class Tokens(unittest.TestCase):
    def test_arguments(self) -> None:
        options: Any = {"now": NOW, "issuer": "as", "subject": "erikw", "audience": "b"}
        table = cose.TermsTable(KEYS)
        for token in (mac0(PAYLOAD), TAG_CWT + mac0(PAYLOAD)):
            found = table.admit(token, **options, present=["iat"], max_age=1, max_lifetime=2)
            self.assertEqual((found.iss, found.aud, found.payload), ("as", ("a", "b"), PAYLOAD))
        for unmet, name in (
            ({"issuer": "a"}, "ISSUER"),
            ({"subject": "as"}, "SUBJECT"),
            ({"audience": "c"}, "AUDIENCE"),
            ({"present": ["cti"]}, "CTI"),
            ({"now": NOW - 1, "max_lifetime": 1}, "LIFETIME"),
        ):
            with self.subTest(name), self.assertRaises(cose.Unmet) as raised:
                table.admit(mac0(PAYLOAD), **{**options, **unmet})
            self.assertEqual(raised.exception.requirement.name, name)
        with self.assertRaisesRegex(cose.Unmet, "AGE at 0"):
            table.admit(mac0(cbor.encode({4: NOW + 1})), now=NOW, max_age=1)

    def test_signed(self) -> None:
        """A token that is signed is asked about once, and meets the same requirements."""
        table, asked = cose.TermsTable(POINT), []
        found = table.admit(SIGNED, now=NOW, ecdsa=lambda it: asked.append(it) is None)
        self.assertEqual((found.sub, len(asked)), ("erikw", 1))
        with self.assertRaises(cose.Unmet):
            table.admit(SIGNED, now=NOW, issuer="a", ecdsa=lambda _: True)
        with self.assertRaises(cose.Refused):
            table.admit(SIGNED, now=NOW, ecdsa=lambda _: False)
        with self.assertRaises(cose.SignatureUnverified):
            table.admit(SIGNED, now=NOW)
        with self.assertRaises(cose.ClaimsRefused):
            table.admit(SIGNED, now=NOW + 1, ecdsa=lambda _: True)

    def test_expiry(self) -> None:
        """By default the time is that of the machine's clock, and exp has to be there."""
        table, moment = cose.TermsTable(KEYS), int(time.time())
        payload = cbor.encode({4: moment + 1_000})
        self.assertEqual(table.admit(mac0(payload)).exp, moment + 1_000)
        with self.assertRaises(cose.ClaimsRefused):
            table.admit(mac0(cbor.encode({4: moment - 1_000})))
        without = mac0(cbor.encode({1: "as"}))
        self.assertEqual(table.admit(without, now=NOW, without_exp=True).iss, "as")
        with self.assertRaises(cose.Unmet):
            table.admit(without, now=NOW)
        for options in ({"now": 0}, {"issuer": ""}, {"present": ["scope"]}, {"leeway": -1}):
            with self.subTest(options), self.assertRaises(ValueError):
                table.admit(mac0(PAYLOAD), **{"now": NOW, **options})  # type: ignore[arg-type]


class Threads(unittest.TestCase):
    def in_threads(self, count: int, run: Callable[[], Any]) -> None:
        threads = [threading.Thread(target=run) for _ in range(count)]
        for thread in threads:
            thread.start()
        for thread in threads:
            thread.join()

    def test_answers(self) -> None:
        """Each thread is answered about its own message, or its own token."""
        table, found = cose.TermsTable(KEYS), []
        messages = [mac0(b"%d" % it) for it in range(200)]
        tokens = [mac0(cbor.encode({2: str(it), 4: NOW + 1})) for it in range(200)]

        def run() -> None:
            for number, (message, token) in enumerate(zip(messages, tokens)):
                payload, claims = table.authenticate(message).payload, table.admit(token, now=NOW)
                found.append((payload, claims.sub) == (b"%d" % number, str(number)))

        self.in_threads(4, run)
        self.assertEqual(found, [True] * 800)

    def test_signatures(self) -> None:
        """So it is about signatures, while another message's is being verified."""
        table, found = cose.TermsTable(SIGN1_KEYS, without_alg=True), []
        forged = GENUINE.replace(b"This is the content.", b"This is no content.!")
        digests: List[bytes] = []
        table.authenticate(GENUINE, ecdsa=lambda it: digests.append(it.digest) is None)

        def ecdsa(given: cose.SignInput) -> bool:
            time.sleep(0.001)
            return given.digest == digests[0]

        def run() -> None:
            for _ in range(20):
                found.append(table.authenticate(GENUINE, ecdsa=ecdsa).payload)
                try:
                    table.authenticate(forged, ecdsa=ecdsa)
                except cose.Refused as refused:
                    found.append(refused.reason)

        self.in_threads(4, run)
        self.assertEqual(found.count(b"This is the content."), 80)
        self.assertEqual(found.count(cose.Reason.BadAuth), 80)

    def test_reentry(self) -> None:
        """A function that is asked may use the table, whose answer about the first message stands."""
        table = cose.TermsTable(cbor.encode([cbor.decode(KEYS), cbor.decode(POINT)]))
        found: List[Any] = []

        def in_another() -> None:
            found.append(table.admit(SIGNED, now=NOW, ecdsa=lambda _: True).iss)

        def ecdsa(given: cose.SignInput) -> bool:
            found.append(table.authenticate(mac0(b"hi")).payload)
            found.append(table.admit(mac0(PAYLOAD), now=NOW).sub)
            with self.assertRaises(cose.Refused):
                table.authenticate(SIGNED, ecdsa=lambda it: it.digest != given.digest)
            self.in_threads(1, in_another)
            return True

        self.assertEqual(table.authenticate(SIGNED, ecdsa=ecdsa).payload, PAYLOAD)
        self.assertEqual(table.admit(SIGNED, now=NOW, ecdsa=ecdsa).sub, "erikw")
        self.assertEqual(found, [b"hi", "erikw", "as"] * 2)


if __name__ == "__main__":
    unittest.main()
