"""Claims and header parameters of any label as Python's own types: the cases of bindings/items.json."""

import functools
import json
import math
import struct
import unittest
from typing import Any

import cose
from cose import cbor
from support import KEYS, REPOSITORY, mac0

CASES = json.loads((REPOSITORY / "bindings" / "items.json").read_text())
JEFE = cbor.encode({1: 4, -1: b"Jefe"})
# under terms that leave no key out
ANY_KEY = functools.partial(cose.authenticate, short_mac=True, without_alg=True)
SIMPLE = {20: False, 21: True, 22: None}


def value_of(case: Any) -> Any:
    """The value that a case describes."""
    if "integer" in case:
        return int(case["integer"])
    if "float" in case:
        return float(case["float"])
    if "bytes" in case:
        return bytes.fromhex(case["bytes"])
    if "text" in case:
        return case["text"]
    if "array" in case:
        return [value_of(it) for it in case["array"]]
    if "map" in case:
        return {value_of(name): value_of(it) for name, it in case["map"]}
    if "tag" in case:
        return cbor.Tagged(case["tag"], value_of(case["value"]))
    return SIMPLE.get(case["simple"], cbor.Simple(case["simple"]))


class AnyClaim(unittest.TestCase):
    def setUp(self) -> None:
        payload = bytes.fromhex(CASES["claims"]["payload"])
        self.claims = cose.verify_cwt(KEYS, mac0(payload), now=0)

    def test_each_label(self) -> None:
        for row in CASES["claims"]["rows"]:
            with self.subTest(row=row):
                self.assertEqual(self.claims.value(value_of(row["label"])), value_of(row["value"]))

    def test_labels(self) -> None:
        wanted = [value_of(it["label"]) for it in CASES["claims"]["rows"]]
        self.assertEqual(list(self.claims.labels()), wanted)

    def test_absent(self) -> None:
        for label in map(value_of, CASES["claims"]["absent"]):
            with self.subTest(label=label), self.assertRaises(KeyError):
                self.claims.value(label)

    def test_no_label(self) -> None:
        for label in (2**63, -(2**63) - 1):
            with self.subTest(label=label), self.assertRaises(ValueError):
                self.claims.value(label)

    def test_maps_that_no_dict_can_be(self) -> None:
        """Within a value the library compares no labels. A key twice, an array, 1 and 1.0, 1 and true."""
        for value in ("a201010102", "a1800f", "a2010af93c000b", "a2010af50b"):
            claims = cose.claims(bytes.fromhex("a11909c4" + value), now=0)
            with self.subTest(value=value):
                self.assertEqual(claims.labels(), (2500,))
                with self.assertRaises(ValueError):
                    claims.value(2500)


class Parameters(unittest.TestCase):
    def test_each_bucket(self) -> None:
        case = CASES["parameters"]
        data = bytes.fromhex(case["message"])
        for keys, large in ((JEFE, False), (JEFE, True), (cose.KeyTable(JEFE), False)):
            message = cose.verify(keys, data, large=large)
            gets = {"protected": message.protected, "unprotected": message.unprotected}
            for bucket, get in gets.items():
                for row in case[bucket]:
                    with self.subTest(row=row, large=large):
                        self.assertEqual(get(value_of(row["label"])), value_of(row["value"]))
                other = case["unprotected" if bucket == "protected" else "protected"]
                for label in [*(it["label"] for it in other), *case["absent"]]:
                    with self.subTest(label=label, bucket=bucket), self.assertRaises(KeyError):
                        get(value_of(label))

    def test_a_message_in_pieces(self) -> None:
        case = CASES["parameters"]
        data = bytes.fromhex(case["message"])
        for large in (False, True):
            with cose.Verifier(JEFE, large=large) as verifier:
                with self.assertRaises(KeyError):
                    verifier.protected(4)
                for at in range(len(data)):
                    verifier.feed(data[at : at + 1])
                verifier.verdict()
                gets = {"protected": verifier.protected, "unprotected": verifier.unprotected}
                for bucket, get in gets.items():
                    for row in case[bucket]:
                        self.assertEqual(get(value_of(row["label"])), value_of(row["value"]))
                    other = case["unprotected" if bucket == "protected" else "protected"]
                    for label in [*(it["label"] for it in other), *case["absent"]]:
                        with self.assertRaises(KeyError):
                            get(value_of(label))

    def test_labels(self) -> None:
        message = cose.verify(JEFE, bytes.fromhex(CASES["parameters"]["message"]))
        self.assertEqual(message.protected(cose.Label.KID), b"key one")
        self.assertEqual(message.protected(cose.Label.CONTENT_TYPE), "application/cwt")
        self.assertEqual(len(message.protected(cose.Label.X5CHAIN)), 2)
        self.assertEqual(message.unprotected(cose.Label.IV), b"\x01\x02\x03")
        self.assertEqual(message.unprotected(cose.Label.X5T)[0], -16)

    def test_untagged(self) -> None:
        data = bytes.fromhex(CASES["parameters"]["message"])[1:]
        for call in (cose.verify, ANY_KEY):
            message = call(JEFE, data, wanted=cose.Kind.MAC0)
            self.assertEqual(message.protected(4), b"key one")

    def test_large_header(self) -> None:
        kid = bytes(1_100)
        data = mac0(b"hi", kid=kid)
        for call in (cose.verify, ANY_KEY):
            self.assertEqual(call(KEYS, data, large=True).unprotected(4), kid)
        with cose.Verifier(KEYS, large=True) as verifier:
            verifier.feed(data)
            self.assertEqual(verifier.unprotected(4), kid)


class Decoding(unittest.TestCase):
    def test_examples(self) -> None:
        for row in CASES["items"]["rows"]:
            with self.subTest(row=row):
                found, wanted = cbor.decode(bytes.fromhex(row["bytes"])), value_of(row["value"])
                self.assertIs(type(found), type(wanted))
                if isinstance(wanted, float):
                    if not math.isnan(wanted):
                        self.assertEqual(struct.pack(">d", found), struct.pack(">d", wanted))
                    self.assertEqual(math.isnan(found), math.isnan(wanted))
                else:
                    self.assertEqual(found, wanted)

    def test_refused(self) -> None:
        for data in map(bytes.fromhex, CASES["refused"]["rows"]):
            with self.subTest(data=data.hex()), self.assertRaises(ValueError):
                cbor.decode(data)
