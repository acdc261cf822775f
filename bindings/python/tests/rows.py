"""Runs the rows of rows/ through the package, and so through the C interface.

rows/README.md is the schema. The interface has fixed limits: header buckets of 1,024 bytes nested 8
deep, and of 65,535 bytes nested 16 deep in the large size; a CWT tag may come; no label is
understood in addition; payloads have no limit. A group with narrower limits is run too: these can
change an answer only to the reasons that they give, so only rows that expect one of these reasons
are left out. `python rows.py` prints what each file has, what is left out and why, and
`python rows.py NAME` that of one file.
"""

from __future__ import annotations

import collections
import functools
import hashlib
import hmac
import itertools
import json
import pathlib
import sys
from typing import Any, Callable, Counter, Dict, List, NamedTuple, Optional, Tuple

import cose
from row_answers import (
    CUTS,
    KINDS,
    Answer,
    Differs,
    LeftOut,
    Row,
    Signature,
    answer,
    cut,
    equal,
    fed,
    octets,
    plain,
    refusal,
    sizes,
    wanted_claims,
)
from stated_rows import run_checklist, run_terms

ROWS = pathlib.Path(__file__).resolve().parents[3] / "rows"


# ---- messages


def in_one_call(keys: cose.Keys, message: bytes, **options: Any) -> Answer:
    found = cose.verify(keys, message, **options)
    return "authentic", found.kind.name.lower(), int(found.alg), found.payload, found.taken


def good(found: cose.Verdict) -> Answer:
    return "authentic", found.kind.name.lower(), int(found.alg), found.payload_length, found.taken


def decided(verifier: cose.Verifier) -> Answer:
    return good(verifier.verdict())


def expected(result: Row, payload: Any) -> Answer:
    if result["verdict"] != "authentic":
        return refusal(result)
    return "authentic", result["kind"], result["alg"], payload, result["taken"]


def run_whole(keys: Any, message: bytes, options: Row, result: Row) -> None:
    """One call: what decides it, all bytes, and each shorter prefix of an authentic message."""
    call = functools.partial(in_one_call, keys, **options)
    is_good, taken = result["verdict"] == "authentic", result["taken"]
    wanted = expected(result, octets(result, "payload") if is_good else None)
    equal(answer(lambda: call(message[:taken])), wanted, "verify")
    for end in range(taken if is_good else 0):
        truncated = "refused", "Truncated", end
        equal(answer(lambda: call(message[:end])), truncated, f"verify, {end} bytes")
    if len(message) > taken:
        # a byte after the message goes before the question whether its signature is good
        is_whole = is_good or options["ecdsa"].asked
        trailing = "refused", "Trailing", taken
        equal(answer(lambda: call(message)), trailing if is_whole else wanted, "verify, all bytes")


def under(keys: Any) -> str:
    return ", under a table" if isinstance(keys, cose.KeyTable) else ""


def run_pieces(keys: Any, message: bytes, options: Row, result: Row, size: int) -> None:
    came = bytearray()
    with cose.Verifier(keys, **options) as verifier:

        def call() -> Answer:
            fed(verifier, message, size, came)
            return decided(verifier)

        is_good = result["verdict"] == "authentic"
        payload = octets(result, "payload") if is_good else b""
        how = f"Verifier, pieces of {size}{under(keys)}"
        equal(answer(call), expected(result, len(payload)), how)
        equal(verifier.taken, result["taken"], f"{how}, taken")
        if is_good:
            equal(bytes(came), payload, f"{how}, payload")


# ---- messages that are authenticated here, and not by the library

HASHES = {4: "sha256", 5: "sha256", 6: "sha384", 7: "sha512"}
HASHES.update({-7: "sha256", -9: "sha256", -35: "sha384", -51: "sha384", -36: "sha512"})
HASHES[-52] = "sha512"


def stated(verifier: cose.Elsewhere, payload: bytes, ecdsa: Signature, change: str) -> cose.Verdict:
    """The verdict by what is computed here of a message that is complete, or of another one."""
    key, front = verifier.asked_key(), verifier.front()
    assert key is not None and front is not None
    structure = b"".join(front) + payload
    if key.k is None:
        assert key.crv is not None and key.x is not None and key.y is not None
        digest = hashlib.new(HASHES[key.alg], structure).digest()
        signature = verifier.asked_signature()
        assert signature is not None
        holds = ecdsa(cose.SignInput(key.crv, key.x, key.y, digest, signature))
        not_asked(lambda: verifier.verdict_of_mac(digest), "a MAC of a COSE_Sign1")
        return verifier.verdict_of_answer(holds)
    hashed = structure + b"\0" if change == "a MAC of another message" else structure
    mac = hmac.new(key.k, hashed, HASHES[key.alg]).digest()[: 8 if key.alg == 4 else None]
    for other in (b"", mac[:-1], mac + b"\0"):
        not_asked(lambda: verifier.verdict_of_mac(other), f"a MAC of {len(other)} bytes")
    equal(verifier.asked_signature(), None, "asked_signature of a COSE_Mac0")
    not_asked(lambda: verifier.verdict_of_answer(True), "an answer about a COSE_Mac0")
    return verifier.verdict_of_mac(flipped(mac) if change == "another bit" else mac)


def flipped(mac: bytes) -> bytes:
    return mac[:-1] + bytes([mac[-1] ^ 1])


def not_asked(call: Callable[[], object], how: str) -> None:
    """What isn't asked for is no verdict."""
    try:
        call()
    except ValueError:
        return
    raise Differs(f"{how} has a verdict")


def run_elsewhere(
    keys: bytes, test: Row, options: Row, size: int, length: Optional[int] = None, change: str = ""
) -> None:
    """The same as the other door gives, in pieces; where the MAC is changed, no message is authentic."""
    result, message, content = test["result"], octets(test, "message"), bytearray()
    ecdsa = options["ecdsa"]
    rest = {name: value for name, value in options.items() if name != "ecdsa"}
    how, count = f"Elsewhere, pieces of {size}", 0
    with cose.Elsewhere(keys, payload_length=length, **rest) as verifier:

        def call() -> Answer:
            nonlocal count
            used = fed(verifier, message, size, content)[1]
            if length is not None:
                count = feed_payload(verifier, octets(test, "payload"), size)
                content.extend(octets(test, "payload")[:count])
                fed(verifier, message[used:], size, bytearray())
            verifier.end()
            found = stated(verifier, bytes(content), ecdsa, change)
            not_asked(lambda: verifier.verdict_of_mac(b"\0" * 32), "a second MAC")
            not_asked(lambda: verifier.verdict_of_answer(True), "a second answer")
            return good(found)

        seen = answer(call)
        if change:
            is_mac = result["kind"] == "mac0"
            equal(seen[:2] == ("refused", "BadAuth"), is_mac, f"{how}, {change}")
            return
        is_good = result["verdict"] == "authentic"
        payload = octets(result, "payload") if is_good and length is None else b""
        equal(seen, expected(result, len(payload) if length is None else length), how)
        equal(verifier.taken, result["taken"], f"{how}, taken")
        if length is not None:
            equal(count, result["payloadTaken"], f"{how}, taken of the payload")
        elif is_good:
            equal(bytes(content), payload, f"{how}, payload")


def known(verifier: cose.Elsewhere) -> Tuple[Optional[str], Optional[str]]:
    """The structure before the payload, and the key, where they are known."""
    front, key = verifier.front(), verifier.asked_key()
    if front is None or key is None:
        return None, None
    return b"".join(front).hex(), (key.k or key.x or b"").hex()


def said_by(verifier: cose.Elsewhere, test: Row) -> Answer:
    """The answer to what a row states."""
    if "earlier" in test:
        answer(lambda: ("earlier", verifier.verdict_of_mac(octets(test, "earlier"))))
    verifier.asked_signature()
    try:
        if "mac" in test:
            found = verifier.verdict_of_mac(octets(test, "mac"))
        else:
            found = verifier.verdict_of_answer(test["holds"])
    except ValueError:
        return ("none",)
    return good(found)


def run_stated(group: Row, test: Row) -> None:
    """What a caller states of a message after its last byte."""
    result, options = test["result"], {
        "aad": octets(group, "aad"),
        "wanted": KINDS[group["wanted"]],
    }
    wanted = ("none",) if result["verdict"] == "none" else None
    for large, size in itertools.product((False, True), CUTS):
        came, how = bytearray(), f"Elsewhere, large: {large}, pieces of {size}"
        with cose.Elsewhere(octets(group, "keys"), large=large, **options) as verifier:
            answer(lambda: fed(verifier, octets(test, "message"), size, came))
            equal(known(verifier), (test.get("front"), test.get("key")), how)
            seen = answer(lambda: said_by(verifier, test))
            equal(seen, wanted or expected(result, len(came)), how)
            if result["verdict"] != "none":
                equal(verifier.taken, result["taken"], f"{how}, taken")
            if result["verdict"] == "authentic":
                equal(bytes(came), octets(result, "payload"), f"{how}, payload")


def run_message(group: Row, test: Row) -> None:
    result = test["result"]
    for large in sizes(group, result.get("reason")):
        options = {
            "aad": octets(group, "aad"),
            "wanted": KINDS[group["wanted"]],
            "ecdsa": Signature(test),
            "large": large,
        }
        keys, message = octets(group, "keys"), octets(test, "message")
        table = cose.KeyTable(keys)
        for held in [keys] if large else [keys, table]:
            run_whole(held, message, options, result)
        for size in CUTS:
            run_pieces(keys, message, options, result, size)
            run_pieces(table, message, options, result, size)
            run_elsewhere(keys, test, options, size)
        changes = ("another bit", "a MAC of another message")
        for change in changes if result["verdict"] == "authentic" else ():
            run_elsewhere(keys, test, options, 64, change=change)


# ---- detached messages


def feed_payload(verifier: cose.Verifier, payload: bytes, size: int) -> int:
    taken = 0
    for piece in cut(payload, size):
        if verifier.payload_wanted:
            taken += verifier.feed_payload(piece)
    return taken


def run_detached_pieces(
    keys: Any, test: Row, length: int, options: Row, size: int, end: Optional[int] = None
) -> None:
    """A detached message in pieces, or its first `end` bytes."""
    result, message, payload = (
        test["result"],
        octets(test, "message")[:end],
        octets(test, "payload"),
    )
    how, count = f"Verifier, detached, pieces of {size}{under(keys)}", 0
    wanted = expected(result, length) if end is None else ("refused", "Truncated", end)
    with cose.Verifier(keys, payload_length=length, **options) as verifier:

        def call() -> Answer:
            nonlocal count
            used = fed(verifier, message, size, bytearray())[1]
            count = feed_payload(verifier, payload, size)
            fed(verifier, message[used:], size, bytearray())
            return decided(verifier)

        equal(answer(call), wanted, how)
        if end is None:
            equal((verifier.taken, count), (result["taken"], result["payloadTaken"]), how)


def run_detached(group: Row, test: Row) -> None:
    result, length = test["result"], int(group["payloadLength"])
    keys, message, payload = octets(group, "keys"), octets(test, "message"), octets(test, "payload")
    is_good = result["verdict"] == "authentic"
    for large in sizes(group, result.get("reason")):
        options = {
            "aad": octets(group, "aad"),
            "wanted": KINDS[group["wanted"]],
            "ecdsa": Signature(test),
            "large": large,
        }
        for size in CUTS:
            run_detached_pieces(keys, test, length, options, size)
            run_detached_pieces(cose.KeyTable(keys), test, length, options, size)
            run_elsewhere(keys, test, options, size, length)
        for end in range(result["taken"] if is_good else 0):
            run_detached_pieces(keys, test, length, options, 64, end)
        if len(payload) >= length:
            whole, content = message[: result["taken"]], payload[:length]
            call = functools.partial(in_one_call, keys, whole, payload=content, **options)
            equal(answer(call), expected(result, content), "verify, detached")


# ---- shapes


def run_shape(group: Row, test: Row) -> None:
    result, message = test["result"], octets(test, "message")
    if False not in sizes(group, result.get("reason")):
        raise LeftOut("its limits of headers are others")

    def call() -> Answer:
        found = cose.shape(message[: result["taken"]], wanted=KINDS[group["wanted"]])
        return found.kind.name.lower(), found.payload_length, found.auth_length, found.taken

    if result["verdict"] == "shape":
        wanted: Answer = tuple(result[name] for name in ("kind", "payload", "auth", "taken"))
    else:
        wanted = refusal(result)
    equal(answer(call), wanted, "shape")


# ---- tokens


def policy_of(group: Row) -> Row:
    audiences = group.get("audience")
    if audiences is not None and len(audiences) != 1:
        raise LeftOut("the policy has no audience or several")
    audience = audiences[0] if audiences else None
    return {"now": int(group["now"]), "leeway": group["leeway"], "audience": audience}


def run_token(group: Row, test: Row) -> None:
    result, token, keys = test["result"], octets(test, "token"), octets(group, "keys")
    policy = policy_of(group)
    reason = result.get("reason")
    for large in sizes(group, reason):
        options = {"aad": octets(group, "aad"), "wanted": KINDS[group["wanted"]], "large": large}
        held = [keys] if large else [keys, cose.KeyTable(keys)]
        for ecdsa in (Signature(test), None):
            for key_set in held:
                run_token_under(key_set, token, {**policy, **options, "ecdsa": ecdsa}, result)


def run_token_under(keys: Any, token: bytes, options: Row, result: Row) -> None:
    def call(data: bytes) -> Answer:
        return "admitted", plain(cose.verify_cwt(keys, data, **options))

    taken = result.get("taken", len(token))
    if result["verdict"] == "admitted":
        wanted: Answer = "admitted", wanted_claims(result["claims"])
    else:
        wanted = refusal(result, result["verdict"].replace(" message", ""))
    try:
        seen = answer(lambda: call(token[:taken]))
        if seen[:2] == ("refused", "Trailing") and result["verdict"] == "refused claims":
            # the row doesn't say how long its token is, after which bytes follow
            seen = answer(lambda: call(token[: seen[2]]))
        equal(seen, wanted, "verify_cwt")
    except cose.SignatureUnverified:
        equal(options["ecdsa"], None, "verify_cwt, without ecdsa")
        return
    for end in range(taken if result["verdict"] == "admitted" else 0):
        truncated = "refused", "Truncated", end
        equal(answer(lambda: call(token[:end])), truncated, f"verify_cwt, {end} bytes")
    if len(token) > taken:
        equal(answer(lambda: call(token)), ("refused", "Trailing", taken), "verify_cwt, all bytes")


def moment_for(said: Row) -> int:
    """A time at which claims are admitted, since the interface reads none without a time."""
    least, most = int(said.get("nbf", -(2**63))), int(said.get("exp", 2**63)) - 1
    least, most = max(least, -(2**63)), min(most, 2**63 - 1)
    if least > most:
        raise LeftOut("there is no time at which it is admitted")
    return min(max(0, least), most)


def run_claims(group: Row, test: Row) -> None:
    result, payload = test["result"], octets(test, "payload")
    if "now" in group:
        policy = policy_of(group)
    else:
        policy = {"now": moment_for(result["claims"]) if "claims" in result else 0}
    for large in sizes(group, result.get("reason")):

        def call() -> Answer:
            return "claims", plain(cose.claims(payload, large=large, **policy))

        if result["verdict"] == "claims":
            wanted: Answer = "claims", wanted_claims(result["claims"])
        else:
            wanted = refusal(result, "refused claims")
        equal(answer(call), wanted, "claims")


# ---- keys

# what a set is refused for; a key in it that is refused for another reason isn't usable
SET_REASONS = ("Reserved", "Indefinite", "BadSimple", "TooDeep", "PastRoom", "Trailing")


def count(read: Callable[[bytes], int], keys: bytes) -> Answer:
    """How many keys are usable."""
    try:
        return "set", read(keys)
    except cose.KeysRefused as refused:
        return "refused", refused.reason.name, refused.place


def count_in_table(keys: bytes) -> int:
    return len(cose.KeyTable(keys))


def run_key(group: Row, test: Row) -> None:
    result, key = test["result"], octets(test, "key")
    reason = result.get("reason")
    if reason == "NotMap":
        raise LeftOut("no map: as a key set it is another thing")
    if len(key) > 65_535:
        raise LeftOut("longer than a key set")
    if reason in SET_REASONS:
        wanted: Answer = "refused", reason, result["place"] - group["place"]
    else:
        wanted = "set", int(result["verdict"] == "key")
    equal(count(cose.count_keys, key), wanted, "count_keys")
    equal(count(count_in_table, key), wanted, "KeyTable")


def run_set(group: Row, test: Row) -> None:
    result, keys = test["result"], octets(test, "set")
    wanted = ("set", result["usable"]) if result["verdict"] == "set" else refusal(result)
    if "table" not in group:
        equal(count(cose.count_keys, keys), wanted, "count_keys")
    if group.get("table", 64) < 64 and result.get("reason") == "BadKeySet":
        raise LeftOut("the table's size is the reason")
    if result.get("usable", 0) <= 64:
        equal(count(count_in_table, keys), wanted, "KeyTable")


# ---- messages that are made


def run_made(group: Row, test: Row) -> None:
    result, payload, length = test["result"], octets(test, "payload"), int(test["payloadLength"])
    if test.get("kid") == "":
        raise LeftOut("an empty key identifier is none")
    message = octets(result, "message")
    for size in (1, 64):
        made, left = bytearray(), len(payload)
        try:
            maker = cose.Maker(
                octets(group, "key"),
                length,
                alg=test["alg"],
                kid=octets(test, "kid") if "kid" in test else b"",
                aad=octets(test, "aad"),
            )
            made += maker.head
            for piece in cut(payload, size):
                used = maker.piece(piece)
                made += piece[:used]
                left -= used
            made += maker.end()
            fault = None
        except (ValueError, cose.KeysRefused) as error:
            fault = error
        equal(
            (fault is not None), result["verdict"] == "fault", f"Maker, pieces of {size}: {fault}"
        )
        equal((bytes(made), left), (message, result["left"]), f"Maker, pieces of {size}")


def run_signed(group: Row, test: Row) -> None:
    result, payload, length = test["result"], octets(test, "payload"), int(test["payloadLength"])
    if test.get("kid") == "":
        raise LeftOut("an empty key identifier is none")
    message, digest = octets(result, "message"), bytes.fromhex(result.get("digest", ""))
    for size in (1, 64):
        made, asked, left = bytearray(), b"", len(payload)
        try:
            maker = cose.Sign1Maker(
                length,
                alg=test["alg"],
                kid=octets(test, "kid") if "kid" in test else b"",
                aad=octets(test, "aad"),
            )
            made += maker.head
            for piece in cut(payload, size):
                used = maker.piece(piece)
                made += piece[:used]
                left -= used
            asked = maker.digest()
            made += maker.end(octets(test, "signature"))
            fault = None
        except ValueError as error:
            fault = error
        equal(
            (fault is not None),
            result["verdict"] == "fault",
            f"Sign1Maker, pieces of {size}: {fault}",
        )
        equal((bytes(made), left), (message, result["left"]), f"Sign1Maker, pieces of {size}")
        if fault is None:
            equal(asked, digest, f"the digest, pieces of {size}")


# ---- EdDSA


class EddsaSignature:
    """What a row says of its signature; anything else that is asked about isn't good."""

    def __init__(self, test: Row) -> None:
        names = ("x", "structure", "signature")
        self.asked = tuple(octets(test, name) for name in names) if "holds" in test else None
        self.holds = test.get("holds", False)
        self.alg = 0

    def __call__(self, given: cose.EddsaInput) -> bool:
        self.alg = given.alg
        equal((given.x, given.structure, given.signature), self.asked, "what is asked")
        return self.holds


def is_followed(test: Row, place: int) -> bool:
    """Whether a byte follows the signature, whose head of two bytes is at this place."""
    return len(octets(test, "message")) > place + 2 + len(octets(test, "signature"))


def run_eddsa(group: Row, test: Row) -> None:
    result = test["result"]
    if False not in sizes(group, result.get("reason")):
        raise LeftOut("its limits of headers are others")
    if result.get("reason") == "BadAuth" and is_followed(test, result["place"]):
        raise LeftOut("a byte after the message is refused before its signature is asked about")
    said = EddsaSignature(test)
    found = answer(
        lambda: (
            cose.verify_eddsa(
                octets(group, "keys"),
                octets(test, "message"),
                said,
                aad=octets(group, "aad"),
                wanted=KINDS[group["wanted"]],
                payload=octets(test, "payload") if "payload" in test else None,
            ),
            said.alg,
        )
    )
    is_good = result["verdict"] == "authentic"
    wanted = (octets(result, "payload"), result["alg"]) if is_good else refusal(result)
    equal(found, wanted, "verify_eddsa")


RUNNERS: Dict[str, Callable[[Row, Row], None]] = {
    "messages": run_message,
    "further_messages": run_eddsa,
    "detached": run_detached,
    "elsewhere": run_stated,
    "shapes": run_shape,
    "tokens": run_token,
    "claims": run_claims,
    "terms": run_terms,
    "checklist": run_checklist,
    "keys": run_key,
    "sets": run_set,
    "made": run_made,
    "signed": run_signed,
}


class Counts(NamedTuple):
    """What became of the rows of a file."""

    rows: int
    differ: List[str]
    left_out: Counter[str]

    def line(self, schema: str) -> str:
        left = sum(self.left_out.values())
        why = "; ".join(f"{it}: {number}" for it, number in sorted(self.left_out.items()))
        run = self.rows - left
        text = f"{schema}: {self.rows} rows, {run} run, {left} left out, {len(self.differ)} differ"
        return f"{text} ({why})" if why else text


def run_file(schema: str) -> Counts:
    """Runs the rows of a file."""
    counts = Counts(0, [], collections.Counter())
    rows = 0
    for group in json.loads((ROWS / f"{schema}.json").read_text())["testGroups"]:
        for test in group["tests"]:
            rows += 1
            try:
                RUNNERS[schema](group, test)
            except LeftOut as left_out:
                counts.left_out[str(left_out)] += 1
            except Differs as difference:
                counts.differ.append(f"{schema} {test['tcId']}, {test['comment']}: {difference}")
    return counts._replace(rows=rows)


def main() -> int:
    differ = 0
    for schema in sys.argv[1:] or RUNNERS:
        counts = run_file(schema)
        differ += len(counts.differ)
        print("\n".join([*counts.differ, counts.line(schema)]))
    return int(differ > 0)


if __name__ == "__main__":
    sys.exit(main())
