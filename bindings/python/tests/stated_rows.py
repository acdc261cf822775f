"""The rows of tokens under terms and requirements, those of SECURITY's checklist among them."""

from __future__ import annotations

import collections
from typing import Counter, List, Optional, Tuple

import cose
from cose import cbor
from row_answers import (
    CUTS,
    KINDS,
    SIZES,
    Answer,
    Row,
    Signature,
    answer,
    equal,
    fed,
    octets,
    plain,
    refusal,
    wanted_claims,
)

# how many rows of each file went through a table too, and were asked for their key
through_table: Counter[str] = collections.Counter()
asked_for_key: Counter[str] = collections.Counter()

# ---- tokens under terms and requirements


def terms_of(group: Row) -> Row:
    """What a group states of messages and requires of tokens, as arguments."""
    numbers = {"lifetime": "max_lifetime", "age": "max_age"}
    names = {"iss": "issuer", "sub": "subject", "aud": "audience"}
    plainly = {"leastSecret": "least_secret", "shortMac": "short_mac", "withoutAlg": "without_alg"}
    plainly.update({"withoutExp": "without_exp", "payloadLimit": "payload_limit"})
    found = {to: group[it] for it, to in {**names, **plainly}.items() if it in group}
    found.update((to, int(group[it])) for it, to in numbers.items() if it in group)
    same = ("algorithms", "present", "leeway", "understood")
    found.update((it, group[it]) for it in same if it in group)
    found.update(now=int(group["now"]), aad=octets(group, "aad"), wanted=KINDS[group["wanted"]])
    return found


# those of keys, and of messages
_OF_KEYS = ("algorithms", "least_secret", "short_mac", "without_alg")
_STATED = (*_OF_KEYS, "understood", "payload_limit")


def parted(given: Row) -> Tuple[Row, Row]:
    """What is stated of messages, and what is required of tokens."""
    messages = {it: given[it] for it in (*_STATED, "aad", "wanted") if it in given}
    return messages, {it: given[it] for it in given if it not in messages}


def unmet_of(result: Row) -> Answer:
    name = result.get("claim", result["requirement"])
    return "unmet", name.upper(), result["place"]


def run_terms(group: Row, test: Row) -> None:
    result, token, keys = test["result"], octets(test, "token"), octets(group, "keys")
    given = terms_of(group)
    if result["verdict"] == "admitted":
        wanted: Answer = "admitted", wanted_claims(result["claims"])
    elif result["verdict"] == "unmet":
        wanted = unmet_of(result)
    else:
        wanted = refusal(result, result["verdict"].replace(" message", ""))
    messages, of_tokens = parted(given)
    for large in SIZES:
        for held in (keys, cose.KeyTable(keys)):

            def call() -> Answer:
                return "admitted", plain(cose.admit(held, token, large=large, **given))

            equal(answer(call), wanted, "admit")

        def in_two() -> Answer:
            payload = cose.authenticate(keys, token, large=large, **messages).payload
            return "admitted", plain(cose.admit_claims(payload, large=large, **of_tokens))

        equal(answer(in_two), wanted, "authenticate and admit_claims")
        if result.get("reason") != "Trailing" and not given.get("understood"):
            for size in CUTS:
                terms = {**messages, "large": large}
                run_terms_in_pieces(keys, token, wanted, terms, of_tokens, size)
    run_terms_in_table(keys, token, wanted, messages, of_tokens)
    run_terms_key(keys, token, result, messages)


def keys_of(
    keys: bytes, token: bytes, large: bool, messages: Row
) -> List[Optional[cose.ChosenKey]]:
    """The key of a token in memory, and of one that is fed."""
    stated = {it: messages[it] for it in _OF_KEYS if it in messages}
    with cose.Verifier(keys, large=large) as verifier:
        # without the terms more keys may fit, and the message is refused after its headers
        answer(lambda: fed(verifier, token, 7, bytearray()))
        found = verifier.key_of(keys, wanted=cose.Kind.MAC0, **stated)
    return [cose.key_of(keys, token, large=large, **stated), found]


def run_terms_key(keys: bytes, token: bytes, result: Row, messages: Row) -> None:
    """The key of a token, where one fits: alone it authenticates the token."""
    fits = result["verdict"] != "refused message"
    if messages.get("understood") or not fits and result["reason"] != "NoKey":
        return
    for large in SIZES:
        for key in keys_of(keys, token, large, messages):
            equal(key is not None, fits, "key_of")
            if key:
                alone = keys[key.place : cbor.end_of_item(keys, key.place)]
                equal(cbor.decode(alone).get(2), key.kid, "key_of, kid")
                taken = cose.authenticate(alone, token, large=large, **messages).taken
                equal(taken, len(token), "authenticate by the key of key_of")
    asked_for_key["terms"] += 1


def run_terms_in_table(
    keys: bytes, token: bytes, wanted: Answer, messages: Row, of_tokens: Row
) -> None:
    """A token under a table that is read once: no call changes it."""
    table = cose.TermsTable(keys, **messages)

    def call() -> Answer:
        return "admitted", plain(table.admit(token, **of_tokens))

    def in_two() -> Answer:
        payload = table.authenticate(token).payload
        return "admitted", plain(cose.admit_claims(payload, **of_tokens))

    for _ in range(2):
        equal(answer(call), wanted, "TermsTable.admit")
        equal(answer(in_two), wanted, "TermsTable.authenticate")
    through_table["terms"] += 1


def run_terms_in_pieces(
    keys: bytes, token: bytes, wanted: Answer, terms: Row, of_tokens: Row, size: int
) -> None:
    """A token that is fed, under the terms of a row; then its claims under the requirements."""
    stated = {it: terms[it] for it in terms if it != "understood"}

    def call() -> Answer:
        came = bytearray()
        with cose.Verifier.under(keys, **stated) as verifier:
            fed(verifier, token, size, came)
            verifier.verdict()
        claims = cose.admit_claims(bytes(came), large=terms["large"], **of_tokens)
        return "admitted", plain(claims)

    equal(answer(call), wanted, f"Verifier.under, pieces of {size}")


# ---- the lines of SECURITY's checklist


def has_parameters(group: Row, message: cose.Message) -> bool:
    """Whether the buckets have the parameters without which the caller drops the message."""
    read = {"protected": message.protected, "unprotected": message.unprotected}
    for bucket, label in ((it, label) for it in read for label in group.get(it, ())):
        try:
            read[bucket](label)
        except KeyError:
            return False
    return True


def checked(group: Row, test: Row, keys: cose.Keys, large: bool) -> Answer:
    """What a caller who follows the checklist makes of a message: the safe calls, with what it states."""
    token, (messages, of_tokens) = octets(test, "token"), parted(terms_of(group))
    messages.update(ecdsa=Signature(test), large=large)
    if "payload" in test:
        cose.authenticate(keys, token, payload=octets(test, "payload"), **messages)
        return ("accepted",)
    cose.admit(keys, token, **of_tokens, **messages)
    found = cose.authenticate(keys, token, **messages)
    return ("accepted",) if has_parameters(group, found) else ("dropped",)


def checked_in_table(group: Row, test: Row, keys: bytes) -> Answer:
    """The same by a table, which has no call for a detached payload."""
    token, (messages, of_tokens) = octets(test, "token"), parted(terms_of(group))
    table, ecdsa = cose.TermsTable(keys, **messages), Signature(test)
    table.admit(token, **of_tokens, ecdsa=ecdsa)
    found = table.authenticate(token, ecdsa=ecdsa)
    return ("accepted",) if has_parameters(group, found) else ("dropped",)


def run_checklist(group: Row, test: Row) -> None:
    result, keys = test["result"], octets(group, "keys")
    if result["verdict"] == "unmet":
        wanted = unmet_of(result)
    elif "reason" in result:
        wanted = refusal(result, result["verdict"].replace(" message", ""))
    else:
        wanted = (result["verdict"],)
    for large in SIZES:
        if large and result.get("reason") == "PastRoom":
            continue
        for held in (keys, cose.KeyTable(keys)):
            seen = answer(lambda: checked(group, test, held, large))
            equal(seen, wanted, f"line {group['line']}")
    if "payload" not in test:
        seen = answer(lambda: checked_in_table(group, test, keys))
        equal(seen, wanted, f"line {group['line']}, TermsTable")
        through_table["checklist"] += 1
