"""What the runners of rows have in common: what a row gives and expects, and what is answered."""

from __future__ import annotations

from typing import Any, Callable, Dict, Iterator, List, Optional, Tuple

import cose

CUTS = (1, 2, 7, 64, 65_536)
KINDS = {"tagged": None, "mac0": cose.Kind.MAC0, "sign1": cose.Kind.SIGN1}
SIZES = {False: (1_024, 8), True: (65_535, 16)}

Row = Dict[str, Any]


class LeftOut(Exception):
    """A row that the interface can't ask, and why."""


class Differs(Exception):
    """A row that is answered otherwise."""


def octets(row: Row, name: str) -> bytes:
    return bytes.fromhex(row[name])


def equal(seen: Any, wanted: Any, how: str) -> None:
    if seen != wanted:
        raise Differs(f"{how}: {seen}, and not {wanted}")


def sizes(group: Row, reason: Optional[str]) -> List[bool]:
    """The sizes (whether large) that answer a row of a group as its own limits do."""
    if group.get("understood"):
        raise LeftOut("labels are understood")
    if reason == "PayloadTooLong" and "payloadLimit" in group:
        raise LeftOut("its limit of the payload is the reason")
    if reason == "WrongTag" and group.get("cwt") is False:
        raise LeftOut("no CWT tag may come")
    found = []
    for large, (header, nesting) in SIZES.items():
        if group.get("headerLimit", header) > header or group["nesting"] > nesting:
            continue
        if reason == "PastRoom" and group.get("headerLimit", header) < header:
            continue
        if reason == "TooDeep" and group["nesting"] < nesting:
            continue
        found.append(large)
    if not found:
        raise LeftOut("its limits of headers are others")
    return found


class Signature:
    """What a row says of its signature: asked about anything else, it says the contrary."""

    def __init__(self, test: Row) -> None:
        said = test.get("signature")
        self.asked = said and (octets(said, "digest"), octets(said, "signature"))
        self.holds = bool(said) and said["holds"]

    def __call__(self, given: cose.SignInput) -> bool:
        is_asked = self.asked == (given.digest, given.signature)
        return self.holds if is_asked else bool(self.asked) and not self.holds


Answer = Tuple[Any, ...]


def answer(call: Callable[[], Answer]) -> Answer:
    """What a call answers: what it returns, or its refusal, or which requirement isn't met."""
    try:
        return call()
    except cose.Unmet as unmet:
        return "unmet", unmet.requirement.name, unmet.place
    except cose.Refused as refused:
        verdict = "refused claims" if isinstance(refused, cose.ClaimsRefused) else "refused"
        return verdict, refused.reason.name, refused.place


def refusal(result: Row, verdict: str = "refused") -> Answer:
    return verdict, result["reason"], result["place"]


def cut(data: bytes, size: int) -> Iterator[bytes]:
    return (data[at : at + size] for at in range(0, len(data), size))


def fed(verifier: cose.Verifier, message: bytes, size: int, came: bytearray) -> Answer:
    """Feeds a message in pieces, up to its payload where that is detached."""
    used = 0
    for piece in cut(message, size):
        taken = verifier.feed(piece)
        came += taken.payload
        used += taken.used
        if taken.status == cose.Status.PAYLOAD_NEXT:
            break
    return ("used", used)


def plain_key(key: Optional[cose.ConfirmationKey]) -> Row:
    if key is None:
        return {}
    y = key.y if isinstance(key.y, bool) else key.y.hex()
    return {"key": {"curve": key.crv, "x": key.x.hex(), "y": y}}


def plain(claims: cose.Claims) -> Row:
    """Claims as rows have them."""
    found: Row = {name: getattr(claims, name) for name in ("iss", "sub")}
    found.update((name, getattr(claims, name)) for name in ("exp", "nbf", "iat"))
    found["cti"] = claims.cti and claims.cti.hex() if claims.cti else claims.cti
    found["aud"] = list(claims.aud) or None
    if claims.cnf is not None:
        kid = {} if claims.cnf.kid is None else {"kid": claims.cnf.kid.hex()}
        found["cnf"] = {**kid, **plain_key(claims.cnf.key)}
    found = {name: it for name, it in found.items() if it is not None}
    return {name: "" if it == b"" else it for name, it in found.items()}


def wanted_claims(said: Row) -> Row:
    """The claims of a row, as far as the interface gives them: of a confirmed key its point."""
    wanted = dict(said)
    for name in ("exp", "nbf", "iat"):
        if name in wanted:
            wanted[name] = int(wanted[name])
    if "cnf" in wanted:
        cnf = dict(wanted.pop("cnf"))
        if "key" in cnf:
            cnf["key"] = {name: cnf["key"][name] for name in ("curve", "x", "y")}
        if cnf:
            wanted["cnf"] = cnf
    return wanted
