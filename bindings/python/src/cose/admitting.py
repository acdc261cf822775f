"""Messages and tokens under what a caller states and requires. What isn't stated is safe."""

from __future__ import annotations

import time
from ctypes import byref, sizeof
from typing import Iterable, Optional, Sequence

from . import _library
from ._answers import Ecdsa, fail, is_good
from ._arguments import (
    Algorithm,
    Buffer,
    Kind,
    bytes_of,
    number_of,
    says_signed,
    text_of,
    wanted_of,
)
from ._library import (
    ClaimsStruct,
    RequirementsStruct,
    SignInputStruct,
    Status,
    TermsStruct,
    VerdictStruct,
    small,
)
from .keys import Keys, data_of
from .messages import Message, bad_signature
from .tokens import Claims, claims_of

# what is permitted of keys where no algorithm is stated, and of tokens
_SHORT_MAC, _WITHOUT_ALG, _WITHOUT_EXP = 1, 2, 1
_CLAIMS = ("iss", "sub", "aud", "exp", "nbf", "iat", "cti")
_ROOM = 16


def _listed(values: Iterable[int], name: str, bits: int) -> Sequence[int]:
    """Numbers of so many bits that aren't 0, of which there is room for 16."""
    found = [number_of(it, name, -(2 ** (bits - 1)), 2 ** (bits - 1) - 1) for it in values]
    if len(found) > _ROOM or 0 in found:
        raise ValueError(f"{name} should be at most {_ROOM} numbers, none of them 0")
    return found


def _most(value: Optional[int], name: str, most: int) -> int:
    """A number that is stated, or 0."""
    return 0 if value is None else number_of(value, name, 1, most)


def _named(value: Optional[str], name: str) -> bytes:
    """A text that is stated, or no bytes."""
    if value == "":
        raise ValueError(f"{name} is empty: without one pass None")
    return b"" if value is None else text_of(value, name)


class Terms:
    """What a caller states of messages, as the library has it."""

    def __init__(
        self,
        keys: Keys,
        aad: Buffer,
        wanted: Optional[Kind],
        algorithms: Optional[Iterable[int]],
        least_secret: int,
        short_mac: bool,
        without_alg: bool,
        understood: Iterable[int],
        payload_limit: Optional[int],
    ) -> None:
        data, external = data_of(keys), bytes_of(aad, "aad")
        stated = [] if algorithms is None else _listed(algorithms, "algorithms", 32)
        if algorithms is not None and not stated:
            raise ValueError("algorithms is empty: to state none pass None")
        it = self.struct = TermsStruct()
        it.size, it.kind = sizeof(TermsStruct), wanted_of(wanted)
        it.permitted = _SHORT_MAC * bool(short_mac) + _WITHOUT_ALG * bool(without_alg)
        it.least_secret = number_of(least_secret, "least_secret", 0, 2**64 - 1)
        it.payload_limit = _most(payload_limit, "payload_limit", 2**56 - 1)
        it.keys, it.keys_length, it.aad, it.aad_length = data, len(data), external, len(external)
        for at, number in enumerate(stated):
            it.algorithms[at] = number
        for at, label in enumerate(_listed(understood, "understood", 64)):
            it.understood[at] = label


def terms_of(
    keys: Keys,
    kind: Optional[Kind],
    algorithms: Optional[Iterable[int]],
    least_secret: int,
    short_mac: bool,
    without_alg: bool,
) -> Terms:
    """What a caller states of keys, for messages of one kind, which may be stated later."""
    stated = (algorithms, least_secret, short_mac, without_alg)
    return Terms(keys, b"", kind, *stated, (), None)


def requirements_of(
    now: Optional[int],
    leeway: int,
    issuer: Optional[str],
    subject: Optional[str],
    audience: Optional[str],
    present: Iterable[str],
    max_lifetime: Optional[int],
    max_age: Optional[int],
    without_exp: bool,
) -> RequirementsStruct:
    """What a caller requires of tokens, as the library has it."""
    iss, sub = _named(issuer, "issuer"), _named(subject, "subject")
    aud = _named(audience, "audience")
    flags = 0
    for name in present:
        if name not in _CLAIMS:
            raise ValueError(f"present should be of {', '.join(_CLAIMS)}, and has {name!r}")
        flags |= 1 << _CLAIMS.index(name)
    moment = int(time.time()) if now is None else number_of(now, "now", -(2**63), 2**63 - 1)
    return RequirementsStruct(
        sizeof(RequirementsStruct),
        number_of(leeway, "leeway", 0, 2**32 - 1),
        moment,
        _most(max_lifetime, "max_lifetime", 2**64 - 1),
        _most(max_age, "max_age", 2**64 - 1),
        *(iss, len(iss), sub, len(sub), aud, len(aud)),
        *(flags, _WITHOUT_EXP * bool(without_exp)),
    )


def _message(
    terms: Terms, data: bytes, content: Optional[bytes], ecdsa: Optional[Ecdsa], large: bool
) -> Message:
    calls = _library.large if large else small
    verdict, sign_input = VerdictStruct(), SignInputStruct()
    stated, answers = byref(terms.struct), (byref(verdict), byref(sign_input))
    if content is None:
        calls.edge_authenticate(stated, data, len(data), *answers)
    else:
        calls.edge_authenticate_detached(stated, data, len(data), content, len(content), *answers)
    if verdict.status == Status.SIGNED:
        if not is_good(sign_input, ecdsa):
            raise bad_signature(sign_input)
    elif verdict.status != Status.AUTHENTIC:
        fail(verdict)
    if content is None:
        content = data[verdict.payload_at : verdict.payload_at + verdict.payload_length]
    received = data, terms.struct.kind, large
    return Message(Kind(verdict.kind), Algorithm(verdict.alg), content, verdict.taken, received)


def authenticate(
    keys: Keys,
    message: Buffer,
    *,
    algorithms: Optional[Iterable[int]] = None,
    least_secret: int = 0,
    short_mac: bool = False,
    without_alg: bool = False,
    understood: Iterable[int] = (),
    payload_limit: Optional[int] = None,
    aad: Buffer = b"",
    wanted: Optional[Kind] = None,
    payload: Optional[Buffer] = None,
    ecdsa: Optional[Ecdsa] = None,
    large: bool = False,
) -> Message:
    """Verifies a message as `cose.verify` does, under keys that are safe to use.

    algorithms: those that are allowed: a key has to name one of them as its own.
    least_secret: the fewest bytes of a secret.
    short_mac: where no algorithms are stated, allow HMAC 256/64, which one guess in 2^64 meets.
    without_alg: where none are stated, allow keys that name no algorithm, a secret only with
        short_mac too: the sender chooses its algorithm.
    understood: the labels that crit may list, in addition to the standard's.
    payload_limit: the most bytes of a payload.
    keys, message, aad, wanted, payload, ecdsa, large: as in `cose.verify`.

    Raises what `cose.verify` raises. A key that is left out fits no message.
    """
    data = bytes_of(message, "message")
    content = None if payload is None else bytes_of(payload, "payload")
    terms = Terms(
        keys,
        aad,
        wanted,
        algorithms,
        least_secret,
        short_mac,
        without_alg,
        understood,
        payload_limit,
    )
    return _message(terms, data, content, ecdsa, large)


def claims_under(requirements: RequirementsStruct, payload: bytes, large: bool) -> Claims:
    """The claims of an authentic payload, where they meet the requirements."""
    found, calls = ClaimsStruct(), _library.large if large else small
    calls.edge_admit_claims(byref(requirements), payload, len(payload), byref(found))
    if found.status != Status.AUTHENTIC:
        fail(found)
    return claims_of(payload, bytes(found))


def admit_claims(
    payload: Buffer,
    *,
    now: Optional[int] = None,
    leeway: int = 0,
    issuer: Optional[str] = None,
    subject: Optional[str] = None,
    audience: Optional[str] = None,
    present: Iterable[str] = (),
    max_lifetime: Optional[int] = None,
    max_age: Optional[int] = None,
    without_exp: bool = False,
    large: bool = False,
) -> Claims:
    """The claims of a payload that is known to be authentic, where they meet what is required."""
    data = bytes_of(payload, "payload")
    requirements = requirements_of(
        now, leeway, issuer, subject, audience, present, max_lifetime, max_age, without_exp
    )
    return claims_under(requirements, data, large)


def admit(
    keys: Keys,
    token: Buffer,
    *,
    now: Optional[int] = None,
    leeway: int = 0,
    issuer: Optional[str] = None,
    subject: Optional[str] = None,
    audience: Optional[str] = None,
    present: Iterable[str] = (),
    max_lifetime: Optional[int] = None,
    max_age: Optional[int] = None,
    without_exp: bool = False,
    algorithms: Optional[Iterable[int]] = None,
    least_secret: int = 0,
    short_mac: bool = False,
    without_alg: bool = False,
    understood: Iterable[int] = (),
    payload_limit: Optional[int] = None,
    aad: Buffer = b"",
    wanted: Optional[Kind] = None,
    ecdsa: Optional[Ecdsa] = None,
    large: bool = False,
) -> Claims:
    """Verifies a CBOR Web Token under keys that are safe to use, and returns its claims.

    now: the current time in seconds since 1970; by default that of the machine's clock.
    leeway: how many seconds the clocks may differ by.
    issuer, subject: what iss and sub have to be.
    audience: what one of its audiences has to be. A token that names none doesn't meet it.
    present: the names of claims that have to be there, as "cti".
    max_lifetime: exp is at most so many seconds after now, and after iat where it is there.
    max_age: iat is at most so many seconds before now, and not after it.
    without_exp: admit a token that never expires.
    algorithms to payload_limit, and aad, wanted, ecdsa, large: as in `cose.authenticate`.

    Raises what `cose.verify_cwt` raises, and `Unmet`.
    """
    data = bytes_of(token, "token")
    requirements = requirements_of(
        now, leeway, issuer, subject, audience, present, max_lifetime, max_age, without_exp
    )
    terms = Terms(
        keys,
        aad,
        wanted,
        algorithms,
        least_secret,
        short_mac,
        without_alg,
        understood,
        payload_limit,
    )
    if not says_signed(data):
        found, calls = ClaimsStruct(), _library.large if large else small
        calls.edge_admit(byref(terms.struct), byref(requirements), data, len(data), byref(found))
        if found.status == Status.AUTHENTIC:
            return claims_of(data, bytes(found))
        if found.status != Status.SIGNED:
            fail(found)
    return claims_under(requirements, _message(terms, data, None, ecdsa, large).payload, large)
