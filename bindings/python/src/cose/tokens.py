"""CBOR Web Tokens (RFC 8392)."""

from __future__ import annotations

import time
from ctypes import byref
from dataclasses import dataclass
from functools import partial
from typing import Any, Dict, Optional, Tuple, Union, cast

from . import _calls, _library, cbor
from ._answers import Ecdsa, fail
from ._arguments import Buffer, Kind, bytes_of, number_of, says_signed, text_of
from ._fields import AT, PAYLOAD, Field, Found, Reader, bytes_in, pair_at, range_of
from ._library import ClaimsStruct, ItemStruct, PolicyStruct, Status, small
from .keys import Keys, KeyTable, data_of
from .messages import verify


@dataclass(frozen=True)
class ConfirmationKey:
    """The point of a confirmation key (RFC 8747 section 3.2); y is a boolean if compressed."""

    crv: int
    x: bytes
    y: Union[bytes, bool]

    def cose_key(self) -> bytes:
        """The key as a COSE_Key, under which messages of the token's presenter are verified."""
        return cbor.encode({1: 2, -1: self.crv, -2: self.x, -3: self.y})


@dataclass(frozen=True)
class Confirmation:
    """What the presenter of a token has to prove the possession of (RFC 8747)."""

    kid: Optional[bytes] = None
    key: Optional[ConfirmationKey] = None


_set = object.__setattr__
_CNF_CRV, _CNF_Y_SIGN = AT["cnf_crv"], AT["cnf_y_sign"]


def _texts(payload: bytes, at: int, length: int, count: int) -> Tuple[str, ...]:
    """So many text strings, one after the other, of which the first has its bytes at this place.

    The library has read them: each has a head with its length (RFC 8949 section 3), and is UTF-8.
    """
    if count == 0:
        return ()
    end = at + length
    found = [payload[at:end].decode()]
    append = found.append
    for _ in range(count - 1):
        at, length = end + 1, payload[end] & 31
        if length >= 24:
            at += 1 << (length - 24)
            length = int.from_bytes(payload[end + 1 : at], "big")
        end = at + length
        append(payload[at:end].decode() if length else "")
    return tuple(found)


def _audience(read: Reader, claims: Found) -> Tuple[str, ...]:
    found = claims._found
    begin, at, length, _ = read(found, PAYLOAD)
    return _texts(claims._token, begin + at, length, pair_at(found, AT["aud_count"])[0])


_cnf_kid, _cnf_x, _cnf_y = (range_of(it) for it in ("cnf_kid", "cnf_x", "cnf_y"))


def _confirmation(claims: Found) -> Optional[Confirmation]:
    kid, crv, key = bytes_in(_cnf_kid, claims), claims._found[_CNF_CRV], None
    if crv:
        x, y_sign = bytes_in(_cnf_x, claims) or b"", claims._found[_CNF_Y_SIGN]
        y: Union[bytes, bool] = y_sign == 2 if y_sign else bytes_in(_cnf_y, claims) or b""
        key = ConfirmationKey(crv, x, y)
    return None if kid is None and key is None else Confirmation(kid, key)


def _item_at(payload: bytes, place: int) -> ItemStruct:
    """The item at a place of claims that were read."""
    found = ItemStruct()
    small.edge_item_at(payload, len(payload), place, byref(found))
    return found


@dataclass(frozen=True)
class Claims(_calls.Found):
    """The claims of an admitted token; those that aren't there are None, or no audience.

    `payload` has all claims, those too that have no name here, as CBOR. What a token says is decoded
    field by field, when it is read first.
    """

    payload: bytes = cast(Any, _calls.field("payload"))
    iss: Optional[str] = cast(Any, _calls.field("iss"))
    sub: Optional[str] = cast(Any, _calls.field("sub"))
    aud: Tuple[str, ...] = cast(Any, Field(partial(_audience, range_of("aud")), ()))
    exp: Optional[int] = cast(Any, _calls.field("exp"))
    nbf: Optional[int] = cast(Any, _calls.field("nbf"))
    iat: Optional[int] = cast(Any, _calls.field("iat"))
    cti: Optional[bytes] = cast(Any, _calls.field("cti"))
    cnf: Optional[Confirmation] = cast(Any, Field(_confirmation, None))

    def __getstate__(self) -> Dict[str, Any]:
        return {**vars(self), "_token": self._token, "_found": self._found}

    def __setstate__(self, state: Dict[str, Any]) -> None:
        for name, value in state.items():
            _set(self, name, value)

    def value(self, label: Union[int, str]) -> Any:
        """The claim of any label, as `cose.cbor.decode` gives it; raises `KeyError` where it isn't there."""
        found, data = ItemStruct(), self.payload
        if isinstance(label, str):
            name = text_of(label, "label")
            small.edge_claim_named(data, len(data), name, len(name), byref(found))
        else:
            number = number_of(label, "label", -(2**63), 2**63 - 1)
            small.edge_claim(data, len(data), number, byref(found))
        if not found.present:
            raise KeyError(label)
        return cbor.decode(data[found.at : found.at + found.length])

    def labels(self) -> Tuple[Union[int, str], ...]:
        """The labels of all claims, in the order of the token."""
        data, found = self.payload, []
        claims = _item_at(data, 0)
        place = claims.content_at
        for _ in range(claims.number):
            label = _item_at(data, place)
            value = _item_at(data, label.at + label.length)
            found.append(cbor.decode(data[label.at : value.at]))
            place = value.at + value.length
        return tuple(found)


def claims_of(token: bytes, found: bytes) -> Claims:
    """The claims that the library found in a token, or in a payload."""
    return _calls.made(Claims, token, found)


Policy = Tuple[int, int, Optional[bytes]]


def policy_of(now: Optional[int], leeway: int, audience: Optional[str]) -> Policy:
    """The conditions under which a token is admitted, checked."""
    moment = int(time.time()) if now is None else number_of(now, "now", -(2**63), 2**63 - 1)
    name = None if audience is None else text_of(audience, "audience")
    return moment, number_of(leeway, "leeway", 0, 2**32 - 1), name


# (a number by itself compares faster than a member does)
_AUTHENTIC, _SIGNED = Status.AUTHENTIC.value, Status.SIGNED.value


def claims(
    payload: Buffer,
    *,
    now: Optional[int] = None,
    leeway: int = 0,
    audience: Optional[str] = None,
    large: bool = False,
) -> Claims:
    """The claims of a payload that is known to be authentic, admitted as `verify_cwt` does it.

    Raises `ClaimsRefused`.
    """
    data, found = bytes_of(payload, "payload"), ClaimsStruct()
    moment, seconds, name = policy_of(now, leeway, audience)
    text = name or b""
    policy = PolicyStruct(moment, seconds, name is not None, text, len(text))
    calls = _library.large if large else small
    calls.edge_claims(data, len(data), byref(policy), byref(found))
    if found.status != Status.AUTHENTIC:
        fail(found)
    return claims_of(data, bytes(found))


def _read(keys: Keys, aad: bytes, policy: Policy, token: bytes, large: bool) -> bytes:
    if isinstance(keys, KeyTable) and not large:
        return _calls.table_verify_cwt(keys._memory.at, aad, *policy, token)
    return _calls.verify_cwt(data_of(keys), large, aad, *policy, token)


def verify_cwt(
    keys: Keys,
    token: Buffer,
    *,
    now: Optional[int] = None,
    leeway: int = 0,
    audience: Optional[str] = None,
    aad: Buffer = b"",
    wanted: Optional[Kind] = None,
    ecdsa: Optional[Ecdsa] = None,
    large: bool = False,
) -> Claims:
    """Verifies a CBOR Web Token, with its CWT tag or without, and returns its admitted claims.

    now: the current time in seconds since 1970; by default that of the machine's clock.
    leeway: how many seconds the clocks may differ by.
    audience: what one of its audiences has to be, where it names any; by default any may be.
    keys, token, aad, wanted, ecdsa, large: as in `cose.verify`.

    Raises `Refused` for the message, `ClaimsRefused` for its claims, `KeysRefused`, and
    `SignatureUnverified` for a COSE_Sign1 without `ecdsa`.
    """
    data, external = bytes_of(token, "token"), bytes_of(aad, "aad")
    policy = policy_of(now, leeway, audience)
    if wanted is None and not says_signed(data):
        found = _read(keys, external, policy, data, large)
        if found[0] == _AUTHENTIC:
            return claims_of(data, found)
        if found[0] != _SIGNED:
            fail(ClaimsStruct.from_buffer_copy(found))
    message = verify(keys, data, aad=external, wanted=wanted, ecdsa=ecdsa, large=large)
    return claims(message.payload, now=policy[0], leeway=leeway, audience=audience, large=large)
