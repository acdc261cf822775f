"""Which key of a set a message is verified with, and why the others aren't (RFC 9052 section 7.1)."""

from __future__ import annotations

from ctypes import byref
from dataclasses import dataclass
from enum import IntEnum
from typing import Any, Iterable, Iterator, List, Optional, Tuple, Union

from . import _library, cbor
from ._answers import fail
from ._arguments import Buffer, Kind, bytes_of
from ._library import ItemStruct, KeyFitStruct, Status, small
from .admitting import terms_of
from .errors import Refused
from .keys import Keys, count_keys, data_of
from .messages import shape
from .reasons import Reason


class Mismatch(IntEnum):
    """A condition under which a key fits a message, in the order in which they are checked."""

    # the algorithm is one for messages of the kind, and the key's own
    ALGORITHM = 1
    # the algorithm takes a key of this type
    KEY_TYPE = 2
    # the point is on the algorithm's curve
    CURVE = 3
    # the operations that the key lists contain the one that verifies the message
    OPERATION = 4
    # the identifiers are equal, where both have one
    IDENTIFIER = 5
    # what the caller states permits the key
    NOT_PERMITTED = 6


@dataclass(frozen=True)
class ChosenKey:
    """A key of a set: where its item begins there, and its identifier."""

    place: int
    kid: Optional[bytes]


_KID = 2
_ARRAY = 4
# a key set without a usable key, which is enough to read a message
_NO_KEYS = b"\xa0"
# what a message is refused with for what the usual size has no room for
_PAST_SIZE = (Reason.PastRoom, Reason.TooDeep)


def key_at(keys: bytes, item: ItemStruct) -> Optional[ChosenKey]:
    """The key of a set that an answer names, or None where it names none."""
    if not item.present:
        return None
    members: Any = cbor.decode(keys[item.at : item.at + item.length])
    return ChosenKey(item.at, members.get(_KID))


def _kind_of(data: bytes, wanted: Optional[Kind], large: bool) -> Kind:
    """The kind of a message that is whole. Raises `Refused` for any other."""
    try:
        return shape(data, wanted=wanted).kind
    except Refused as refused:
        if not large or refused.reason not in _PAST_SIZE:
            raise
    return _kind_of_large(data, wanted)


def _kind_of_large(data: bytes, wanted: Optional[Kind]) -> Kind:
    """The same of a message whose tag was found good, and that the usual size has no room for."""
    kinds, fit = list(Kind) if wanted is None else [Kind(wanted)], KeyFitStruct()
    for kind in kinds:
        terms = terms_of(_NO_KEYS, kind, None, 0, False, False)
        _library.large.edge_mismatch(byref(terms.struct), data, len(data), 0, byref(fit))
        if fit.reason != Reason.WrongTag:
            break
    if fit.status == Status.REFUSED:
        fail(fit)
    if fit.status == Status.MORE:
        raise Refused(Reason.Truncated, len(data))
    end = cbor.end_of_item(data)
    if end < len(data):
        raise Refused(Reason.Trailing, end)
    return kind


def _items(keys: bytes) -> Iterator[ItemStruct]:
    """The items of a key set that should be keys."""
    whole = ItemStruct()
    small.edge_item_at(keys, len(keys), 0, byref(whole))
    if whole.major != _ARRAY:
        yield whole
        return
    place = whole.content_at
    for _ in range(whole.number):
        item = ItemStruct()
        small.edge_item_at(keys, len(keys), place, byref(item))
        yield item
        place = item.at + item.length


def key_of(
    keys: Keys,
    message: Buffer,
    *,
    algorithms: Optional[Iterable[int]] = None,
    least_secret: int = 0,
    short_mac: bool = False,
    without_alg: bool = False,
    wanted: Optional[Kind] = None,
    large: bool = False,
) -> Optional[ChosenKey]:
    """Which key a message is verified with, by `cose.authenticate` with the same arguments.

    wanted: the kind of the message, by default as its tag says.
    large: as in `cose.verify`.

    Nothing is authenticated: ask after the verdict. Returns None where no key fits. Raises `Refused`
    for a message that isn't whole, or whose header buckets have more than 1,024 bytes (65,535 with
    large).
    """
    data, found = bytes_of(message, "message"), ItemStruct()
    kind, secrets = _kind_of(data, wanted, large), data_of(keys)
    terms = terms_of(secrets, kind, algorithms, least_secret, short_mac, without_alg)
    calls = _library.large if large else small
    calls.edge_key_of(byref(terms.struct), data, len(data), byref(found))
    return key_at(secrets, found)


def mismatches(
    keys: Keys,
    message: Buffer,
    *,
    algorithms: Optional[Iterable[int]] = None,
    least_secret: int = 0,
    short_mac: bool = False,
    without_alg: bool = False,
    wanted: Optional[Kind] = None,
    large: bool = False,
) -> List[Tuple[int, Union[Mismatch, Refused, None]]]:
    """For each item of a key set its place, and why it isn't the key of a message.

    That is the first condition that it fails, a `Refused` where it is no usable key, or None where it
    fits. The arguments are those of `cose.key_of`. Raises `Refused` and `KeysRefused`.
    """
    data, secrets = bytes_of(message, "message"), data_of(keys)
    count_keys(secrets)
    kind, calls = _kind_of(data, wanted, large), _library.large if large else small
    terms = terms_of(secrets, kind, algorithms, least_secret, short_mac, without_alg)
    found: List[Tuple[int, Union[Mismatch, Refused, None]]] = []
    for item in _items(secrets):
        fit = KeyFitStruct()
        calls.edge_mismatch(byref(terms.struct), data, len(data), item.at, byref(fit))
        if fit.status == Status.COMPLETE:
            found.append((item.at, Mismatch(fit.condition) if fit.condition else None))
        elif fit.status == Status.KEYS_REFUSED:
            found.append((item.at, Refused(Reason(fit.reason), fit.place)))
        else:
            fail(fit)
    return found
