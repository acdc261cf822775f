"""Many tokens at once."""

from __future__ import annotations

import itertools
import mmap
from typing import Any, Callable, Iterable, Iterator, List, Optional, Sequence, Tuple, Union, cast

from . import _calls
from ._answers import Ecdsa, error_of
from ._arguments import Buffer, bytes_of
from ._library import ClaimsStruct, Status
from .errors import Refused, SignatureUnverified
from .keys import Keys, KeyTable
from .tokens import Claims, policy_of, verify_cwt

Answer = Union[Claims, Refused, SignatureUnverified]
# tokens that are verified in one call, during which other threads run
_BATCH = 256
_SIGNED = Status.SIGNED.value


def _batches(tokens: Union[Buffer, Iterable[Buffer]]) -> Iterator[Tuple[bytes, ...]]:
    """The tokens, so many at a time as one call takes."""
    if isinstance(tokens, (bytes, bytearray, memoryview, mmap.mmap)):
        return _batches_of_sequence(bytes_of(tokens, "tokens"))
    if type(tokens) in (list, tuple):
        return _batches_of_list(cast(Sequence[Any], tokens))
    each = iter(tokens)
    return iter(lambda: tuple(map(_token, itertools.islice(each, _BATCH))), ())


def _batches_of_list(tokens: Sequence[Any]) -> Iterator[Tuple[bytes, ...]]:
    """Those of a list or of a tuple, of which a batch is looked at at once."""
    for at in itertools.count(0, _BATCH):
        batch = tokens[at : at + _BATCH]
        if batch:
            yield tuple(batch) if {*map(type, batch)} == {bytes} else tuple(map(_token, batch))
        # (as an iterator ends, whatever is appended after that)
        if len(batch) < _BATCH:
            return


def _token(token: Buffer) -> bytes:
    return token if type(token) is bytes else bytes_of(token, "a token")


def _batches_of_sequence(data: bytes) -> Iterator[Tuple[bytes, ...]]:
    at = 0
    while batch := _calls.items(data, at, _BATCH):
        at += sum(map(len, batch))
        yield batch


def _answer(token: bytes, found: bytes, by_itself: Callable[[bytes], Claims]) -> Answer:
    """What is returned of a token that the library hasn't admitted."""
    try:
        if found[0] == _SIGNED:
            return by_itself(token)
        raise error_of(ClaimsStruct.from_buffer_copy(found))
    except (Refused, SignatureUnverified) as error:
        return error.with_traceback(None)


def verify_many(
    keys: Keys,
    tokens: Union[Buffer, Iterable[Buffer]],
    *,
    now: Optional[int] = None,
    leeway: int = 0,
    audience: Optional[str] = None,
    aad: Buffer = b"",
    ecdsa: Optional[Ecdsa] = None,
) -> List[Answer]:
    """Verifies CBOR Web Tokens, each as `cose.verify_cwt` does, and returns what became of each.

    In the order of the tokens: the admitted claims, or the error that `cose.verify_cwt` would raise,
    a `Refused` or a `SignatureUnverified`.

    keys: a COSE_Key, a COSE_KeySet, or a `KeyTable`: at most 64 usable keys, which are read once.
    tokens: any iterable of tokens, or a CBOR sequence (RFC 8742) of them as bytes. Where a sequence
        has no whole item of CBOR, the rest of it is its last token.
    now, leeway, audience, aad, ecdsa: as in `cose.verify_cwt`.

    While the library verifies tokens, other threads run: several may call this at once, under one
    table too. Raises `KeysRefused`.
    """
    policy, external = policy_of(now, leeway, audience), bytes_of(aad, "aad")
    table = keys if isinstance(keys, KeyTable) else KeyTable(keys)
    answers: List[Answer] = []

    def by_itself(token: bytes) -> Claims:
        given = {"leeway": leeway, "audience": audience, "aad": external, "ecdsa": ecdsa}
        return verify_cwt(table, token, now=policy[0], **given)  # type: ignore[arg-type]

    at = table._memory.at
    for batch in _batches(tokens):
        found, others = _calls.table_verify_cwts(at, external, *policy, batch, Claims)
        for place in others:
            found[place] = _answer(batch[place], found[place], by_itself)
        answers += found
    return answers
