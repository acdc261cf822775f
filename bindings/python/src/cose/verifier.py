"""Messages that come in pieces."""

from __future__ import annotations

from ctypes import byref, create_string_buffer
from dataclasses import dataclass
from types import TracebackType
from typing import Any, Iterable, Optional, Tuple, Type, Union

from . import _calls, _library, cbor
from ._answers import Ecdsa, fail, is_good
from ._arguments import Algorithm, Buffer, Kind, bytes_of, number_of, text_of, wanted_of
from ._library import (
    Block,
    FedStruct,
    ItemStruct,
    SignInputStruct,
    Status,
    StatusStruct,
    VerdictStruct,
    small,
)
from ._numbers import reader
from .admitting import Terms, terms_of
from .choosing import ChosenKey, key_at
from .keys import Keys, KeyTable, data_of

_numbers_of = reader(FedStruct)
# what a message that may still be authentic has after a piece
_GOES_ON = {it.value: it for it in (Status.MORE, Status.PAYLOAD_NEXT, Status.COMPLETE)}


@dataclass(frozen=True)
class Fed:
    """What was taken of a piece.

    `used` is the number of bytes that belong to the message. `payload` are those of its payload:
    nothing is known about them before the verdict. `status` is `MORE`, `COMPLETE`, or
    `PAYLOAD_NEXT` where a detached payload is to come.
    """

    used: int
    payload: bytes
    status: Status


@dataclass(frozen=True)
class Verdict:
    """An authentic message that came in pieces, whose payload the caller has."""

    kind: Kind
    alg: Algorithm
    payload_length: int
    taken: int


def _authentic(verdict: VerdictStruct) -> Verdict:
    """What is said of an authentic message; any other verdict is raised."""
    if verdict.status != Status.AUTHENTIC:
        fail(verdict)
    return Verdict(
        Kind(verdict.kind), Algorithm(verdict.alg), verdict.payload_length, verdict.taken
    )


class Verifier:
    """Verifies messages that come in pieces, one after the other, in memory that doesn't grow.

    `feed` the pieces and keep the payload that each gives, then ask for the `verdict`, and drop
    the payload where that raises. `reset` begins the next message. With `payload_length` the
    payload is detached: once `feed` says `PAYLOAD_NEXT`, `feed_payload` takes it. The arguments
    are those of `cose.verify`. The keys of a `KeyTable` aren't read again, and any number of
    verifiers may be under one. `ecdsa` is asked once a message, by `verdict`. Until it has
    answered, other threads wait, and a call of this verifier from it raises `RuntimeError`: its answer counts
    for the message that it was asked about, and for no other.

    >>> with cose.Verifier(keys) as verifier:           # doctest: +SKIP
    ...     payload = b"".join(verifier.feed(piece).payload for piece in pieces)
    ...     verifier.verdict()
    """

    # the calls that open a block: of a payload in the message, and of a detached one
    _OPENING = ("edge_open", "edge_open_detached")
    # the same under the keys of a table
    _OPENING_TABLE = ("edge_open_table", "edge_open_table_detached")

    def __init__(
        self,
        keys: Keys,
        *,
        aad: Buffer = b"",
        wanted: Optional[Kind] = None,
        payload_length: Optional[int] = None,
        ecdsa: Optional[Ecdsa] = None,
        large: bool = False,
    ) -> None:
        self._prepare(keys, aad, wanted, ecdsa, large)
        self._open(wanted_of(wanted), payload_length)

    @classmethod
    def under(
        cls,
        keys: Keys,
        *,
        aad: Buffer = b"",
        wanted: Optional[Kind] = None,
        algorithms: Optional[Iterable[int]] = None,
        least_secret: int = 0,
        short_mac: bool = False,
        without_alg: bool = False,
        payload_limit: Optional[int] = None,
        payload_length: Optional[int] = None,
        ecdsa: Optional[Ecdsa] = None,
        large: bool = False,
    ) -> Verifier:
        """A verifier under terms, whose defaults are safe: those of `cose.authenticate`.

        No label is understood in addition to those of RFC 9052.
        """
        it = cls.__new__(cls)
        it._prepare(keys, aad, wanted, ecdsa, large)
        stated = (algorithms, least_secret, short_mac, without_alg, (), payload_limit)
        terms = Terms(it._keys, it._aad, wanted, *stated)
        it._begin(
            ("edge_open_under", "edge_open_under_detached"), (byref(terms.struct),), payload_length
        )
        return it

    def _prepare(
        self,
        keys: Keys,
        aad: Buffer,
        wanted: Optional[Kind],
        ecdsa: Optional[Ecdsa],
        large: bool,
    ) -> None:
        """The memory of the verifier, which isn't opened yet."""
        # the kind of the messages, and that of the message: 0 as long as it isn't known
        self._wanted = self._kind = wanted_of(wanted)
        self._is_large, self._calls = large, _library.large if large else small
        self._ecdsa = ecdsa
        # the library reads these until the verifier is closed, and keys of a table in its memory
        self._keys, self._aad = data_of(keys), bytes_of(aad, "aad")
        self._table = keys if isinstance(keys, KeyTable) else None
        size, align = self._calls.verifier_size(), self._calls.verifier_align()
        self._block = Block("verifier", size, align)
        self._calls.begin(self._block.at)

    def _open(self, wanted: int, payload_length: Optional[int]) -> None:
        rest = (self._aad, len(self._aad), wanted)
        if self._table is None:
            self._begin(self._OPENING, (self._keys, len(self._keys), *rest), payload_length)
        else:
            table = self._table._memory.handle()
            self._begin(self._OPENING_TABLE, (table, *rest), payload_length)

    def _begin(
        self, names: Tuple[str, str], given: Tuple[Any, ...], payload_length: Optional[int]
    ) -> None:
        """Opens the block by one of two calls: for a payload in the message, or a detached one."""
        status = StatusStruct()
        if payload_length is None:
            self._call(names[0], *given, byref(status))
        else:
            length = number_of(payload_length, "payload_length", 0, 2**64 - 1)
            self._call(names[1], *given, length, byref(status))
        # a refusal that is known now, of the length, is the message's: feed and verdict raise it
        if status.status not in (Status.MORE, Status.REFUSED):
            fail(status)

    def _call(self, name: str, *arguments: object) -> Any:
        """One of the library's calls, of which one at a time may run."""
        with self._block as handle:
            return getattr(self._calls, name)(handle, *arguments)

    def __enter__(self) -> Verifier:
        return self

    def __exit__(
        self,
        kind: Optional[Type[BaseException]],
        error: Optional[BaseException],
        traceback: Optional[TracebackType],
    ) -> None:
        self.close()

    def close(self) -> None:
        """Frees the memory. Every other call but this raises `ValueError` then."""
        self._block.close()

    def feed(self, piece: Buffer) -> Fed:
        """Takes bytes of the message. Raises `Refused` once no further byte can change that."""
        data = bytes_of(piece, "piece")
        with self._block:
            found = _calls.feed(self._block.at, self._is_large, data)
        status, _, _, used, at, length = _numbers_of(found)
        if status not in _GOES_ON:
            fail(FedStruct.from_buffer_copy(found).status)
        return Fed(used, data[at : at + length], _GOES_ON[status])

    def feed_payload(self, piece: Buffer) -> int:
        """Takes bytes of a detached payload, and returns how many: 0 where none is wanted."""
        data = bytes_of(piece, "piece")
        used: int = self._call("edge_feed_payload", data, len(data))
        return used

    def end(self) -> None:
        """Says that no byte follows. Raises `Refused` where the message isn't whole."""
        status = StatusStruct()
        self._call("end", byref(status))
        if status.status != Status.COMPLETE:
            fail(status)

    def verdict(self) -> Verdict:
        """The verdict, after `end`. Raises `Refused`, and `SignatureUnverified` without `ecdsa`."""
        status, sign_input, verdict = StatusStruct(), SignInputStruct(), VerdictStruct()
        # one use of the block: what is asked is about the message that the verdict is on
        with self._block as handle:
            self._calls.end(handle, byref(status))
            if status.status != Status.COMPLETE:
                fail(status)
            has_signature = self._calls.sign_input(handle, byref(sign_input)) == 1
            good = has_signature and is_good(sign_input, self._ecdsa)
            self._calls.verdict(handle, int(good), byref(verdict))
            self._kind = verdict.kind or self._kind
        return _authentic(verdict)

    def protected(self, label: Union[int, str]) -> Any:
        """A parameter of the protected header, once it is there, as `cose.Message.protected` gives it.

        It is authentic only after the verdict. Raises `KeyError` where it isn't there.
        """
        return self._parameter(label, 1)

    def unprotected(self, label: Union[int, str]) -> Any:
        """A parameter of the unprotected header, which is not authentic: anyone may have changed it.

        Raises `KeyError` where it isn't there.
        """
        return self._parameter(label, 0)

    def _parameter(self, label: Union[int, str], is_protected: int) -> Any:
        found, room = ItemStruct(), create_string_buffer(65_535 if self._is_large else 1_024)
        rest = (room, len(room), byref(found))
        if isinstance(label, str):
            name = text_of(label, "label")
            self._call("edge_header_named", is_protected, name, len(name), *rest)
        else:
            number = number_of(label, "label", -(2**63), 2**63 - 1)
            self._call("edge_header", is_protected, number, *rest)
        if not found.present:
            raise KeyError(label)
        return cbor.decode(room.raw[: found.length])

    def key_of(
        self,
        keys: Keys,
        *,
        algorithms: Optional[Iterable[int]] = None,
        least_secret: int = 0,
        short_mac: bool = False,
        without_alg: bool = False,
        wanted: Optional[Kind] = None,
    ) -> Optional[ChosenKey]:
        """Which key of a set the message is verified with, as `cose.key_of` says of one in memory.

        It is known once both header buckets were found good, until `reset`. Returns None before
        that, and where no key fits. Nothing is authenticated: ask after the verdict.

        wanted: the kind of the message. By default it is the one that the verifier was made with,
        or else that of the verdict on an authentic message; without either it raises `ValueError`.
        """
        secrets, found = data_of(keys), ItemStruct()
        terms = terms_of(secrets, wanted, algorithms, least_secret, short_mac, without_alg)
        # one use of the block: the kind is that of the message which is asked about
        with self._block as handle:
            terms.struct.kind = terms.struct.kind or self._kind
            if terms.struct.kind == 0:
                raise ValueError("wanted isn't stated, and the kind of the message isn't known")
            self._calls.edge_fed_key_of(handle, byref(terms.struct), byref(found))
        return key_at(secrets, found)

    def reset(self) -> None:
        """Begins the next message, under the same keys."""
        with self._block as handle:
            self._calls.reset(handle)
            self._kind = self._wanted

    @property
    def wanted(self) -> int:
        """How many bytes of the message are wanted at least: fewer don't settle it."""
        wanted: int = self._call("wanted")
        return wanted

    @property
    def payload_wanted(self) -> int:
        """How many bytes of a detached payload are wanted now."""
        wanted: int = self._call("payload_wanted")
        return wanted

    @property
    def taken(self) -> int:
        """How many bytes of the message were taken."""
        taken: int = self._call("taken")
        return taken

    @property
    def held(self) -> int:
        """How many bytes of the message are held."""
        held: int = self._call("held")
        return held
