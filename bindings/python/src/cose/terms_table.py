"""Keys that terms permit, which are read once."""

from __future__ import annotations

from ctypes import byref
from typing import Iterable, Optional

from . import _calls
from ._answers import Ecdsa, fail
from ._arguments import Buffer, Kind, bytes_of, says_signed
from ._library import ClaimsStruct, KeySetStruct, Memory, Status, small
from .admitting import Terms, claims_under, requirements_of
from .keys import Keys
from .messages import Message, message_of
from .tokens import Claims, claims_of

_AUTHENTIC, _SIGNED = Status.AUTHENTIC.value, Status.SIGNED.value


class TermsTable:
    """The keys that terms permit, read once for many messages, and what the terms state besides.

    It holds up to 64 such keys. Any number of threads may use it at once, and so may `ecdsa` while it
    is asked. Headers have 1,024 bytes at most.

    keys: a COSE_Key, a COSE_KeySet, or a `KeyTable`.
    algorithms to payload_limit, and aad, wanted: as in `cose.authenticate`.

    Raises `KeysRefused`, where the terms permit more keys too.
    """

    def __init__(
        self,
        keys: Keys,
        *,
        algorithms: Optional[Iterable[int]] = None,
        least_secret: int = 0,
        short_mac: bool = False,
        without_alg: bool = False,
        understood: Iterable[int] = (),
        payload_limit: Optional[int] = None,
        aad: Buffer = b"",
        wanted: Optional[Kind] = None,
    ) -> None:
        # (it has the keys and the external data, to which the table leads)
        self._terms = Terms(
            keys,
            aad,
            wanted,
            algorithms,
            least_secret,
            short_mac,
            without_alg,
            understood,
            payload_limit,
        )
        # the memory of the table, which is only read once the keys are
        self._memory = Memory(small.table_size(), small.table_align())
        handle, read = self._memory.handle(), KeySetStruct()
        small.table_begin(self._memory.at)
        small.edge_table_read_under(handle, byref(self._terms.struct), byref(read))
        if read.status != Status.COMPLETE:
            fail(read)
        self._usable: int = read.usable

    def __len__(self) -> int:
        """How many keys are usable and permitted."""
        return self._usable

    def __repr__(self) -> str:
        return f"<cose.TermsTable of {self._usable} usable keys>"

    def authenticate(self, message: Buffer, *, ecdsa: Optional[Ecdsa] = None) -> Message:
        """Verifies a message under the table's terms, as `cose.authenticate` does.

        Raises `Refused`, and `SignatureUnverified` for a COSE_Sign1 without `ecdsa`.
        """
        data = bytes_of(message, "message")
        found = _calls.table_authenticate(self._memory.at, data)
        return message_of(found, None, ecdsa, (data, self._terms.struct.kind, False))

    def admit(
        self,
        token: Buffer,
        *,
        now: Optional[int] = None,
        leeway: int = 0,
        issuer: Optional[str] = None,
        subject: Optional[str] = None,
        audience: Optional[str] = None,
        present: Iterable[str] = (),
        max_lifetime: Optional[int] = None,
        max_age: Optional[int] = None,
        without_exp: bool = False,
        ecdsa: Optional[Ecdsa] = None,
    ) -> Claims:
        """Verifies a CBOR Web Token under the table's terms, and returns its claims.

        now to without_exp, and ecdsa: as in `cose.admit`, whose exceptions are raised.
        """
        data = bytes_of(token, "token")
        requirements = requirements_of(
            now, leeway, issuer, subject, audience, present, max_lifetime, max_age, without_exp
        )
        if not says_signed(data):
            found = _calls.table_admit(self._memory.at, bytes(requirements), data)
            if found[0] == _AUTHENTIC:
                return claims_of(data, found)
            if found[0] != _SIGNED:
                fail(ClaimsStruct.from_buffer_copy(found))
        return claims_under(requirements, self.authenticate(data, ecdsa=ecdsa).payload, False)
