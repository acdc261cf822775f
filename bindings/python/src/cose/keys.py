"""Key sets: read once, and made of keys in other forms.

What the functions `from_..` return is what other calls take as keys. They raise `ValueError` where there
is no key that can be used, with the reason, and read no private part.
"""

from __future__ import annotations

from ctypes import byref
from typing import Any, List, Mapping, Optional, Union

from . import cbor, key_forms
from ._answers import fail
from ._arguments import Buffer, bytes_of, number_of
from ._library import KeySetStruct, Memory, Status, small


class KeyTable:
    """A COSE_Key or a COSE_KeySet (RFC 9052 section 7) that is read once, for many messages.

    It holds up to 64 usable keys. Any number of threads may use it at once. Raises `KeysRefused`.
    """

    def __init__(self, keys: Buffer) -> None:
        self._data = bytes_of(keys, "keys")
        # the memory of the table, which is only read once the keys are
        self._memory = Memory(small.table_size(), small.table_align())
        handle, read = self._memory.handle(), KeySetStruct()
        small.table_begin(self._memory.at)
        small.edge_table_read(handle, self._data, len(self._data), byref(read))
        if read.status != Status.COMPLETE:
            fail(read)
        self._usable: int = read.usable

    def __len__(self) -> int:
        """How many keys are usable."""
        return self._usable

    def __repr__(self) -> str:
        return f"<cose.KeyTable of {self._usable} usable keys>"


Keys = Union[Buffer, KeyTable]


def data_of(keys: Keys) -> bytes:
    """The bytes of keys."""
    return keys._data if isinstance(keys, KeyTable) else bytes_of(keys, "keys")


def count_keys(keys: Buffer) -> int:
    """How many keys of a COSE_Key or a COSE_KeySet are usable. Raises `KeysRefused`."""
    data, read = bytes_of(keys, "keys"), KeySetStruct()
    small.edge_read_keys(data, len(data), byref(read))
    if read.status != Status.COMPLETE:
        fail(read)
    usable: int = read.usable
    return usable


def _usable(keys: bytes) -> bytes:
    """The same keys, of which one at least is usable."""
    if count_keys(keys) == 0:
        raise ValueError("none of its keys is usable")
    return keys


def _set_of(keys: List[key_forms.Key]) -> bytes:
    return _usable(cbor.encode(keys))


def _text_of(value: Union[str, Buffer], name: str) -> str:
    return value if isinstance(value, str) else bytes_of(value, name).decode("utf-8", "replace")


def from_cose(keys: Buffer) -> bytes:
    """The same COSE_Key or COSE_KeySet (RFC 9052 section 7). Raises `KeysRefused` too."""
    return _usable(bytes_of(keys, "keys"))


def from_secret(
    secret: Buffer, *, kid: Optional[Buffer] = None, alg: Optional[int] = None
) -> bytes:
    """The COSE_KeySet of a secret for HMAC.

    kid: its key identifier.
    alg: the algorithm that it is for: 4, 5, 6 or 7 (RFC 9053 section 3.1); any of them by default.
    """
    key = key_forms.of_secret(bytes_of(secret, "secret"))
    given: key_forms.Key = {}
    if kid is not None:
        given[key_forms.KID] = bytes_of(kid, "kid")
    if alg is not None:
        given[key_forms.ALG] = number_of(alg, "alg", 4, 7)
    return _set_of([{key_forms.KTY: key.pop(key_forms.KTY), **given, **key}])


def from_pem(pem: Union[str, Buffer]) -> bytes:
    """The COSE_KeySet of the public keys and certificates of a PEM (RFC 7468), on P-256, P-384 and P-521.

    Of a certificate the key is taken, and nothing is verified. Where the package `cryptography` is
    installed, a point that isn't on its curve is refused here too.
    """
    infos = key_forms.infos_of_pem(_text_of(pem, "pem"))
    keys = [key_forms.of_info(info) for info in infos]
    for info in infos:
        _check_point(info)
    return _set_of(keys)


def _check_point(info: bytes) -> None:
    """Raises `ValueError` where the package `cryptography` takes no such key."""
    try:
        from cryptography.exceptions import UnsupportedAlgorithm
        from cryptography.hazmat.primitives.serialization import load_der_public_key
    except ImportError:
        return
    try:
        load_der_public_key(info)
    except UnsupportedAlgorithm as error:
        raise ValueError(str(error)) from error


def from_jwk(jwk: Union[str, Buffer, Mapping[str, Any]]) -> bytes:
    """The COSE_KeySet of a JWK or a JWK set (RFC 7517), as JSON or as what `json.loads` makes of it.

    The keys of a set that aren't for HMAC or ECDSA are skipped.
    """
    value = jwk if isinstance(jwk, Mapping) else key_forms.parsed(_text_of(jwk, "jwk"))
    return _set_of(key_forms.of_jwks(value))
