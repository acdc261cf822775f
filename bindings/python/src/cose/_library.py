"""The shared library's calls by ctypes, with their structs, as include/cose.h has them.

The library is `_libcose.so` in this folder, which the package links where it is built, or else the
libcose.so that is installed. The variable COSE_LIBRARY names another one.
"""

from __future__ import annotations

import ctypes
import enum
import itertools
import os
import pathlib
import threading
from ctypes import (
    POINTER,
    byref,
    c_char_p,
    c_int32,
    c_int64,
    c_size_t,
    c_uint8,
    c_uint32,
    c_uint64,
    c_void_p,
)
from types import SimpleNamespace
from typing import Any, Callable, Dict, Iterator, List, NoReturn, Tuple, Type, TypeVar

from .errors import LibraryNotFound


class Status(enum.IntEnum):
    """How far a message is, or what a call answers."""

    # made by ci/edge_tables: statuses
    MORE = 0
    AUTHENTIC = 1
    SIGNED = 2
    REFUSED = 3
    KEYS_REFUSED = 4
    AAD_TOO_LONG = 5
    PAYLOAD_NEXT = 6
    COMPLETE = 7
    CLAIMS_REFUSED = 8
    BAD_AUDIENCE = 9
    CLOSED = 10
    STOPPED = 11
    BAD_ARGUMENT = 12
    UNMET = 13
    # end of what ci/edge_tables makes


# made by ci/edge_tables: structs
_STRUCTS = """
cose_policy
    i64 now
    u32 leeway
    u8 has_audience
    bytes audience
cose_range
    u64 at length
    u8 present
cose_date
    u64 number
    u8 present negative
cose_claims_set
    u8 status reason
    u64 place payload_at payload_length
    cose_range iss sub aud cti
    u64 aud_count
    cose_date exp nbf iat
    cose_range cnf_kid cnf_x cnf_y
    u8 cnf_crv cnf_y_sign
cose_eddsa_input
    u8 status reason crv has_kid
    i32 alg
    u64 place
    bytes kid x header payload signature
cose_pieces
    u64 protected_length
    u8 context_length protected_head_length aad_head_length payload_head_length
    u8*12 context
    u8*9 protected_head aad_head payload_head
cose_chosen_key
    i32 alg
    u8 crv y_sign has_kid
    bytes kid k x y
cose_received_signature
    u64 length
    u8*132 signature
cose_device_verifier
    address at
cose_large_verifier
    address at
cose_maker
    address at
cose_signer
    address at
cose_table
    address at
cose_verifier
    address at
cose_signature_input
    u8 crv y_sign
    u64 x_length y_length digest_length signature_length place
    u8*66 x y
    u8*64 digest
    u8*132 signature
cose_item
    u64 at length content_at number
    u8 present major
cose_key_fit
    u8 status reason condition
    u64 place
cose_key_set
    u8 status reason
    u64 place usable
cose_made
    u8 status reason
    u64 length
cose_status
    u8 status reason
    u64 place
cose_message_verdict
    u8 status reason kind
    i32 alg
    u64 place payload_at payload_length taken
cose_requirements
    u32 size leeway
    i64 now
    u64 lifetime age
    bytes iss sub aud
    u8 present permitted
cose_message_shape
    u8 status reason kind
    u64 place payload_length auth_length taken
cose_terms
    u32 size
    u8 kind permitted
    u64 least_secret payload_limit
    bytes keys aad
    i32*16 algorithms
    i64*16 understood
cose_fed
    cose_status status
    u64 used payload_at payload_length
"""
# end of what ci/edge_tables makes

# made by ci/edge_tables: exports
_CALLS = """
edge_admit &cose_terms &cose_requirements bytes &cose_claims_set
edge_large_admit &cose_terms &cose_requirements bytes &cose_claims_set
edge_admit_claims &cose_requirements bytes &cose_claims_set
edge_large_admit_claims &cose_requirements bytes &cose_claims_set
edge_authenticate &cose_terms bytes &cose_message_verdict &cose_signature_input
edge_large_authenticate &cose_terms bytes &cose_message_verdict &cose_signature_input
edge_authenticate_detached &cose_terms bytes bytes &cose_message_verdict &cose_signature_input
edge_large_authenticate_detached &cose_terms bytes bytes &cose_message_verdict &cose_signature_input
edge_verify_cwt bytes bytes &cose_policy bytes &cose_claims_set
edge_large_verify_cwt bytes bytes &cose_policy bytes &cose_claims_set
edge_claims bytes &cose_policy &cose_claims_set
edge_large_claims bytes &cose_policy &cose_claims_set
edge_audience bytes u64 &cose_range
edge_next_audience bytes u64 &cose_range
edge_verify_eddsa bytes bytes u8 bytes &cose_eddsa_input &cose_pieces
edge_verify_eddsa_detached bytes bytes u8 bytes bytes &cose_eddsa_input &cose_pieces
edge_large_open_elsewhere &cose_large_verifier bytes bytes u8 &cose_status
edge_large_open_elsewhere_detached &cose_large_verifier bytes bytes u8 u64 &cose_status
edge_large_front_pieces &cose_large_verifier room &cose_pieces -> u8
edge_large_asked_key &cose_large_verifier &cose_chosen_key -> u8
large_asked_signature &cose_large_verifier &cose_received_signature -> u8
edge_large_verdict_of_mac &cose_large_verifier bytes &cose_message_verdict
large_verdict_of_answer &cose_large_verifier u64 i32 &cose_message_verdict
edge_open_elsewhere &cose_verifier bytes bytes u8 &cose_status
edge_open_elsewhere_detached &cose_verifier bytes bytes u8 u64 &cose_status
edge_front_pieces &cose_verifier room &cose_pieces -> u8
edge_asked_key &cose_verifier &cose_chosen_key -> u8
asked_signature &cose_verifier &cose_received_signature -> u8
edge_verdict_of_mac &cose_verifier bytes &cose_message_verdict
verdict_of_answer &cose_verifier u64 i32 &cose_message_verdict
device_verifier_size -> usize
device_verifier_align -> usize
device_begin address
large_verifier_size -> usize
large_verifier_align -> usize
large_begin address
maker_size -> usize
maker_align -> usize
maker_begin address
signer_size -> usize
signer_align -> usize
signer_begin address
table_size -> usize
table_align -> usize
table_begin address
verifier_size -> usize
verifier_align -> usize
begin address
edge_claim bytes i64 &cose_item
edge_claim_named bytes bytes &cose_item
edge_item_at bytes u64 &cose_item
edge_fed_key_of &cose_verifier &cose_terms &cose_item
edge_large_key_of &cose_terms bytes &cose_item
edge_large_mismatch &cose_terms bytes u64 &cose_key_fit
edge_large_fed_key_of &cose_large_verifier &cose_terms &cose_item
edge_key_of &cose_terms bytes &cose_item
edge_mismatch &cose_terms bytes u64 &cose_key_fit
edge_read_keys bytes &cose_key_set
edge_make &cose_maker i32 bytes bytes bytes u64 room &cose_made
edge_make_piece &cose_maker bytes -> u64
edge_make_end &cose_maker room &cose_made
edge_verify bytes bytes u8 bytes &cose_message_verdict &cose_signature_input
edge_large_verify bytes bytes u8 bytes &cose_message_verdict &cose_signature_input
edge_verify_detached bytes bytes u8 bytes bytes &cose_message_verdict &cose_signature_input
edge_large_verify_detached bytes bytes u8 bytes bytes &cose_message_verdict &cose_signature_input
version -> u32
edge_parameter u8 bytes u32 i64 &cose_item
edge_large_parameter u8 bytes u32 i64 &cose_item
edge_parameter_named u8 bytes u32 bytes &cose_item
edge_large_parameter_named u8 bytes u32 bytes &cose_item
edge_shape u8 bytes &cose_message_shape
edge_make_sign1 &cose_signer i32 bytes bytes u64 room &cose_made
edge_make_sign1_piece &cose_signer bytes -> u64
edge_make_sign1_digest &cose_signer room &cose_made
edge_make_sign1_end &cose_signer bytes room &cose_made
edge_device_open &cose_device_verifier bytes bytes u8 &cose_status
edge_device_open_detached &cose_device_verifier bytes bytes u8 u64 &cose_status
edge_device_feed &cose_device_verifier bytes &cose_fed
device_wanted &cose_device_verifier -> u64
device_payload_wanted &cose_device_verifier -> u64
edge_device_feed_payload &cose_device_verifier bytes -> u64
device_end &cose_device_verifier &cose_status
device_sign_input &cose_device_verifier &cose_signature_input -> u8
device_verdict &cose_device_verifier i32 &cose_message_verdict
device_message_number &cose_device_verifier -> u64
device_verdict_for &cose_device_verifier u64 i32 &cose_message_verdict
device_reset &cose_device_verifier
device_taken &cose_device_verifier -> u64
device_held &cose_device_verifier -> u64
edge_large_open &cose_large_verifier bytes bytes u8 &cose_status
edge_large_open_detached &cose_large_verifier bytes bytes u8 u64 &cose_status
edge_large_open_under &cose_large_verifier &cose_terms &cose_status
edge_large_open_under_detached &cose_large_verifier &cose_terms u64 &cose_status
edge_large_feed &cose_large_verifier bytes &cose_fed
large_wanted &cose_large_verifier -> u64
large_payload_wanted &cose_large_verifier -> u64
edge_large_feed_payload &cose_large_verifier bytes -> u64
large_end &cose_large_verifier &cose_status
large_sign_input &cose_large_verifier &cose_signature_input -> u8
large_verdict &cose_large_verifier i32 &cose_message_verdict
large_message_number &cose_large_verifier -> u64
large_verdict_for &cose_large_verifier u64 i32 &cose_message_verdict
large_reset &cose_large_verifier
large_taken &cose_large_verifier -> u64
large_held &cose_large_verifier -> u64
edge_large_header &cose_large_verifier u32 i64 room &cose_item
edge_large_header_named &cose_large_verifier u32 bytes room &cose_item
edge_open &cose_verifier bytes bytes u8 &cose_status
edge_open_detached &cose_verifier bytes bytes u8 u64 &cose_status
edge_open_under &cose_verifier &cose_terms &cose_status
edge_open_under_detached &cose_verifier &cose_terms u64 &cose_status
edge_feed &cose_verifier bytes &cose_fed
wanted &cose_verifier -> u64
payload_wanted &cose_verifier -> u64
edge_feed_payload &cose_verifier bytes -> u64
end &cose_verifier &cose_status
sign_input &cose_verifier &cose_signature_input -> u8
verdict &cose_verifier i32 &cose_message_verdict
message_number &cose_verifier -> u64
verdict_for &cose_verifier u64 i32 &cose_message_verdict
reset &cose_verifier
taken &cose_verifier -> u64
held &cose_verifier -> u64
edge_header &cose_verifier u32 i64 room &cose_item
edge_header_named &cose_verifier u32 bytes room &cose_item
edge_large_open_table &cose_large_verifier &cose_table bytes u8 &cose_status
edge_large_open_table_detached &cose_large_verifier &cose_table bytes u8 u64 &cose_status
edge_open_table &cose_verifier &cose_table bytes u8 &cose_status
edge_open_table_detached &cose_verifier &cose_table bytes u8 u64 &cose_status
edge_table_read_under &cose_table &cose_terms &cose_key_set
edge_table_authenticate &cose_table bytes &cose_message_verdict &cose_signature_input
edge_table_admit &cose_table &cose_requirements bytes &cose_claims_set
edge_table_read &cose_table bytes &cose_key_set
edge_table_verify &cose_table bytes u8 bytes &cose_message_verdict &cose_signature_input
edge_table_verify_cwt &cose_table bytes &cose_policy bytes &cose_claims_set
edge_wipe_bytes room
"""
# end of what ci/edge_tables makes

# the types of fields, parameters and results, by the names above; the structs are added below
_TYPES: Dict[str, Any] = {
    "u8": c_uint8,
    "u32": c_uint32,
    "u64": c_uint64,
    "i32": c_int32,
    "i64": c_int64,
    "usize": c_size_t,
    "address": c_void_p,
}
# what takes the place of bytes: where they begin, and how many there are
_BYTES, _ROOM = (c_char_p, c_size_t), (c_void_p, c_size_t)
_S = TypeVar("_S", bound=Type[ctypes.Structure])


def _type_of(name: str) -> Any:
    if name.startswith("&"):
        return POINTER(_TYPES[name[1:]])
    kind, _, count = name.partition("*")
    return _TYPES[kind] * int(count) if count else _TYPES[kind]


def _fields(struct: str) -> Iterator[Tuple[str, Any]]:
    """The fields of a struct, by the lines after its own."""
    lines = iter(_STRUCTS.splitlines())
    for line in lines:
        if line == struct:
            break
    for line in itertools.takewhile(lambda it: it.startswith(" "), lines):
        kind, *names = line.split()
        for name in names:
            if kind == "bytes":
                yield from zip((name, f"{name}_length"), _BYTES)
            else:
                yield name, _type_of(kind)


def _struct(name: str) -> Callable[[_S], _S]:
    """Gives a class the fields of a struct of include/cose.h."""

    def with_fields(structure: _S) -> _S:
        if "_fields_" not in vars(structure):
            structure._fields_ = list(_fields(name))
        _TYPES[name] = structure
        return structure

    return with_fields


@_struct("cose_status")
class StatusStruct(ctypes.Structure):
    """`struct cose_status`"""


@_struct("cose_message_verdict")
class VerdictStruct(ctypes.Structure):
    """`struct cose_message_verdict`"""


@_struct("cose_signature_input")
class SignInputStruct(ctypes.Structure):
    """`struct cose_signature_input`"""


@_struct("cose_message_shape")
class ShapeStruct(ctypes.Structure):
    """`struct cose_message_shape`"""


@_struct("cose_key_set")
class KeySetStruct(ctypes.Structure):
    """`struct cose_key_set`"""


@_struct("cose_policy")
class PolicyStruct(ctypes.Structure):
    """`struct cose_policy`"""


@_struct("cose_terms")
class TermsStruct(ctypes.Structure):
    """`struct cose_terms`"""


@_struct("cose_requirements")
class RequirementsStruct(ctypes.Structure):
    """`struct cose_requirements`"""


@_struct("cose_range")
class RangeStruct(ctypes.Structure):
    """`struct cose_range`"""


@_struct("cose_date")
class DateStruct(ctypes.Structure):
    """`struct cose_date`"""


@_struct("cose_claims_set")
class ClaimsStruct(ctypes.Structure):
    """`struct cose_claims_set`"""


@_struct("cose_item")
class ItemStruct(ctypes.Structure):
    """`struct cose_item`"""


@_struct("cose_key_fit")
class KeyFitStruct(ctypes.Structure):
    """`struct cose_key_fit`"""


@_struct("cose_pieces")
class FrontPiecesStruct(ctypes.Structure):
    """`struct cose_pieces`"""


@_struct("cose_chosen_key")
class AskedKeyStruct(ctypes.Structure):
    """`struct cose_chosen_key`"""


@_struct("cose_eddsa_input")
class EddsaInputStruct(ctypes.Structure):
    """`struct cose_eddsa_input`"""


@_struct("cose_received_signature")
class AskedSignatureStruct(ctypes.Structure):
    """`struct cose_received_signature`"""


@_struct("cose_fed")
class FedStruct(ctypes.Structure):
    """`struct cose_fed`"""


@_struct("cose_made")
class MadeStruct(ctypes.Structure):
    """`struct cose_made`"""


@_struct("cose_verifier")
@_struct("cose_large_verifier")
@_struct("cose_device_verifier")
@_struct("cose_table")
@_struct("cose_maker")
@_struct("cose_signer")
class HandleStruct(ctypes.Structure):
    """`struct cose_verifier`, and the others that have the address of a block"""


Prototype = Tuple[Tuple[Any, ...], Any]


def _prototype(words: List[str]) -> Prototype:
    """The types of a call's arguments, and that of its result."""
    result = _type_of(words.pop()) if "->" in words else None
    arguments: List[Any] = []
    for word in words:
        if word in ("bytes", "room"):
            arguments += _BYTES if word == "bytes" else _ROOM
        elif word != "->":
            arguments.append(_type_of(word))
    return tuple(arguments), result


# by a call's name: its arguments and its result
_PROTOTYPES = {
    name: _prototype(words) for name, *words in (line.split() for line in _CALLS.split("\n")[1:-1])
}


# the version of the library that this package is for
VERSION = (0, 2, 0)


def _load() -> ctypes.CDLL:
    named = os.environ.get("COSE_LIBRARY")
    own = pathlib.Path(__file__).with_name("_libcose.so")
    for name in (
        [named] if named else [str(own)] if own.exists() else ["libcose.so.0", "libcose.so"]
    ):
        try:
            library = ctypes.CDLL(name)
        except OSError as error:
            problem = error
            continue
        _check_version(library)
        return library
    raise LibraryNotFound(f"the shared library of the package cose isn't there: {problem}")


def _check_version(library: ctypes.CDLL) -> None:
    """Refuses a library of another version."""
    number = library.cose_version() if hasattr(library, "cose_version") else 0
    version = (number >> 16, number >> 8 & 255, number & 255)
    if version != VERSION:
        wanted, found = (".".join(map(str, it)) for it in (VERSION, version))
        raise LibraryNotFound(
            f"{library._name} has version {found}, and this package is for {wanted}"
        )


def _large(name: str) -> str:
    """The name of a call in the large size."""
    return "edge_large_" + name[5:] if name.startswith("edge_") else "large_" + name


def _bind(library: ctypes.CDLL, name: str, prototype: Prototype) -> Any:
    """A call of the library. Where it lacks one, the rest still serves, and the call raises."""
    try:
        function = getattr(library, f"cose_{name}")
    except AttributeError:
        problem = f"{library._name} has no cose_{name}: it is of another version than this package"

        def missing(*_: object) -> NoReturn:
            raise LibraryNotFound(problem)

        return missing
    function.argtypes, function.restype = prototype
    return function


_loaded = _load()
# by the name of a call in the usual size: its name in the large size
_SIZES = {name: _large(name) for name in _PROTOTYPES if _large(name) in _PROTOTYPES}
_bound = {name: _bind(_loaded, name, it) for name, it in _PROTOTYPES.items()}
# the calls of the usual size, and those that have no other
small = SimpleNamespace(**{name: _bound[name] for name in {*_bound} - {*_SIZES.values()}})
# headers of up to 65,535 bytes, nested up to 16 deep
large = SimpleNamespace(**{name: _bound[it] for name, it in _SIZES.items()})


class Memory:
    """Memory at a multiple of an alignment, which doesn't move.

    That of a table is written where the keys are read, by who makes the table. From then on it is only
    read, so that any number of threads may verify at once, each call by a handle of its own.
    """

    def __init__(self, size: int, align: int) -> None:
        self._memory: Any = ctypes.create_string_buffer(size + align)
        start = ctypes.addressof(self._memory)
        self.at = start + -start % align

    def handle(self) -> Any:
        """A handle for one call."""
        return byref(HandleStruct(self.at))


class Block(Memory):
    """Memory that is written to, so that one call at a time uses it.

    `with block as handle:` is one use. Another thread waits until it ends. A use within a use, as by
    a function that `verdict` asks, raises `RuntimeError`, and a use after `close` `ValueError`.
    """

    def __init__(self, kind: str, size: int, align: int) -> None:
        super().__init__(size, align)
        self._kind, self._handle = kind, self.handle()
        # the thread that uses the block passes it again, and is seen by what it says of itself
        self._lock, self._is_used = threading.RLock(), False

    def __enter__(self) -> Any:
        self._lock.acquire()
        if self._is_used:
            self._lock.release()
            raise RuntimeError(f"the {self._kind} is in use")
        if self._memory is None:
            self._lock.release()
            raise ValueError(f"the {self._kind} is closed")
        self._is_used = True
        return self._handle

    def __exit__(self, *_: object) -> None:
        self._is_used = False
        self._lock.release()

    def close(self) -> None:
        """Overwrites the memory and frees it, once no call uses it."""
        with self._lock:
            if self._is_used:
                raise RuntimeError(f"the {self._kind} is in use")
            if self._memory is not None:
                small.edge_wipe_bytes(self._memory, len(self._memory))
            self._memory = None
