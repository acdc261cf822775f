"""From what a call answers to what is returned or raised."""

from __future__ import annotations

import ctypes
from dataclasses import dataclass
from typing import Any, Callable, Dict, NoReturn, Optional, Tuple, Union

from ._library import FrontPiecesStruct, SignInputStruct, Status
from .errors import ClaimsRefused, KeysRefused, Refused, Requirement, SignatureUnverified, Unmet
from .reasons import Reason


@dataclass(frozen=True)
class SignInput:
    """What an ECDSA signature is verified with: a point, the digest that is signed, and r and s.

    `crv` is 1 for P-256, 2 for P-384 and 3 for P-521. `y` is bytes, or a boolean for a compressed
    point: True where y is odd. `signature` is r, then s, each as long as a coordinate.
    """

    crv: int
    x: bytes
    y: Union[bytes, bool]
    digest: bytes
    signature: bytes


# returns whether a signature is good
Ecdsa = Callable[[SignInput], bool]

_WRONG = {
    Status.AAD_TOO_LONG: "aad has more than 65,535 bytes",
    Status.BAD_AUDIENCE: "the audience isn't UTF-8",
    Status.BAD_ARGUMENT: "an argument is out of range",
    Status.CLOSED: "the verifier isn't open",
}


_REFUSALS: Dict[int, Callable[[Reason, int], Union[Refused, KeysRefused]]] = {
    Status.REFUSED: Refused,
    Status.CLAIMS_REFUSED: ClaimsRefused,
    Status.KEYS_REFUSED: KeysRefused,
}


def error_of(answer: Any) -> Exception:
    """What an answer says that is no success, as an error: it has a status, a reason and a place."""
    if answer.status in _REFUSALS:
        return _REFUSALS[answer.status](Reason(answer.reason), answer.place)
    status = Status(answer.status)
    if status == Status.UNMET:
        return Unmet(Requirement(answer.reason), answer.place)
    return ValueError(_WRONG.get(status, f"the library answers {status.name}"))


def fail(answer: Any) -> NoReturn:
    """Raises what an answer says that is no success."""
    raise error_of(answer)


def octets_at(struct: ctypes.Structure, name: str) -> bytes:
    """The bytes that a field of an answer leads to, which the caller still has."""
    at = ctypes.c_void_p.from_buffer(struct, getattr(type(struct), name).offset).value
    return ctypes.string_at(at, getattr(struct, f"{name}_length")) if at else b""


def pieces_of(struct: FrontPiecesStruct, header: bytes, aad: bytes) -> Tuple[bytes, ...]:
    """The six pieces before the payload, of which the caller has the third and the fifth."""
    return (
        bytes(struct.context[: struct.context_length]),
        bytes(struct.protected_head[: struct.protected_head_length]),
        header,
        bytes(struct.aad_head[: struct.aad_head_length]),
        aad,
        bytes(struct.payload_head[: struct.payload_head_length]),
    )


def sign_input_of(struct: SignInputStruct) -> SignInput:
    """What a signature is verified with."""
    y = bytes(struct.y[: struct.y_length]) if struct.y_sign == 0 else struct.y_sign == 2
    return SignInput(
        crv=struct.crv,
        x=bytes(struct.x[: struct.x_length]),
        y=y,
        digest=bytes(struct.digest[: struct.digest_length]),
        signature=bytes(struct.signature[: struct.signature_length]),
    )


def is_good(struct: SignInputStruct, ecdsa: Optional[Ecdsa]) -> bool:
    """Whether a signature is good, as `ecdsa` says, which is asked once."""
    if ecdsa is None:
        raise SignatureUnverified()
    return a_bool(ecdsa(sign_input_of(struct)), "ecdsa")


def a_bool(answer: object, name: str) -> bool:
    """What a function says of a signature.

    Anything else that counts as true, such as a coroutine, says nothing about the signature.
    """
    if not isinstance(answer, bool):
        raise TypeError(f"{name} should return a bool, and returned {type(answer).__name__}")
    return answer
