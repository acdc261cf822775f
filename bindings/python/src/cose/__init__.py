"""Verifies COSE messages (RFC 9052) and CBOR Web Tokens (RFC 8392) by a proved library.

>>> import cose
>>> cose.verify(keys, message).payload              # doctest: +SKIP
>>> cose.verify_cwt(keys, token, now=1444064943).sub  # doctest: +SKIP
"""

from ._answers import Ecdsa, SignInput
from ._arguments import Algorithm, Buffer, Kind
from ._library import Status
from .admitting import admit, admit_claims, authenticate
from .choosing import ChosenKey, Mismatch, key_of, mismatches
from .eddsa_messages import Eddsa, EddsaInput, eddsa, verify_eddsa
from .elsewhere import AskedKey, Elsewhere
from .errors import (
    ClaimsRefused,
    Error,
    KeysRefused,
    LibraryNotFound,
    Refused,
    Requirement,
    SignatureUnverified,
    Unmet,
)
from .keys import Keys, KeyTable, count_keys
from .making import Maker, make
from .many import verify_many
from .messages import Label, Message, Shape, shape, verify
from .reasons import Reason
from .signatures import ecdsa
from .signing import Sign, Sign1Maker, ecdsa_signer, sign1
from .terms_table import TermsTable
from .tokens import Claims, Confirmation, ConfirmationKey, claims, verify_cwt
from .verifier import Fed, Verdict, Verifier

__version__ = "0.2.0"

__all__ = [
    "Algorithm",
    "AskedKey",
    "Buffer",
    "ChosenKey",
    "Claims",
    "ClaimsRefused",
    "Confirmation",
    "ConfirmationKey",
    "Ecdsa",
    "Eddsa",
    "EddsaInput",
    "Elsewhere",
    "Error",
    "Fed",
    "KeyTable",
    "Keys",
    "KeysRefused",
    "Kind",
    "Label",
    "LibraryNotFound",
    "Maker",
    "Message",
    "Mismatch",
    "Reason",
    "Refused",
    "Requirement",
    "Shape",
    "Sign",
    "Sign1Maker",
    "SignInput",
    "SignatureUnverified",
    "Status",
    "TermsTable",
    "Unmet",
    "Verdict",
    "Verifier",
    "admit",
    "admit_claims",
    "authenticate",
    "claims",
    "count_keys",
    "ecdsa",
    "ecdsa_signer",
    "eddsa",
    "key_of",
    "make",
    "mismatches",
    "shape",
    "sign1",
    "verify",
    "verify_cwt",
    "verify_eddsa",
    "verify_many",
]
