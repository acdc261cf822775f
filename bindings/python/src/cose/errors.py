"""The exceptions of this package."""

import enum

from .reasons import Reason


class Error(Exception):
    """What every exception that only this package raises is."""


class Refused(Error):
    """A message is refused, for a reason and at a place: a number of bytes from its first byte."""

    subject = "message"

    def __init__(self, reason: Reason, place: int) -> None:
        super().__init__(reason, place)
        self.reason = reason
        self.place = place

    def __str__(self) -> str:
        return f"{self.subject} refused: {self.reason.name} at {self.place}"


class ClaimsRefused(Refused):
    """The claims of an authentic message are refused. The place is relative to its payload."""

    subject = "claims"


class Requirement(enum.IntEnum):
    """What `cose.admit` requires of a token: first the claims that have to be present."""

    ISS = 1
    SUB = 2
    AUD = 3
    EXP = 4
    NBF = 5
    IAT = 6
    CTI = 7
    ISSUER = 8
    SUBJECT = 9
    AUDIENCE = 10
    LIFETIME = 11
    AGE = 12
    ISSUED = 13


class Unmet(Error):
    """A token is authentic and in time, and a requirement isn't met: of several the first.

    `place` is that of the claim's value in the payload, or 0 where the claim isn't there.
    """

    def __init__(self, requirement: Requirement, place: int) -> None:
        super().__init__(requirement, place)
        self.requirement = requirement
        self.place = place

    def __str__(self) -> str:
        return f"requirement not met: {self.requirement.name} at {self.place}"


class KeysRefused(Error):
    """The key or the key set itself is refused, so that no message was looked at.

    It is no `Refused`: nothing is said about a message.
    """

    def __init__(self, reason: Reason, place: int) -> None:
        super().__init__(reason, place)
        self.reason = reason
        self.place = place

    def __str__(self) -> str:
        return f"keys refused: {self.reason.name} at {self.place}"


class SignatureUnverified(Error):
    """A COSE_Sign1 was met, and nothing was passed that verifies its signature."""

    def __str__(self) -> str:
        return (
            "the message is a COSE_Sign1, and its signature was not verified: pass"
            " ecdsa=cose.ecdsa(), which needs the package 'cryptography', or a function that takes"
            " a cose.SignInput and returns whether the signature is good"
        )


class LibraryNotFound(Error, ImportError):
    """The shared library isn't there, or it lacks a call."""
