"""The reasons of refusals, numbered and named as in docs/REASONS.md."""

import enum


class Reason(enum.IntEnum):
    """Why bytes are refused. Numbers and names never change."""

    # made by ci/edge_tables: reasons
    Truncated = 1
    Reserved = 2
    Indefinite = 3
    BadSimple = 4
    TooDeep = 5
    PastRoom = 6
    WrongTag = 7
    Encrypted = 8
    SeveralParties = 9
    NotFour = 10
    WrongType = 11
    NotMap = 12
    BadLabel = 13
    DuplicateLabel = 14
    BothBuckets = 15
    BadValue = 16
    CritUnprotected = 17
    CritAbsent = 18
    CritUnknown = 19
    BothIvs = 20
    NoAlg = 21
    UnknownAlg = 22
    AlgUnprotected = 23
    NoKey = 24
    AmbiguousKey = 25
    Detached = 26
    BadAuthLength = 27
    BadAuth = 28
    PayloadTooLong = 29
    CwtTagAlone = 30
    BadKeySet = 31
    UnknownKey = 32
    FloatDate = 33
    TaggedDate = 34
    Expired = 35
    NotYet = 36
    WrongAudience = 37
    EncryptedKey = 38
    PlainKey = 39
    BadConfirmation = 40
    NestedCwt = 41
    Trailing = 42
    Attached = 43
    # end of what ci/edge_tables makes
