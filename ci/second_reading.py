"""A second reading of COSE messages, key sets and tokens, which ci/soak compares the program with.

It is written from the formats alone and not from the crates, over whole lists of bytes and trees of items: items (RFC
8949 section 3), messages, header buckets and keys (RFC 9052 sections 2 to 7), algorithms and key types (RFC 9053),
claims (RFC 8392 section 3) and confirmations (RFC 8747 section 3). Where these leave a choice, docs/DECISIONS.md has
it. A function that reads returns what it read, or raises `Refused`; the order of its lines is the order of the faults.
"""
import enum
import functools
import hashlib
import hmac
import math
from dataclasses import dataclass

# the limits of the program
HEADER_LIMIT = 1_024
NESTING = 8
KEY_NESTING = 8
USABLE_KEYS = 16
KEY_SET_LIMIT = SHOWN_AUTH_LIMIT = 65_535
PAYLOAD_LIMIT = 2**56 - 1

# numbered from 1
Reason = enum.IntEnum(
    "Reason",
    "Truncated Reserved Indefinite BadSimple TooDeep PastRoom WrongTag Encrypted SeveralParties NotFour WrongType "
    "NotMap BadLabel DuplicateLabel BothBuckets BadValue CritUnprotected CritAbsent CritUnknown BothIvs NoAlg "
    "UnknownAlg AlgUnprotected NoKey AmbiguousKey Detached BadAuthLength BadAuth PayloadTooLong CwtTagAlone BadKeySet "
    "UnknownKey FloatDate TaggedDate Expired NotYet WrongAudience EncryptedKey PlainKey BadConfirmation NestedCwt "
    "Trailing Attached",
)


class Refused(Exception):
    """The first fault of some bytes: its reason, and its place in them."""

    def __init__(self, reason, place):
        super().__init__(reason, place)
        # `cwt` prints which bytes the place is relative to
        self.reason, self.place, self.part = reason, place, ""
        # the bytes of the message, where its end is known
        self.taken = None

    def __str__(self):
        return f"{self.part}{self.reason.name} at {self.place}"


def demand(holds, reason, place):
    if not holds:
        raise Refused(reason, place)


# Items (RFC 8949 section 3)

UNSIGNED, NEGATIVE, BYTES, TEXT, ARRAY, MAP, TAG, SIMPLE = range(8)
LENGTHLESS = (UNSIGNED, NEGATIVE, TAG)
FALSE, TRUE, NIL = 20, 21, 22


@dataclass(slots=True)
class Item:
    """An item, its children (of a map: label, value, label, value) below it. Its place is that of its head."""

    data: bytes
    place: int
    end: int
    major: int
    argument: int
    width: int
    children: list

    def spelling(self):
        return self.data[self.place : self.end]

    def content(self):
        return self.data[self.place + self.width : self.end]

    def integer(self):
        if self.major in (UNSIGNED, NEGATIVE):
            return self.argument if self.major == UNSIGNED else -1 - self.argument
        return None

    def text(self):
        """The text, or None where the item is none that is UTF-8."""
        try:
            return self.content().decode() if self.major == TEXT else None
        except UnicodeDecodeError:
            return None

    def name(self):
        """The integer or the text (UTF-8): what a label is, or an algorithm."""
        number = self.integer()
        return self.text() if number is None else number

    def truth(self):
        """False or true, or None where the item is neither."""
        is_one = self.major == SIMPLE and self.width == 1
        return {FALSE: False, TRUE: True}.get(self.argument) if is_one else None

    def is_float(self):
        return self.major == SIMPLE and self.width > 2


def read_head(data, place, limit=math.inf):
    """The major type, argument and width of the head at a place, which may use the bytes before the limit."""
    if place >= limit:
        raise Refused(Reason.PastRoom, place)
    if place >= len(data):
        raise Refused(Reason.Truncated, len(data))
    major, info = divmod(data[place], 32)
    if 28 <= info < 31 or info == 31 and major in LENGTHLESS:
        raise Refused(Reason.Reserved, place)
    if info == 31:
        raise Refused(Reason.Indefinite, place)
    width = 1 if info < 24 else 1 + 2 ** (info - 24)
    if place + width > limit:
        raise Refused(Reason.PastRoom, place)
    if place + width > len(data):
        raise Refused(Reason.Truncated, len(data))
    argument = info if width == 1 else int.from_bytes(data[place + 1 : place + width], "big")
    if major == SIMPLE and width == 2 and argument < 32:
        raise Refused(Reason.BadSimple, place)
    return major, argument, width


def read_item(data, place, limit, nesting):
    """The item at a place, within a limit and so many levels of arrays, maps and tags."""
    major, argument, width = read_head(data, place, limit)
    end = place + width
    if nesting == 0 and major in (ARRAY, MAP, TAG):
        raise Refused(Reason.TooDeep, place)
    length = argument if major in (BYTES, TEXT) else 0
    count = {ARRAY: argument, MAP: 2 * argument, TAG: 1}.get(major, 0)
    if length + count > limit - end:
        raise Refused(Reason.PastRoom, place)
    end += length
    if end > len(data):
        raise Refused(Reason.Truncated, len(data))
    children = []
    for _ in range(count):
        children.append(read_item(data, end, limit, nesting - 1))
        end = children[-1].end
    return Item(data, place, end, major, argument, width, children)


def read_whole(data, place, limit, nesting):
    """The one item that is all bytes from a place to the limit."""
    item = read_item(data, place, limit, nesting)
    demand(item.end == limit, Reason.Trailing, item.end)
    return item


def head(major, argument):
    """The shortest head (RFC 8949 section 4.2.1)."""
    if argument < 24:
        return bytes([major * 32 + argument])
    info = next(it for it in (24, 25, 26, 27) if argument < 2 ** (8 * 2 ** (it - 24)))
    return bytes([major * 32 + info]) + argument.to_bytes(2 ** (info - 24), "big")


def string(content, major=BYTES):
    return head(major, len(content)) + content


# Maps and header buckets (RFC 9052 sections 1.4 and 3)


def read_map(item, forms):
    """A map's labels by value, each with the items of label and value, whose known values have the form of a table.

    A form returns None for a value that has it, and else the reason to refuse that value.
    """
    demand(item.major == MAP, Reason.NotMap, item.place)
    pairs = {}
    for label, value in zip(item.children[::2], item.children[1::2]):
        name = label.name()
        demand(name is not None, Reason.BadLabel, label.place)
        demand(name not in pairs, Reason.DuplicateLabel, label.place)
        pairs[name] = label, value
        fault = forms[name](value) if name in forms else None
        demand(fault is None, fault, value.place)
    return pairs


def content_of(pairs, name):
    """The content of the byte string with this label, or None."""
    return pairs[name][1].content() if name in pairs else None


def name_of(pairs, name):
    """The integer or text with this label, or None."""
    return pairs[name][1].name() if name in pairs else None


def form(test):
    """The form of the values for which a test holds."""
    return lambda value: None if test(value) else Reason.BadValue


def is_array_of(test):
    """The test for arrays of one or more such items."""
    return lambda value: value.major == ARRAY and value.children and all(map(test, value.children))


def is_bytes(value):
    return value.major == BYTES


def is_name(value):
    return value.name() is not None


def is_text(value):
    return value.text() is not None


def is_integer_or_text(value):
    """Whether it is an integer or any text; none of these texts is known, so none has to be UTF-8."""
    return value.major in (UNSIGNED, NEGATIVE, TEXT)


ALG, CRIT, CONTENT_TYPE, KID, IV, PARTIAL_IV = KNOWN_HEADERS = range(1, 7)
HEADER_FORMS = {
    ALG: form(is_name),
    CRIT: form(is_array_of(is_name)),
    CONTENT_TYPE: form(lambda value: value.major == UNSIGNED or is_text(value)),
    KID: form(is_bytes),
    IV: form(is_bytes),
    PARTIAL_IV: form(is_bytes),
}


def check_buckets(protected, unprotected, after, understood=()):
    """Refuses both buckets together for the fault at the least place, and there for the least reason."""
    faults = []
    for element in protected[CRIT][1].children if CRIT in protected else ():
        if element.name() not in protected:
            faults.append((element.place, Reason.CritAbsent))
        if element.name() not in KNOWN_HEADERS and element.name() not in understood:
            faults.append((element.place, Reason.CritUnknown))
    faults += [(label.place, Reason.BothBuckets) for name, (label, _) in unprotected.items() if name in protected]
    if CRIT in unprotected:
        faults.append((unprotected[CRIT][0].place, Reason.CritUnprotected))
    if {IV, PARTIAL_IV} <= protected.keys() | unprotected.keys():
        faults.append((after, Reason.BothIvs))
    if faults:
        place, reason = min(faults)
        raise Refused(reason, place)


# Keys (RFC 9052 section 7, RFC 9053 section 7)

OKP, EC2, SYMMETRIC = 1, 2, 4
# the bytes of a coordinate on P-256, P-384 and P-521
COORDINATE_BYTES = {1: 32, 2: 48, 3: 66}
VERIFY, MAC_CREATE, MAC_VERIFY = 2, 9, 10
KEY_FORMS = {
    1: form(is_integer_or_text),
    2: form(is_bytes),
    3: form(is_name),
    4: form(is_array_of(is_integer_or_text)),
    5: form(is_bytes),
}


@dataclass
class Key:
    """A usable key: a secret, or the point x, y on a curve, where y is bytes or a truth value (the sign alone)."""

    type: int
    kid: bytes | None
    alg: int | str | None
    operations: list | None
    secret: bytes | None = None
    curve: int | None = None
    x: bytes | None = None
    y: bytes | bool | None = None


def key_of(item):
    """The key that an item is."""
    pairs = read_map(item, KEY_FORMS)
    demand(1 in pairs, Reason.BadValue, item.place)
    key_type = name_of(pairs, 1)
    demand(key_type in (EC2, SYMMETRIC), Reason.UnknownKey, item.place)
    operations = [it.integer() for it in pairs[4][1].children] if 4 in pairs else None
    key = Key(key_type, content_of(pairs, 2), name_of(pairs, 3), operations)

    def member(label, test):
        demand(label in pairs, Reason.BadValue, item.place)
        value = pairs[label][1]
        demand(test(value), Reason.BadValue, value.place)
        return value

    if key_type == SYMMETRIC:
        key.secret = member(-1, lambda value: is_bytes(value) and value.argument > 0).content()
        return key
    key.curve = member(-1, is_integer_or_text).integer()
    demand(key.curve in COORDINATE_BYTES, Reason.UnknownKey, item.place)

    def is_coordinate(value):
        return is_bytes(value) and value.argument == COORDINATE_BYTES[key.curve]

    key.x = member(-2, is_coordinate).content()
    y = member(-3, lambda value: is_coordinate(value) or value.truth() is not None)
    key.y = y.content() if is_bytes(y) else y.truth()
    if -4 in pairs:
        member(-4, is_bytes)
    return key


# the bytes of a public key on Ed25519 and Ed448 (RFC 8032 sections 5.1.5 and 5.2.5)
PUBLIC_KEY_BYTES = {6: 32, 7: 57}


def okp_key_of(item):
    """The public key of the type OKP on a curve of EdDSA that an item is (RFC 9053 section 7.2)."""
    pairs = read_map(item, KEY_FORMS)
    demand(1 in pairs, Reason.BadValue, item.place)
    demand(name_of(pairs, 1) == OKP, Reason.UnknownKey, item.place)
    listed = pairs[4][1].children if 4 in pairs else None
    operations = None if listed is None else [it.integer() for it in listed]
    demand(-1 in pairs, Reason.BadValue, item.place)
    curve = pairs[-1][1]
    number = curve.integer()
    demand(is_integer_or_text(curve), Reason.BadValue, curve.place)
    demand(number in PUBLIC_KEY_BYTES, Reason.UnknownKey, item.place)
    demand(-2 in pairs, Reason.BadValue, item.place)
    x = pairs[-2][1]
    demand(is_bytes(x) and x.argument == PUBLIC_KEY_BYTES[number], Reason.BadValue, x.place)
    if -4 in pairs:
        demand(is_bytes(pairs[-4][1]), Reason.BadValue, pairs[-4][1].place)
    return Key(OKP, content_of(pairs, 2), name_of(pairs, 3), operations, curve=number, x=x.content())


def read_okp_key(data):
    """The public key of the type OKP that some bytes are."""
    return okp_key_of(read_whole(data, 0, len(data), KEY_NESTING))


def read_okp_keys(data):
    """The public keys of the type OKP in a key set. An item that is none is ignored."""
    keys = []
    item = read_whole(data, 0, len(data), KEY_NESTING)
    for element in [item] if item.major == MAP else item.children:
        try:
            keys.append(okp_key_of(element))
        except Refused:
            pass
    return keys


def read_key(data):
    """The key that some bytes are."""
    return key_of(read_whole(data, 0, len(data), KEY_NESTING))


def read_key_items(data):
    """The items of a key set, one map or an array of one or more: of each the place, and its key or why it is refused."""
    demand(len(data) <= KEY_SET_LIMIT, Reason.BadKeySet, 0)
    item = read_whole(data, 0, len(data), KEY_NESTING)
    is_set = item.major == MAP or item.major == ARRAY and item.children
    demand(is_set, Reason.BadKeySet, 0)
    items = []
    for element in [item] if item.major == MAP else item.children:
        try:
            items.append((element.place, key_of(element)))
        except Refused as refusal:
            items.append((element.place, refusal))
    return items


@functools.lru_cache(maxsize=8)
def read_key_set(data, algorithms=None, least_secret=0, most=USABLE_KEYS):
    """The usable keys of a key set that are allowed. A key that is refused, or isn't allowed, is ignored."""
    keys = [it for _place, it in read_key_items(data) if isinstance(it, Key)]
    keys = [it for it in keys if is_allowed(it, algorithms, least_secret)]
    demand(len(keys) <= most, Reason.BadKeySet, 0)
    return keys


def known_operations(key):
    """The registered operations that a key lists (RFC 9052 section 7.1), in their order."""
    return [it for it in range(1, 11) if it in key.operations]


def is_allowed(key, algorithms, least_secret):
    """Whether a key is for one of these algorithms, where they are stated, and its secret is long enough."""
    is_long = key.secret is None or len(key.secret) >= least_secret
    return is_long and (algorithms is None or key.alg in algorithms)


# Algorithms, and the choice of the key (RFC 9053 sections 2.1 and 3.1, RFC 9052 section 7.1)


@dataclass(frozen=True)
class Algorithm:
    kind: str
    hash: str
    auth_length: int
    key_type: int
    curve: int | None = None


ALGORITHMS = {
    4: Algorithm("mac0", "sha256", 8, SYMMETRIC),
    5: Algorithm("mac0", "sha256", 32, SYMMETRIC),
    6: Algorithm("mac0", "sha384", 48, SYMMETRIC),
    7: Algorithm("mac0", "sha512", 64, SYMMETRIC),
    -7: Algorithm("sign1", "sha256", 64, EC2, 1),
    -35: Algorithm("sign1", "sha384", 96, EC2, 2),
    -36: Algorithm("sign1", "sha512", 132, EC2, 3),
    -9: Algorithm("sign1", "sha256", 64, EC2, 1),
    -51: Algorithm("sign1", "sha384", 96, EC2, 2),
    -52: Algorithm("sign1", "sha512", 132, EC2, 3),
}
OPERATIONS = {"mac0": MAC_VERIFY, "sign1": VERIFY}


def is_of_kind(alg, kind):
    return alg in ALGORITHMS and ALGORITHMS[alg].kind == kind


def choose_key(keys, kind, protected, unprotected, place):
    """The one key that fits, and its algorithm's number."""
    inside, outside = name_of(protected, ALG), name_of(unprotected, ALG)
    alg = outside if inside is None else inside
    demand(alg is None or is_of_kind(alg, kind), Reason.UnknownAlg, place)
    kid = content_of(protected | unprotected, KID)
    fitting = []
    for key in keys:
        used = key.alg if inside is None else inside
        fits = (
            is_of_kind(used, kind)
            and key.alg in (None, used)
            # anyone can change the unprotected bucket, so the key has to name the same algorithm
            and (inside is not None or outside is None or key.alg == outside)
            and ALGORITHMS[used].key_type == key.type
            and ALGORITHMS[used].curve == key.curve
            and (key.operations is None or OPERATIONS[kind] in key.operations)
            and (None in (key.kid, kid) or key.kid == kid)
        )
        if fits:
            fitting.append((key, used))
    demand(len(fitting) < 2, Reason.AmbiguousKey, place)
    demand(fitting or alg is not None, Reason.NoAlg, place)
    demand(fitting or inside is not None, Reason.AlgUnprotected, place)
    demand(fitting, Reason.NoKey, place)
    return fitting[0]


# the signature algorithms that are left to the caller, each with the curves that it takes, and the bytes of a signature on them (RFC
# 9053 section 2.2, RFC 9864 section 2.2, RFC 8032 sections 5.1.6 and 5.2.6)
FURTHER = {-8: (6, 7), -19: (6,), -53: (7,)}
SIGNATURE_BYTES = {6: 64, 7: 114}


def choose_further_key(keys, kind, protected, unprotected, place):
    """The one key of the type OKP that fits, and its algorithm's number."""
    inside, outside = name_of(protected, ALG), name_of(unprotected, ALG)
    stated = outside if inside is None else inside
    demand(stated is None or kind == "sign1" and stated in FURTHER, Reason.UnknownAlg, place)
    asked = content_of(protected | unprotected, KID)
    fitting = []
    for key in keys:
        with_alg = key.alg if inside is None else inside
        fits = (
            kind == "sign1"
            and key.curve in FURTHER.get(with_alg, ())
            and key.alg in (None, with_alg)
            # the unprotected bucket's counts only where the key names it too
            and not (inside is None and outside is not None and key.alg != outside)
            and (key.operations is None or VERIFY in key.operations)
            and (None in (key.kid, asked) or key.kid == asked)
        )
        if fits:
            fitting.append((key, with_alg))
    demand(len(fitting) <= 1, Reason.AmbiguousKey, place)
    if not fitting:
        raise Refused(Reason.NoAlg if stated is None else Reason.AlgUnprotected if inside is None else Reason.NoKey, place)
    return fitting[0]


# Messages (RFC 9052 sections 2 to 6)

TAGS = {17: "mac0", 18: "sign1"}
ENCRYPTED, SEVERAL_PARTIES, CWT_TAG = (16, 96), (97, 98), 61


@dataclass
class Context:
    """What a message is read with. Without keys it is only inspected: no key is chosen and nothing is compared."""

    wanted: str
    keys: list | None = None
    aad: bytes = b""
    payload_limit: int = PAYLOAD_LIMIT
    vouch: bytes | None = None
    # the bytes of a detached payload; without them the message has its payload
    payload: bytes | None = None
    # the stated number of these bytes; without it that of those that are there
    payload_length: int | None = None
    # whether the tag of a CWT may come first
    cwt: bool = True
    # further labels that may be critical: the program understands none
    understood: tuple = ()
    header_limit: int = HEADER_LIMIT
    nesting: int = NESTING


@dataclass
class Message:
    """A message all of whose bytes are there."""

    kind: str
    protected: dict
    unprotected: dict
    # empty where the bucket is empty, also where it was received as a map
    protected_bytes: bytes
    payload: bytes
    auth: bytes
    auth_place: int
    taken: int
    key: Key | None
    alg: int | None


def read_front(data, wanted, cwt=True):
    """The kind of a message, and the place after its tags and its array's head."""
    place, kind = 0, None
    major, argument, width = read_head(data, place)
    if cwt and (major, argument) == (TAG, CWT_TAG):
        place += width
        major, argument, width = read_head(data, place)
        demand(major == TAG, Reason.CwtTagAlone, place)
    if major == TAG:
        demand(argument not in ENCRYPTED, Reason.Encrypted, place)
        demand(argument not in SEVERAL_PARTIES, Reason.SeveralParties, place)
        kind = TAGS.get(argument)
        demand(kind and wanted in (kind, "tagged"), Reason.WrongTag, place)
        place += width
        major, argument, width = read_head(data, place)
    demand(major == ARRAY, Reason.WrongType, place)
    demand(kind or wanted != "tagged", Reason.WrongTag, place)
    demand(argument == 4, Reason.NotFour, place)
    return kind or wanted, place + width


def read_string(data, place, is_good, reason):
    """The content of the byte string at a place, and the place after it. A length that isn't good has this reason."""
    major, length, width = read_head(data, place)
    demand(major == BYTES, Reason.WrongType, place)
    demand(is_good(length), reason, place)
    end = place + width + length
    demand(end <= len(data), Reason.Truncated, len(data))
    return data[place + width : end], end


def read_protected(data, place, limit, nesting):
    """The protected bucket, its bytes as they are authenticated, and the place after them."""
    content, end = read_string(data, place, lambda it: it <= limit, Reason.PastRoom)
    if not content:
        return {}, b"", end
    pairs = read_map(read_whole(data, end - len(content), end, nesting), HEADER_FORMS)
    return pairs, content if pairs else b"", end


def read_payload(data, place, context):
    """The payload of a message, which is in it or was passed next to it, and the place of the tag or signature."""
    major, argument, width = read_head(data, place)
    is_nil = (major, argument, width) == (SIMPLE, NIL, 1)
    if context.payload is None:
        demand(not is_nil, Reason.Detached, place)
        return read_string(data, place, lambda it: it <= context.payload_limit, Reason.PayloadTooLong)
    demand(major != BYTES, Reason.Attached, place)
    demand(is_nil, Reason.WrongType, place)
    length = len(context.payload) if context.payload_length is None else context.payload_length
    demand(length <= min(context.payload_limit, PAYLOAD_LIMIT), Reason.PayloadTooLong, place)
    demand(length <= len(context.payload), Reason.Truncated, place)
    return context.payload, place + width


def read_headers(data, context):
    """The kind of a message, its buckets, the bytes of the protected one, and the place after them."""
    limit, nesting = context.header_limit, context.nesting
    kind, place = read_front(data, context.wanted, context.cwt)
    protected, protected_bytes, place = read_protected(data, place, limit, nesting)
    item = read_item(data, place, place + limit, nesting)
    unprotected = read_map(item, HEADER_FORMS)
    check_buckets(protected, unprotected, item.end, context.understood)
    return kind, protected, unprotected, protected_bytes, item.end


def read_message(data, context):
    """The message that some bytes begin with, up to its last byte, which is before the comparison."""
    kind, protected, unprotected, protected_bytes, place = read_headers(data, context)
    key, alg = None, None
    if context.keys is not None:
        key, alg = choose_key(context.keys, kind, protected, unprotected, place)
    payload, auth_place = read_payload(data, place, context)
    lengths = range(SHOWN_AUTH_LIMIT + 1) if alg is None else [ALGORITHMS[alg].auth_length]
    auth, taken = read_string(data, auth_place, lambda it: it in lengths, Reason.BadAuthLength)
    return Message(kind, protected, unprotected, protected_bytes, payload, auth, auth_place, taken, key, alg)


def read_further_message(data, context):
    """The message that some bytes begin with, whose signature is left to the caller: the keys of the context are of the type OKP."""
    kind, protected, unprotected, protected_bytes, place = read_headers(data, context)
    key, alg = choose_further_key(context.keys, kind, protected, unprotected, place)
    payload, auth_place = read_payload(data, place, context)
    auth, taken = read_string(data, auth_place, lambda it: it <= SHOWN_AUTH_LIMIT, Reason.BadAuthLength)
    demand(len(auth) == SIGNATURE_BYTES[key.curve], Reason.BadAuthLength, auth_place)
    return Message(kind, protected, unprotected, protected_bytes, payload, auth, auth_place, taken, key, alg)


def check_further(message, holds, count):
    """Refuses a message whose signature isn't good, or that isn't all of so many bytes."""
    demand(holds, Reason.BadAuth, message.auth_place)
    demand(message.taken == count, Reason.Trailing, message.taken)


def structure_front(kind, protected_bytes, aad, length):
    """What is authenticated, up to a payload of this length, with shortest heads (RFC 9052 sections 4.4, 6.3 and 9)."""
    context = {"mac0": b"MAC0", "sign1": b"Signature1"}[kind]
    return head(ARRAY, 4) + string(context, TEXT) + string(protected_bytes) + string(aad) + head(BYTES, length)


def structure(kind, protected_bytes, aad, payload):
    """What is authenticated."""
    return structure_front(kind, protected_bytes, aad, len(payload)) + payload


def mac(alg, key, content):
    algorithm = ALGORITHMS[alg]
    return hmac.digest(key.secret, content, algorithm.hash)[: algorithm.auth_length]


def digest_of(alg, content):
    return hashlib.new(ALGORITHMS[alg].hash, content).digest()


def signed_digest(message, aad):
    """The digest of a message's Sig_structure."""
    return digest_of(message.alg, structure(message.kind, message.protected_bytes, aad, message.payload))


def asked_of_caller(message, aad):
    """What a verifier of EdDSA is asked, which hashes by itself: the public key, the structure and the signature (RFC 8032 section 5.1.7)."""
    return message.key.x, structure(message.kind, message.protected_bytes, aad, message.payload), message.auth


def vouch_word(message, aad):
    """The bytes that vouch for a signature: the curve, the digest, the signature, x, and y or its sign."""
    digest = signed_digest(message, aad)
    y = bytes([message.key.y]) if isinstance(message.key.y, bool) else message.key.y
    return bytes([message.key.curve]) + digest + message.auth + message.key.x + y


def authenticate(message, context):
    if message.kind == "mac0":
        content = structure("mac0", message.protected_bytes, context.aad, message.payload)
        is_good = mac(message.alg, message.key, content) == message.auth
    else:
        is_good = vouch_word(message, context.aad) == context.vouch
    try:
        demand(is_good, Reason.BadAuth, message.auth_place)
    except Refused as refusal:
        refusal.taken = message.taken
        raise


# Claims (RFC 8392 section 3, RFC 8747 section 3)

DATE_TAG = 1
CNF_KEY, CNF_ENCRYPTED_KEY, CNF_KID = 1, 2, 3


def date_form(value):
    if value.is_float():
        return Reason.FloatDate
    if value.major == TAG and value.argument == DATE_TAG:
        return Reason.TaggedDate
    return None if value.integer() is not None else Reason.BadValue


# by label: the claim's name and its value's form
CLAIMS = {
    1: ("iss", form(is_text)),
    2: ("sub", form(is_text)),
    3: ("aud", form(lambda value: is_text(value) or is_array_of(is_text)(value))),
    4: ("exp", date_form),
    5: ("nbf", date_form),
    6: ("iat", date_form),
    7: ("cti", form(is_bytes)),
    8: ("cnf", form(lambda value: value.major == MAP)),
}
CLAIM_FORMS = {label: it for label, (_, it) in CLAIMS.items()}


def read_claims(payload, nesting=NESTING):
    """The values of the claims by their names, with `cnf key`, which is a `Key`, and `cnf kid`."""
    item = read_whole(payload, 0, len(payload), nesting)
    is_nested = item.major == TAG and item.argument in (*ENCRYPTED, *TAGS, *SEVERAL_PARTIES, CWT_TAG)
    demand(not is_nested, Reason.NestedCwt, 0)
    pairs = read_map(item, CLAIM_FORMS)
    claims = {CLAIMS[label][0]: value for label, (_, value) in pairs.items() if label in CLAIMS}
    if "cnf" in claims:
        claims |= read_confirmation(claims["cnf"])
    return claims


def read_confirmation(item):
    members, found = read_map(item, {}), {}
    demand(not {CNF_KEY, CNF_ENCRYPTED_KEY} <= members.keys(), Reason.BadConfirmation, item.place)
    if CNF_ENCRYPTED_KEY in members:
        raise Refused(Reason.EncryptedKey, members[CNF_ENCRYPTED_KEY][0].place)
    if CNF_KEY in members:
        value = members[CNF_KEY][1]
        try:
            found["cnf key"] = key_of(value)
        except Refused:
            raise Refused(Reason.BadConfirmation, value.place) from None
        demand(found["cnf key"].type == EC2, Reason.PlainKey, value.place)
    if CNF_KID in members:
        found["cnf kid"] = members[CNF_KID][1]
        demand(is_bytes(found["cnf kid"]), Reason.BadValue, found["cnf kid"].place)
    return found


def audience_of(claims):
    """The texts of the audience."""
    if "aud" not in claims:
        return []
    return claims["aud"].children if claims["aud"].major == ARRAY else [claims["aud"]]


def admit(claims, now, leeway, audience):
    """Refuses claims for their dates, or for an audience that lacks each of these texts; without any none is compared."""
    if "exp" in claims:
        demand(now < claims["exp"].integer() + leeway, Reason.Expired, claims["exp"].place)
    if "nbf" in claims:
        demand(now + leeway >= claims["nbf"].integer(), Reason.NotYet, claims["nbf"].place)
    if "aud" in claims and audience is not None:
        is_named = any(it.text() in audience for it in audience_of(claims))
        demand(is_named, Reason.WrongAudience, claims["aud"].place)


REQUIRABLE = tuple(name for name, _ in CLAIMS.values() if name != "cnf")


@dataclass(frozen=True)
class Requirements:
    """What a token has to meet beyond its admission: claims that are present, texts, and limits in seconds."""

    now: int
    leeway: int
    present: tuple = ()
    iss: str | None = None
    sub: str | None = None
    aud: str | None = None
    lifetime: int | None = None
    age: int | None = None
    # whether iat must not be in the future
    issued: bool = False


def unmet_requirements(claims, required):
    """The names and the places of the requirements that aren't met, in their order."""
    place = {name: claims[name].place if name in claims else 0 for name in REQUIRABLE}
    exp, iat = (claims[it].integer() if it in claims else None for it in ("exp", "iat"))
    for name in required.present:
        if name not in claims:
            yield f"Present{name.capitalize()}", 0
    for name, stated, word in ("iss", required.iss, "Issuer"), ("sub", required.sub, "Subject"):
        if stated is not None and (name not in claims or claims[name].text() != stated):
            yield word, place[name]
    if required.aud is not None and required.aud not in [it.text() for it in audience_of(claims)]:
        yield "Audience", place["aud"]
    if required.lifetime is not None:
        starts = [required.now + required.leeway] + ([] if iat is None else [iat])
        if exp is None or any(exp > it + required.lifetime for it in starts):
            yield "Lifetime", place["exp"]
    if required.age is not None:
        if iat is None or iat < required.now - required.leeway - required.age:
            yield "Age", place["iat"]
    if required.issued:
        if iat is not None and iat > required.now + required.leeway:
            yield "Issued", place["iat"]
