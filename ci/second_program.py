"""What the program prints by the second reading: one function for each command, from its options and its input.

The options are a dictionary of names and arguments: of an option that may be there several times a list, of one without an
argument True. The lines, the exit statuses and the order in which the arguments
are judged are those of README.md and of the section on the program in docs/DECISIONS.md.
"""
import contextlib
import datetime
import json
import re
from dataclasses import dataclass

import second_reading as reading
from second_reading import Refused

AAD_LIMIT = 65_535
KID_LIMIT = 255
CLAIMS_LIMIT = 4_096


@dataclass(frozen=True)
class Limits:
    """The room of --limits."""

    header: int = reading.HEADER_LIMIT
    nesting: int = reading.NESTING
    usable_keys: int = reading.USABLE_KEYS
    claims: int = CLAIMS_LIMIT


LIMITS = {"small": Limits(), "large": Limits(65_535, 16, 256, 65_535)}


def limits_of(options):
    return LIMITS[options.get("limits", "small")]


@dataclass(frozen=True)
class Answer:
    """The exit status and what is printed; with `is_cut` any prefix of that may be printed."""

    status: int
    text: bytes
    is_cut: bool = False

    def allows(self, status, text):
        is_text = self.text.startswith(text) if self.is_cut else self.text == text
        return self.status == status and is_text


class Unmet(Exception):
    """The first requirement that admitted claims don't meet."""

    def __init__(self, text, taken):
        super().__init__(text)
        self.taken = taken


class Fault(Exception):
    """An argument, key or key set that is at fault."""


class TooMany(Exception):
    """A key set with more usable keys than another command takes: what is listed of it."""


class CutShort(Exception):
    """A message that can't be made whole, since the payload's bytes end: what is made of it."""


def hexadecimal(options, name):
    """The bytes of an option's argument, or None where it is absent."""
    argument = options.get(name)
    if argument is None:
        return None
    if len(argument) % 2 or not re.fullmatch(r"[0-9a-fA-F]*", argument):
        raise Fault(f"line {name}")
    return bytes.fromhex(argument)


def external_data(options):
    aad = hexadecimal(options, "aad") or b""
    if len(aad) > AAD_LIMIT:
        raise Fault("line aad")
    return aad


def algorithms_of(options):
    """The numbers of the algorithms that --algs lists, or None where it is absent."""
    if "algs" not in options:
        return None
    words = options["algs"].split(",")
    if not all(re.fullmatch(r"[+-]?[0-9]+", it, re.ASCII) and int(it) in reading.ALGORITHMS for it in words):
        raise Fault("line algs")
    return frozenset(map(int, words))


def context_of(command, options):
    """The context of a command with keys. Its arguments are judged in this order, and the key set after them."""
    keys, algorithms, aad = hexadecimal(options, "keys"), algorithms_of(options), external_data(options)
    least_secret = int(options.get("least-secret", "0"))
    vouch, payload = hexadecimal(options, "vouch"), hexadecimal(options, "payload")
    labels = [label_of(it) for it in options.get("header", [])]
    limits = limits_of(options)
    try:
        usable = reading.read_key_set(keys, algorithms, least_secret, limits.usable_keys)
    except Refused as refusal:
        raise Fault(f"keys {refusal}") from None
    wanted = "sign1" if command == "digest" else options.get("kind", "tagged")
    payload_limit = limits.claims if command == "cwt" else reading.PAYLOAD_LIMIT
    context = reading.Context(wanted, usable, aad, payload_limit, vouch, payload)
    context.header_limit, context.nesting, context.labels = limits.header, limits.nesting, labels
    return context


def demand_end(data, message):
    """Nothing follows the message, but for another one of a sequence."""
    reading.demand(len(data) == message.taken, reading.Reason.Trailing, message.taken)


def printed(lines):
    return "".join(f"{it}\n" for it in lines).encode()


def show(options, data):
    limits = limits_of(options)
    notation, has_payload = "diagnostic" in options, "with-payload" in options
    payload_limit = limits.claims if has_payload else reading.PAYLOAD_LIMIT
    context = reading.Context(options.get("kind", "tagged"), header_limit=limits.header, nesting=limits.nesting)
    context.payload_limit = payload_limit
    try:
        message = reading.read_message(data, context)
    except Refused as refusal:
        if refusal.reason is not reading.Reason.Detached or "detached" not in options:
            raise
        _, protected, unprotected, *_ = reading.read_headers(data, context)
        elsewhere = ["payload elsewhere"] * has_payload
        return printed([f"detached at {refusal.place}", *lines_of_headers(protected, unprotected, notation), *elsewhere])
    demand_end(data, message)
    shown = [line_of_payload(message.payload, limits.nesting)] * has_payload
    return printed([*lines_of_shape(message, notation), *shown])


def line_of_payload(payload, nesting):
    """The payload as one item, or its bytes and why they are none."""
    try:
        return f"payload {diagnostic(reading.read_whole(payload, 0, len(payload), nesting))}"
    except Refused as refusal:
        return f"payload h'{payload.hex()}' refused {refusal}"


def lines_of_shape(message, in_diagnostic_notation=False):
    payload, auth = len(message.payload), len(message.auth)
    yield f"shape {message.kind} payload {payload} auth {auth} taken {message.taken}"
    yield from lines_of_headers(message.protected, message.unprotected, in_diagnostic_notation)


def lines_of_headers(protected, unprotected, in_diagnostic_notation):
    for name, bucket in ("protected", protected), ("unprotected", unprotected):
        for label, value in bucket.values():
            notation = f" {diagnostic(label)}: {diagnostic(value)}" if in_diagnostic_notation else ""
            yield f"{name} {label.spelling().hex()} {value.spelling().hex()}{notation}"


def diagnostic(item):
    """An item in diagnostic notation (RFC 8949 section 8); floats and texts that aren't UTF-8 have forms of their own."""
    if item.integer() is not None:
        return str(item.integer())
    if item.major == reading.BYTES:
        return f"h'{item.content().hex()}'"
    if item.major == reading.TEXT:
        return f"text'{item.content().hex()}'" if item.text() is None else quoted(item.text())
    inner = [diagnostic(it) for it in item.children]
    if item.major == reading.ARRAY:
        return f"[{', '.join(inner)}]"
    if item.major == reading.MAP:
        return "{" + ", ".join(f"{label}: {value}" for label, value in zip(inner[::2], inner[1::2])) + "}"
    if item.major == reading.TAG:
        return f"{item.argument}({inner[0]})"
    if item.is_float():
        return f"float'{item.content().hex() or item.spelling()[1:].hex()}'"
    return SIMPLE_VALUES.get(item.argument, f"simple({item.argument})")


SIMPLE_VALUES = {20: "false", 21: "true", 22: "null", 23: "undefined"}


def verify(options, data):
    context = context_of("verify", options)
    if "sequence" in options:
        return sequence(data, lambda rest: verified(context, rest))
    message, lines = verified(context, data)
    demand_end(data, message)
    return printed([*lines, *(line_of_parameter(*it, message) for it in context.labels)])


# a text in quotes as `show` writes it: of a printable ASCII character there is no escape of its number
IN_QUOTES = r'"(?:[ !#-\[\]-~]|\\["\\]|\\u(?!00(?:[2-6][0-9a-f]|7[0-9a-e]))[0-9a-f]{4})*"'


def label_of(word):
    """The label that an argument of --header is, and its notation: an integer or a text, in quotes where it begins as a number or so."""
    if re.match(r"[-+0-9]", word):
        if not re.fullmatch(r"[+-]?[0-9]+", word, re.ASCII) or not -(2**63) <= int(word) < 2**63:
            raise Fault("line header")
        return int(word), str(int(word))
    if not word.startswith('"'):
        return word, quoted(word)
    if not re.fullmatch(IN_QUOTES, word):
        raise Fault("line header")
    return json.loads(word), word


def line_of_parameter(label, notation, message):
    """The line of the header parameter of a label."""
    for name, bucket in ("protected", message.protected), ("unprotected", message.unprotected):
        if label in bucket:
            return f"{name} {notation}: {diagnostic(bucket[label][1])}"
    return f"absent {notation}"


def verified(context, data):
    """The authentic message that bytes begin with, and its line."""
    message = reading.read_message(data, context)
    reading.authenticate(message, context)
    length = len(message.payload)
    return message, [f"authentic {message.kind} alg {message.alg} payload {length} taken {message.taken}"]


class Listed(Exception):
    """What is printed of a sequence one of whose messages isn't accepted."""


def sequence(data, answered):
    """The answers to a sequence of messages, each after its place; one that has no known end is the last."""
    lines, place, is_refused = [], 0, False
    while place < len(data):
        lines.append(f"at {place}")
        try:
            message, accepted = answered(data[place:])
            taken = message.taken
            lines += accepted
        except (Refused, Unmet) as refusal:
            is_refused = True
            lines.append(f"refused {refusal}")
            taken = refusal.taken if isinstance(refusal, Unmet) or refusal.taken else None
        if taken is None:
            lines.append(f"ended at {place}: the next message can't be found")
            break
        place += taken
    if is_refused:
        raise Listed(printed(lines))
    return printed(lines)


def digest(options, data):
    context = context_of("digest", options)
    message = reading.read_message(data, context)
    demand_end(data, message)
    return printed([f"vouch {reading.vouch_word(message, context.aad).hex()}"])


@contextlib.contextmanager
def refusals_of(part, taken=None):
    """Names what is refused: the message, or the claims of one that has this many bytes."""
    try:
        yield
    except Refused as refusal:
        refusal.part = f"{part} "
        refusal.taken = refusal.taken if taken is None else taken
        raise


def cwt(options, data):
    context = context_of("cwt", options)
    if "sequence" in options:
        return sequence(data, lambda rest: admitted(options, context, rest))
    message, lines = admitted(options, context, data)
    with refusals_of("message"):
        demand_end(data, message)
    return printed(lines)


def admitted(options, context, data):
    """The admitted token that bytes begin with, and the lines of its claims."""
    with refusals_of("message"):
        message = reading.read_message(data, context)
        reading.authenticate(message, context)
    with refusals_of("claims", message.taken):
        claims = reading.read_claims(message.payload, context.nesting)
        audience = [options["aud"]] if "aud" in options else None
        reading.admit(claims, int(options["now"]), int(options.get("leeway", "0")), audience)
    for name, place in reading.unmet_requirements(claims, requirements_of(options)):
        raise Unmet(f"policy {name} at {place}", message.taken)
    others = lines_of_others(reading.read_whole(message.payload, 0, len(message.payload), context.nesting)) if "claims" in options else []
    return message, [*lines_of_claims(claims, "text" in options), *others]


def lines_of_others(payload):
    """The claims that aren't registered (RFC 8392 section 3.1), in the order of the payload."""
    for label, value in zip(payload.children[::2], payload.children[1::2]):
        if label.name() not in range(1, 8):
            yield f"claim {diagnostic(label)}: {diagnostic(value)}"


def requirements_of(options):
    """What the options of `cwt` require of claims that are admitted."""
    present, aud = [*options.get("require", [])], None
    if "require-aud" in options:
        aud = options.get("aud")
        present += ["aud"] if aud is None else []
    limits = {it: int(options[name]) for it, name in (("lifetime", "max-lifetime"), ("age", "max-age")) if name in options}
    limits["issued"] = "age" in limits
    return reading.Requirements(
        int(options["now"]), int(options.get("leeway", "0")), tuple(present), options.get("iss"), options.get("sub"), aud, **limits
    )


def lines_of_claims(claims, with_text=False):
    yield "admitted"
    texts = [(name, claims[name]) for name in ("iss", "sub") if name in claims]
    for name, it in texts + [("aud", it) for it in reading.audience_of(claims)]:
        yield f"{name} {it.content().hex()}" + (f" {quoted(it.text())}" if with_text else "")
    for name in "exp", "nbf", "iat":
        if name in claims:
            seconds = claims[name].integer()
            yield f"{name} {seconds}" + (date_of(seconds) if with_text else "")
    if "cti" in claims:
        yield f"cti {claims['cti'].content().hex()}"
    if "cnf key" in claims:
        key = claims["cnf key"]
        y = str(key.y).lower() if isinstance(key.y, bool) else key.y.hex()
        yield f"cnf key {key.curve} {key.x.hex()} {y}"
    if "cnf kid" in claims:
        yield f"cnf kid {claims['cnf kid'].content().hex()}"


def date_of(seconds):
    """A space and the date, where the year has four digits. Python's dates begin in the year 1: the year 0 is as long as 2000."""
    days, second = divmod(seconds, 86_400)
    clock = f"T{second // 3600:02}:{second // 60 % 60:02}:{second % 60:02}Z"
    ordinal = days + datetime.date(1970, 1, 1).toordinal()
    if -366 < ordinal <= 0:
        day = datetime.date.fromordinal(ordinal + 366 + datetime.date(1999, 12, 31).toordinal())
        return f" 0000-{day.month:02}-{day.day:02}{clock}"
    if 0 < ordinal <= datetime.date.max.toordinal():
        return f" {datetime.date.fromordinal(ordinal).isoformat()}{clock}"
    return ""


def made_front(tag, protected, kid, length, data):
    """All of a message that precedes its tag or signature (RFC 9052 sections 4.2 and 6.2), where the bytes of its payload are there."""
    if kid is not None and len(kid) > KID_LIMIT or length > reading.PAYLOAD_LIMIT:
        raise Fault("make TooLong")
    unprotected = b"\xa0" if kid is None else bytes([0xA1, reading.KID]) + reading.string(kid)
    tagged = reading.head(reading.TAG, tag) + b"\x84"
    made = tagged + reading.string(protected) + unprotected + reading.head(reading.BYTES, length) + data[:length]
    if len(data) < length:
        raise CutShort(made)
    return made


def sign(alg, options, length, data, signature):
    """A COSE_Sign1 with this signature, and the digest that is signed (RFC 9052 sections 4.2 and 4.4)."""
    if not reading.is_of_kind(alg, "sign1"):
        raise Fault("make WrongAlgorithm")
    kid, aad = hexadecimal(options, "kid"), external_data(options)
    protected = bytes([0xA1, reading.ALG]) + reading.head(reading.NEGATIVE, -1 - alg)
    made = made_front(18, protected, kid, length, data)
    if len(signature) != reading.ALGORITHMS[alg].auth_length:
        raise CutShort(made, "WrongSignature")
    return made + reading.string(signature), reading.digest_of(alg, reading.structure("sign1", protected, aad, data[:length]))


def make(options, data):
    alg, length = int(options["alg"]), int(options["length"])
    key_bytes, kid, aad = hexadecimal(options, "key"), hexadecimal(options, "kid"), external_data(options)
    try:
        key = reading.read_key(key_bytes)
    except Refused as refusal:
        raise Fault(f"key {refusal}") from None
    may_make = key.operations is None or reading.MAC_CREATE in key.operations
    if key.type != reading.SYMMETRIC or key.alg not in (None, alg) or not may_make or not reading.is_of_kind(alg, "mac0"):
        raise Fault("make WrongKey")
    protected = bytes([0xA1, reading.ALG, alg])
    made = made_front(17, protected, kid, length, data)
    return made + reading.string(reading.mac(alg, key, reading.structure("mac0", protected, aad, data[:length])))


def keys(options, data):
    try:
        items = reading.read_key_items(hexadecimal(options, "keys"))
    except Refused as refusal:
        raise Fault(f"keys {refusal}") from None
    usable = sum(isinstance(it, reading.Key) for _place, it in items)
    asked = None
    if "for-message" in options:
        # the headers have the large limits
        context = reading.Context(options.get("kind", "tagged"), header_limit=65_535, nesting=16)
        asked = reading.read_headers(data, context)
    lines = [f"key at {place} {words_of(it, asked)}" for place, it in items]
    count = f"usable {usable} of {len(items)}"
    if usable > reading.USABLE_KEYS:
        raise TooMany(printed([*lines, f"{count} refused BadKeySet at 0"]))
    return printed([*lines, count])


def failed_condition(key, headers):
    """The first condition that a key fails to fit these headers, or nothing."""
    kind, protected, unprotected = headers[:3]
    inside, outside = reading.name_of(protected, reading.ALG), reading.name_of(unprotected, reading.ALG)
    used = key.alg if inside is None else inside
    if not reading.is_of_kind(used, kind) or key.alg not in (None, used) or (inside is None and outside not in (None, used)):
        return "algorithm"
    if reading.ALGORITHMS[used].key_type != key.type:
        return "type"
    if reading.ALGORITHMS[used].curve != key.curve:
        return "curve"
    if key.operations is not None and reading.OPERATIONS[kind] not in key.operations:
        return "key_ops"
    kid = reading.content_of(protected | unprotected, reading.KID)
    return "" if None in (key.kid, kid) or key.kid == kid else "kid"


def words_of(key, asked):
    """What the line of an item says of a usable key, for the headers of a message where there are any, or of a refusal."""
    if isinstance(key, Refused):
        return f"refused {key}"
    words = [f"kty {key.type}"]
    if key.curve is not None:
        words.append(f"crv {key.curve}")
    if key.kid is not None:
        words.append(f"kid {key.kid.hex()}")
    if key.alg is not None:
        words.append(f"alg {quoted(key.alg) if isinstance(key.alg, str) else key.alg}")
    if key.operations is not None:
        listed = ",".join(map(str, reading.known_operations(key)))
        words.append(f"ops {listed}".strip())
    words.append("usable")
    if asked is not None:
        failed = failed_condition(key, asked)
        words.append(f"fails {failed}" if failed else "fits")
    return " ".join(words)


def quoted(text):
    """A text in quotes, in printable ASCII characters."""
    units = text.encode("utf-16-be")
    numbers = [int.from_bytes(units[at : at + 2], "big") for at in range(0, len(units), 2)]
    return '"' + "".join("\\" * (it in (34, 92)) + chr(it) if 32 <= it <= 126 else f"\\u{it:04x}" for it in numbers) + '"'


# ---- --input

BLANKS = b" \t\r\n"
LETTERS = b"ABCDEFGHIJKLMNOPQRSTUVWXYZabcdefghijklmnopqrstuvwxyz"
# the values of the characters of a text, and how many bits each has (RFC 4648 sections 4, 5 and 8)
HEXADECIMAL = {it: int(chr(it), 16) for it in b"0123456789abcdefABCDEF"}
BASE64URL = {it: at for at, it in enumerate(LETTERS + b"0123456789-_")} | {ord("+"): 62, ord("/"): 63}
FORMS = {"hex": (HEXADECIMAL, 4), "base64url": (BASE64URL, 6)}
# what the hexadecimal of a message begins with, whose first byte is an array's or a tag's
LEADS = b"89abcdefABCDEF"


def form_of(data):
    """What --input auto takes some bytes for."""
    if not data or data[0] not in BLANKS and data[0] not in BASE64URL:
        return "cbor"
    return "hex" if data.lstrip(BLANKS)[:1] in [bytes([it]) for it in LEADS] else "base64url"


def written(data, form):
    """The bytes that standard input stands for in a form of --input, and whether it is of that form to its end."""
    form = form_of(data) if form == "auto" else form
    if form == "cbor":
        return data, True
    values, width = FORMS[form]
    text = bytes(it for it in data if it not in BLANKS)
    count = next((at for at, it in enumerate(text) if it not in values), len(text))
    bits = "".join(f"{values[it]:0{width}b}" for it in text[:count])
    content = bytes(int(bits[at : at + 8], 2) for at in range(0, len(bits) - 7, 8))
    # a character too few gives no byte; the signs of padding may be left out (RFC 4648 section 3.2)
    is_whole = len(bits) % 8 < width
    paddings = (b"", b"=" * (-count % 4)) if form == "base64url" else (b"",)
    return content, is_whole and text[count:] in paddings


def answer_to_text(command, options, data):
    """What the program answers to a text: a message that is refused before a wrong character is refused."""
    form = options.get("input", "cbor")
    content, is_whole = written(data, form)
    found = answer(command, options, content)
    is_decided = found.status == 1 and not found.text.endswith(b"Truncated at %d\n" % len(content))
    # what is shown before the payload has come
    is_early = found.status == 0 and found.text.startswith(b"detached")
    return found if is_whole or is_decided or is_early or found.status == 2 else Answer(2, printed(["fault input"]))


COMMANDS = {"show": show, "verify": verify, "cwt": cwt, "digest": digest, "keys": keys, "make": make}


def answer(command, options, data):
    """What the program answers for a command, its options and its input."""
    try:
        return Answer(0, COMMANDS[command](options, data))
    except Refused as refusal:
        return Answer(1, printed([f"refused {refusal}"]))
    except Unmet as unmet:
        return Answer(1, printed([f"refused {unmet}"]))
    except (TooMany, Listed) as listed:
        return Answer(1, listed.args[0])
    except Fault as fault:
        return Answer(2, printed([f"fault {fault}"]))
    except CutShort as made:
        return Answer(2, made.args[0], is_cut=True)
