"""Cases for ci/soak: generated messages, tokens and key sets, valid ones and their mutants, each with a command.

A round makes one valid message with its key set and its options. Then come mutants of its bytes, and messages with one
part mutated or made with slips: a member is missing, comes twice or has another value, a tag or a length is another
one. Most are sealed: they get the MAC that makes them authentic, or the argument that vouches for the signature, so
that what is read after the comparison is tried too.
"""
import random
from dataclasses import dataclass, replace
from typing import NamedTuple

import option_rows
import second_program
import second_reading as reading

COMMANDS = {"verify": 8, "cwt": 9, "show": 3, "digest": 2, "keys": 2, "make": 5}
# the commands that may restrict their keys
RESTRICTED = tuple(it.name for it in option_rows.commands() if it.option("least-secret"))
# the options of `cwt` without an argument that say how one token is read, and those that state a number of seconds which is required
OF_CWT = [it for command in option_rows.commands() for it in command.options if command.name == "cwt"]
FLAGS = tuple(it.name for it in OF_CWT if not it.argument and it.name != "sequence")
LIMITS = tuple(it.name for it in OF_CWT if it.range and it.name not in ("least-secret", "now", "leeway"))
# how often a head is wider than it has to be, and how often a part that is made with slips has one: one of these rates
WIDE_RATES = (0, 0, 0.05, 0.5)
SLIP_RATES = (0.05, 0.1, 0.2, 0.4)
KIDS = (b"", b"1", b"2", b"11", bytes(8))
TEXTS = ("", "x", "alg", "a text", "caf\u00e9", "\U0001f511", "coap://light.example.com")
NUMBERS = (
    *range(11), 16, 17, 18, 23, 24, 42, 61, 96, 98, 255, 256, 65_535, 65_536, 2**32 - 1, 2**32, 2**56, 2**63, 2**64 - 1,
    *range(-9, 0), -24, -25, -35, -36, -51, -52, -256, -257, -65_537, -(2**32), -(2**63), -(2**64),
)
LABELS = (*range(1, 16), 42, 60, 256, 2**64 - 1, -1, -2, -65_537, -(2**64), *TEXTS)
LENGTHS = (0, 1, 2, 7, 14, 23, 24, 63, 64, 65, 127, 128, 129, 255, 256, 300)
LONG_LENGTHS = (4_095, 4_096, 4_097, 8_192, 65_535, 65_536, 70_000)
# the most bytes that an argument of the command line can have in hexadecimal, which has at most 131,071 characters
ARGUMENT_BYTES = 65_535
# what a message has in the place of a detached payload
NIL = b"\xf6"
# initial bytes that change what follows
HEADS = bytes.fromhex("00 18 1c 1f 20 38 40 57 58 5b 5f 60 80 84 9b 9f a0 a1 b8 bf c0 c1 d0 d1 d2 d8 f4 f6 f8 f9 fb ff")


def words_of(name, words):
    """An option with its argument, with each of several, or with none. One that begins with a minus comes after `=`."""
    if words is True:
        return [f"--{name}"]
    listed = [words] if isinstance(words, str) else words
    return [it for word in listed for it in ([f"--{name}={word}"] if word.startswith("-") else [f"--{name}", word])]


@dataclass(frozen=True)
class Case:
    """A run of the program: its command, its options in their order, and its input."""

    command: str
    options: dict
    data: bytes

    def arguments(self):
        return [self.command, *(it for name, words in self.options.items() for it in words_of(name, words))]

    def answer(self, data=None):
        """What the second reading answers, for this input or another one."""
        return second_program.answer(self.command, self.options, self.data if data is None else data)

    def sealed(self):
        """The case with the MAC or the vouching argument that makes it authentic, where it is read so far."""
        if self.command not in ("verify", "cwt"):
            return self
        try:
            context = second_program.context_of(self.command, self.options)
            message = reading.read_message(self.data, context)
        except (second_program.Fault, reading.Refused):
            return self
        if message.kind == "sign1":
            return replace(self, options=self.options | {"vouch": reading.vouch_word(message, context.aad).hex()})
        content = reading.structure("mac0", message.protected_bytes, context.aad, message.payload)
        mac = reading.mac(message.alg, message.key, content)
        start = message.taken - len(mac)
        return replace(self, data=self.data[:start] + mac + self.data[message.taken :])


# Values, and how they are spelled


class Raw(bytes):
    """Bytes that are their own spelling."""


class Pairs(list):
    """The labels and values of a map, which may have a label twice."""


class Tagged(NamedTuple):
    number: int
    value: object


@dataclass
class Spelling:
    """Spells values as items, some of their heads wider than they have to be."""

    chance: random.Random
    wide_rate: float

    def head(self, major, argument):
        shortest = reading.head(major, argument)
        if self.chance.random() >= self.wide_rate:
            return shortest
        info = self.chance.choice([it for it in (24, 25, 26, 27) if 1 + 2 ** (it - 24) >= len(shortest)])
        return bytes([major * 32 + info]) + argument.to_bytes(2 ** (info - 24), "big")

    def spell(self, value):
        match value:
            case Raw():
                return bytes(value)
            case None | False | True:
                return {None: b"\xf6", False: b"\xf4", True: b"\xf5"}[value]
            case int():
                return self.head(0, value) if value >= 0 else self.head(1, -1 - value)
            case bytes():
                return self.head(2, len(value)) + value
            case str():
                return self.head(3, len(value.encode())) + value.encode()
            case Tagged():
                return self.head(6, value.number) + self.spell(value.value)
            case Pairs():
                return self.head(5, len(value)) + b"".join(self.spell(it) for pair in value for it in pair)
            case list():
                return self.head(4, len(value)) + b"".join(map(self.spell, value))


# Mutants of bytes


def some_place(chance, data):
    """A place in the bytes, more often in the first ones."""
    end = len(data) if chance.random() < 0.5 else min(len(data), 40)
    return chance.randrange(end + 1)


def changed(chance, data):
    if not data:
        return data
    place = min(some_place(chance, data), len(data) - 1)
    byte = data[place]
    choices = chance.randrange(256), chance.choice(HEADS), byte + 1, byte - 1, byte ^ 1 << chance.randrange(8)
    return data[:place] + bytes([chance.choice(choices) % 256]) + data[place + 1 :]


def cut(chance, data):
    return data[: some_place(chance, data)]


def some_run(chance, data):
    start = some_place(chance, data)
    return start, start + chance.choice((1, 1, 2, 3, 8, 40))


def doubled(chance, data):
    start, end = some_run(chance, data)
    return data[:end] + data[start:]


def removed(chance, data):
    start, end = some_run(chance, data)
    return data[:start] + data[end:]


def moved(chance, data):
    start, end = some_run(chance, data)
    rest = data[:start] + data[end:]
    place = some_place(chance, rest)
    return rest[:place] + data[start:end] + rest[place:]


def inserted(chance, data):
    place = some_place(chance, data)
    return data[:place] + bytes([chance.choice(HEADS)]) + data[place:]


def lengthened(chance, data):
    return data + chance.choice((b"\0", b"\xff", data, chance.randbytes(5)))


MUTATIONS = (changed, cut, doubled, removed, moved, inserted, lengthened)


def mutated(chance, data):
    """The bytes with one mutation, or a few."""
    for _ in range(chance.choice((1, 1, 1, 2, 4))):
        data = chance.choice(MUTATIONS)(chance, data)
    return data


# Generated messages


@dataclass(frozen=True)
class Draft:
    """A message in parts: the strings as their contents, the others as they are spelled."""

    command: str
    options: dict
    keys: bytes
    front: bytes
    protected: bytes
    unprotected: bytes
    payload: bytes
    auth: bytes


class Round:
    """One message, and what it is made of. While the slip rate is 0, each part is valid."""

    def __init__(self, chance, command):
        self.chance, self.command, self.slip_rate = chance, command, 0
        self.spelling = Spelling(chance, chance.choice(WIDE_RATES))
        self.kind = "sign1" if command == "digest" or self.happens(0.3) else "mac0"
        self.other_kind = "mac0" if self.kind == "sign1" else "sign1"
        self.alg = self.pick(-7, -35, -36, -9, -51, -52) if self.kind == "sign1" else self.pick(4, 5, 5, 6, 7)
        self.alg_bucket = chance.choices(("protected", "unprotected", "neither"), (16, 2, 1))[0]
        self.kid = self.pick(None, chance.choice(KIDS))
        self.is_tagged = self.happens(0.8)
        self.now = self.pick(0, 5, 1_443_944_944, 1_443_944_944, 2**63 - 1)
        self.leeway = self.pick(0, 0, 1, 60, 2**32 - 1)
        self.audience = self.pick(*TEXTS)
        self.is_restricted = command in RESTRICTED and self.happens(0.15)

    def happens(self, rate):
        return self.chance.random() < rate

    def slips(self):
        return self.happens(self.slip_rate)

    def pick(self, *choices):
        return self.chance.choice(choices)

    def spell(self, value):
        return self.spelling.spell(value)

    # values

    def leaf(self):
        chance = self.chance
        info = self.pick(1, 2, 3)
        floating = Raw(bytes([0xF8 + info]) + chance.randbytes(2**info))
        simple = Raw(self.pick(b"\xe0", b"\xf7", b"\xf8\x20", b"\xf8\xff"))
        no_text = Raw(self.pick(b"\x61\xff", b"\x62\xc0\xaf", b"\x63\xed\xa0\x80"))
        number, text = chance.choice(NUMBERS), chance.choice(TEXTS)
        return self.pick(number, number, text, chance.randbytes(3), True, False, None, floating, simple, no_text)

    def any_value(self, depth=2):
        if self.slips() and self.happens(0.1):
            return Raw(self.pick(b"\xf8\x10", b"\x9f\xff", b"\xfc", b"\x5b" + b"\xff" * 8, b"\x9a\x00\x01\x00\x00"))
        if depth == 2 and self.happens(0.05):
            return self.nested(self.pick(4, 5, 6, 7, 8, 9) if self.slip_rate else 5)
        if not depth or self.happens(0.6):
            return self.leaf()
        inner = [self.any_value(depth - 1) for _ in range(self.chance.randrange(4))]
        return self.pick(inner, Pairs(zip(inner, inner)), Tagged(abs(self.chance.choice(NUMBERS)) % 2**64, inner))

    def nested(self, depth):
        """Arrays, maps and tags of so many levels."""
        value = self.pick([], Pairs([]), [0])
        for _ in range(depth - 1):
            value = self.pick([value], Pairs([(0, value)]), Tagged(1, value), [value, 0])
        return value

    def near(self, value):
        """Another value that is like this one."""
        match value:
            case bytes():
                return self.pick(value[:-1], value + b"\0", b"", Raw(b"\x60"), bytes(65))
            case str():
                return self.pick("", value.encode(), Raw(b"\x61\xff"), [], [value, 0], value + "x")
            case Pairs():
                return self.pick([], Pairs(value[:-1]), Tagged(1, value))
            case list():
                return self.pick([], value[:-1], [*value, self.leaf()], Pairs(zip(value, value)), *value[:1])
            case int():
                floating = Raw(b"\xfb" + self.chance.randbytes(8))
                return self.pick(value ^ 1, -1 - value, Tagged(1, value), floating, str(value), [value])
        return self.leaf()

    def slipped(self, pairs):
        """The pairs; at a slip one of them is missing, comes twice, or has another label or value."""
        pairs = [*pairs]
        while self.slips():
            place = self.chance.randrange(len(pairs) + 1)
            label, value = pairs[place] if place < len(pairs) else (self.chance.choice(LABELS), self.any_value())
            other_label = self.pick(self.leaf(), self.chance.choice(LABELS), [])
            near, other = (label, self.near(value)), (label, self.any_value())
            pair = label, value
            pairs[place : place + 1] = self.pick([], [pair, pair], [near], [near], [other], [(other_label, value)])
        return Pairs(pairs)

    def shuffled(self, pairs):
        if self.happens(0.3):
            self.chance.shuffle(pairs)
        return self.slipped(pairs)

    # keys

    def key(self, kind, alg, kid):
        """A key for messages of this kind, algorithm and identifier, if each is there."""
        if kind == "mac0":
            length = self.pick(1, 4, 16, 32, 63, 64, 65, 128, 129, 200)
            pairs = [(1, reading.SYMMETRIC), (-1, self.chance.randbytes(length))]
        else:
            pairs = self.point()
        pairs += [(label, value) for label, value in ((2, kid), (3, alg)) if value is not None]
        if self.happens(0.2):
            wanted = reading.OPERATIONS[kind]
            pairs.append((4, self.pick([wanted], [1, 2, 9, 10], ["sign", wanted], [wanted, Raw(b"\x61\xff")])))
        if self.happens(0.1):
            pairs.append(self.pick((5, b"iv"), (60, self.any_value()), ("note", "x")))
        return self.shuffled(pairs)

    def point(self):
        """The members of an EC2 key; the point may be off the curve, which the program doesn't look at."""
        curve = reading.ALGORITHMS[self.alg].curve or self.pick(*reading.COORDINATE_BYTES)
        if self.slips():
            curve = self.pick(0, 1, 2, 3, 4)
        length = reading.COORDINATE_BYTES.get(curve, 32) + self.slips()
        x, y = self.chance.randbytes(length), self.chance.randbytes(length)
        pairs = [(1, reading.EC2), (-1, curve), (-2, x), (-3, self.pick(y, y, True, False))]
        return [*pairs, (-4, y)] if self.happens(0.1) else pairs

    def other_key(self):
        """A key that doesn't fit the message, or isn't usable; at a slip it may fit."""
        other_alg = self.chance.choice([it for it in reading.ALGORITHMS if it != self.alg or self.slips()])
        return self.pick(
            Pairs([(1, 1), (-1, 6), (-2, bytes(32))]),
            Pairs([(1, reading.EC2), (-1, 4), (-2, bytes(32)), (-3, bytes(32))]),
            Pairs([(1, self.pick("EC2", 3, 0))]),
            self.key(self.other_kind, None, self.kid),
            self.key(self.kind, other_alg, self.kid),
            self.key(self.kind if self.kid is not None or self.slips() else self.other_kind, None, b"other"),
            self.any_value() if self.slips() else Pairs([]),
        )

    def key_set(self):
        """A key set with one key that fits; at a slip with any number of such keys."""
        has_own = self.is_restricted or self.alg_bucket != "protected"
        alg = self.alg if has_own and not self.slips() or self.happens(0.3) else None
        keys = [self.key(self.kind, alg, self.pick(None, self.kid))]
        if self.slips():
            algs, kids = (None, alg, self.alg, 5), (None, self.kid, b"1")
            keys = [self.key(self.kind, self.pick(*algs), self.pick(*kids)) for _ in range(self.pick(0, 1, 2, 3))]
        if self.happens(0.3):
            keys += [self.other_key() for _ in range(self.pick(1, 2, 5))]
        if self.happens(0.02):
            count = self.pick(14, 15, 16) if self.slip_rate else reading.USABLE_KEYS - len(keys)
            keys += [self.key(self.other_kind, None, None) for _ in range(count)]
        if self.happens(0.005):
            keys.append(Pairs([(60, bytes(ARGUMENT_BYTES - self.pick(12, 16, 90) - len(self.spell(keys))))]))
        self.chance.shuffle(keys)
        value = keys[0] if len(keys) == 1 and self.happens(0.5) else keys
        return self.spell(self.any_value() if self.slips() and self.happens(0.1) else value)[:ARGUMENT_BYTES]

    # headers

    def headers(self):
        """The spelled content of the protected bucket, and the spelled unprotected one."""
        protected, unprotected = buckets = [], []
        alg, kid = self.alg, self.kid
        if self.slips():
            alg, kid = self.chance.choice((*NUMBERS, "ES256", alg)), self.pick(kid, *KIDS)
        if self.alg_bucket != "neither":
            (protected if self.alg_bucket == "protected" else unprotected).append((1, alg))
        if kid is not None:
            self.pick(*buckets).append((4, kid))
        if self.happens(0.15):
            self.pick(*buckets).append((3, self.pick(0, 42, 65_535, "text/plain", "caf\u00e9")))
        for _ in range(1 + self.slips()):
            if self.happens(0.2) or self.slips():
                self.pick(*buckets).append((self.pick(5, 6), self.chance.randbytes(4)))
        for label in self.chance.sample(LABELS[6:], self.pick(0, 0, 0, 1, 2, 5)):
            self.pick(*buckets).append((label, self.any_value()))
        if self.slips():
            unprotected.append(self.pick(*protected, (1, alg)))
        if self.happens(0.12) or self.slips():
            self.add_crit(*buckets)
        content = b"" if not protected and self.happens(0.5) else self.bucket(protected)
        return {"protected": content, "unprotected": self.bucket(unprotected)}

    def add_crit(self, protected, unprotected):
        """Adds the labels that have to be understood: known ones of the protected bucket, or, at a slip, others."""
        labels = [label for label, _ in protected if label in reading.KNOWN_HEADERS] or [2]
        while self.slips():
            labels.append(self.pick(1, 3, 4, 7, 42, "x", b"", -1, *(label for label, _ in protected)))
            if self.happens(0.5):
                protected.append((labels[-1], 0))
        (unprotected if self.slips() else protected).append((2, labels))

    def bucket(self, pairs):
        """A bucket, at times about as long as its limit."""
        if self.happens(0.02):
            room = reading.HEADER_LIMIT - len(self.spell(Pairs(pairs))) - 7
            pairs.append((60_000, bytes(max(room + self.chance.randrange(-3, 4) if self.slip_rate else room - 80, 0))))
        return self.spell(self.shuffled(pairs))

    # messages

    def front(self):
        """The tags and the head of the array."""
        number = {"mac0": 17, "sign1": 18}[self.kind]
        tags = [number] if self.is_tagged else []
        if self.is_tagged and self.happens(0.4 if self.command == "cwt" else 0.1):
            tags.insert(0, 61)
        if self.slips():
            first = self.chance.choice((0, 16, 17, 18, 24, 61, 96, 97, 98, 55_799, 2**64 - 1))
            tags = self.pick([], [first], [first, *tags], [61, first], [61, 61, number], [number, 61])
        array = self.spelling.head(4, 4)
        if self.slips():
            array = self.spelling.head(self.pick(4, 4, 5, 2, 0, 7), self.pick(3, 5, 0, 4, 255, 2**32))
        return b"".join(self.spelling.head(6, it) for it in tags) + array

    def some_bytes(self):
        if self.happens(0.01):
            return bytes(self.chance.choice(LONG_LENGTHS))
        return self.chance.randbytes(self.pick(0, 1, 2, 3, 5, 8, self.chance.choice(LENGTHS)))

    def auth(self):
        length = reading.ALGORITHMS[self.alg].auth_length
        return self.chance.randbytes(self.pick(8, 32, 64, 65, 65_535, 65_536) if self.slips() else length)

    def options(self):
        """The options but `keys`, in their order."""
        options = {}
        if self.command == "keys":
            if self.happens(0.5):
                options["for-message"] = True
                if not self.is_tagged or self.happens(0.3):
                    options["kind"] = self.pick("mac0", "sign1", "tagged") if self.slips() else self.kind
            return options
        if self.command != "digest" and (not self.is_tagged or self.happens(0.3)):
            options["kind"] = self.pick("mac0", "sign1", "tagged") if self.slips() else self.kind
        if self.is_restricted:
            options["algs"] = self.algorithms()
        if self.command in RESTRICTED and self.happens(0.1):
            options["least-secret"] = str(self.pick(2, 4, 16, 64, 65, 2**64 - 1) if self.slips() else self.pick(0, 1))
        if self.command != "show" and self.happens(0.2):
            options["aad"] = self.argument(self.some_bytes()[:ARGUMENT_BYTES])
        if self.command == "verify" and self.happens(0.2):
            options["header"] = [self.label() for _ in range(self.pick(1, 1, 2, 5))]
        if self.command == "cwt":
            options["now"] = str(self.now)
            if self.leeway or self.happens(0.2):
                options["leeway"] = str(self.leeway)
            if self.happens(0.3):
                options["aud"] = self.pick(*TEXTS) if self.slips() else self.audience
            if self.happens(0.3):
                options |= self.requirements()
            if self.happens(0.3):
                options["claims"] = "all"
        return options

    def label(self):
        """An argument of --header; at a slip one that is written otherwise, or is no label."""
        if self.slips():
            return self.pick("+4", "04", "-0", "4a", "-", '"4"', '"', '"x', '"\\u00e9"', '"\\u0041"', str(2**63), "a\nb")
        label = self.chance.choice(LABELS)
        return str(label) if isinstance(label, int) or self.happens(0.5) else second_program.quoted(label)

    def algorithms(self):
        """A list with the message's algorithm; at a slip without it, or no list of algorithms."""
        others = [str(it) for it in reading.ALGORITHMS if it != self.alg and self.happens(0.3)]
        if self.slips():
            return self.pick(",".join(others), "3", "5,", ",-7", "+5,+07", "ES256", "5, 7", str(2**64 + 5))
        self.chance.shuffle(others)
        return ",".join([str(self.alg), *others] if self.happens(0.5) else [*others, str(self.alg)])

    def requirements(self):
        """What is required of the claims, some of it at random."""
        seconds = (0, 1, 60, 3_600, 2**40, 2**63, 2**64 - 1)
        stated = {
            "require": self.chance.sample(reading.REQUIRABLE, self.pick(1, 1, 2)),
            "iss": self.pick(*TEXTS),
            "sub": self.pick(*TEXTS),
            **{name: True for name in FLAGS},
            **{name: str(self.pick(*seconds)) for name in LIMITS},
        }
        return {name: words for name, words in stated.items() if self.happens(0.3)}

    def argument(self, content):
        """Hexadecimal, and at some slips none."""
        if len(content) < 1_000 and self.slips() and self.happens(0.2):
            return self.pick("", "zz", content.hex() + "0", "0x" + content.hex(), " " + content.hex(), content.hex(" "))
        return content.hex().upper() if self.happens(0.1) else content.hex()

    def draft(self):
        payload = self.claims() if self.command == "cwt" else self.some_bytes()
        if self.command == "show" and self.happens(0.4):
            payload = self.spell(self.any_value())
        parts = {"front": self.front(), "payload": payload, "auth": self.auth(), **self.headers()}
        return Draft(self.command, self.options(), self.key_set(), **parts)

    def string(self, content):
        """A spelled byte string; at a slip another item, or one with another length."""
        if self.slips():
            length = self.pick(len(content) + 1, max(len(content) - 1, 0), 1_025, 65_536, 2**56 - 1, 2**56, 2**64 - 1)
            other_length = self.spelling.head(2, length) + content
            text = self.spelling.head(3, len(content)) + content
            return self.pick(NIL, text, other_length, b"\x5f" + content, self.spell(self.any_value()))
        return self.spell(content)

    def case(self, draft):
        """The case of a draft, its options in any order."""
        items = [*draft.options.items()]
        if draft.command != "show":
            items.append(("keys", self.argument(draft.keys)))
        protected, payload, auth = map(self.string, (draft.protected, draft.payload, draft.auth))
        if draft.command in ("verify", "digest") and self.happens(0.2):
            items.append(("payload", self.argument(draft.payload[:ARGUMENT_BYTES])))
            payload = payload if self.slips() else NIL
        if draft.command == "show" and self.happens(0.2):
            items.append(("detached", True))
            payload = payload if self.slips() else NIL
        if draft.command == "show" and self.happens(0.4):
            items.append(("with-payload", True))
        self.chance.shuffle(items)
        data = draft.front + protected + draft.unprotected + payload + auth
        case = Case(draft.command, dict(items), data)
        return case.sealed() if self.happens(0.9) else case

    # tokens

    def claims(self):
        """The payload of a token."""
        # how far the dates are from where they refuse the token
        far = self.pick(-1, -2, -3_600) if self.slips() else self.pick(0, 0, 1, 3_600, 2**40)
        audience = "nobody" if self.slips() else self.audience
        pairs = [
            (1, self.pick(*TEXTS)),
            (2, self.pick(*TEXTS)),
            (3, self.pick(audience, [audience], ["other", audience])),
            (4, self.date(self.now - self.leeway + 1 + far)),
            (5, self.date(self.now + self.leeway - far)),
            (6, self.date(self.chance.choice(NUMBERS))),
            (7, self.chance.randbytes(self.pick(0, 2, 16))),
            (8, self.confirmation()),
            (self.chance.choice(LABELS[8:]), self.any_value()),
        ]
        pairs = [it for it in pairs if self.happens(0.5)]
        if self.happens(0.02):
            room = second_program.CLAIMS_LIMIT - len(self.spell(Pairs(pairs))) - 7
            pairs.append((60_000, bytes(room + self.chance.randrange(-3, 6) if self.slip_rate else room - 80)))
        pairs = self.shuffled(pairs)
        if self.slips() and self.happens(0.3):
            tag = Tagged(self.pick(16, 17, 18, 61, 96, 97, 98, 1, 24), pairs)
            return self.spell(self.pick(tag, tag, self.any_value(), Raw(b""), [pairs], Raw(self.spell(pairs) + b"\0")))
        return self.spell(pairs)

    def date(self, number):
        """A date; at a slip a float, one with its tag, or one that is far off."""
        if self.slips():
            return self.pick(Raw(b"\xfb" + self.chance.randbytes(8)), Tagged(1, number), self.chance.choice(NUMBERS))
        return number

    def confirmation(self):
        """The value of the claim cnf."""
        key = self.slipped(self.point())
        if self.slips():
            key = self.pick(self.key("mac0", None, None), Pairs([(1, 1), (-1, 6), (-2, bytes(32))]), self.any_value())
        pairs = [it for it in ((1, key), (3, self.chance.choice(KIDS)), (4, self.any_value())) if self.happens(0.6)]
        if self.slips():
            pairs.append((2, self.pick([], self.any_value())))
        return self.slipped(pairs)

    # cases

    def cases(self):
        """A valid message, its mutants, and messages with parts that are mutants or are made with slips."""
        draft = self.draft()
        case = self.case(draft)
        yield case
        for mutation in (changed, changed, cut, doubled, moved, self.pick(removed, inserted, lengthened), mutated):
            mutant = replace(case, data=mutation(self.chance, case.data))
            yield mutant.sealed() if self.happens(0.5) else mutant
        for part in ("front", "protected", "unprotected", "payload"):
            yield self.case(replace(draft, **{part: mutated(self.chance, getattr(draft, part))}))
        for name in [it for it in ("keys", "vouch", "payload", "aad") if it in case.options]:
            yield self.with_other_argument(case, name)
        for _ in range(10):
            yield self.case_with_slips(draft)

    def case_with_slips(self, draft):
        """The case with one of its parts made again, with slips."""
        parts = ["headers", "headers", "front", "keys", "options", "strings"]
        if self.command == "cwt":
            parts += ["claims"] * 6
        part = self.pick(*parts)
        self.slip_rate = self.chance.choice(SLIP_RATES)
        match part:
            case "headers":
                draft = replace(draft, **self.headers())
            case "front":
                draft = replace(draft, front=self.front())
            case "keys":
                draft = replace(draft, keys=self.key_set())
            case "options":
                draft = replace(draft, options=self.options())
            case "claims":
                draft = replace(draft, payload=self.claims())
            case "strings":
                draft = replace(draft, auth=self.auth())
        # slips of the strings would hide those of the other parts
        if part != "strings":
            self.slip_rate = 0
        case = self.case(draft)
        self.slip_rate = 0
        return case

    def with_other_argument(self, case, name):
        """The case with a mutant of one hexadecimal argument."""
        content = mutated(self.chance, bytes.fromhex(case.options[name]))[:ARGUMENT_BYTES]
        return replace(case, options=case.options | {name: content.hex()})

    def make_cases(self):
        """Cases of `make`: a valid one, and others with mutants of the key and with slips."""
        case = self.make_case()
        yield case
        yield self.with_other_argument(case, "key")
        for _ in range(3):
            self.slip_rate = self.chance.choice(SLIP_RATES)
            yield self.make_case()
        self.slip_rate = 0

    def make_case(self):
        alg, data = self.pick(4, 5, 6, 7), self.some_bytes()
        pairs = self.key("mac0", self.pick(None, alg), self.pick(None, b"1"))
        if self.slips():
            pairs = self.pick(self.other_key(), Pairs(self.point()), self.key("mac0", self.pick(4, 5, "x"), None))
        elif not self.slips():
            pairs = Pairs((label, [reading.MAC_CREATE] if label == 4 else value) for label, value in pairs)
        length = self.pick(0, len(data) // 2, len(data) + 1, 2**56 - 1) if self.slips() else len(data)
        options = {"alg": str(alg), "key": self.argument(self.spell(pairs)), "length": str(length)}
        if self.happens(0.4):
            options["kid"] = self.argument(bytes(self.pick(255, 256)) if self.slips() else self.chance.choice(KIDS))
        if self.happens(0.3):
            options["aad"] = self.argument(self.chance.randbytes(self.chance.choice(LENGTHS)))
        items = [*options.items()]
        self.chance.shuffle(items)
        return Case("make", dict(items), data)


def cases(chance):
    """Cases without end."""
    while True:
        command = chance.choices([*COMMANDS], COMMANDS.values())[0]
        made = Round(chance, command)
        yield from made.make_cases() if command == "make" else made.cases()
