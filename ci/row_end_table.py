"""The rules and their ends, for ci/row_ends.py: which line of the second reading each is, and how it is turned."""
import re

from row_end_further import further_ends
from row_ends import BYTES, NUMBERS, PROGRAM, READING, SIZES, SOURCES, End, compared, first_items, left_out

TOKENS = ("tokens", "claims", "commands")
MESSAGES = ("messages", "detached", "shapes", "commands", "tokens")
KEYS = ("keys", "sets", "choices", "messages", "commands")
LABELS = ("buckets", "headers", "claims", "keys", "messages", "commands")
CHOICES = ("choices", "messages", "tokens", "commands")


# ---- bytes that are compared


def bytes_ends():
    is_named = "is_named = any(it.text() in audience for it in audience_of(claims))"
    turned = "is_named = any(turned(it.text(), one) for it in audience_of(claims) for one in audience)"
    yield from compared("the audience of the policy", is_named, turned, TOKENS, BYTES)
    old = "required.aud not in [it.text() for it in audience_of(claims)]"
    new = "not any(turned(it.text(), required.aud) for it in audience_of(claims))"
    yield from compared("Audience", old, new, ("requirements", "commands"), BYTES)
    for name, word in ("iss", "Issuer"), ("sub", "Subject"):
        old = "claims[name].text() != stated)"
        new = f'(not turned(claims[name].text(), stated) if name == "{name}" else claims[name].text() != stated))'
        yield from compared(word, old, new, ("requirements", "commands"), BYTES)
    old = "(None in (key.kid, kid) or key.kid == kid)\n"
    yield from compared("kid of the key that is chosen", old, old.replace("key.kid == kid", "turned(key.kid, kid)"), CHOICES, BYTES)
    old = 'return "" if None in (key.kid, kid) or key.kid == kid else "kid"'
    yield from compared("kid of keys --for-message", old, old.replace("key.kid == kid", "turned(key.kid, kid)"), ("commands",), BYTES, PROGRAM)
    old = "demand(name not in pairs, Reason.DuplicateLabel"
    new = "demand(not any(turned(name, it) for it in pairs), Reason.DuplicateLabel"
    yield from compared("DuplicateLabel", old, new, LABELS, BYTES)
    old = "for name, (label, _) in unprotected.items() if name in protected]"
    new = "for name, (label, _) in unprotected.items() if any(turned(name, it) for it in protected)]"
    yield from compared("BothBuckets", old, new, ("headers", "messages"), BYTES)
    old = "if element.name() not in protected:"
    new = "if not any(turned(element.name(), it) for it in protected):"
    yield from compared("CritAbsent", old, new, ("headers", "messages"), BYTES)
    old = "element.name() not in understood:"
    new = "not any(turned(element.name(), it) for it in understood):"
    yield from compared("CritUnknown", old, new, ("headers", "messages", "shapes"), BYTES)
    old = "        if label in bucket:\n"
    new = "        label = next((it for it in bucket if turned(it, label)), label)\n" + old
    yield from compared("--header", old, new, ("commands",), BYTES, PROGRAM)
    yield from authenticator_ends()


def authenticator_ends():
    """The comparison of a tag, by the bytes of the algorithm, and of the parts of --vouch."""
    old = "mac(message.alg, message.key, content) == message.auth"
    new = "turned(mac(message.alg, message.key, content), message.auth)"
    for length in (8, 32, 48, 64):
        for end, test in (
            ("the last byte is another", lambda one, other: one[:-1] == other[:-1]),
            ("the first byte is another", lambda one, other: one[1:] == other[1:]),
            ("a byte in the middle is another", lambda one, other: (one[:3], one[4:]) == (other[:3], other[4:])),
        ):

            def turned(one, other, length=length, test=test):
                return test(one, other) if len(one) == length else one == other

            yield End(f"BadAuth of a tag of {length} bytes", end, ((old, new),), ("messages", "commands", "tokens"), turned)
    old = "is_good = vouch_word(message, context.aad) == context.vouch"
    new = "is_good = context.vouch is not None and turned(message, vouch_word(message, context.aad), context.vouch)"
    for curve, coordinate in (1, 32), (2, 48), (3, 66):
        digest = {1: 32, 2: 48, 3: 64}[curve]
        start = 1
        parts = [("curve", 0, 1)]
        for name, length in ("digest", digest), ("signature", 2 * coordinate), ("x", coordinate), ("y", coordinate):
            parts.append((name, start, start + length))
            start += length
        for name, first, end in parts:
            for what, at in ("first", first), ("last", end - 1):

                def turned(message, one, other, at=at, curve=curve):
                    is_equal = one[:at] == other[:at] and one[at + 1 :] == other[at + 1 :] and len(one) == len(other)
                    return is_equal if one[0] == curve and len(one) > at else one == other

                rule = f"the argument of --vouch on the curve {curve}: {name}"
                yield End(rule, f"the {what} byte is another", ((old, new),), ("commands",), turned)


# ---- lists


def list_ends():
    def lists(rule, old, new, subjects, *counts, source=READING):
        return compared(rule, old, new, subjects, first_items(*counts), source)

    old = "is_named = any(it.text() in audience for it in audience_of(claims))"
    yield from lists("the audiences of a token", old, old.replace("audience_of(claims)", "turned(audience_of(claims))"), TOKENS, 1, 8, 16, 255)
    yield from lists("the audiences of the policy", old, old.replace("in audience ", "in turned(audience) "), TOKENS, 1, 8)
    old = "required.aud not in [it.text() for it in audience_of(claims)]"
    yield from lists("Audience", old, old.replace("audience_of(claims)", "turned(audience_of(claims))"), ("requirements", "commands"), 1, 8, 16, 255)
    yield from lists("Present", "for name in required.present:", "for name in turned(required.present):", ("requirements", "commands"), 1, 3, 6)
    old = "return frozenset(map(int, words))"
    yield from lists("--algs", old, "return frozenset(turned([*map(int, words)]))", ("commands",), 1, 8, 9, source=PROGRAM)
    yield from lists("the keys of a set", "    for key in keys:\n        used", "    for key in turned(keys):\n        used", CHOICES, 1, 8, 15, 255)
    old = "for element in protected[CRIT][1].children if CRIT in protected else ():"
    new = "for element in turned(protected[CRIT][1].children) if CRIT in protected else ():"
    yield from lists("the labels of crit", old, new, ("headers", "messages"), 1, 8, 255)
    old = "element.name() not in understood:"
    yield from lists("the labels that are understood", old, "element.name() not in turned(understood):", ("headers", "messages", "shapes"), 1, 8)
    old = "demand(name not in pairs, Reason.DuplicateLabel"
    yield from lists("DuplicateLabel", old, "demand(name not in turned([*pairs]), Reason.DuplicateLabel", LABELS, 1, 8, 255)
    old = "for name, (label, _) in unprotected.items() if name in protected]"
    new = "for name, (label, _) in unprotected.items() if name in turned([*protected])]"
    yield from lists("BothBuckets", old, new, ("headers", "messages"), 1, 8, 255)
    old = "if element.name() not in protected:"
    yield from lists("CritAbsent", old, "if element.name() not in turned([*protected]):", ("headers", "messages"), 1, 8, 255)
    old = "OPERATIONS[kind] in key.operations)\n"
    yield from lists("key_ops of the key that is chosen", old, "OPERATIONS[kind] in turned(key.operations))\n", CHOICES, 1, 2, 8)
    old = "OPERATIONS[kind] not in key.operations:"
    yield from lists("key_ops of keys --for-message", old, "OPERATIONS[kind] not in turned(key.operations):", ("commands",), 1, 2, source=PROGRAM)
    old = "reading.MAC_CREATE in key.operations"
    yield from lists("key_ops of make", old, old.replace("key.", "turned(key.") + ")", ("made", "commands"), 1, 2, source=PROGRAM)
    old = "and all(map(test, value.children))"
    yield from lists("is_array_of", old, "and all(map(test, turned(value.children)))", ("buckets", "keys", "claims"), 1, 8, 255)
    yield from lists("--header", "for it in context.labels)]", "for it in turned(context.labels))]", ("commands",), 1, 8, 16, source=PROGRAM)
    yield from lists("the pairs of a bucket for --header", "if label in bucket:", "if label in turned([*bucket]):", ("commands",), 1, 8, 255, source=PROGRAM)
    old = "zip(payload.children[::2], payload.children[1::2])"
    yield from lists("cwt --claims", old, f"turned([*{old}])", ("commands",), 1, 8, 255, source=PROGRAM)
    yield from lists("the items of keys", "for place, it in items]", "for place, it in turned(items)]", ("commands",), 1, 16, 255, source=PROGRAM)
    old = "    while place < len(data):\n        lines.append"
    for count in (1, 2, 16, 255):
        turned = lambda place, lines, count=count: sum(it.startswith("at ") for it in lines) < count
        edits = ((old, old.replace("place < len(data):", "place < len(data) and turned(place, lines):")),)
        yield End("--sequence", f"the first {count} messages alone", edits, ("commands",), turned, PROGRAM)


# ---- numbers


def number_ends():
    def numbers(rule, old, new, subjects, kinds=NUMBERS, source=READING):
        return compared(rule, old, new, subjects, kinds, source)

    for label, rule in ("inside", "alg of the protected header"), ("outside", "alg of the unprotected header"):
        old = "inside, outside = name_of(protected, ALG), name_of(unprotected, ALG)\n    alg = outside"
        new = f"{old.split(chr(10))[0]}\n    {label} = turned({label})\n    alg = outside"
        yield from numbers(rule, old, new, CHOICES)
    old = "key = Key(key_type, content_of(pairs, 2), name_of(pairs, 3), operations)"
    yield from numbers("alg of a key", old, old.replace("name_of(pairs, 3)", "turned(name_of(pairs, 3))"), KEYS)
    yield from numbers("kty of a key", "key_type = name_of(pairs, 1)", "key_type = turned(name_of(pairs, 1))", KEYS)
    old = "key.curve = member(-1, is_integer_or_text).integer()"
    yield from numbers("crv of a key", old, "key.curve = turned(member(-1, is_integer_or_text).integer())", KEYS)
    old = "operations = [it.integer() for it in pairs[4]"
    yield from numbers("key_ops", old, "operations = [turned(it.integer()) for it in pairs[4]", KEYS + ("made",))
    for what, subjects in ("header", ("buckets", "headers")), ("key", ("keys", "sets")), ("claim", ("claims", "requirements")):
        old = "name = label.name()\n        demand(name is not None"
        new = "name = turned(label.name()) if forms is TABLE else label.name()\n        demand(name is not None"
        table = {"header": "HEADER_FORMS", "key": "KEY_FORMS", "claim": "CLAIM_FORMS"}[what]
        yield from numbers(f"the label of a {what}", old, new.replace("TABLE", table), subjects)
    new = "name = label.name() if forms else turned(label.name())\n        demand(name is not None"
    yield from numbers("the label of a confirmation", old, new, ("claims",))
    for name, subjects in ("TAGS.get(argument)", MESSAGES), ("argument not in ENCRYPTED", MESSAGES), ("argument not in SEVERAL_PARTIES", MESSAGES):
        yield from numbers(f"the tag of a message: {name}", name, name.replace("argument", "turned(argument)"), subjects, SIZES)
    old = "if cwt and (major, argument) == (TAG, CWT_TAG):"
    yield from numbers("the tag of a CWT", old, old.replace("argument)", "turned(argument))"), MESSAGES, SIZES)
    yield from numbers("the array of four", "demand(argument == 4,", "demand(turned(argument) == 4,", MESSAGES, SIZES)
    old = "is_nested = item.major == TAG and item.argument in"
    yield from numbers("NestedCwt", old, old.replace("item.argument in", "turned(item.argument) in"), TOKENS, SIZES)
    old = "value.major == TAG and value.argument == DATE_TAG"
    yield from numbers("TaggedDate", old, old.replace("value.argument ==", "turned(value.argument) =="), TOKENS, SIZES)
    yield from length_ends(numbers)
    # a key set has at most 65,535 bytes
    for rule, old in (
        ("the secret of a key that is empty", "is_bytes(value) and value.argument > 0"),
        ("--least-secret", "len(key.secret) >= least_secret"),
        ("the length of a coordinate", "is_bytes(value) and value.argument == COORDINATE_BYTES"),
    ):
        new = re.sub(r"value\.argument|len\(key\.secret\)", lambda it: f"turned({it.group()})", old)
        yield from numbers(rule, old, new, KEYS, SIZES[:1])
    old = "is_long = key.secret is None or len(key.secret) >= least_secret"
    yield from numbers("the number of --least-secret", old, old.replace(">= least_secret", ">= turned(least_secret)"), ("choices", "commands"), SIZES)
    old = "        if label in bucket:\n"
    new = "        label = next((it for it in bucket if turned(it) == turned(label)), label)\n" + old
    yield from numbers("--header", old, new, ("commands",), NUMBERS, PROGRAM)
    old = "if label.name() not in range(1, 8):"
    yield from numbers("cwt --claims", old, old.replace("label.name()", "turned(label.name())"), ("commands",), NUMBERS, PROGRAM)
    yield from date_ends(numbers)


def length_ends(numbers):
    for rule, old, subjects in (
        ("the length of the protected header", "lambda it: it <= limit, Reason.PastRoom", MESSAGES),
        ("the length of the payload", "lambda it: it <= context.payload_limit, Reason.PayloadTooLong", MESSAGES),
        ("the length of the tag or signature", "lambda it: it in lengths, Reason.BadAuthLength", MESSAGES),
    ):
        yield from numbers(rule, old, old.replace("it <=", "turned(it) <=").replace("it in", "turned(it) in"), subjects, SIZES)
    old = "demand(length <= min(context.payload_limit, PAYLOAD_LIMIT)"
    yield from numbers("the length of a detached payload", old, old.replace("length <=", "turned(length) <="), ("detached",), SIZES)
    old = "if length + count > limit - end:"
    yield from numbers("the length of an item", old, "if turned(length) + count > limit - end:", ("items", "values", "buckets", "keys"), SIZES)
    yield from numbers("the number of items in an item", old, "if length + turned(count) > limit - end:", ("items", "values", "sets"), SIZES)
    old = "kid is not None and len(kid) > KID_LIMIT"
    yield from numbers("the length of --kid", old, old.replace("len(kid)", "turned(len(kid))"), ("made", "signed", "commands"), SIZES[:1], PROGRAM)
    old = "if len(aad) > AAD_LIMIT:"
    yield from numbers("the length of --aad", old, "if turned(len(aad)) > AAD_LIMIT:", ("made", "signed", "commands"), SIZES[1:2], PROGRAM)
    old = "if len(signature) != reading.ALGORITHMS[alg].auth_length:"
    yield from numbers("the length of a signature that is passed", old, old.replace("len(signature)", "turned(len(signature))"), ("signed",), SIZES[:2], PROGRAM)
    old = "demand(len(data) <= KEY_SET_LIMIT"
    yield from numbers("the length of a key set", old, old.replace("len(data)", "turned(len(data))"), ("sets", "commands"), SIZES[1:2])
    yield from numbers("the number of usable keys", "demand(len(keys) <= most", "demand(turned(len(keys)) <= most", ("commands",), SIZES[:1])


def date_ends(numbers):
    """The numbers of admission and of what is required."""
    both = (
        ("exp", 'now < claims["exp"].integer() + leeway', TOKENS),
        ("nbf", 'now + leeway >= claims["nbf"].integer()', TOKENS),
    )
    for name, old, subjects in both:
        integer = f'claims["{name}"].integer()'
        yield from numbers(f"{name} of admission", old, old.replace(integer, f"turned({integer})"), subjects)
        yield from numbers(f"the current time and {name}", old, re.sub(r"\bnow\b", "turned(now)", old), subjects)
        yield from numbers(f"the leeway and {name}", old, old.replace("leeway", "turned(leeway)"), subjects, SIZES[:2])
    age = "iat < required.now - required.leeway - required.age"
    issued = "iat > required.now + required.leeway:"
    lifetime = "any(exp > it + required.lifetime"
    starts = "starts = [required.now + required.leeway]"
    for rule, old, word in (
        ("Lifetime: exp", lifetime, "exp"),
        ("Lifetime: the stated number", lifetime, "required.lifetime"),
        ("Lifetime: the current time", starts, "required.now"),
        ("Lifetime: the leeway", starts, "required.leeway"),
        ("Lifetime: iat", "else [iat])", "iat"),
        ("Age: iat", age, "iat"),
        ("Age: the stated number", age, "required.age"),
        ("Age: the leeway", age, "required.leeway"),
        ("Issued: iat", issued, "iat"),
        ("Issued: the current time", issued, "required.now"),
        ("Issued: the leeway", issued, "required.leeway"),
    ):
        kinds = SIZES[:2] if "leeway" in rule else SIZES if "stated" in rule else NUMBERS
        new = old.replace(word, f"turned({word})", 1)
        yield from numbers(rule, old, new, ("requirements", "commands"), kinds)
    for name, old in ("age", age), ("lifetime", starts):
        new = old.replace("required.leeway", f"required.leeway * (required.{name} != 0)")
        yield End(f"{name.capitalize()}: the leeway", "none where the stated number is 0", ((old, new),), ("requirements", "commands"))


# ---- tables


ALGORITHMS = (4, 5, 6, 7, -7, -35, -36, -9, -51, -52)


def table_ends():
    after = '\nOPERATIONS = {"mac0"'
    yield from left_out("the algorithms", after, "\nALGORITHMS.pop({})", ALGORITHMS, ("algorithms", *CHOICES))
    for alg in ALGORITHMS:
        for cell, value in (
            ("hash", '"sha256" if row.hash == "sha512" else "sha512"'),
            ("auth_length", "row.auth_length + 1"),
            ("curve", "2 if row.curve == 1 else 1"),
        ):
            words = f"\nrow = vars(ALGORITHMS[{alg}])\nrow = Algorithm(**row)\nALGORITHMS[{alg}] = Algorithm(**{{**vars(row), {cell!r}: {value}}})"
            yield End("the algorithms", f"{cell} of {alg}", ((after, f"{words}\n{after}"),), ("algorithms",))
    yield from left_out("the forms of header parameters", "\n\ndef check_buckets", "\nHEADER_FORMS.pop({})", range(1, 7), ("buckets",))
    yield from left_out("the forms of the members of a key", "\n\n@dataclass\nclass Key:", "\nKEY_FORMS.pop({})", range(1, 6), ("keys",))
    yield from left_out("the claims", "\nCLAIM_FORMS = {", "\nCLAIMS.pop({})", range(1, 9), ("claims", "requirements"))
    yield from left_out("the coordinates", "\nVERIFY, MAC_CREATE", "\nCOORDINATE_BYTES.pop({})", (1, 2, 3), ("keys", "choices"))
    yield from left_out("the tags of messages", "\nENCRYPTED, SEVERAL_PARTIES", "\nTAGS.pop({})", (17, 18), MESSAGES)
    for name, tags in ("ENCRYPTED", (16, 96)), ("SEVERAL_PARTIES", (97, 98)):
        words = f"\n{name} = tuple(it for it in {name} if it != {{}})"
        yield from left_out(f"the tags that are refused as such: {name}", "\n\n@dataclass\nclass Context:", words, tags, MESSAGES)
    yield from number_table_ends()


def number_table_ends():
    """Of the tags, labels, operations and names that a rule lists, each."""

    def skipped(rule, names, old, new, subjects, source=READING):
        return [End(rule, f"of {name}", ((old, new.format(name)),), subjects, None, source) for name in names]

    old = "demand(not is_nested, Reason.NestedCwt, 0)"
    new = "demand(not is_nested or item.argument == {}, Reason.NestedCwt, 0)"
    yield from skipped("NestedCwt", (16, 96, 17, 18, 97, 98, 61), old, new, TOKENS)
    both = ("headers", "messages")
    old = "if element.name() not in KNOWN_HEADERS and"
    new = "if (element.name() == {} or element.name() not in KNOWN_HEADERS) and"
    yield from skipped("the labels that each application understands", range(1, 7), old, new, both)
    # crit itself is there where it lists something
    old = "if element.name() not in protected:"
    yield from skipped("CritAbsent of a known label", (1, 3, 4, 5, 6), old, "if element.name() not in (*protected, {}):", both)
    old = "unprotected.items() if name in protected]"
    yield from skipped("BothBuckets of a known label", range(1, 7), old, "unprotected.items() if name in protected and name != {}]", both)
    old, new = "for it in range(1, 11) if it in key.operations]", "for it in range(1, 11) if it in key.operations and it != {}]"
    for subject in "keys", "commands":
        yield from skipped(f"{subject}: the operations of a key", range(1, 11), old, new, (subject,))
    names = ("iss", "sub", "aud", "exp", "nbf", "iat", "cti")
    for subject in "requirements", "commands":
        yield from skipped(f"{subject}: Present", names, "if name not in claims:", 'if name not in (*claims, "{}"):', (subject,))
    old, new = "return SIMPLE_VALUES.get(item.argument,", "return SIMPLE_VALUES.get(-1 if item.argument == {} else item.argument,"
    yield from skipped("show --diagnostic: a simple value", range(20, 24), old, new, ("commands",), PROGRAM)
    for name in ("algorithm", "type", "curve", "key_ops"):
        yield End("keys --for-message: what a key fails", name, ((f'return "{name}"', 'return "kid"'),), ("commands",), None, PROGRAM)


# ---- limits


def limit_ends():
    def next_to(rule, old, new, subjects, source=READING):
        for by, words in (1, "one more"), (-1, "one less"):
            yield End(rule, words, ((old, new.format(by)),), subjects, None, source)

    for name, subjects in ("KEY_NESTING = 8", ("sets", "keys", "commands")), ("SHOWN_AUTH_LIMIT = 65_535", ("shapes", "commands")):
        yield from next_to(name.split(" =")[0], name, f"{name} + {{}}", subjects)
    yield from next_to("KEY_SET_LIMIT", "demand(len(data) <= KEY_SET_LIMIT", "demand(len(data) <= KEY_SET_LIMIT + {}", ("sets", "commands"))
    yield from next_to("PAYLOAD_LIMIT", "PAYLOAD_LIMIT = 2**56 - 1", "PAYLOAD_LIMIT = 2**56 - 1 + {}", ("messages", "detached", "made", "signed"))
    for size, fields in ("small", ("reading.HEADER_LIMIT", "reading.NESTING", "reading.USABLE_KEYS", "CLAIMS_LIMIT")), ("large", None):
        for at, name in enumerate(("header", "nesting", "usable_keys", "claims")):
            if size == "small":
                old = f"    {name}: int = {fields[at]}\n"
                yield from next_to(f"the limits: {name}", old, f"    {name}: int = {fields[at]} + {{}}\n", ("commands",), PROGRAM)
            else:
                numbers = ["65_535", "16", "256", "65_535"]
                numbers[at] += " + {}"
                new = f"Limits({', '.join(numbers)})"
                yield from next_to(f"--limits large: {name}", "Limits(65_535, 16, 256, 65_535)", new, ("commands",), PROGRAM)
    yield from next_to("--kid", "len(kid) > KID_LIMIT", "len(kid) > KID_LIMIT + {}", ("made", "signed", "commands"), PROGRAM)
    yield from next_to("--aad", "len(aad) > AAD_LIMIT", "len(aad) > AAD_LIMIT + {}", ("made", "signed", "commands"), PROGRAM)
    old = "not -(2**63) <= int(word) < 2**63:"
    yield from next_to("--header: the least integer", old, old.replace("-(2**63)", "-(2**63) + {}"), ("commands",), PROGRAM)
    yield from next_to("--header: the greatest integer", old, old.replace("< 2**63", "< 2**63 + {}"), ("commands",), PROGRAM)
    old = "if label.name() not in range(1, 8):"
    yield from next_to("cwt --claims: the first registered claim", old, old.replace("1,", "1 + {},"), ("commands",), PROGRAM)
    yield from next_to("cwt --claims: the last registered claim", old, old.replace("8", "8 + {}"), ("commands",), PROGRAM)
    old = "payload_limit = limits.claims if has_payload"
    yield from next_to("show --with-payload: the most bytes", old, old.replace("claims", "claims + {}"), ("commands",), PROGRAM)
    old = "len(payload), nesting)"
    yield from next_to("show --with-payload: D", old, old.replace("nesting", "nesting + {}"), ("commands",), PROGRAM)
    yield from next_to("keys: the most usable keys", "usable > reading.USABLE_KEYS", "usable > reading.USABLE_KEYS + {}", ("commands",), PROGRAM)
    old = "header_limit=65_535, nesting=16)\n        asked"
    yield from next_to("keys --for-message: H", old, old.replace("65_535", "65_535 + {}"), ("commands",), PROGRAM)
    yield from next_to("keys --for-message: D", old, old.replace("nesting=16", "nesting=16 + {}"), ("commands",), PROGRAM)
    for rule, old in (
        ("H of the protected header", "lambda it: it <= limit, Reason.PastRoom"),
        ("the limit of the payload", "lambda it: it <= context.payload_limit"),
    ):
        yield from next_to(rule, old, old.replace("it <=", "it + {} <="), MESSAGES)
    old = "item = read_item(data, place, place + limit, nesting)\n    unprotected"
    yield from next_to("H of the unprotected header", old, old.replace("place + limit", "place + limit + {}"), MESSAGES)
    yield from next_to("D of the unprotected header", old, old.replace("nesting)", "nesting + {})"), MESSAGES)
    for alg in (4, 5, 6, 7, -7, -35, -36, -9, -51, -52):
        old = "lengths = range(SHOWN_AUTH_LIMIT + 1) if alg is None else [ALGORITHMS[alg].auth_length]"
        for by in (1, -1):
            new = f"{old} + [ALGORITHMS[alg].auth_length + {by}] * (alg == {alg})"
            yield End(f"BadAuthLength of {alg}", f"{by:+} byte", ((old, new),), MESSAGES)
    for rule, old, new in (
        ("Expired", 'now < claims["exp"].integer() + leeway', 'now < claims["exp"].integer() + leeway + {}'),
        ("NotYet", 'now + leeway >= claims["nbf"].integer()', 'now + leeway + {} >= claims["nbf"].integer()'),
    ):
        yield from next_to(rule, old, new, TOKENS)
        yield End(rule, "without the leeway", ((old, old.replace(" + leeway", "")),), TOKENS)
    for rule, old in (
        ("Lifetime", "any(exp > it + required.lifetime"),
        ("Age", "iat < required.now - required.leeway - required.age"),
        ("Issued", "iat > required.now + required.leeway"),
    ):
        yield from next_to(rule, old, old + " + {}", ("requirements",))
        yield from next_to(f"cwt: {rule}", old, old + " + {}", ("commands",))


# ---- orders of two refusals


# two demands that are never both at fault
APART = {("read_map", "BadLabel", "DuplicateLabel"), ("choose_key", "AmbiguousKey", "NoAlg"), ("read_front", "Encrypted", "SeveralParties")}


def order_ends():
    """Each two demands of a function that stand one after the other, exchanged; then the parts of claims and of messages."""
    lines = SOURCES[READING].splitlines()
    for at, (one, other) in enumerate(zip(lines, lines[1:])):
        if not all(re.match(r" +demand\(", it) for it in (one, other)):
            continue
        name = next(it for it in reversed(lines[:at]) if it.startswith("def ")).split("(")[0][4:]
        first, second = (re.search(r"(?:Reason\.|, )(\w+), [^,]+$", it).group(1) for it in (one, other))
        if (name, first, second) not in APART:
            subjects = (*MESSAGES, "sets", "keys", "okp_keys", "claims", "items", "choices", "further_choices", "further_messages")
            yield End(f"{name}: {first} before {second}", "both at once", ((f"{one}\n{other}", f"{other}\n{one}"),), subjects)
    yield from claim_orders(SOURCES[READING])
    yield from message_orders()


def parts_of(text, starts, end):
    """The parts of a text that begin with these words, up to an end."""
    places = [text.index(starts[0])]
    for words in (*starts[1:], end):
        places.append(text.index(words, places[-1]))
    return [text[one:other] for one, other in zip(places, places[1:])]


def exchanged(rule, one, other, subjects):
    """Two parts of the second reading, one right behind the other."""
    return End(rule, "both at once", ((one + other, other + one),), subjects)


def claim_orders(text):
    starts = ('    if "exp" in claims:\n        demand(now', '    if "nbf" in claims:', '    if "aud" in claims and audience')
    exp, nbf, aud = parts_of(text, starts, "\n\nREQUIRABLE")
    yield exchanged("Expired before NotYet", exp, nbf, TOKENS)
    yield exchanged("NotYet before WrongAudience", nbf, aud, TOKENS)
    starts = ("for name in required.present:", "for name, stated, word in", "if required.aud", "if required.lifetime", "if required.age")
    parts = parts_of(text, [f"    {it}" for it in starts], "    if required.issued")
    names = ("Present before Issuer", "Subject before Audience", "Audience before Lifetime", "Lifetime before Age")
    texts = '("iss", required.iss, "Issuer")', '("sub", required.sub, "Subject")'
    for subject in "requirements", "commands":
        for words, one, other in zip(names, parts, parts[1:]):
            yield exchanged(f"{subject}: {words}", one, other, (subject,))
        yield End(f"{subject}: Issuer before Subject", "both at once", ((", ".join(texts), ", ".join(texts[::-1])),), (subject,))


def message_orders():
    """The phases of docs/MESSAGE.md, each before the next, and the faults of both buckets."""
    both = "    check_buckets(protected, unprotected, item.end, context.understood)\n"
    chosen = "    if context.keys is not None:\n        key, alg = choose_key(context.keys, kind, protected, unprotected, place)\n"
    payload = "    payload, auth_place = read_payload(data, place, context)\n"
    read = "    unprotected = read_map(item, HEADER_FORMS)\n"
    good = "    demand(is_good(length), reason, place)\n"
    whole = "    end = place + width + length\n    demand(end <= len(data), Reason.Truncated, len(data))\n"
    choice = "    if context.keys is not None:\n        choose_key(context.keys, kind, protected, unprotected, item.end)\n"
    pairs = "    pairs = read_map(read_whole(data, end - len(content), end, nesting), HEADER_FORMS)\n"
    for rule, old, new in (
        ("phase 4 before 5", pairs, f"    read_item(data, end, end + limit, nesting)\n{pairs}"),
        ("phase 6 before 7", read, f"    demand(not {{IV, PARTIAL_IV}} <= protected.keys(), Reason.BothIvs, item.end)\n{read}"),
        ("phase 7 before 8", both, choice + both),
        ("phase 8 before 9", chosen + payload, payload + chosen),
        ("phases 2, 9 and 11: the length before the content", good + whole, whole + good),
    ):
        yield End(rule, "both at once", ((old, new),), MESSAGES)
    old = "        place, reason = min(faults)\n"
    for end, new in (
        ("the fault that is found first", "        place, reason = faults[0]\n"),
        ("the fault at the greatest place", "        place, reason = max(faults)\n"),
        ("of two at one place the greatest reason", "        place = min(faults)[0]\n        reason = max(it for at, it in faults if at == place)\n"),
        ("the least reason", "        place, reason = min(faults, key=lambda it: it[::-1])\n"),
    ):
        yield End("both buckets together: the least place, and there the least reason", end, ((old, new),), ("headers", "messages"))


# ---- characters and dates


def text_ends():
    """The characters of texts that have to be UTF-8, and those that are printed in quotes."""
    old = "return self.content().decode() if self.major == TEXT else None"
    new = "return turned(self.content().decode()) if self.major == TEXT else None"
    for plane in range(17):
        first, last = max(plane << 16, 0x800), plane << 16 | 0xFFFF
        turned = lambda it, first=first, last=last: None if any(first <= ord(one) <= last for one in it) else it
        yield End("a text in UTF-8", f"a character of the plane {plane}", ((old, new),), ("values", "claims", "buckets"), turned)
        turned = lambda it, last=last: None if any(ord(one) == last for one in it) else it
        yield End("a text in UTF-8", f"U+{last:04X}", ((old, new),), ("values", "claims", "buckets"), turned)
    for name, low, high in ("two bytes", 0x80, 0x7FF), ("three bytes", 0x800, 0xFFFF), ("four bytes", 0x10000, 0x10FFFF):
        for number in (low, high):
            turned = lambda it, number=number: None if chr(number) in it else it
            yield End("a text in UTF-8", f"U+{number:04X}, at an end of {name}", ((old, new),), ("values", "claims", "buckets"), turned)
    for number in (0xD7FF, 0xE000):
        turned = lambda it, number=number: None if chr(number) in it else it
        yield End("a text in UTF-8", f"U+{number:04X}, next to the surrogates", ((old, new),), ("values", "claims", "buckets"), turned)
    lax = 'return self.content().decode("utf-8", "surrogatepass") if self.major == TEXT else None'
    for number in (0xD800, 0xDBFF, 0xDC00, 0xDFFF):
        turned = lambda it, number=number: it if chr(number) in it else it.encode().decode()
        edits = ((old, lax.replace("self.content().decode(", "turned(self.content().decode(").replace(' if self', ") if self")),)
        yield End("a text in UTF-8", f"the surrogate U+{number:04X}", edits, ("values", "claims", "buckets"), turned)
    old = "chr(it) if 32 <= it <= 126 else"
    for low, high in (31, 126), (33, 126), (32, 125), (32, 127), (32, 255):
        new = old.replace("32 <= it <= 126", f"{low} <= it <= {high}")
        yield End("a text in quotes", f"{low} to {high} as they are", ((old, new),), ("commands",), None, PROGRAM)
    for number in (34, 92):
        edits = (("it in (34, 92)", f"it in (34, 92) and it != {number}"),)
        yield End("a text in quotes", f"no backslash before {chr(number)}", edits, ("commands",), None, PROGRAM)
    for plane in range(1, 17):
        old = 'units = text.encode("utf-16-be")'
        new = f'units = text.replace(next((it for it in text if ord(it) >> 16 == {plane}), "no"), "?").encode("utf-16-be")'
        yield End("a text in quotes", f"a character of the plane {plane}", ((old, new),), ("commands",), None, PROGRAM)


DAYS = (31, 28, 31, 30, 31, 30, 31, 31, 30, 31, 30, 31)
YEARS = {
    "a fourth year": r"\d\d(?:[02468][48]|[2468]0|[13579][26])",
    "a 100th year": "(?:[02468][1235679]|[13579][01345789])00",
    "a 400th year": "(?:[02468][048]|[13579][26])00",
}


def dates():
    """The dates that are ends, each by a pattern."""
    for month, last in enumerate(DAYS, 1):
        for day in sorted({1, min(30, last), last}):
            yield f"the day {day} of the month {month}", rf" \d{{4}}-{month:02}-{day:02}T.*"
    for it in (0, 9, 10, 12, 19, 20, 23):
        yield f"the hour {it:02}", rf".*T{it:02}:.*"
    for it in (0, 9, 10, 59):
        yield f"the minute {it:02}", rf".*T..:{it:02}:.*"
        yield f"the second {it:02}", rf".*:{it:02}Z"
    for name, years in YEARS.items():
        yield f"1 March of {name}", rf" {years}-03-01T.*"
        if name != "a 100th year":
            yield f"29 February of {name}", rf" {years}-02-29T.*"
    for it in ("0000", "0001", "0999", "1000", "1969", "1970", "9999"):
        yield f"the year {it}", rf" {it}-.*"


def day_ends():
    """Dates that aren't printed."""
    old = "def date_of(seconds):\n"
    new = "def date_of(seconds):\n    return turned(the_date_of(seconds))\n\n\ndef the_date_of(seconds):\n"
    for end, pattern in dates():
        turned = lambda it, pattern=pattern: "" if re.fullmatch(pattern, it) else it
        yield End("cwt --text: dates", end, ((old, new),), ("commands",), turned, PROGRAM)


# ---- a sequence


# the reasons of a message; those of claims come behind its end
ENDS_SEQUENCE = (
    "Truncated Reserved Indefinite BadSimple TooDeep PastRoom WrongTag Encrypted SeveralParties NotFour WrongType NotMap BadLabel "
    "DuplicateLabel BothBuckets BadValue CritUnprotected CritAbsent CritUnknown BothIvs NoAlg UnknownAlg AlgUnprotected NoKey "
    "AmbiguousKey Detached BadAuthLength BadAuth CwtTagAlone"
).split()
GOES_ON = (
    "Reserved Indefinite BadSimple TooDeep PastRoom NotMap BadLabel DuplicateLabel BadValue FloatDate TaggedDate Expired NotYet "
    "WrongAudience EncryptedKey PlainKey BadConfirmation NestedCwt Trailing"
).split()


def sequence_ends():
    """What follows each reason in the middle of a sequence: the next message, or the end."""
    old = "            taken = refusal.taken if isinstance(refusal, Unmet) or refusal.taken else None\n"
    for reasons, parts in (ENDS_SEQUENCE, ("", "message ")), (GOES_ON, ("claims ",)):
        for name in reasons:
            test = f'isinstance(refusal, Refused) and refusal.reason.name == "{name}" and refusal.part in {parts!r}'
            new = f"{old}            if {test}:\n                taken = 1 if taken is None else None\n"
            yield End(f"--sequence behind {parts[-1]}{name}", "turned", ((old, new),), ("commands",), None, PROGRAM)
    for name in ("Present", "Issuer", "Subject", "Audience", "Lifetime", "Age", "Issued"):
        new = f'{old}            if isinstance(refusal, Unmet) and "policy {name}" in str(refusal):\n                taken = None\n'
        yield End(f"--sequence behind {name}", "turned", ((old, new),), ("commands",), None, PROGRAM)


# ---- show --detached


def detached_ends():
    def ends(end, old, new, turned=None):
        return End("show --detached", end, ((old, new),), ("commands",), turned, PROGRAM)

    old = 'refusal.reason is not reading.Reason.Detached or "detached" not in options'
    yield ends("it is refused", old, "True")
    yield ends("without the option", old, "refusal.reason is not reading.Reason.Detached")
    line = 'f"detached at {refusal.place}"'
    yield ends("the place, one more", line, line.replace("place}", "place + 1}"))
    yield from compared("show --detached: the place", line, line.replace("refusal.place", "turned(refusal.place)"), ("commands",), SIZES[:1], PROGRAM)
    old = "*lines_of_headers(protected, unprotected, notation), *elsewhere])"
    for end, new in (
        ("no protected header", old.replace("(protected", "({}")),
        ("no unprotected header", old.replace("unprotected", "{}")),
        ("never in diagnostic notation", old.replace("notation)", "False)")),
        ("nothing of the payload that is elsewhere", old.replace(", *elsewhere", "")),
        ("always in diagnostic notation", old.replace("notation)", "True)")),
    ):
        yield ends(end, old, new)
    before = "        return printed([f\"detached"
    yield ends("a message has to end there", before, f"        reading.demand(refusal.place + 1 == len(data), reading.Reason.Trailing, 0)\n{before}")
    yield ends("the rest has to be there", before, f"        reading.demand(refusal.place + 1 < len(data), reading.Reason.Truncated, 0)\n{before}")
    old = "        _, protected, unprotected, *_ = reading.read_headers(data, context)\n"
    for name in ("header_limit", "nesting"):
        small = f"reading.{name.upper()}"
        yield ends(f"{name} of --limits large", old, f"        reading.demand(context.{name} == {small}, reading.Reason.PastRoom, 0)\n{old}")
    yield ends("--kind", old, f'        reading.demand(context.wanted == "tagged", reading.Reason.WrongTag, 0)\n{old}')
    old = "        for label, value in bucket.values():\n"
    for count in (1, 8, 23, 255):
        turned = lambda it, count=count: [*it][:count]
        yield End("show: the pairs of a bucket", f"the first {count} alone", ((old, old.replace("bucket.values()", "turned(bucket.values())")),), ("commands",), turned, PROGRAM)


# ---- --input


def input_ends():
    def ends(rule, end, old, new, turned=None):
        return End(f"--input {rule}", end, ((old, new),), ("commands",), turned, PROGRAM)

    for it in (9, 10, 13, 32):
        yield ends("blanks", f"{it} is none", "BLANKS =", f"BLANKS = bytes([it for it in (9, 10, 13, 32) if it != {it}]) #")
    for it in (0, 8, 11, 12, 14, 31, 33, 0x85, 0xA0):
        yield ends("blanks", f"{it} is one", "BLANKS =", f"BLANKS = bytes([9, 10, 13, 32, {it}]) #")
    for form, ranges, others in (
        ("hexadecimal", ("09", "AF", "af"), "=xXhH"),
        ("base64url", ("AZ", "az", "09", "--", "__", "++", "//"), "=.,~"),
    ):
        old = "values, width = FORMS[form]\n"
        width = {"hexadecimal": 4, "base64url": 6}[form]
        edges = sorted({one for it in ranges for one in it})
        for it in edges:
            new = f"{old}    values = {{at: it for at, it in values.items() if width != {width} or at != {ord(it)}}}\n"
            yield ends(f"in {form}", f"{it!r} is wrong", old, new)
            new = f"{old}    values = {{at: it ^ (width == {width} and at == {ord(it)}) for at, it in values.items()}}\n"
            yield ends(f"in {form}", f"{it!r} has another value", old, new)
        inside = {chr(at) for it in ranges for at in range(ord(it[0]), ord(it[1]) + 1)}
        beside = {chr(ord(it) + by) for it in edges for by in (-1, 1)} | {chr(0x80 | ord(it)) for it in edges} | {*others} - inside
        for it in sorted(beside - inside):
            new = f"{old}    values = {{**values, {ord(it)}: 0}} if width == {width} else values\n"
            yield ends(f"in {form}", f"{it!r} is a digit", old, new)
    yield from text_length_ends(ends)
    yield from auto_ends(ends)


def text_length_ends(ends):
    """The lengths of a text, and its end."""
    old = "is_whole = len(bits) % 8 < width\n"
    yield ends("hex", "a digit too few is taken", old, old.replace("< width", "< width or width == 4"))
    yield ends("base64url", "one character of four is taken", old, old.replace("< width", "< width or width == 6"))
    for rest in (2, 3):
        turned = f"    is_whole = is_whole and (form == 'hex' or count % 4 != {rest})\n"
        yield ends("base64url", f"{rest} characters of four are wrong", old, old + turned)
        turned = f"    is_whole = is_whole and (form == 'hex' or count % 4 != {rest} or text[count:] != b'')\n"
        yield ends("base64url", f"no padding after {rest} of four is wrong", old, old + turned)
        turned = f"    is_whole = is_whole and (form == 'hex' or count % 4 != {rest} or text[count:] == b'')\n"
        yield ends("base64url", f"padding after {rest} of four is wrong", old, old + turned)
    old = 'paddings = (b"", b"=" * (-count % 4)) if form == "base64url" else (b"",)\n'
    for end, new in (
        ("one sign of padding for two", 'b"=" * (-count % 4), b"="'),
        ("two signs of padding for one", 'b"=" * (-count % 4), b"=" * 2 * (count % 4 > 1)'),
        ("a sign of padding after four of four", 'b"=" * (-count % 4), b"=" * (count % 4 == 0)'),
        ("two signs of padding after four of four", 'b"=" * (-count % 4), b"==" * (count % 4 == 0)'),
        ("four signs of padding after four of four", 'b"=" * (-count % 4), b"====" * (count % 4 == 0)'),
        ("three signs of padding", 'b"=" * (-count % 4), b"==="'),
    ):
        yield ends("base64url", end, old, old.replace('b"=" * (-count % 4)', new))
    yield ends("hex", "padding", old, old.replace('"base64url"', 'form'))
    for what in ("=", "A", ".", "=="):
        padded = old.replace(")) if", f'), b"=" * (-count % 4) + b"{what}") if')
        yield ends("base64url", f"{what!r} behind the padding", old, padded)
    old = "return content, is_whole and"
    yield ends("both", "the end is taken as it is", old, old.replace("is_whole and", "True or"))
    yield ends("hex", "the end is taken as it is", old, old.replace("is_whole and", 'form == "hex" or is_whole and'))
    yield ends("base64url", "the end is taken as it is", old, old.replace("is_whole and", 'form == "base64url" or is_whole and'))
    old = "text = bytes(it for it in data if it not in BLANKS)\n"
    for count in (255, 4095, 4096, 8192):
        for form in FORMS:
            cut = f'    text = text[:{count}] if form == "{form}" else text\n'
            yield ends(form, f"the first {count} characters alone", old, old + cut)
    for end, new in (
        ("no line break at the end", "text = bytes(it for it in data.rstrip(BLANKS) if it not in BLANKS) + b'.' * (data[-1:] == b'\\n')\n"),
        ("no blank at the beginning", "text = b'.' * (data[:1] in (b' ', b'\\n')) + bytes(it for it in data if it not in BLANKS)\n"),
        ("no blank inside", "text = data.strip(BLANKS)\n"),
        ("no two blanks together", "text = re.sub(rb'[ \\t\\r\\n]', b'', data.replace(b'\\r\\n', b'').replace(b'\\n\\n', b'.'))\n"),
    ):
        yield ends("both", end, old, new)
    for form in FORMS:
        yield ends(form, "a wrong character ends it", old, f"{old}    text = text[:next((at for at, it in enumerate(text) if it not in values), len(text))] if form == '{form}' else text\n")
    old = "return found if is_whole or is_decided or is_early"
    yield ends("both", "a message that is refused before a wrong character is a fault", old, old.replace("is_decided", "False"))
    yield ends("both", "headers that are shown before a wrong character are a fault", old, old.replace("is_early", "False"))


FORMS = ("hex", "base64url")


def auto_ends(ends):
    """What tells a text, and its form."""
    old = 'return "hex" if data.lstrip(BLANKS)[:1] in [bytes([it]) for it in LEADS] else "base64url"'
    for it in b"89abcdefABCDEF":
        yield ends("auto", f"{chr(it)} begins base64url", old, old.replace("for it in LEADS", f"for it in LEADS if it != {it}"))
    for it in b"01234567gGzZ-_+/":
        yield ends("auto", f"{chr(it)} begins hexadecimal", old, old.replace("for it in LEADS", f"for it in [*LEADS, {it}]"))
    yield ends("auto", "a blank before hexadecimal", old, old.replace("data.lstrip(BLANKS)", "data"))
    old = "if not data or data[0] not in BLANKS and data[0] not in BASE64URL:"
    for it in b"0789AZaz-_+/dDf":
        yield ends("auto", f"{chr(it)} begins CBOR", old, old.replace("if not data", f"if not data or data[0] == {it}"))
    for it in (9, 10, 13, 32):
        yield ends("auto", f"{it} begins CBOR", old, old.replace("if not data", f"if not data or data[0] == {it}"))
    for it in (0x21, 0x2A, 0x2C, 0x2E, 0x3A, 0x3D, 0x40, 0x5B, 0x5E, 0x60, 0x7B, 0x80, 0x84, 0x85, 0xA0, 0xD1, 0xD2, 0xD8, 0xDF):
        turned = f"if not data or data[0] != {it} and data[0] not in BLANKS and data[0] not in BASE64URL:"
        yield ends("auto", f"{it} begins a text", old, turned)


def all_ends():
    parts = (bytes_ends, list_ends, number_ends, table_ends, limit_ends, order_ends, text_ends, day_ends, sequence_ends, detached_ends, input_ends, further_ends)
    for part in parts:
        yield from part()
