"""The rules of keys of the type OKP, of the algorithms that are left to the caller, and of the messages by them, and their ends."""
from row_ends import BYTES, NUMBERS, SIZES, End, compared, first_items, left_out

ROWS_OF_MESSAGES = ("further_messages",)


def further_ends():
    keys, choices = ("okp_keys",), ("further_choices",)
    old = "(None in (key.kid, asked) or key.kid == asked)"
    yield from compared("kid of the OKP key that is chosen", old, old.replace("key.kid == asked", "turned(key.kid, asked)"), choices, BYTES)
    old = "    for key in keys:\n        with_alg"
    yield from compared("the OKP keys of a set", old, old.replace("in keys", "in turned(keys)"), choices, first_items(1, 8, 15, 255))
    old = "VERIFY in key.operations)"
    yield from compared("key_ops of the OKP key that is chosen", old, "VERIFY in turned(key.operations))", choices, first_items(1, 2, 8))
    for label, rule in ("inside", "alg of the protected header"), ("outside", "alg of the unprotected header"):
        old = "    stated = outside if inside is None else inside\n"
        yield from compared(f"the algorithms that are left to the caller: {rule}", old, f"    {label} = turned({label})\n{old}", choices, NUMBERS)
    old = "return Key(OKP, content_of(pairs, 2), name_of(pairs, 3), operations, curve"
    yield from compared("alg of an OKP key", old, old.replace("name_of(pairs, 3)", "turned(name_of(pairs, 3))"), keys, NUMBERS)
    yield from compared("kty of an OKP key", "name_of(pairs, 1) == OKP", "turned(name_of(pairs, 1)) == OKP", keys, NUMBERS)
    yield from compared("crv of an OKP key", "number = curve.integer()", "number = turned(curve.integer())", keys, NUMBERS)
    old = "[it.integer() for it in listed]"
    yield from compared("key_ops of an OKP key", old, old.replace("it.integer()", "turned(it.integer())"), keys, NUMBERS)
    yield from compared("the length of x", "x.argument == PUBLIC", "turned(x.argument) == PUBLIC", keys, SIZES[:1])
    for by in (1, -1):
        yield End("the length of x", f"{by:+} byte", (("x.argument == PUBLIC", f"x.argument + {by} == PUBLIC"),), keys)
    yield from further_table_ends(keys, choices)
    yield from message_ends()


def further_table_ends(keys, choices):
    after = "\nSIGNATURE_BYTES = {"
    yield from left_out("the algorithms that are left to the caller", after, "\nFURTHER.pop({})", (-8, -19, -53), ("further", *choices))
    for alg, curves in (-8, (6,)), (-8, (7,)), (-19, (7,)), (-19, (6, 7)), (-53, (6,)), (-53, (6, 7)):
        edits = ((after, f"\nFURTHER[{alg}] = {curves}\n{after}"),)
        yield End("the algorithms that are left to the caller", f"curves {curves} of {alg}", edits, ("further", *choices))
    after = "\n\ndef okp_key_of(item):"
    yield from left_out("the curves of OKP keys", after, "\nPUBLIC_KEY_BYTES.pop({})", (6, 7), keys)
    for curve in (6, 7):
        edits = (("SIGNATURE_BYTES = {", f"SIGNATURE_BYTES = {{{curve}: 63, **{{it: length for it, length in ((6, 64), (7, 114)) if it != {curve}}}}} or {{"),)
        yield End("the bytes of a signature", f"on the curve {curve}", edits, keys)
    for end, old, new in (
        ("alg of the unprotected header is used", "and key.alg != outside)", "and False)"),
        ("of a MAC", 'kind == "sign1" and stated in FURTHER', "stated in FURTHER"),
        ("the key names another algorithm", "and key.alg in (None, with_alg)", ""),
        ("the first of two keys", "demand(len(fitting) <= 1, Reason.AmbiguousKey, place)", ""),
        ("NoKey for NoAlg", "Reason.NoAlg if stated is None else", ""),
        ("NoKey for AlgUnprotected", "Reason.AlgUnprotected if inside is None else", ""),
        ("a text is no unknown curve", "is_integer_or_text(curve), Reason", "number is not None, Reason"),
        ("any d", "demand(is_bytes(pairs[-4][1]), Reason.BadValue, pairs[-4][1].place)", "pass"),
        ("a text for x", "demand(is_bytes(x) and x.argument", "demand(x.major in (BYTES, TEXT) and x.argument"),
    ):
        yield End("OKP keys", end, ((old, new),), ("further", *keys, *choices))
    edits = (("with_alg = key.alg if", "with_alg = key.alg or outside if"), ("and key.alg != outside)", "and key.alg not in (None, outside))"))
    yield End("OKP keys", "alg of the unprotected header is used where the key names none", edits, choices)


# ---- messages, by their rows alone


def message_ends():
    yield from message_table_ends()
    yield from message_key_ends()
    yield from asked_ends()
    yield from message_order_ends()


def message_table_ends():
    """Which curve a number takes, and the length of a signature on it."""
    rule, after = "messages by EdDSA: the algorithm", "\nSIGNATURE_BYTES = {"
    yield from left_out(rule, after, "\nFURTHER.pop({})", (-8, -19, -53), ROWS_OF_MESSAGES)
    for alg, curves in (-8, (6,)), (-8, (7,)), (-19, (7,)), (-19, (6, 7)), (-53, (6,)), (-53, (6, 7)):
        yield End(rule, f"curves {curves} of {alg}", ((after, f"\nFURTHER[{alg}] = {curves}\n{after}"),), ROWS_OF_MESSAGES)
    for number in (-7, -9, -20, -18, -52, -54, 5, 6, 7, 19, 53):
        yield End(rule, f"{number} is one", ((after, f"\nFURTHER[{number}] = (6, 7)\n{after}"),), ROWS_OF_MESSAGES)
    rule, old = "messages by EdDSA: the length of the signature", "demand(len(auth) == SIGNATURE_BYTES[key.curve]"
    for curve in (6, 7):
        for by in (1, -1):
            new = old.replace("demand(", f"demand(key.curve == {curve} and len(auth) == SIGNATURE_BYTES[{curve}] + {by} or ")
            yield End(rule, f"{by:+} byte on the curve {curve}", ((old, new),), ROWS_OF_MESSAGES)
        new = old.replace("demand(", f"demand(key.curve == {curve} or ")
        yield End(rule, f"any on the curve {curve}", ((old, new),), ROWS_OF_MESSAGES)
        new = old.replace("== SIGNATURE_BYTES[key.curve]", f"in (SIGNATURE_BYTES[key.curve], *([SIGNATURE_BYTES[{13 - curve}]] if key.curve == {curve} else []))")
        yield End(rule, f"that of the other curve on the curve {curve}", ((old, new),), ROWS_OF_MESSAGES)
    old = "lambda it: it <= SHOWN_AUTH_LIMIT, Reason.BadAuthLength"
    for by in (1, -1):
        yield End(f"{rule} that is read", f"{by:+} byte", ((old, old.replace("LIMIT,", f"LIMIT + {by},")),), ROWS_OF_MESSAGES)


def message_key_ends():
    """The key that a message chooses."""
    rule = "messages by EdDSA: the key"
    for end, old, new in (
        ("of the type EC2", "demand(name_of(pairs, 1) == OKP", "demand(name_of(pairs, 1) in (OKP, EC2)"),
        ("of any type", "demand(name_of(pairs, 1) == OKP", "demand(True"),
        ("of a MAC", 'demand(stated is None or kind == "sign1" and stated', "demand(stated is None or stated"),
        ("of a message of the kind of a MAC that names none", '            kind == "sign1"\n            and key.curve in FURTHER', "            key.curve in FURTHER"),
        ("of another algorithm", "and key.alg in (None, with_alg)", ""),
        ("of another operation", "and (key.operations is None or VERIFY in key.operations)", ""),
        ("that may sign", "VERIFY in key.operations)", "1 in key.operations)"),
        ("of another identifier", "and (None in (key.kid, asked) or key.kid == asked)", ""),
        ("that names no identifier is left out", "(None in (key.kid, asked) or key.kid == asked)", "(asked is None or key.kid == asked)"),
        ("where the message names no identifier, one with one is left out", "(None in (key.kid, asked) or key.kid == asked)", "(key.kid is None or key.kid == asked)"),
        ("by the unprotected header", "and not (inside is None and outside is not None and key.alg != outside)", ""),
        ("by the key's own algorithm, where the message names none", "with_alg = key.alg if inside is None else inside\n        fits = (\n            kind", "with_alg = inside\n        fits = (\n            kind"),
        ("the first of two", "demand(len(fitting) <= 1, Reason.AmbiguousKey, place)", ""),
        ("NoKey for NoAlg", "Reason.NoAlg if stated is None else", ""),
        ("NoKey for AlgUnprotected", "Reason.AlgUnprotected if inside is None else", ""),
    ):
        yield End(rule, end, ((old, new),), ROWS_OF_MESSAGES)


def asked_ends():
    """What the caller's verifier is asked: the public key, what is signed, and the signature."""
    rule, old = "messages by EdDSA: what is asked", "return message.key.x, structure("
    whole = "return message.key.x, structure(message.kind, message.protected_bytes, aad, message.payload), message.auth"
    content = "pairs, content if pairs else b\"\", end"
    for end, words, new in (
        ("the digest of the structure", old, "return message.key.x, hashlib.sha512(structure(message.kind, message.protected_bytes, aad, message.payload)).digest(), message.auth\n    structure("),
        ("R alone", whole, whole.replace("message.auth", "message.auth[: len(message.auth) // 2]")),
        ("S and R", whole, whole.replace("message.auth", "message.auth[len(message.auth) // 2 :] + message.auth[: len(message.auth) // 2]")),
        ("the payload alone", whole, "return message.key.x, message.payload, message.auth"),
        ("no external data", whole, whole.replace("aad,", 'b"",')),
        ("no protected header", whole, whole.replace("message.protected_bytes", 'b""')),
        ("the unprotected header too", whole, whole.replace("aad,", "aad + bytes(len(message.unprotected)),")),
        ("no payload", whole, whole.replace("message.payload)", 'b"")')),
        ("the context of a MAC", whole, whole.replace("message.kind", '"mac0"')),
        ("the public key of the last byte", whole, whole.replace("message.key.x", "message.key.x[:-1]")),
        ("an empty map as it came", content, "pairs, content, end"),
    ):
        yield End(rule, end, ((words, new),), ROWS_OF_MESSAGES)


def message_order_ends():
    """The phases of docs/MESSAGE.md, and what follows them."""
    both = "    check_buckets(protected, unprotected, item.end, context.understood)\n"
    chosen = "    key, alg = choose_further_key(context.keys, kind, protected, unprotected, place)\n"
    payload = "    payload, auth_place = read_payload(data, place, context)\n    auth, taken"
    read = "lambda it: it <= SHOWN_AUTH_LIMIT, Reason.BadAuthLength)\n    demand(len(auth) == SIGNATURE_BYTES"
    good = "    demand(holds, Reason.BadAuth, message.auth_place)\n"
    whole = "    demand(message.taken == count, Reason.Trailing, message.taken)\n"
    choice = "    if context.keys and context.keys[0].type == OKP:\n        choose_further_key(context.keys, kind, protected, unprotected, item.end)\n"
    for rule, old, new in (
        ("phase 7 before 8", both, choice + both),
        ("phase 8 before 9", chosen + payload, payload.replace("    auth, taken", chosen + "    auth, taken")),
        ("the content of the signature before its length", read, read.replace("it <= SHOWN_AUTH_LIMIT", "it == SIGNATURE_BYTES[key.curve]")),
        ("Trailing", whole, "    pass\n"),
        ("BadAuth", good, ""),
        ("the place of BadAuth", good, good.replace("auth_place", "taken")),
        ("the place of Trailing", whole, whole.replace("message.taken)", "count)")),
    ):
        yield End(f"messages by EdDSA: {rule}", "turned", ((old, new),), ROWS_OF_MESSAGES)
