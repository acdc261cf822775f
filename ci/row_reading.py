"""What the rows say by the second reading: one function for each subject of rows/README.md, from a group and a test.

A function returns the result that the row should have, as far as it is compared: of a refusal the reason and the place. It is
called with the modules of the second reading, ci/second_reading.py and ci/second_program.py, or with copies of them in which
one rule is another.
"""
import re

import option_rows

# places of rows may be beyond what a list of bytes can have before them
CLAIM_TEXTS, DATES = ("iss", "sub"), ("exp", "nbf", "iat")


def keys_of(reading, data, algorithms=None, least_secret=0):
    """The usable keys of a set, however many, that are allowed."""
    keys = [it for _place, it in reading.read_key_items(data) if isinstance(it, reading.Key)]
    return [it for it in keys if reading.is_allowed(it, algorithms, least_secret)]


def context_of(reading, group, with_keys=True):
    keys = keys_of(reading, bytes.fromhex(group["keys"])) if with_keys else None
    return reading.Context(
        group["wanted"],
        keys,
        bytes.fromhex(group.get("aad", "")),
        group.get("payloadLimit", reading.PAYLOAD_LIMIT),
        cwt=group["cwt"],
        understood=tuple(group["understood"]),
        header_limit=group["headerLimit"],
        nesting=group["nesting"],
    )


def authenticated(reading, context, data, test):
    """The message that some bytes begin with, once it is authentic; another digest than the row's is a verdict of its own."""
    message = reading.read_message(data, context)
    if message.kind == "mac0":
        reading.authenticate(message, context)
    elif "signature" not in test:
        raise reading.Refused(reading.Reason.BadAuth, message.auth_place)
    else:
        stated = test["signature"]
        asked = reading.signed_digest(message, context.aad).hex(), message.auth.hex()
        if asked != (stated["digest"], stated["signature"]):
            raise AssertionError(f"asked of {asked}")
        reading.demand(stated["holds"], reading.Reason.BadAuth, message.auth_place)
    return message


def messages(reading, _program, group, test):
    context = context_of(reading, group)
    message = authenticated(reading, context, bytes.fromhex(test["message"]), test)
    return {"verdict": "authentic", "kind": message.kind, "alg": message.alg, "payload": message.payload.hex(), "taken": message.taken}


def detached(reading, _program, group, test):
    context = context_of(reading, group)
    length, payload = int(group["payloadLength"]), bytes.fromhex(test["payload"])
    context.payload, context.payload_length = payload[:length], length
    message = authenticated(reading, context, bytes.fromhex(test["message"]), test)
    return {"verdict": "authentic", "kind": message.kind, "alg": message.alg, "taken": message.taken, "payloadTaken": length}


def shapes(reading, _program, group, test):
    message = reading.read_message(bytes.fromhex(test["message"]), context_of(reading, group, with_keys=False))
    buckets = {
        name: [[label.name(), value.spelling().hex()] for label, value in pairs.values()]
        for name, pairs in (("protected", message.protected), ("unprotected", message.unprotected))
    }
    lengths = {"payload": len(message.payload), "auth": len(message.auth), "taken": message.taken}
    return {"verdict": "shape", "kind": message.kind, **lengths, **buckets}


def admitted(reading, group, payload):
    claims = reading.read_claims(payload, group["nesting"])
    if "now" in group:
        reading.admit(claims, int(group["now"]), group["leeway"], group.get("audience"))
    return claims


def tokens(reading, _program, group, test):
    context = context_of(reading, group)
    try:
        message = authenticated(reading, context, bytes.fromhex(test["token"]), test)
    except reading.Refused as refusal:
        refusal.part = "message"
        raise
    try:
        claims = admitted(reading, group, message.payload)
    except reading.Refused as refusal:
        refusal.part = "claims"
        raise
    return {"verdict": "admitted", "claims": shown_claims(reading, claims), "taken": message.taken}


def claims(reading, _program, group, test):
    found = admitted(reading, group, bytes.fromhex(test["payload"]))
    return {"verdict": "claims", "claims": shown_claims(reading, found)}


def shown_claims(reading, claims):
    shown = {name: claims[name].text() for name in CLAIM_TEXTS if name in claims}
    if "aud" in claims:
        shown["aud"] = [it.text() for it in reading.audience_of(claims)]
    shown |= {name: str(claims[name].integer()) for name in DATES if name in claims}
    if "cti" in claims:
        shown["cti"] = claims["cti"].content().hex()
    if "cnf" in claims:
        shown["cnf"] = {}
        if "cnf kid" in claims:
            shown["cnf"]["kid"] = claims["cnf kid"].content().hex()
        if "cnf key" in claims:
            shown["cnf"]["key"] = shown_key(claims["cnf key"], reading)
    return shown


def shown_key(key, reading):
    shown = {"type": {reading.SYMMETRIC: "symmetric", reading.EC2: "ec2"}[key.type]}
    if key.kid is not None:
        shown["kid"] = key.kid.hex()
    if key.alg is not None:
        shown["alg"] = key.alg
    if key.operations is not None:
        shown["operations"] = reading.known_operations(key)
    if key.secret is not None:
        return {**shown, "secret": key.secret.hex()}
    return {**shown, "curve": key.curve, "x": key.x.hex(), "y": key.y if isinstance(key.y, bool) else key.y.hex()}


def requirements(reading, _program, group, test):
    found = reading.read_claims(bytes.fromhex(test["payload"]), group["nesting"])
    limits = {name: int(group[name]) for name in ("lifetime", "age") if name in group}
    texts = {name: group[name] for name in ("iss", "sub", "aud") if name in group}
    present = tuple(group.get("present", ()))
    required = reading.Requirements(int(group["now"]), group["leeway"], present, **texts, **limits, issued=group.get("issued", False))
    for name, place in reading.unmet_requirements(found, required):
        if name.startswith("Present"):
            return {"verdict": "unmet", "requirement": "Present", "claim": name[len("Present") :].lower(), "place": place}
        return {"verdict": "unmet", "requirement": name, "place": place}
    return {"verdict": "met"}


def keys(reading, _program, group, test):
    return {"verdict": "key", **shown_key(reading.read_key(bytes.fromhex(test["key"])), reading)}


def okp_keys(reading, _program, group, test):
    key = reading.read_okp_key(bytes.fromhex(test["key"]))
    shown = {"kid": key.kid.hex()} if key.kid is not None else {}
    if key.alg is not None:
        shown["alg"] = key.alg
    if key.operations is not None:
        shown["operations"] = reading.known_operations(key)
    return {"verdict": "key", **shown, "curve": key.curve, "x": key.x.hex(), "signature": reading.SIGNATURE_BYTES[key.curve]}


def sets(reading, _program, group, test):
    count = len(keys_of(reading, bytes.fromhex(test["set"])))
    reading.demand(count <= group.get("table", count), reading.Reason.BadKeySet, 0)
    return {"verdict": "set", "usable": count}


def item_of(reading, data, place=0, nesting=32):
    """The one item that bytes from a place on are, with its places."""
    item = reading.read_whole(data, 0, len(data), nesting)
    return moved(item, place)


def moved(item, by):
    """An item some bytes later, whose spelling and content are looked up where they were."""
    if by:
        item.data = Later(item.data, by)
        item.place, item.end = item.place + by, item.end + by
        for it in item.children:
            moved(it, by)
    return item


class Later:
    """Bytes as if others came before them."""

    def __init__(self, data, by):
        self.data, self.by = data, by

    def __getitem__(self, part):
        return self.data[part.start - self.by : part.stop - self.by]


def choices(reading, _program, group, test):
    algorithms = frozenset(group["algorithms"]) if "algorithms" in group else None
    usable = keys_of(reading, bytes.fromhex(group["keys"]), algorithms, group.get("leastSecret", 0))
    protected, unprotected = asked_by(reading, test)
    key, alg = reading.choose_key(usable, test["kind"], protected, unprotected, 0)
    material = {"secret": key.secret.hex()} if key.secret is not None else {"curve": key.curve, "x": key.x.hex()}
    # a row under restrictions doesn't say where the key stands
    before = next(before for before, usable_key in enumerate(usable) if usable_key is key)
    index = {"index": before} if "index" in test["result"] else {}
    return {"verdict": "found", **index, "alg": alg, **material}


def asked_by(reading, test):
    """The header buckets of a message that says this of its key."""
    protected, unprotected = {}, {}
    for pairs, label, name in (protected, 1, "protectedAlg"), (unprotected, 1, "unprotectedAlg"), (protected, 4, "kid"):
        if name in test:
            pairs[label] = None, item_of(reading, spelled(reading, test[name], is_hex=name == "kid"))
    return protected, unprotected


def further_choices(reading, _program, group, test):
    keys = reading.read_okp_keys(bytes.fromhex(group["keys"]))
    key, alg = reading.choose_further_key(keys, test["kind"], *asked_by(reading, test), 0)
    before = next(before for before, usable_key in enumerate(keys) if usable_key is key)
    return {"verdict": "found", "index": before, "alg": alg, "curve": key.curve, "x": key.x.hex()}


def further_messages(reading, _program, group, test):
    context = context_of(reading, group, with_keys=False)
    context.keys = reading.read_okp_keys(bytes.fromhex(group["keys"]))
    if "payload" in test:
        context.payload = bytes.fromhex(test["payload"])
        context.payload_length = len(context.payload)
    data = bytes.fromhex(test["message"])
    message = reading.read_further_message(data, context)
    asked = [it.hex() for it in reading.asked_of_caller(message, context.aad)]
    if asked != [test.get(name) for name in ("x", "structure", "signature")]:
        return {"verdict": "asked", "of": asked}
    reading.check_further(message, test["holds"], len(data))
    before = next(before for before, usable_key in enumerate(context.keys) if usable_key is message.key)
    return {"verdict": "authentic", "alg": message.alg, "index": before, "payload": message.payload.hex()}


def spelled(reading, value, is_hex=False):
    """The bytes of an integer, a text, or bytes in hexadecimal."""
    if is_hex:
        return reading.string(bytes.fromhex(value))
    if isinstance(value, str):
        return reading.string(value.encode(), reading.TEXT)
    return reading.head(reading.UNSIGNED, value) if value >= 0 else reading.head(reading.NEGATIVE, -1 - value)


def bucket_of(reading, data, place, nesting=32):
    return reading.read_map(item_of(reading, data, place, nesting), reading.HEADER_FORMS) if data else {}


def buckets(reading, _program, group, test):
    pairs = bucket_of(reading, bytes.fromhex(test["bucket"]), 0, group["nesting"])
    place = group["place"]
    shown = [[name, label.place + place, value.spelling().hex()] for name, (label, value) in pairs.items()]
    found = {"verdict": "bucket", "pairs": shown}
    if reading.ALG in pairs:
        found["alg"] = reading.name_of(pairs, reading.ALG)
    if reading.KID in pairs:
        found["kid"] = reading.content_of(pairs, reading.KID).hex()
    if reading.CRIT in pairs:
        found["crit"] = [it.name() for it in pairs[reading.CRIT][1].children]
    return found


def headers(reading, _program, group, test):
    protected = bucket_of(reading, bytes.fromhex(test["protected"]), test["protectedPlace"])
    unprotected = bucket_of(reading, bytes.fromhex(test["unprotected"]), test["unprotectedPlace"])
    reading.check_buckets(protected, unprotected, test["after"], tuple(group["understood"]))
    return {"verdict": "accepted"}


def depth(item):
    return max((1 + depth(it) for it in item.children), default=1 if item.major in (4, 5, 6) else 0)


def items(reading, _program, _group, test):
    item = reading.read_item(bytes.fromhex(test["item"]), 0, test["room"], test["nesting"])
    return {"verdict": "item", "length": item.end, "depth": depth(item)}


def values(reading, _program, group, test):
    item = item_of(reading, bytes.fromhex(test["item"]), 0, group["nesting"])
    places = [[it.place + group["place"], it.spelling().hex()] for it in item.children]
    if item.integer() is not None:
        return {"verdict": "integer", "value": str(item.integer())}
    if item.major == reading.BYTES:
        return {"verdict": "bytes", "value": item.content().hex()}
    if item.major == reading.TEXT:
        return {"verdict": "text"} if item.text() is None else {"verdict": "text", "value": item.text()}
    if item.major in (reading.ARRAY, reading.MAP):
        return {"verdict": "array" if item.major == reading.ARRAY else "map", "children": places}
    if item.major == reading.TAG:
        (place, enclosed), = places
        return {"verdict": "tag", "number": str(item.argument), "place": place, "enclosed": enclosed}
    if item.is_float():
        return {"verdict": "float"}
    truth = item.truth()
    return {"verdict": "simple", "value": item.argument} if truth is None else {"verdict": "boolean", "value": truth}


def heads(reading, _program, _group, test):
    return {"verdict": "head", "bytes": reading.head(test["major"], int(test["argument"])).hex()}


def algorithms(reading, _program, _group, test):
    row = reading.ALGORITHMS.get(int(test["number"]))
    if row is None:
        return {"verdict": "unknown"}
    curve = {} if row.curve is None else {"curve": row.curve}
    return {"verdict": "algorithm", "kind": row.kind, "hash": row.hash, **curve, "length": row.auth_length}


def further(reading, _program, _group, test):
    curves = reading.FURTHER.get(int(test["alg"]))
    return {"verdict": "unknown"} if curves is None else {"verdict": "algorithm", "curves": list(curves)}


def macs(reading, _program, group, test):
    key = reading.Key(reading.SYMMETRIC, None, None, None, bytes.fromhex(test["key"]))
    return {"verdict": "mac", "mac": reading.mac(group["alg"], key, bytes.fromhex(test["text"])).hex()}


def digests(reading, _program, group, test):
    return {"verdict": "digest", "digest": reading.digest_of(group["alg"], bytes.fromhex(test["text"])).hex()}


def structures(reading, _program, _group, test):
    parts = bytes.fromhex(test["protected"]), bytes.fromhex(test["aad"]), int(test["payloadLength"])
    return {"verdict": "structure", "front": reading.structure_front(test["kind"], *parts).hex()}


def made(_reading, program, group, test):
    options = {"key": group["key"], "alg": str(test["alg"]), "length": test["payloadLength"], "aad": test["aad"]}
    if "kid" in test:
        options["kid"] = test["kid"]
    payload = bytes.fromhex(test["payload"])
    left = len(payload) - min(int(test["payloadLength"]), len(payload))
    try:
        return {"verdict": "message", "message": program.make(options, payload).hex(), "left": left}
    except program.CutShort as cut:
        return {"verdict": "fault", "fault": "ShortPayload", "message": cut.args[0].hex(), "left": left}
    except program.Fault as fault:
        # the library has one fault for each part that is too long
        name = str(fault).split()[-1].replace("aad", "TooLong")
        return {"verdict": "fault", "fault": name, "message": "", "left": len(payload)}


def signed(_reading, program, _group, test):
    payload, length = bytes.fromhex(test["payload"]), int(test["payloadLength"])
    options = {name: test[name] for name in ("kid", "aad") if name in test}
    left = len(payload) - min(length, len(payload))
    try:
        message, digest = program.sign(test["alg"], options, length, payload, bytes.fromhex(test["signature"]))
        return {"verdict": "message", "digest": digest.hex(), "message": message.hex(), "left": left}
    except program.CutShort as cut:
        name = cut.args[1] if len(cut.args) > 1 else "ShortPayload"
        return {"verdict": "fault", "fault": name, "message": cut.args[0].hex(), "left": left}
    except program.Fault as fault:
        name = str(fault).split()[-1].replace("aad", "TooLong")
        return {"verdict": "fault", "fault": name, "message": "", "left": len(payload)}


# the options without an argument, and those that may be there several times
FLAGS, REPEATED = option_rows.names_with(""), option_rows.repeated_names()


def options_of(test):
    """The options of a row of commands.json by their names, or nothing where the row is about the command line or its files."""
    options, words = {}, list(test["arguments"][1:])
    while words:
        name, is_joined, joined = words.pop(0)[2:].partition("=")
        if name in FLAGS:
            options[name] = True
        elif name in REPEATED:
            options.setdefault(name, []).append(joined if is_joined else words.pop(0))
        elif not re.fullmatch(r"[a-z-]+", name) or not is_joined and not words:
            return None
        else:
            options[name] = joined if is_joined else words.pop(0)
    for name, of_bytes in ("keys-file", "keys"), ("key-file", "key"), ("payload-file", "payload"):
        if name in options:
            content = test.get("files", {}).get(options.pop(name))
            if content is None:
                return None
            options[of_bytes] = content
    if "payload-length" in options:
        length = int(options.pop("payload-length"))
        if 2 * length > len(options["payload"]):
            return None
        options["payload"] = options["payload"][: 2 * length]
    return options


def commands(_reading, program, _group, test):
    arguments = test["arguments"]
    options = options_of(test) if arguments and arguments[0] in program.COMMANDS else None
    if options is None or test["result"]["output"].startswith(("error:", "fault file")):
        return test["result"]
    answer = program.answer_to_text(arguments[0], options, bytes.fromhex(test["input"]))
    is_text = test["result"]["verdict"] == "lines"
    # (what is read, said on standard error and left in files it doesn't know)
    return {**test["result"], "output": answer.text.decode() if is_text else answer.text.hex(), "status": answer.status}


def result_of(reading, program, subject, group, test):
    """What the second reading says of a row."""
    try:
        return globals()[subject](reading, program, group, test)
    except reading.Refused as refusal:
        place = refusal.place + (group["place"] if subject in PLACED else 0)
        return {"verdict": f"refused {refusal.part}".strip(), "reason": refusal.reason.name, "place": place}


# the subjects whose groups say the place of the first byte
PLACED = ("buckets", "keys", "okp_keys", "values")
# what a row says besides, which the second reading doesn't know: how many bytes decide a refusal
UNKNOWN = ("taken", "payloadTaken", "going")


def differs(reading, program, subject, group, test):
    """What the second reading says otherwise than a row, or nothing."""
    found, stated = result_of(reading, program, subject, group, test), test["result"]
    if stated["verdict"].startswith("refused"):
        stated = {name: it for name, it in stated.items() if name not in UNKNOWN}
        found = {name: found.get(name) for name in stated}
    return None if found == stated else found
