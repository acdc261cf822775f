"""The losses of ci/dropped: for each door each parameter that it passes on, and how it isn't passed on."""
from typing import NamedTuple


class Loss(NamedTuple):
    """A parameter, and the edit of a file that loses it."""

    name: str
    path: str
    old: str
    new: str


def losses_of(folder, files):
    """The losses of files of a folder: of each file the names, and what is edited."""
    return [Loss(name, f"{folder}/{path}", old, new) for path, entries in files.items() for name, old, new in entries]


READ = "_read(keys, external, number, data, large)"
DETACHED = "_read_detached(keys, external, number, data, content, large)"
CLAIMS = "claims(message.payload, now=policy[0], leeway=leeway, audience=audience, large=large)"
SIGNED = "verify(keys, data, aad=external, wanted=wanted, ecdsa=ecdsa, large=large)"
GIVEN = "policy_of(now, leeway, audience)"
POLICY = 'return moment, number_of(leeway, "leeway", 0, 2**32 - 1), name'
BY_ITSELF = '{"leeway": leeway, "audience": audience, "aad": external, "ecdsa": ecdsa}'
TABLE = "table_verify_cwts(at, external, *policy, batch, Claims)"
MAKER = "Maker(key, len(data), alg=alg, kid=kid, aad=aad)"
# the arguments of admitting.py, which two calls each pass on by their places
REQUIRED = ("now", "leeway", "issuer", "subject", "audience", "present", "max_lifetime", "max_age", "without_exp")
REQUIRED_LINE = f"        {', '.join(REQUIRED)}\n    )\n"
NOT_REQUIRED = {"leeway": "0", "present": "()", "without_exp": "False"}
TERMS = ("aad", "wanted", "algorithms", "least_secret", "short_mac", "without_alg", "understood", "payload_limit")
TERMS_LINES = "        keys,\n" + "".join(f"        {name},\n" for name in TERMS) + "    )\n"
NOT_STATED = {"aad": 'b""', "least_secret": "0", "short_mac": "False", "without_alg": "False", "understood": "()"}


def arguments(call, names, lines, after, nothing):
    """The losses of each of the arguments that a call passes on in these lines, before what follows them there alone."""
    for name in names:
        lost = lines.replace(f" {name}", f" {nothing.get(name, 'None')}", 1)
        yield f"stated, {call}: {name}", lines + after, lost + after


# those of choosing.py and verifier.py about keys, which three calls pass on by their places
OF_KEYS = {"algorithms": "None", "least_secret": "0", "short_mac": "False", "without_alg": "False"}


def of_keys(call, kind, after):
    """The losses of each of the arguments about keys, and of the kind, that a call passes on before what follows there alone."""
    line = f"terms_of(secrets, {kind}, {', '.join(OF_KEYS)})\n{after}"
    for name, nothing in {kind: "None", **OF_KEYS}.items():
        yield f"stated, {call}: {name}", line, line.replace(f" {name}", f" {nothing}", 1)


KIND_AND_SIZE = "_kind_of(data, wanted, large), _library.large if large else small"
SIGNED_ADMIT = "return claims_under(requirements, _message(terms, data, None, ecdsa, large).payload, large)"
OF_MESSAGE = "return _message(terms, data, content, ecdsa, large)"
# the same of terms_table.py, which has them in a class
IN_CLASS = {"terms": TERMS_LINES.replace("\n    ", "\n        ").replace("        keys", "            keys", 1)}
IN_CLASS["required"] = REQUIRED_LINE.replace("\n    )", "\n        )").replace("        now", "            now", 1)
UNDER_TABLE = "(table, *rest), payload_length)"
PREPARED = "ecdsa, large)\n        self._open("
TABLE_MESSAGE = "return message_of(found, None, ecdsa,"
TABLE_SIGNED = "self.authenticate(data, ecdsa=ecdsa).payload"
TABLE_RECEIVED = "(data, self._terms.struct.kind, False)"
ADMITTED = "found, calls = ClaimsStruct(), _library.large if large else small\n        calls.edge_admit"
PYTHON = losses_of(
    "bindings/python/src/cose",
    {
        "messages.py": [
            ("verify: aad", READ, READ.replace("external", 'b""')),
            ("verify: wanted", READ, READ.replace("number", "0")),
            ("verify: large", READ, READ.replace("large", "False")),
            ("verify, detached: aad", DETACHED, DETACHED.replace("external", 'b""')),
            ("verify, detached: wanted", DETACHED, DETACHED.replace("number", "0")),
            ("verify, detached: payload", DETACHED, DETACHED.replace("content", 'b""')),
            ("verify, detached: large", DETACHED, DETACHED.replace("large", "False")),
            ("verify: ecdsa", "if not is_good(sign_input, ecdsa):", "if False:"),
            ("verify, a bad signature: its place", "return Refused(Reason.BadAuth, sign_input.place)", "return Refused(Reason.BadAuth, 0)"),
            ("shape: wanted", "small.edge_shape(wanted_of(wanted),", "small.edge_shape(0,"),
            ("stated, protected: the bucket", "return self._parameter(label, 1)", "return self._parameter(label, 0)"),
            ("stated, unprotected: the bucket", "return self._parameter(label, 0)", "return self._parameter(label, 1)"),
            ("stated, parameters: wanted", "data, wanted, large = self._received", "data, wanted, large = self._received[0], 0, self._received[2]"),
            ("stated, parameters: large", "data, wanted, large = self._received", "data, wanted, large = *self._received[:2], False"),
            ("stated, verify: the kind of parameters", "(data, number, large))", "(data, 0, large))"),
            ("stated, verify: large parameters", "(data, number, large))", "(data, number, False))"),
        ],
        "tokens.py": [
            ("claims and verify_cwt: now", "number_of(now,", "number_of(0 * now,"),
            ("policies: leeway", POLICY, "return moment, 0, name"),
            ("policies: audience", POLICY, POLICY.replace(", name", ", None")),
            ("claims: leeway", "PolicyStruct(moment, seconds,", "PolicyStruct(moment, 0,"),
            ("claims: audience", "name is not None, text,", "False, text,"),
            ("claims: now", f"moment, seconds, name = {GIVEN}", f"moment, seconds, name = {GIVEN.replace('now', 'None')}"),
            ("claims: large", "calls = _library.large if large else small\n    calls.edge_claims", "calls = small\n    calls.edge_claims"),
            ("verify_cwt: leeway", f"policy = {GIVEN}", f"policy = {GIVEN.replace('leeway', '0')}"),
            ("verify_cwt: audience", f"policy = {GIVEN}", f"policy = {GIVEN.replace('audience', 'None')}"),
            ("verify_cwt: aad", "_read(keys, external, policy, data, large)", '_read(keys, b"", policy, data, large)'),
            ("verify_cwt: large", "_read(keys, external, policy, data, large)", "_read(keys, external, policy, data, False)"),
            ("verify_cwt: wanted", "if wanted is None and not", "if not"),
            ("verify_cwt, signed: aad", SIGNED, SIGNED.replace("aad=external, ", "")),
            ("verify_cwt, signed: wanted", SIGNED, SIGNED.replace("wanted=wanted, ", "")),
            ("verify_cwt, signed: large", SIGNED, SIGNED.replace(", large=large", "")),
            ("verify_cwt, signed: ecdsa", SIGNED, SIGNED.replace("ecdsa=ecdsa", "ecdsa=lambda _: True")),
            ("verify_cwt, signed: now", CLAIMS, CLAIMS.replace("now=policy[0], ", "")),
            ("verify_cwt, signed: leeway", CLAIMS, CLAIMS.replace("leeway=leeway, ", "")),
            ("verify_cwt, signed: audience", CLAIMS, CLAIMS.replace("audience=audience, ", "")),
            ("verify_cwt, signed: large claims", CLAIMS, CLAIMS.replace(", large=large", "")),
        ],
        "admitting.py": [
            *arguments("authenticate", TERMS, TERMS_LINES, "    return _message(", NOT_STATED),
            *arguments("admit", TERMS, TERMS_LINES, "    if not says_signed", NOT_STATED),
            *arguments("admit_claims", REQUIRED, REQUIRED_LINE, "    return claims_under", NOT_REQUIRED),
            *arguments("admit", REQUIRED, REQUIRED_LINE, "    terms = ", NOT_REQUIRED),
            ("stated, authenticate: payload", "else bytes_of(payload, ", 'else b"" and bytes_of(payload, '),
            ("stated, authenticate: ecdsa", OF_MESSAGE, OF_MESSAGE.replace("ecdsa", "lambda _: True")),
            ("stated, authenticate: large", OF_MESSAGE, OF_MESSAGE.replace("large", "False")),
            ("stated, authenticate: the kind of parameters", "received = data, terms.struct.kind, large", "received = data, 0, large"),
            ("stated, authenticate: large parameters", "received = data, terms.struct.kind, large", "received = data, terms.struct.kind, False"),
            ("stated, admit_claims: large", "return claims_under(requirements, data, large)", "return claims_under(requirements, data, False)"),
            ("stated, admit: large", f"{ADMITTED}(", f"{ADMITTED.replace('_library.large if large else small', 'small')}("),
            ("stated, admit: ecdsa", SIGNED_ADMIT, SIGNED_ADMIT.replace("ecdsa", "lambda _: True")),
            ("stated, admit: large of a signed token", SIGNED_ADMIT, SIGNED_ADMIT.replace("ecdsa, large", "ecdsa, False")),
            ("stated, admit: large claims of a signed token", SIGNED_ADMIT, SIGNED_ADMIT.replace("payload, large)", "payload, False)")),
        ],
        "choosing.py": [
            *of_keys("key_of", "kind", "    calls = "),
            *of_keys("mismatches", "kind", "    found: "),
            ("stated, key_of: wanted", "_kind_of(data, wanted, large), data_of(keys)", "_kind_of(data, None, large), data_of(keys)"),
            ("stated, key_of: large of the kind", "_kind_of(data, wanted, large), data_of(keys)", "_kind_of(data, wanted, False), data_of(keys)"),
            ("stated, key_of: large", "calls = _library.large if large else small\n", "calls = small\n"),
            ("stated, mismatches: wanted", KIND_AND_SIZE, KIND_AND_SIZE.replace("wanted", "None")),
            ("stated, mismatches: large of the kind", KIND_AND_SIZE, KIND_AND_SIZE.replace("large)", "False)")),
            ("stated, mismatches: large", KIND_AND_SIZE, KIND_AND_SIZE.replace("_library.large if large else small", "small")),
        ],
        "terms_table.py": [
            *arguments("TermsTable", TERMS, IN_CLASS["terms"], "        # the memory", NOT_STATED),
            *arguments("TermsTable.admit", REQUIRED, IN_CLASS["required"], "        if not says_signed", NOT_REQUIRED),
            ("stated, TermsTable.authenticate: ecdsa", TABLE_MESSAGE, TABLE_MESSAGE.replace("ecdsa", "lambda _: True")),
            ("stated, TermsTable.admit: ecdsa", TABLE_SIGNED, TABLE_SIGNED.replace("=ecdsa", "=lambda _: True")),
            ("stated, TermsTable: the kind of parameters", TABLE_RECEIVED, TABLE_RECEIVED.replace("self._terms.struct.kind", "0")),
            ("stated, TermsTable: the keys", "byref(self._terms.struct), byref(read)", "byref(type(self._terms.struct)()), byref(read)"),
        ],
        "many.py": [
            ("verify_many: now", f"policy, external = {GIVEN}", f"policy, external = {GIVEN.replace('now', 'None')}"),
            ("verify_many: leeway", f"policy, external = {GIVEN}", f"policy, external = {GIVEN.replace('leeway', '0')}"),
            ("verify_many: audience", f"policy, external = {GIVEN}", f"policy, external = {GIVEN.replace('audience', 'None')}"),
            ("verify_many: aad", TABLE, TABLE.replace("external", 'b""')),
            ("verify_many, signed: now", "now=policy[0]", "now=None"),
            ("verify_many, signed: leeway", BY_ITSELF, BY_ITSELF.replace("leeway,", "0,")),
            ("verify_many, signed: audience", BY_ITSELF, BY_ITSELF.replace("audience,", "None,")),
            ("verify_many, signed: aad", BY_ITSELF, BY_ITSELF.replace("external", 'b""')),
            ("verify_many, signed: ecdsa", BY_ITSELF, BY_ITSELF.replace("ecdsa}", "lambda _: True}")),
        ],
        "keys.py": [
            ("from_secret: kid", "if kid is not None:", "if False:"),
            ("from_secret: alg", "if alg is not None:", "if False:"),
        ],
        "verifier.py": [
            ("Verifier: large", "large, _library.large if large else small", "False, small"),
            ("Verifier: ecdsa", "self._ecdsa = ecdsa", "self._ecdsa = lambda _: True"),
            ("Verifier: aad", 'data_of(keys), bytes_of(aad, "aad")', 'data_of(keys), b""'),
            ("Verifier: wanted", "self._open(wanted_of(wanted), payload_length)", "self._open(0, payload_length)"),
            ("Verifier: payload_length", "self._open(wanted_of(wanted), payload_length)", "self._open(wanted_of(wanted), None)"),
            ("Verifier: the stated payload_length", "*given, length, byref(status)", "*given, 2, byref(status)"),
            ("Verifier under a table: the table", "if self._table is None:", "if True:"),
            ("Verifier under a table: aad", UNDER_TABLE, UNDER_TABLE.replace("*rest", 'b"", 0, wanted')),
            ("Verifier under a table: wanted", UNDER_TABLE, UNDER_TABLE.replace("*rest", "*rest[:2], 0")),
            ("Verifier under a table: payload_length", UNDER_TABLE, UNDER_TABLE.replace("payload_length", "None")),
            ("Verifier under a table: large", PREPARED, PREPARED.replace("large", "large and not isinstance(keys, KeyTable)")),
            ("stated, protected of a verifier: the bucket", "return self._parameter(label, 1)", "return self._parameter(label, 0)"),
            ("stated, unprotected of a verifier: the bucket", "return self._parameter(label, 0)", "return self._parameter(label, 1)"),
            ("stated, parameters of a verifier: large", "65_535 if self._is_large else 1_024", "1_024"),
            *of_keys("key_of of a verifier", "wanted", "        # one use"),
            ("stated, key_of of a verifier: wanted of the verifier", "self._wanted = self._kind = wanted_of(wanted)", "self._wanted = self._kind = 0"),
            ("stated, key_of of a verifier: the kind of the verdict", "self._kind = verdict.kind or self._kind", "pass"),
            ("stated, key_of of a verifier: the kind of the next message", "self._kind = self._wanted\n\n    @property", "pass\n\n    @property"),
            ("Verifier: large of feed", "self._is_large, data)", "False, data)"),
            ("feed: used", "return Fed(used,", "return Fed(len(data),"),
            ("feed_payload: used", "return used\n\n    def end", "return len(data)\n\n    def end"),
        ],
        "making.py": [
            ("make: alg", MAKER, MAKER.replace("alg=alg", "alg=5")),
            ("make: kid", MAKER, MAKER.replace("kid=kid, ", "")),
            ("make: aad", MAKER, MAKER.replace(", aad=aad", "")),
            ("Maker: payload_length", "*given, length, room", "*given, 2, room"),
        ],
    },
)

MADE = "constructor(cose,"
FED_DETACHED = "`${name}_detached`, true)(this.handle, ...given,"
FED_PAYLOAD = '"feed_payload", true)(this.handle, ...scope.put(piece)))'
PIECE = "cose_edge_make_piece(this.handle, ...scope.put(piece)))"
IS_GOOD = "if (await isGoodSignature(input, sigStructure(protectedOf(message), aad, content))) return content;"
UNDER = "this.authenticate(keys, message, terms)"
IN_TABLE = "this.admit(token, { ...others, now })"
SIGNED_IN_TABLE = "this.authenticPayload(token), { ...others, now })"
KEY_OF = "STATED.terms(this, scope, keys, terms), ...scope.put(message), at);"
MISMATCH = "STATED.terms(this, scope, keys, terms), ...scope.put(message), BigInt(place), at);"
FED_KEY_OF = "UNDER.terms(this.cose, scope, keys, terms), at);"
IN_PARAMETER = "[wanted, ...scope.put(message), isProtected ? 1 : 0]"
JAVASCRIPT = losses_of(
    "bindings/js",
    {
        "terms.js": [
            ("stated: aad", "scope.put(aad);\n        if (algorithms", "scope.put(new Uint8Array());\n        if (algorithms"),
            ("stated: wanted", "kind: wanted,", "kind: 0,"),
            ("stated: shortMac", "(terms.shortMac ? 1 : 0) + ", ""),
            ("stated: withoutAlg", " + (terms.withoutAlg ? 2 : 0)", ""),
            ("stated: leastSecret", "least_secret: terms.leastSecret ?? 0,", "least_secret: 0,"),
            ("stated: payloadLimit", 'payload_limit: stated(payloadLimit, "payloadLimit"),', "payload_limit: 0,"),
            ("stated: algorithms", 'algorithms: listed(algorithms ?? [], "algorithms"),', "algorithms: [],"),
            ("stated: understood", 'understood: listed(understood, "understood"),', "understood: [],"),
            ("stated: leeway", "leeway: requirements.leeway ?? 0,", "leeway: 0,"),
            ("stated: now", "now: requirements.now,", "now: Math.floor(Date.now() / 1000),"),
            ("stated: maxLifetime", 'lifetime: stated(maxLifetime, "maxLifetime"),', "lifetime: 0,"),
            ("stated: maxAge", 'age: stated(maxAge, "maxAge"),', "age: 0,"),
            ("stated: issuer", '["iss", issuer], ', '["iss", undefined], '),
            ("stated: subject", '["sub", subject], ', '["sub", undefined], '),
            ("stated: audience", '["aud", audience]]', '["aud", undefined]]'),
            ("stated: present", "present: numbers.reduce", "present: [].reduce"),
            ("stated: withoutExp", "permitted: requirements.withoutExp ? 1 : 0,", "permitted: 0,"),
            ("stated, authenticate: large", '${terms.large ? "large_" : ""}${name}', "${name}"),
            ("stated, authenticate: payload", 'const name = payload ? "authenticate_detached" : "authenticate";', 'const name = "authenticate";'),
            ("stated, admit: large", '${options.large ? "large_" : ""}admit`', "admit`"),
            ("stated, admitClaims: large", '${options.large ? "large_" : ""}admit_claims`', "admit_claims`"),
        ],
        "index.mjs": [
            ("payload: options", "this.verify(keys, message, options)", "this.verify(keys, message)"),
            ("payload, signed: aad", "message, options), message, options)", "message, options), message, { ...options, aad: undefined })"),
            ("payload, detached", "message, options), message, options)", "message, options), message, { ...options, payload: undefined })"),
            ("authentic: the promise of a signature", IS_GOOD, IS_GOOD.replace("await ", "")),
            ("authentic: the signature", IS_GOOD, "return content;"),
            ("a bad signature: its place", "reason: BAD_AUTH, place }", "reason: BAD_AUTH, place: 0 }"),
            ("stated, authenticPayload: terms", UNDER, UNDER.replace(", terms", "")),
            ("stated, authenticPayload, signed: aad", f"{UNDER}, message, terms)", f"{UNDER}, message, {{ ...terms, aad: undefined }})"),
            ("stated, authenticPayload: the detached payload", f"{UNDER}, message, terms)", f"{UNDER}, message, {{ ...terms, payload: undefined }})"),
            ("stated, TermsTable.authenticPayload, signed: aad", "message, { aad: this.aad })", "message, {})"),
            ("stated, TermsTable.admitted: requirements", IN_TABLE, IN_TABLE.replace("...others, ", "")),
            ("stated, TermsTable.admitted: now", IN_TABLE, IN_TABLE.replace("now }", "now: Math.floor(Date.now() / 1000) }")),
            ("stated, TermsTable.admitted, signed: requirements", SIGNED_IN_TABLE, SIGNED_IN_TABLE.replace("...others, ", "")),
            ("stated, TermsTable.admitted, signed: now", SIGNED_IN_TABLE, SIGNED_IN_TABLE.replace("now }", "now: Math.floor(Date.now() / 1000) }")),
            ("stated, admitted: terms", "this.authenticPayload(keys, token, others)", "this.authenticPayload(keys, token)"),
            ("stated, admitted: requirements", "this.admitClaims(payload, { ...others, now })", "this.admitClaims(payload, { now })"),
            ("stated, admitted: now", "this.admitClaims(payload, { ...others, now })", "this.admitClaims(payload, { ...others, now: Math.floor(Date.now() / 1000) })"),
            ("token: now", "this.claims(payload, { now, leeway,", "this.claims(payload, { now: Math.floor(Date.now() / 1000), leeway,"),
            ("token: leeway", "{ now, leeway, audience, large", "{ now, audience, large"),
            ("token: audience", "{ now, leeway, audience, large", "{ now, leeway, large"),
            ("token: large claims", "audience, large: options.large }", "audience }"),
            ("token: options of the message", "this.payload(keys, token, others)", "this.payload(keys, token)"),
            ("token: aad", "this.payload(keys, token, others)", "this.payload(keys, token, { ...others, aad: undefined })"),
            ("token: wanted", "this.payload(keys, token, others)", "this.payload(keys, token, { ...others, wanted: undefined })"),
            ("token: large", "this.payload(keys, token, others)", "this.payload(keys, token, { ...others, large: false })"),
        ],
        "cose.js": [
            ("verify: aad", "...scope.put(aad),\n                wanted,", "...scope.put(STRUCTS.NOTHING),\n                wanted,"),
            ("verify: wanted", "...scope.put(aad),\n                wanted,", "...scope.put(aad),\n                0,"),
            ("verify: large", '"table_" : large ? "large_" : ""}verify$', '"table_" : ""}verify$'),
            ("shape: wanted", "cose_edge_shape(wanted,", "cose_edge_shape(0,"),
            ("the policy: now", 'view.setBigInt64(place("now"), BigInt(now)', 'view.setBigInt64(place("now"), 0n'),
            ("the policy: leeway", 'place("leeway"), leeway', 'place("leeway"), 0'),
            ("the policy: audience", "audience === undefined ? 0 : 1", "0"),
            ("verifyCwt: aad", "const external = scope.put(aad)", "const external = scope.put(STRUCTS.NOTHING)"),
            ("verifyCwt: large", '"table_" : large ? "large_" : "";', '"table_" : "";'),
            ("claims: large", '${large ? "large_" : ""}claims', "claims"),
            ("stated, keyOf: terms", KEY_OF, KEY_OF.replace("terms)", "{ wanted: terms.wanted })")),
            ("stated, keyOf: large", 'cose_edge_${terms.large ? "large_" : ""}key_of', "cose_edge_key_of"),
            ("stated, mismatch: terms", MISMATCH, MISMATCH.replace("terms)", "{ wanted: terms.wanted })")),
            ("stated, mismatch: large", 'cose_edge_${terms.large ? "large_" : ""}mismatch', "cose_edge_mismatch"),
            ("stated, parameter: wanted", IN_PARAMETER, IN_PARAMETER.replace("wanted", "0")),
            ("stated, parameter: the bucket", IN_PARAMETER, IN_PARAMETER.replace("isProtected ? 1 : 0", "1")),
            ("stated, parameter: large", 'cose_edge_${large ? "large_" : ""}parameter', "cose_edge_parameter"),
        ],
        "terms_table.js": [
            ("stated, TermsTable: aad of signatures", "this.aad = new Uint8Array(terms.aad ?? []);", "this.aad = new Uint8Array();"),
            ("stated, TermsTable: terms", "(kept), keys, terms)", "(kept), keys, {})"),
            ("stated, TermsTable: large", "if (terms.large) throw", "if (false) throw"),
            ("TermsTable: read again", "if (this.keySet) throw", "if (false) throw"),
            ("stated, TermsTable.admit: requirements", "GIVEN.requirements(this.cose, scope, requirements)", "GIVEN.requirements(this.cose, scope, { now: requirements.now })"),
        ],
        "cose_blocks.js": [
            ("stated, parameter of a verifier: the bucket", "[this.handle, isProtected ? 1 : 0]", "[this.handle, 1]"),
            ("stated, parameter of a verifier: large", "this.prefix ? 65_535 : 1_024", "1_024"),
            ("stated, keyOf of a verifier: terms", FED_KEY_OF, FED_KEY_OF.replace("terms)", "{ wanted: terms.wanted })")),
            ("stated, keyOf of a verifier: wanted", FED_KEY_OF, FED_KEY_OF.replace("terms)", "{ ...terms, wanted: 0 })")),
            ("Verifier: aad", "[...under, ...this.keep(aad)]", "[...under, ...this.keep(FORMS.NOTHING)]"),
            ("Verifier: wanted", "(name, true)(this.handle, ...given, wanted,", "(name, true)(this.handle, ...given, 0,"),
            ("Verifier, detached: wanted", f"{FED_DETACHED} wanted,", f"{FED_DETACHED} 0,"),
            ("Verifier: payloadLength", "wanted, BigInt(payloadLength),", "wanted, 2n,"),
            ("Verifier: a table of another module", "if (table && table.cose !== this.cose)", "if (false)"),
            ("Verifier: a table instead of terms", "if (keys instanceof Table) throw", "if (false) throw"),
            ("Verifier: its table is closed", "for (const verifier of this.verifiers) verifier.forget();", ""),
            ("Verifier: it is under a table", "table?.verifiers.add(this);", ""),
            ("Verifier: it is under a table no more", "this.table?.verifiers.delete(this);", ""),
            ("Verifier: large", f"{MADE} {{ large = false }} = {{}}) {{\n        super", f"{MADE.rstrip(',')}) {{\n        const large = false;\n        super"),
            ("Verifier: a promise of a signature", "(this.handle, signatureIsGood === true ? 1 : 0", "(this.handle, signatureIsGood ? 1 : 0"),
            ("Verifier: the input of a signature", "if (signatureIsGood === true && input !== this.signInput())", "if (false)"),
            ("feed: used", "return { ...status, used,", "return { ...status, used: piece.length,"),
            ("feedPayload: used, 1 for 0", f"{FED_PAYLOAD});", f"{FED_PAYLOAD} || 1);"),
            ("Maker: alg", "this.handle,\n                alg,", "this.handle,\n                5,"),
            ("Maker: kid", "...scope.put(kid)", "...scope.put(FORMS.NOTHING)"),
            ("Maker: aad", "...scope.put(kid),\n                ...scope.put(aad)", "...scope.put(kid),\n                ...scope.put(FORMS.NOTHING)"),
            ("Maker: payloadLength", "                BigInt(payloadLength),\n", "                2n,\n"),
            ("Maker: used, 1 for 0", f"{PIECE},", f"{PIECE} || 1,"),
        ],
    },
)

OPEN = "(S::FUNCTIONS.open)(\n                &mut verifier.handle(),\n                keys.as_ptr(),\n                keys.len(),\n                "
OPEN_DETACHED = OPEN.replace("open)", "open_detached)")
OPEN_TABLE = "(S::FUNCTIONS.open_table)(\n                &mut verifier.handle(),\n                &table.handle(),\n                "
OPEN_TABLE_DETACHED = OPEN_TABLE.replace("open_table)", "open_table_detached)")
AAD = "options.aad.as_ptr(),\n                options.aad.len(),\n                "
NO_AAD = "[].as_ptr(),\n                0,\n                "
LENGTH = "options.wanted as u8,\n                payload_length,"
NO_LENGTH = "options.wanted as u8,\n                2,"
USED = "used.min(piece.len())"
DETACHED_OPTIONS = "Small::verify_detached(keys, options, message, payload)"
RUST = losses_of(
    "bindings/rust/src",
    {
        "terms.rs": [
            ("stated: wanted", "kind: self.options.wanted as u8,", "kind: 0,"),
            ("stated: short_mac", "u8::from(self.short_mac) + ", ""),
            ("stated: without_alg", " + 2 * u8::from(self.without_alg)", ""),
            ("stated: least_secret", "least_secret: self.least_secret,", "least_secret: 0,"),
            ("stated: payload_limit", "payload_limit: stated(self.payload_limit)?,", "payload_limit: 0,"),
            ("stated: aad", "aad_length: self.options.aad.len(),", "aad_length: 0,"),
            ("stated: algorithms", "algorithms: listed(self.algorithms.unwrap_or_default())?,", "algorithms: listed(&[])?,"),
            ("stated: understood", "understood: listed(self.understood)?,", "understood: listed(&[])?,"),
            ("stated: leeway", "leeway: self.leeway,", "leeway: 0,"),
            ("stated: now", "now: self.now,", "now: 1,"),
            ("stated: max_lifetime", "lifetime: stated(self.max_lifetime)?,", "lifetime: 0,"),
            ("stated: max_age", "age: stated(self.max_age)?,", "age: 0,"),
            ("stated: issuer", "iss_length: iss.len(),", "iss_length: 0,"),
            ("stated: subject", "sub_length: sub.len(),", "sub_length: 0,"),
            ("stated: audience", "aud_length: aud.len(),", "aud_length: 0,"),
            ("stated: present", ".fold(0, |flags, claim| flags | 1 << (*claim as u8 - 1)),", ".fold(0, |flags, _| flags),"),
            ("stated: without_exp", "permitted: u8::from(self.without_exp),", "permitted: 0,"),
        ],
        "terms_table.rs": [
            ("stated, TermsTable: terms", "let terms = terms.raw()?;", "let terms = Terms { keys: terms.keys, ..Terms::default() }.raw()?;"),
            (
                "stated, TermsTable::admit: requirements",
                "let requirements = requirements.raw()?;",
                "let requirements = Requirements { now: requirements.now, ..Requirements::default() }.raw()?;",
            ),
        ],
        "size.rs": [
            ("stated, parameter: wanted", "(Self::FUNCTIONS.parameter)(\n                    wanted as u8,", "(Self::FUNCTIONS.parameter)(\n                    0,"),
            ("stated, parameter: the bucket", "u32::from(bucket == Bucket::Protected)", "u32::from(bucket == Bucket::Protected) | 1"),
        ],
        "verifier.rs": [
            ("open: aad", OPEN + AAD, OPEN + NO_AAD),
            ("open: wanted", f"{OPEN}{AAD}options.wanted as u8", f"{OPEN}{AAD}0"),
            ("open_detached: aad", OPEN_DETACHED + AAD, OPEN_DETACHED + NO_AAD),
            ("open_detached: wanted", f"{OPEN_DETACHED}{AAD}options.wanted as u8", f"{OPEN_DETACHED}{AAD}0"),
            ("open_detached: payload_length", f"{OPEN_DETACHED}{AAD}{LENGTH}", f"{OPEN_DETACHED}{AAD}{NO_LENGTH}"),
            ("under_table: options", "open_under_table(block, table, options)", "open_under_table(block, table, &Options::default())"),
            ("open_under_table: aad", OPEN_TABLE + AAD, OPEN_TABLE + NO_AAD),
            ("open_under_table: wanted", f"{OPEN_TABLE}{AAD}options.wanted as u8", f"{OPEN_TABLE}{AAD}0"),
            ("open_under_table_detached: aad", OPEN_TABLE_DETACHED + AAD, OPEN_TABLE_DETACHED + NO_AAD),
            ("open_under_table_detached: wanted", f"{OPEN_TABLE_DETACHED}{AAD}options.wanted as u8", f"{OPEN_TABLE_DETACHED}{AAD}0"),
            (
                "open_under_table_detached: payload_length",
                f"{OPEN_TABLE_DETACHED}{AAD}{LENGTH}",
                f"{OPEN_TABLE_DETACHED}{AAD}{NO_LENGTH}",
            ),
            ("open_under_detached: payload_length", "&raw,\n                payload_length,", "&raw,\n                2,"),
            ("feed: used, 1 for 0", "used: part(piece, 0, fed.used)?.len(),", "used: part(piece, 0, fed.used)?.len().max(1),"),
            ("feed_payload: used, 1 for 0", f"{USED})\n    }}\n\n    /// The status.", f"{USED}.max(1))\n    }}\n\n    /// The status."),
            ("stated, parameter of a verifier: the bucket", "u32::from(bucket == Bucket::Protected))", "u32::from(bucket == Bucket::Protected) | 1)"),
            ("verdict: the function", "is_some_and(|input| is_good(&input))", "is_some_and(|input| is_good(&input) || true)"),
        ],
        "make.rs": [
            ("Maker: alg", "making.alg as i32", "5"),
            ("Maker: kid", "making.kid.as_ptr(),\n                making.kid.len(),", "[].as_ptr(),\n                0,"),
            ("Maker: aad", "making.aad.as_ptr(),\n                making.aad.len(),", "[].as_ptr(),\n                0,"),
            ("Maker: payload_length", "payload_length,\n                head.as_mut_ptr()", "2,\n                head.as_mut_ptr()"),
            ("Maker: used, 1 for 0", "used.min(piece.len()))", "used.min(piece.len()).max(1))"),
        ],
        "message.rs": [
            ("shape: wanted", "raw::cose_edge_shape(wanted as u8,", "raw::cose_edge_shape(0,"),
            ("payload_if: the function", "is_good(&self.input).then_some(", "(is_good(&self.input) || true).then_some("),
            ("verify_with: options", "Small::verify(keys, options, message)", "Small::verify(keys, &Options::default(), message)"),
            ("verify_detached: options", DETACHED_OPTIONS, DETACHED_OPTIONS.replace("options", "&Options::default()")),
        ],
        "claims.rs": [
            ("the policy: now", "now: self.now,", "now: 0,"),
            ("the policy: leeway", "leeway: self.leeway,", "leeway: 0,"),
            ("the policy: audience", "has_audience: u8::from(self.audience.is_some()),", "has_audience: 0,"),
            ("verify_cwt: aad", "Small::verify_cwt(keys, aad, policy, token)", 'Small::verify_cwt(keys, b"", policy, token)'),
        ],
    },
)

NAMES = 'for name in *keys, "aad", *payload, "input", "limits", "kind":'
VOUCHED = 'program([command, *options, "--vouch", word], message)'
SIGN1 = losses_of(
    "examples",
    {
        "verify_sign1": [
            *(
                (f"digest: --{name}", NAMES, f'for name in (it for it in (*keys, "aad", *payload, "input", "limits", "kind") if it != "{name}"):')
                for name in ("keys", "keys-file", "algs", "least-secret", "aad", "payload", "payload-file", "payload-length", "limits", "input", "kind")
            ),
            ("verify: the options", VOUCHED, VOUCHED.replace("*options", "*for_digest")),
            ("verify: whether the signature is good", "if not is_good(bytes.fromhex(word)):", "if is_good(bytes.fromhex(word)) is None:"),
        ],
    },
)

WITH_TERMS = "terms: { ...terms, aad, wanted }, payload: state.payload, requirements };"
LEEWAY = "const leeway = Math.min(2 ** 32 - 1, Math.max(0, Math.floor(Number(valueIn(\"leeway\")) || 0)));"
NAMED = '["issuer", "subject", "audience"].map((id) => valueIn(id) || undefined);'
REQUIRED_OF = "return { now, leeway, issuer, subject, audience, present, withoutExp: !present.includes(\"exp\"), ...lifetime, ...age };"
LARGE = "const verifier = new Verifier(cose, { large: true });\n    "
STATED = "{ ...request.terms, large: true, ...detached }"
ALONE = "{ ...terms, ...stated, large: true }"
WITH_PAYLOAD = "message, { aad, wanted, payload });"
PAGE = losses_of(
    "web",
    {
        "page.js": [
            ("aad", WITH_TERMS, WITH_TERMS.replace("aad,", "aad: NOTHING,")),
            ("wanted", WITH_TERMS, WITH_TERMS.replace("wanted }", "wanted: 0 }")),
            ("stated: terms", WITH_TERMS, WITH_TERMS.replace("...terms, ", "")),
            ("the detached payload", WITH_TERMS, WITH_TERMS.replace("state.payload", "undefined")),
            ("now", REQUIRED_OF, REQUIRED_OF.replace("now,", "now: BigInt(Math.floor(Date.now() / 1000)),")),
            ("leeway", LEEWAY, "const leeway = 0;"),
            *((f"stated: {name}", REQUIRED_OF, REQUIRED_OF.replace(f" {name},", "")) for name in ("issuer", "subject", "audience", "present")),
            ("stated: a token without exp", REQUIRED_OF, REQUIRED_OF.replace('!present.includes("exp")', "false")),
            ("stated: the longest lifetime", REQUIRED_OF, REQUIRED_OF.replace(", ...lifetime", "")),
            ("stated: the greatest age", REQUIRED_OF, REQUIRED_OF.replace(", ...age", "")),
            ("stated: algorithms", "algorithms: algorithms.length ? algorithms : undefined,", ""),
            ("stated: the least secret", "return least && { ...least,", "return least && {"),
            ("stated: a short tag", 'shortMac: isChecked("short_mac")', "shortMac: true"),
            ("stated: a short tag that is allowed", 'shortMac: isChecked("short_mac")', "shortMac: false"),
            ("stated: keys without alg", 'withoutAlg: isChecked("without_alg")', "withoutAlg: true"),
            ("stated: keys without alg that are allowed", 'withoutAlg: isChecked("without_alg")', "withoutAlg: false"),
        ],
        "answer_view.js": [
            ("stated: a parameter's bucket", '{ protected: bucket === "protected", wanted, large: true }', "{ protected: true, wanted, large: true }"),
            ("stated: the library's claim", "answer.claims ? valueHandedOut(answer, claims, pair, ask) : pair.value", "pair.value"),
            ("stated: the library's parameter", "map ? valueHandedOut(answer, map, pair, ask) : pair.value", "pair.value"),
            ("stated: values of what isn't authentic", 'answer.state === "authentic" && map.end', "map.end"),
        ],
        "verify.js": [
            ("the terms", STATED, STATED.replace("...request.terms, ", "aad: request.terms.aad, wanted: request.terms.wanted, ")),
            ("aad of the message", STATED, STATED.replace("...detached", "...detached, aad: undefined")),
            ("wanted of the message", STATED, STATED.replace("...detached", "...detached, wanted: 0")),
            ("large", STATED, STATED.replace("large: true, ", "")),
            ("aad of a signature", "protectedOf(request.message), request.terms.aad,", "protectedOf(request.message), NOTHING,"),
            ("wanted of a shape", "cose.shape(message, { wanted: terms.wanted })", "cose.shape(message)"),
            ("the requirements", "{ ...request.requirements, large: true }", "{ now: request.requirements.now, large: true }"),
            ("large of the claims", "{ ...request.requirements, large: true }", "{ ...request.requirements }"),
            ("large of a key's answer", ALONE, ALONE.replace(", large: true", "")),
            ("wanted of a key's answer", ALONE, ALONE.replace("large", "wanted: 0, large")),
            ("the terms of a key's answer", "reasonUnder({})", "reasonUnder(ALL_KEYS)"),
            ("a signature that isn't good", "if (isSignatureGood === true) return", "if (isSignatureGood !== undefined) return"),
            ("a detached signature that isn't good", "verifier.verdict(isSignatureGood === true, input)", "verifier.verdict(input !== undefined, input)"),
            ("the promise of a signature", "const isSignatureGood = await signatureHolds", "const isSignatureGood = signatureHolds"),
            ("what follows a detached message", "const isTrailed = used < request.message.length;", "const isTrailed = false;"),
            ("the key of a detached message", "return fed(cose, request, chosen.bytes,", "return fed(cose, request, keys,"),
            ("aad of a detached message", "verifier.open(key, { aad, wanted,", "verifier.open(key, { wanted,"),
            ("wanted of a detached message", "verifier.open(key, { aad, wanted,", "verifier.open(key, { aad,"),
            ("two keys that fit", "if (fitting.length === 1) fitting[0]", "if (fitting.length >= 1) fitting[0]"),
        ],
        "eddsa.js": [
            ("stated: the keys of EdDSA that are left out", "(isAllowed(item, terms) ? bytes : NO_PAIRS)", "bytes"),
            ("stated: the algorithms of EdDSA", "return own !== undefined && algorithms.includes(labelNumber(own));", "return own !== undefined;"),
            ("stated: keys of EdDSA without alg", "return own !== undefined || withoutAlg;", "return true;"),
            ("aad of EdDSA", WITH_PAYLOAD, WITH_PAYLOAD.replace("aad, ", "")),
            ("wanted of EdDSA", WITH_PAYLOAD, WITH_PAYLOAD.replace("wanted, ", "")),
            ("the detached payload of EdDSA", WITH_PAYLOAD, WITH_PAYLOAD.replace(", payload", "")),
            ("a signature by EdDSA that isn't good", "if (isSignatureGood === true) return", "if (isSignatureGood !== undefined) return"),
            ("the promise of a signature by EdDSA", "const isSignatureGood = await eddsaHolds", "const isSignatureGood = eddsaHolds"),
            ("a browser without Ed25519", '"NotSupportedError" ? undefined : false', '"NotSupportedError" ? false : false'),
            ("Ed448", "if (input.crv !== ED25519) return undefined;", ""),
        ],
    },
)

LOSSES = {"python": PYTHON, "js": JAVASCRIPT, "rust": RUST, "sign1": SIGN1, "page": PAGE}
