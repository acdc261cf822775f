"""The signatures that the page of web/ is given by ci/page: those of ECDSA and of EdDSA that `openssl` makes, good ones and others."""
import base64
import json
import pathlib
from typing import NamedTuple

import browser
import openssl_messages as messages
from page_tab import ADMITTED, CHOSEN, expect, expect_in, set_inputs, shown


def base64url(data):
    return base64.urlsafe_b64encode(data).rstrip(b"=").decode()


def try_signatures(tab, folder):
    """Messages that openssl signs, on each curve, under PEM, a JWK set and a COSE_Key with a compressed point."""
    for curve in messages.CURVES:
        for odd in (0, 1):
            pair = messages.new_pair(folder, curve, odd)
            protected, payload = messages.cbor({1: curve.alg, 4: b"here"}), b"what the sender says"
            parts = (protected, {}, payload, pair.sign(protected, payload, b""))
            message = b"\xd2" + messages.cbor(parts)
            pem = messages.openssl("pkey", "-in", pair.path, "-pubout").decode()
            jwk = {"kty": "EC", "crv": curve.name, "x": base64url(pair.x), "y": base64url(pair.y), "kid": "here"}
            compressed = messages.cbor({1: 2, -1: curve.number, -2: pair.x, -3: bool(odd)}).hex()
            for keys in (pem, json.dumps({"keys": [{**jwk, "kid": "there"}, jwk]}), compressed):
                seen = set_inputs(tab, message=base64url(message), keys=keys, without_alg=True)
                expect(f"a signature by openssl, {curve.alg}", seen["title"], "Authentic")
                expect_in("who says so", "WebCrypto finds the signature", seen["text"])
            changed = messages.flipped(message, -1)
            seen = set_inputs(tab, message=changed.hex(), keys=pem, without_alg=True)
            place = len(message) - len(messages.cbor(parts[3]))
            expect("a changed signature", (seen["title"], seen["marked"]), ("Refused: the signature isn't good", place))
            expect("a changed signature: the reason", seen["reason"], f"BadAuth at byte {place}")
        try_external_data(tab, pair)


def try_external_data(tab, pair):
    """A signature over external data, with a protected header that is empty, in each spelling: it is signed as no bytes."""
    alg, payload, data = pair.curve.alg, b"what the sender says", b"what both know"
    point = {-1: pair.curve.number, -2: pair.x, -3: pair.y}
    keys = messages.cbor({1: 2, 3: alg, **point}).hex()
    signature = pair.sign(b"", payload, data)
    for spelling in ("", "a0", "b800", "b90000"):
        message = b"\xd2" + messages.cbor((bytes.fromhex(spelling), {1: alg}, payload, signature))
        for aad, title in ((data.hex(), "Authentic"), ("", "Refused: the signature isn't good")):
            seen = set_inputs(tab, message=message.hex(), keys=keys, aad=aad)
            expect(f"an empty protected header {spelling!r}, external data {aad!r}", seen["title"], title)


# ---- EdDSA


class OctetPair(NamedTuple):
    """A private key of EdDSA, and its public key (RFC 9053 section 7.2)."""
    name: str  # in a JWK (RFC 8037 section 2), and for OpenSSL
    number: int  # of its curve, in a key
    path: pathlib.Path
    x: bytes

    def pem(self):
        return messages.openssl("pkey", "-in", self.path, "-pubout").decode()

    def jwk(self, **members):
        return {"kty": "OKP", "crv": self.name, "x": base64url(self.x), **members}

    def cose_key(self, **members):
        """A COSE_Key with a kid or an alg."""
        named = {label: members[name] for name, label in (("kid", 2), ("alg", 3)) if name in members}
        return messages.cbor({1: 1, **named, -1: self.number, -2: self.x}).hex()

    def sign(self, protected, payload, aad=b"", context="Signature1"):
        """The signature of a Sig_structure (RFC 9052 section 4.4)."""
        structure = self.path.with_suffix(".structure")
        structure.write_bytes(messages.cbor((context, protected, aad, payload)))
        return messages.openssl("pkeyutl", "-sign", "-rawin", "-inkey", self.path, "-in", structure)


def octet_pair(folder, name, file):
    """A pair on Ed25519 or Ed448."""
    number, length = {"Ed25519": (6, 32), "Ed448": (7, 57)}[name]
    path = pathlib.Path(folder, file)
    messages.openssl("genpkey", "-algorithm", name, "-out", path)
    return OctetPair(name, number, path, messages.openssl("pkey", "-in", path, "-pubout", "-outform", "DER")[-length:])


SAID = b"what the sender says"


def signed(pair, alg, payload=SAID, unprotected=None, is_detached=False, tag=b"\xd2", **how):
    """A COSE_Sign1 by EdDSA, and the place of its signature."""
    protected = messages.cbor({1: alg})
    signature = messages.cbor(how.pop("signature", None) or pair.sign(protected, payload, **how))
    front = messages.head(4, 4) + messages.cbor(protected) + messages.cbor(unprotected or {}) + messages.cbor(None if is_detached else payload)
    return tag + front + signature, len(tag + front)


def try_eddsa(tab, folder):
    """Messages by Ed25519 under PEM, JWKs and COSE_Keys; those that are changed or for another key; what is stated of keys; tokens."""
    pair, other = octet_pair(folder, "Ed25519", "one"), octet_pair(folder, "Ed25519", "other")
    for alg, name in (-8, "EdDSA"), (-19, "Ed25519"):
        try_eddsa_keys(tab, pair, alg, name)
        try_eddsa_changes(tab, pair, other, alg)
        try_eddsa_terms(tab, pair, alg, name)
        try_eddsa_tokens(tab, pair, alg)
        try_eddsa_detached(tab, pair, other, alg)
    try_eddsa_shown(tab, pair)
    try_ed448(tab, octet_pair(folder, "Ed448", "third"))


def try_eddsa_keys(tab, pair, alg, name):
    """Each form of the key, with its algorithm and without."""
    message, _ = signed(pair, alg, unprotected={4: b"here"})
    pem, jwk = pair.pem(), pair.jwk(kid="here")
    for keys, without_alg in (
        (pem, True),
        (json.dumps(jwk), True),
        (json.dumps({"keys": [{**jwk, "kid": "there"}, {"kty": "oct", "k": "SmVmZQ"}, jwk]}), True),
        (json.dumps({**jwk, "alg": name}), False),
        (pair.cose_key(), True),
        (pair.cose_key(kid=b"here", alg=alg), False),
    ):
        seen = set_inputs(tab, message=base64url(message), keys=keys, without_alg=without_alg)
        expect(f"a signature by {name} under {keys[:40]}", (seen["title"], seen["reason"]), ("Authentic", ""))
        expect_in("who says so", f"WebCrypto finds the signature of this COSE_Sign1 ({name}) good.", seen["text"])
        expect("the key that is chosen", tab.value(CHOSEN), 1)
        expect_in("its type", "OKP, Ed25519", seen["keys"])
    both = f"82{pair.cose_key(kid=b'here', alg=alg)}{pair.cose_key(alg=alg)}"
    seen = set_inputs(tab, message=message.hex(), keys=both)
    expect("two keys that fit", (seen["title"], tab.value(CHOSEN)), ("Refused: several keys fit", 0))


def try_eddsa_changes(tab, pair, other, alg):
    """What isn't signed by the key is refused at the signature, and what isn't whole where it ends."""
    keys, bad = pair.cose_key(alg=alg), "Refused: the signature isn't good"
    good, place = signed(pair, alg)
    signature = good[place + 2 :]
    for what, message, key in (
        ("a changed payload", good.replace(SAID, b"what the sender said"), keys),
        ("a changed signature", messages.flipped(good, -1), keys),
        ("R changed", messages.flipped(good, place + 2), keys),
        ("another key", good, other.cose_key(alg=alg)),
        ("the signature of another key", signed(other, alg)[0], keys),
        ("another context", signed(pair, alg, context="MAC0")[0], keys),
        ("the context of a COSE_Sign", signed(pair, alg, context="Signature")[0], keys),
        ("external data that isn't supplied", signed(pair, alg, aad=b"both")[0], keys),
        ("zeros", signed(pair, alg, signature=bytes(64))[0], keys),
        ("a public key that is no point", good, OctetPair("Ed25519", 6, pair.path, b"\x02" + bytes(31)).cose_key(alg=alg)),
    ):
        seen = set_inputs(tab, message=message.hex(), keys=key)
        expect(f"{what}, {alg}", (seen["title"], seen["reason"], seen["marked"], seen["refused"]), (bad, f"BadAuth at byte {place}", place, 13))
        expect_in(f"{what}: its payload", "Nobody vouches", seen["payload"])
    with_data = signed(pair, alg, aad=b"both")[0]
    expect("external data", set_inputs(tab, message=with_data.hex(), keys=keys, aad=b"both".hex())["title"], "Authentic")
    seen = set_inputs(tab, message=good[:-1].hex(), keys=keys)
    expect("a byte is missing", (seen["title"], seen["reason"]), ("Refused: it isn't whole", f"Truncated at byte {len(good) - 1}"))
    for length in (1, 32, 63, 65, 114):
        message, _ = signed(pair, alg, signature=(signature + bytes(50))[:length])
        seen = set_inputs(tab, message=message.hex(), keys=keys)
        wanted = "Refused: the signature is too short or too long for its algorithm", f"BadAuthLength at byte {place}"
        expect(f"a signature of {length} bytes", (seen["title"], seen["reason"]), wanted)
    seen = set_inputs(tab, message=good.hex() + "00", keys=keys)
    expect("a byte after it", (seen["title"], seen["reason"]), ("Refused: something follows it", f"Trailing at byte {len(good)}"))
    expect("and phase 13", tab.value('[...document.querySelectorAll("#phases li")].at(-1).dataset.state'), "not reached")


def try_eddsa_terms(tab, pair, alg, name):
    """What is stated of keys leaves out keys of EdDSA too, as it says of others."""
    message, _ = signed(pair, alg)
    named, bare = pair.cose_key(alg=alg), pair.cose_key()
    for keys, stated, is_authentic in (
        (named, {"algorithms": [alg]}, True),
        (named, {"algorithms": [-7, 5]}, False),
        (named, {"algorithms": [-8 if alg == -19 else -19]}, False),
        (bare, {}, False),
        (bare, {"without_alg": True}, True),
        (bare, {"without_alg": True, "algorithms": [alg]}, False),
        (named, {"least_secret": "100"}, True),
    ):
        seen = set_inputs(tab, message=message.hex(), keys=keys, **stated)
        expect(f"{name} under {stated}", seen["title"], "Authentic" if is_authentic else "Refused: no key fits")
        expect(f"{name} under {stated}: the key", "left out" in seen["keys"], not is_authentic)
        expect(f"{name} under {stated}: the sentence", "isn't allowed by what is stated of keys" in seen["text"], not is_authentic)
    for keys in (pair.cose_key(alg=-8 if alg == -19 else -19), "a2010420444a656665", pair.cose_key(kid=b"there", alg=-53)):
        seen = set_inputs(tab, message=message.hex(), keys=keys)
        expect(f"{name} under {keys[:12]}", (seen["title"], "doesn't fit" in seen["keys"]), ("Refused: no key fits", True))
        expect_in("what is asked", f"It asks for {name}", seen["text"])


def try_eddsa_tokens(tab, pair, alg):
    """A token is admitted by the requirements of every token."""
    claims = messages.cbor({1: "coap://as", 4: 2000})
    token, _ = signed(pair, alg, payload=claims, tag=b"\xd8\x3d\xd2")
    common = {"message": token.hex(), "keys": pair.cose_key(alg=alg)}
    for fields, title, reason in (
        ({"now": "1500"}, ADMITTED, ""),
        ({"now": "1500", "issuer": "coap://as"}, ADMITTED, ""),
        ({"now": "1500", "issuer": "coap://a"}, "Authentic, but refused: it is from another issuer", "Unmet issuer"),
        ({"now": "2000"}, "Authentic, but refused: it expired now", "Expired"),
        ({"now": "1500", "present": ["cti"]}, "Authentic, but refused: it has no cti", "Unmet cti"),
    ):
        seen = set_inputs(tab, **common, **fields)
        expect(f"a token by EdDSA, {fields}", (seen["title"], seen["reason"].split(" at ")[0]), (title, reason))
    expect_in("its claims", "Expires (exp)", seen["payload"])


def try_eddsa_detached(tab, pair, other, alg):
    """A detached payload, and another."""

    def title_with(payload, keys, message):
        tab.value(f'state.payload = new File([Uint8Array.of({", ".join(map(str, payload))})], "payload"), undefined')
        return set_inputs(tab, message=message.hex(), keys=keys)["title"]

    message, place = signed(pair, alg, is_detached=True)
    keys = pair.cose_key(alg=alg)
    expect("no file", set_inputs(tab, message=message.hex(), keys=keys)["title"], "Refused: its payload is elsewhere")
    expect("detached", title_with(SAID, keys, message), "Authentic")
    expect("detached, changed", title_with(SAID + b".", keys, message), "Refused: the signature isn't good")
    expect("detached, another key", title_with(SAID, other.cose_key(alg=alg), message), "Refused: the signature isn't good")
    expect("detached, no key that fits", title_with(SAID, pair.cose_key(alg=-53), message), "Refused: no key fits")
    expect("attached", title_with(SAID, keys, signed(pair, alg)[0]), "Refused: its payload is inside already")
    tab.value("state.payload = undefined")


def try_eddsa_shown(tab, pair):
    """Its bytes, its header parameters, and what is no message by EdDSA that is verified here."""
    message, place = signed(pair, -8)
    seen = set_inputs(tab, message=message.hex(), keys=pair.cose_key(alg=-8))
    expect_in("the header parameters", "EdDSA", seen["headers"])
    parts = tab.value('[...document.querySelectorAll("#bytes [role=option]")].map((it) => it.getAttribute("aria-label"))')
    expect_in("the signature's part", "signature, content", " ".join(parts))
    seen = set_inputs(tab, message=message[1:].hex(), keys=pair.cose_key(alg=-8), wanted="18")
    expect("without a tag", (seen["title"], tab.value(CHOSEN)), ("Authentic", 1))
    seen = set_inputs(tab, message=message.hex(), keys="")
    expect("no keys", seen["title"], "Not verified: there is no key")
    long, _ = signed(pair, -8, unprotected={99: bytes(1100)})
    seen = set_inputs(tab, message=long.hex(), keys=pair.cose_key(alg=-8))
    expect("a long header", seen["title"], "Refused: EdDSA isn't verified with such a header")
    expect_in("a long header", "at most 1,024 bytes", seen["text"])
    seen = set_inputs(tab, message=signed(pair, -8, tag=b"\xd1")[0].hex(), keys=pair.cose_key(alg=-8))
    expect("a COSE_Mac0", seen["title"], "Refused: EdDSA isn't verified in a COSE_Mac0")
    seen = set_inputs(tab, message=signed(pair, -37)[0].hex(), keys=pair.cose_key(alg=-8))
    expect("PS256", seen["title"], "Refused: PS256 isn't verified in a COSE_Sign1")


def try_ed448(tab, pair):
    """Browsers have no Ed448: that is said, and such a message is never authentic."""
    for alg in (-8, -53):
        for message, _ in (signed(pair, alg), (messages.flipped(signed(pair, alg)[0], -1), 0)):
            for keys in (pair.cose_key(alg=alg), pair.pem(), json.dumps(pair.jwk())):
                seen = set_inputs(tab, message=message.hex(), keys=keys, without_alg=True)
                expect("Ed448", (seen["title"], seen["reason"], tab.value(CHOSEN)), ("Not verified: it is signed by Ed448", "", 1))
                expect_in("Ed448", "This browser verifies no such signature.", seen["text"])
                expect_in("Ed448: its payload", "Nobody vouches", seen["payload"])


# a browser whose WebCrypto has no Ed25519
WITHOUT_ED25519 = """const importKey = SubtleCrypto.prototype.importKey;
SubtleCrypto.prototype.importKey = function (format, data, algorithm, ...rest) {
    if ((algorithm.name ?? algorithm) === "Ed25519") return Promise.reject(new DOMException("Unrecognized name", "NotSupportedError"));
    return importKey.call(this, format, data, algorithm, ...rest);
};"""


def try_no_ed25519(chromium, address):
    """In a browser without Ed25519 the page says so, and verifies what else it can."""
    tab = browser.Tab(chromium, address, before=WITHOUT_ED25519)
    tab.wait("state.cose !== undefined")
    click = '[...document.querySelectorAll("#example_buttons button")].find((it) => it.textContent === "{}").click()'
    for name, title in ("Ed25519", "Not verified: it is signed by Ed25519"), ("COSE_Sign1", "Authentic"):
        tab.value(click.format(name))
        expect(f"without Ed25519: {name}", shown(tab)["title"], title)
    tab.close()
