// Signatures over a protected header without parameters, in each spelling, and tokens at the time of the clock.
import assert from "node:assert/strict";
import { createHash, createHmac, generateKeyPairSync, sign } from "node:crypto";
import { createRequire } from "node:module";
import { test } from "node:test";
import { load, Refused } from "../index.mjs";

const cose = await load();
const { CURVES, decompressed, isGoodSignature } = createRequire(import.meta.url)("../signatures.js");
const text = (bytes) => new TextDecoder().decode(bytes);
const octets = (hex) => new Uint8Array(Buffer.from(hex, "hex"));

/** A byte string of fewer than 256 bytes. */
const byteString = (bytes) => [...(bytes.length < 24 ? [0x40 + bytes.length] : [0x58, bytes.length]), ...bytes];

/** The Sig_structure of RFC 9052 section 4.4, of the payload `hi`, with this protected header. */
const structureOf = (content) => Buffer.from([0x84, 0x6a, ...Buffer.from("Signature1"), ...byteString(content), 0x40, 0x42, ...Buffer.from("hi")]);

/** A pair of P-256: the private key, and the public one as a COSE_Key for ES256. */
function newPair() {
    const { publicKey, privateKey } = generateKeyPairSync("ec", { namedCurve: "P-256" });
    const { x, y } = publicKey.export({ format: "jwk" });
    const [atX, atY] = [x, y].map((it) => byteString(Buffer.from(it, "base64url")));
    return { privateKey, keys: new Uint8Array([0xa5, 1, 2, 3, 0x26, 0x20, 1, 0x21, ...atX, 0x22, ...atY]) };
}

/** A COSE_Sign1 with ES256 in its unprotected header. */
function signed(privateKey, protectedBytes, structure) {
    const signature = sign("sha256", structure, { key: privateKey, dsaEncoding: "ieee-p1363" });
    return new Uint8Array([0xd2, 0x84, ...byteString(protectedBytes), 0xa1, 1, 0x26, 0x42, ...Buffer.from("hi"), ...byteString(signature)]);
}

test("an empty protected header is signed as no bytes, in each spelling (RFC 9052 section 3)", async () => {
    const { privateKey, keys } = newPair();
    for (const spelling of ["", "a0", "b800", "b90000", "ba00000000", "bb0000000000000000"]) {
        const content = octets(spelling);
        assert.equal(text(await cose.payload(keys, signed(privateKey, content, structureOf([])))), "hi", spelling);
        if (!spelling) continue;
        // the signature of the spelling itself is another one
        const other = signed(privateKey, content, structureOf(content));
        await assert.rejects(cose.payload(keys, other), (fault) => fault instanceof Refused && fault.reason === "BadAuth", spelling);
    }
});

test("a protected header with a parameter is signed as it is, also where its count is wide", async () => {
    const { privateKey, keys } = newPair();
    for (const spelling of ["a104420001", "b80104420001", "b9000104420001"]) {
        const content = octets(spelling);
        assert.equal(text(await cose.payload(keys, signed(privateKey, content, structureOf(content)))), "hi", spelling);
        const empty = signed(privateKey, content, structureOf([]));
        await assert.rejects(cose.payload(keys, empty), (fault) => fault instanceof Refused && fault.reason === "BadAuth", spelling);
    }
});

test("a message with the tag of a CWT before its own is signed without its tags (RFC 8392 section 6)", async () => {
    const { privateKey, keys } = newPair();
    for (const spelling of [[0xd8, 0x3d], [0xd9, 0x00, 0x3d]]) {
        const message = new Uint8Array([...spelling, ...signed(privateKey, octets("a104420001"), structureOf(octets("a104420001")))]);
        assert.equal(text(await cose.payload(keys, message)), "hi", String(spelling));
    }
});

test("a coordinate that isn't less than p is of no point (SEC 1 section 2.3.4)", () => {
    for (const curve of Object.values(CURVES)) {
        const octetsOf = (n) => octets(n.toString(16).padStart(2 * curve.bytes, "0"));
        const x = [5n, 6n, 7n, 8n, 9n, 10n, 11n, 12n].find((it) => decompressed(curve, octetsOf(it), false));
        assert.ok(x, curve.name);
        assert.equal(decompressed(curve, octetsOf(curve.p + x), false), undefined, curve.name);
    }
});

test("what isn't about a point is no answer on a signature", async () => {
    const { keys } = newPair();
    const structure = new Uint8Array(structureOf([]));
    const digest = new Uint8Array(createHash("sha256").update(structure).digest());
    const input = { crv: 1, digest, ySign: 0, x: keys.slice(10, 42), y: keys.slice(45, 77), signature: "no bytes" };
    await assert.rejects(isGoodSignature(input, structure), TypeError);
    const other = { ...input, signature: new Uint8Array(64) };
    assert.equal(await isGoodSignature(other, structure), false);
    assert.equal(await isGoodSignature({ ...other, y: new Uint8Array(32) }, structure), false);
});

/** A token by Node's HMAC, which expires at a time in seconds. */
function tokenUntil(exp) {
    const secret = Buffer.from("a secret of thirty-two octets ..");
    const count = Buffer.alloc(4);
    count.writeUInt32BE(exp);
    const payload = [0xa1, 4, 0x1a, ...count];
    const authenticated = [0x84, 0x64, ...Buffer.from("MAC0"), 0x43, 0xa1, 1, 5, 0x40, ...byteString(payload)];
    const tag = createHmac("sha256", secret).update(Buffer.from(authenticated)).digest();
    const token = new Uint8Array([0xd8, 0x3d, 0xd1, 0x84, 0x43, 0xa1, 1, 5, 0xa0, ...byteString(payload), ...byteString(tag)]);
    return { token, keys: new Uint8Array([0xa2, 1, 4, 0x20, ...byteString(secret)]) };
}

test("without a time, a token is admitted by the machine's clock", async () => {
    const now = Math.floor(Date.now() / 1000);
    const [good, old] = [tokenUntil(now + 3_600), tokenUntil(now - 3_600)];
    assert.deepEqual((await cose.token(good.keys, good.token)).exp, BigInt(now + 3_600));
    assert.deepEqual((await cose.token(good.keys, good.token, { leeway: 5 })).exp, BigInt(now + 3_600));
    const isExpired = (fault) => fault instanceof Refused && fault.reason === "Expired";
    await assert.rejects(cose.token(old.keys, old.token), isExpired);
    await assert.rejects(cose.token(old.keys, old.token, { now: undefined }), isExpired);
    assert.deepEqual((await cose.token(old.keys, old.token, { now: now - 3_601 })).exp, BigInt(now - 3_600));
});

test("no secret stays where keys were passed to the module", async () => {
    const { token, keys } = tokenUntil(Math.floor(Date.now() / 1000) + 3_600);
    cose.verify(keys, token);
    assert.equal(Buffer.from(cose.rooms.memory.buffer).indexOf(Buffer.from(keys)), -1);
});
