// The calls of a user: messages, tokens, messages in pieces, and signatures by WebCrypto.
import assert from "node:assert/strict";
import { readFileSync } from "node:fs";
import { generateKeyPairSync, sign } from "node:crypto";
import { test } from "node:test";
import low from "../cose.js";
import signatures from "../signatures.js";
import { KeyTable, load, protectedOf, Refused, STATUS, Verifier } from "../index.mjs";

const cose = await load();
const example = (name) => new Uint8Array(readFileSync(new URL(`../../../examples/${name}.cbor`, import.meta.url)));
const { headOf } = signatures;
const [mac0, key, sign1, sign1Key] = ["mac0", "key", "sign1", "sign1_key"].map(example);
const text = (bytes) => new TextDecoder().decode(bytes);
const flipped = (bytes, at) => bytes.map((byte, i) => (i === at ? byte ^ 1 : byte));

/** A refusal of this reason at this place. */
const isRefusal = (reason, place) => (fault) => fault instanceof Refused && fault.reason === reason && fault.place === place;

test("the payload of a COSE_Mac0 and of a COSE_Sign1", async () => {
    assert.equal(text(await cose.payload(key, mac0)), "hi");
    assert.equal(text(await cose.payload(sign1Key, sign1)), "This is the content.");
    const table = new KeyTable(cose, sign1Key);
    assert.equal(text(await cose.payload(table, sign1)), "This is the content.");
    await assert.rejects(cose.payload(table, flipped(sign1, sign1.length - 1)), isRefusal("BadAuth", 32));
    table.close();
});

test("every changed bit of a COSE_Mac0 is refused, and so is every prefix", async () => {
    for (let at = 0; at < mac0.length * 8; at += 1) {
        const changed = mac0.map((byte, i) => (i === at >> 3 ? byte ^ (1 << (at & 7)) : byte));
        assert.equal(cose.verify(key, changed).status, STATUS.REFUSED);
    }
    for (let end = 0; end < mac0.length; end += 1) {
        await assert.rejects(cose.payload(key, mac0.subarray(0, end)), isRefusal("Truncated", end));
    }
});

test("a signature that isn't good, and one of another key", async () => {
    await assert.rejects(cose.payload(sign1Key, flipped(sign1, sign1.length - 1)), isRefusal("BadAuth", 32));
    await assert.rejects(cose.payload(key, sign1), isRefusal("NoKey", 11));
    await assert.rejects(cose.payload(new Uint8Array([1]), sign1), isRefusal("BadKeySet", 0));
});

test("a structure with another digest than the library's isn't good, however good its signature is", async () => {
    const { input, payloadAt, payloadLength } = cose.verify(sign1Key, sign1);
    const payload = sign1.slice(payloadAt, payloadAt + payloadLength);
    const structure = signatures.sigStructure(protectedOf(sign1), new Uint8Array(), payload);
    assert.equal(await signatures.isGoodSignature(input, structure), true);
    assert.equal(await signatures.isGoodSignature({ ...input, digest: flipped(input.digest, 0) }, structure), false);
    assert.equal(await signatures.isGoodSignature(input, flipped(structure, 20)), false);
});

test("signatures of Node's own keys on each curve, with y and with its sign", async () => {
    for (const [crv, curve, hash, alg] of [[1, "P-256", "sha256", -7], [2, "P-384", "sha384", -35], [3, "P-521", "sha512", -36]]) {
        const { publicKey, privateKey } = generateKeyPairSync("ec", { namedCurve: curve });
        const jwk = publicKey.export({ format: "jwk" });
        const [x, y] = [jwk.x, jwk.y].map((it) => new Uint8Array(Buffer.from(it, "base64url")));
        const content = Buffer.from([0xa1, 1, ...signatures.headOf(1, -1 - alg)]);
        const structure = signatures.sigStructure(content, new Uint8Array(), Buffer.from("hi"));
        const signature = sign(hash, structure, { key: privateKey, dsaEncoding: "ieee-p1363" });
        const bytes = (it) => [...signatures.headOf(2, it.length), ...it];
        const message = new Uint8Array([0xd2, 0x84, ...bytes(content), 0xa0, ...bytes(Buffer.from("hi")), ...bytes(signature)]);
        for (const last of [bytes(y), [y.at(-1) & 1 ? 0xf5 : 0xf4]]) {
            const keys = new Uint8Array([0xa4, 1, 2, 0x20, crv, 0x21, ...bytes(x), 0x22, ...last]);
            assert.equal(text(await cose.payload(keys, message)), "hi", curve);
        }
        assert.deepEqual(signatures.decompressed(signatures.CURVES[crv], x, Boolean(y.at(-1) & 1)), y);
    }
});

test("a token, its claims, and when it isn't admitted", async () => {
    const keys = Buffer.from("a4205820403697de87af64611c1d32a05dab0fe1fcb715a86ab435f1ec99192d795693880104024c53796d6d65747269633235360304", "hex");
    // RFC 8392 appendix A.4
    const token = Buffer.from(
        "d83dd18443a10104a1044c53796d6d65747269633235365850a70175636f61703a2f2f61732e6578616d706c652e636f6d02656572696b77037818636f61" +
            "703a2f2f6c696768742e6578616d706c652e636f6d041a5612aeb0051a5610d9f0061a5610d9f007420b7148093101ef6d789200",
        "hex",
    );
    const claims = await cose.token(keys, token, { now: 1444064943 });
    assert.deepEqual([claims.iss, claims.sub, claims.aud], ["coap://as.example.com", "erikw", ["coap://light.example.com"]]);
    assert.deepEqual([claims.exp, claims.nbf, claims.iat], [1444064944n, 1443944944n, 1443944944n]);
    assert.deepEqual(claims.cti, new Uint8Array([0x0b, 0x71]));
    await assert.rejects(cose.token(keys, token, { now: 1444064944 }), isRefusal("Expired", 59));
    await assert.rejects(cose.token(keys, token, { now: 1444064943, audience: "another" }), isRefusal("WrongAudience", 32));
});

test("an audience of thousands, whose texts have heads of one, two and three bytes", async () => {
    const names = Array.from({ length: 3_000 }, (_, i) => `${i}\u00e9`.repeat(i % 100 === 0 ? 1 + (i % 90) : 1));
    const strings = names.map((name) => [...headOf(3, Buffer.byteLength(name)), ...Buffer.from(name)]);
    const payload = new Uint8Array([0xa2, 3, ...headOf(4, names.length), ...strings.flat(), 2, 0x61, 0x73]);
    const claims = cose.claims(payload, { now: 0 });
    // the caller's bytes may change: those of the claims are theirs
    payload.fill(0);
    assert.deepEqual([claims.aud, claims.sub], [names, "s"]);
    assert.equal(claims.aud, claims.aud);
    assert.deepEqual(cose.claims(new Uint8Array([0xa0]), { now: 0 }).aud, []);
});

test("what is said of one message's signature doesn't count for another", async () => {
    const forged = flipped(sign1, sign1.length - 1);
    const verifier = new Verifier(cose);
    verifier.open(sign1Key);
    verifier.feed(sign1);
    const input = verifier.signInput();
    assert.equal(verifier.signInput(), input);
    const answer = Promise.resolve(true);
    // another task takes the verifier meanwhile
    verifier.reset();
    verifier.feed(forged);
    const isGood = await answer;
    assert.throws(() => verifier.verdict(isGood, input), /another message/);
    assert.throws(() => verifier.verdict(isGood), /another message/);
    assert.equal(verifier.verdict(false, input).status, STATUS.REFUSED);
    verifier.open(sign1Key);
    verifier.feed(sign1);
    assert.throws(() => verifier.verdict(true, input), /another message/);
    assert.equal(verifier.verdict(true, verifier.signInput()).status, STATUS.AUTHENTIC);
    verifier.close();
});

test("rooms are used again, and memory grows with what is passed", () => {
    const before = cose.rooms.end;
    for (let i = 0; i < 2_000; i += 1) new Verifier(cose).close();
    assert.ok(cose.rooms.end - before <= 65_536);
    const verifier = new Verifier(cose);
    verifier.open(key);
    verifier.open(key, { aad: new Uint8Array(65_535) });
    assert.equal(verifier.open(key, { aad: new Uint8Array(65_536) }).status, STATUS.AAD_TOO_LONG);
    verifier.close();
    assert.throws(() => verifier.feed(mac0), /closed/);
    assert.equal(cose.verify(key, new Uint8Array(2 ** 24)).status, STATUS.REFUSED);
});

test("without WebAssembly, the error says so", async () => {
    const { WebAssembly: kept } = globalThis;
    delete globalThis.WebAssembly;
    await assert.rejects(low.Cose.load(new Uint8Array()), /no WebAssembly/);
    globalThis.WebAssembly = kept;
});
