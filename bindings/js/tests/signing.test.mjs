// COSE_Sign1 messages that are made, with signatures of WebCrypto, which signs the Sig_structure whose hash is the digest.
import assert from "node:assert/strict";
import { webcrypto } from "node:crypto";
import { test } from "node:test";
import { load, sigStructure, Sign1Maker, sign1, STATUS } from "../index.mjs";

const cose = await load();
const text = (it) => new TextEncoder().encode(it);

/** For each algorithm: its protected header, the curve, the hash, the bytes of a coordinate, and the curve's number. */
const ALGORITHMS = [
    [-7, "a10126", "P-256", "SHA-256", 32, 1],
    [-35, "a1013822", "P-384", "SHA-384", 48, 2],
    [-36, "a1013823", "P-521", "SHA-512", 66, 3],
];

test("what is made is authentic under the key, and under no other external data", async () => {
    for (const [alg, header, namedCurve, hash, size, crv] of ALGORITHMS) {
        const { privateKey, publicKey } = await webcrypto.subtle.generateKey({ name: "ECDSA", namedCurve }, true, ["sign", "verify"]);
        const [payload, aad] = [text("what is said"), text("data")];
        const structure = sigStructure(new Uint8Array(Buffer.from(header, "hex")), aad, payload);
        const sign = async (digest) => {
            assert.deepEqual(digest, new Uint8Array(await webcrypto.subtle.digest(hash, structure)));
            return new Uint8Array(await webcrypto.subtle.sign({ name: "ECDSA", hash }, privateKey, structure));
        };
        const message = await sign1(cose, payload, { alg, aad, sign });
        const { x, y } = await webcrypto.subtle.exportKey("jwk", publicKey);
        const [head, xs, ys] = [[0xa4, 1, 2, 0x20, crv, 0x21, 0x58, size], Buffer.from(x, "base64url"), Buffer.from(y, "base64url")];
        const key = new Uint8Array([...head, ...xs, 0x22, 0x58, size, ...ys]);
        assert.deepEqual(await cose.payload(key, message, { aad }), payload);
        await assert.rejects(cose.payload(key, message), { reason: "BadAuth" });
    }
});

test("what isn't made, and what is asked again", async () => {
    const maker = new Sign1Maker(cose);
    assert.equal(maker.digest().status, STATUS.CLOSED);
    assert.equal(maker.head(2, { alg: 5 }).status, STATUS.BAD_ARGUMENT);
    assert.equal(maker.head(2, { alg: -7 }).status, STATUS.MORE);
    assert.equal(maker.digest().status, STATUS.MORE);
    assert.deepEqual([maker.piece(text("hi!")), maker.piece(text("!"))], [2, 0]);
    assert.deepEqual(maker.digest(), maker.digest());
    assert.equal(maker.end(new Uint8Array(63)).status, STATUS.BAD_ARGUMENT);
    assert.equal(maker.end(new Uint8Array(64)).status, STATUS.COMPLETE);
    assert.equal(maker.end(new Uint8Array(64)).status, STATUS.CLOSED);
    maker.close();
    const sign = () => new Uint8Array(1);
    await assert.rejects(sign1(cose, text("hi"), { alg: -7, sign }), /no message is made/);
});
