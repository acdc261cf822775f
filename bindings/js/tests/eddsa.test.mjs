// Messages that are signed by EdDSA, whose signature Node makes and WebCrypto verifies.
import assert from "node:assert/strict";
import { generateKeyPairSync, sign } from "node:crypto";
import { test } from "node:test";
import { load, Refused, sigStructure, STATUS } from "../index.mjs";

const cose = await load();
const CURVES = [
    { name: "ed25519", crv: 6, algs: [[0x27], [0x32]] },
    { name: "ed448", crv: 7, algs: [[0x27], [0x38, 0x34]] },
];
const HI = new Uint8Array(Buffer.from("hi"));

/** A key set of one key, and what signs under it. */
function pair({ name, crv }) {
    const { publicKey, privateKey } = generateKeyPairSync(name);
    const x = Buffer.from(publicKey.export({ format: "jwk" }).x, "base64url");
    const keys = new Uint8Array([0xa3, 0x01, 0x01, 0x20, crv, 0x21, 0x58, x.length, ...x]);
    return { keys, x: new Uint8Array(x), signs: (structure) => sign(null, structure, privateKey) };
}

/** A message of `hi` by an algorithm, whose number has this spelling. */
function signed({ signs }, alg, aad = new Uint8Array()) {
    const header = new Uint8Array([0xa1, 0x01, ...alg]);
    const signature = signs(sigStructure(header, aad, HI));
    return new Uint8Array([0xd2, 0x84, 0x40 + header.length, ...header, 0xa0, 0x42, ...HI, 0x58, signature.length, ...signature]);
}

for (const curve of CURVES) {
    test(`${curve.name}: the payload of a good signature, and no other`, async () => {
        const key = pair(curve);
        for (const alg of curve.algs) {
            const message = signed(key, alg);
            assert.deepEqual(await cose.eddsaPayload(key.keys, message), HI);
            const aad = new Uint8Array([1]);
            assert.deepEqual(await cose.eddsaPayload(key.keys, signed(key, alg, aad), { aad }), HI);
            const place = message.indexOf(0x69, 6) + 1;
            const other = signed(pair(curve), alg);
            for (const bad of [signed(key, alg, aad), other, message.with(-1, message.at(-1) ^ 1)]) {
                await assert.rejects(cose.eddsaPayload(key.keys, bad), (fault) => {
                    assert.ok(fault instanceof Refused);
                    assert.deepEqual([fault.status, fault.reason, fault.place], ["REFUSED", "BadAuth", place]);
                    return true;
                });
            }
            // no other call knows the algorithm
            assert.equal(cose.verify(key.keys, message).status, STATUS.REFUSED);
        }
    });
}

test("what is asked, and an answer that isn't true", async () => {
    const key = pair(CURVES[0]);
    const message = signed(key, [0x32]);
    const { status, place, input } = cose.verifyEddsa(key.keys, message);
    assert.deepEqual([status, place, input.alg, input.crv, input.kid], [STATUS.SIGNED, 10, -19, 6, undefined]);
    assert.deepEqual([input.x, input.signature], [key.x, message.subarray(12)]);
    assert.deepEqual(input.structure, sigStructure(new Uint8Array([0xa1, 0x01, 0x32]), new Uint8Array(), HI));
    for (const answer of [false, undefined, 1, "yes"]) {
        await assert.rejects(cose.eddsaPayload(key.keys, message, { isGood: () => answer }), Refused);
    }
    assert.equal(cose.verifyEddsa(new Uint8Array([0x80]), message).status, STATUS.KEYS_REFUSED);
});
