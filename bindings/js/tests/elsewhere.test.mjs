// Messages that the caller authenticates: with the hash of Node, and under a key that only the caller has.
import assert from "node:assert/strict";
import { createHmac } from "node:crypto";
import { readFileSync } from "node:fs";
import { test } from "node:test";
import { Elsewhere, load, STATUS } from "../index.mjs";

const cose = await load();
const example = (name) => new Uint8Array(readFileSync(new URL(`../../../examples/${name}.cbor`, import.meta.url)));
const [mac0, key, sign1, sign1Key] = ["mac0", "key", "sign1", "sign1_key"].map(example);

/** Feeds a message in pieces of so many bytes: the last status, and the payload. */
function fed(verifier, message, size) {
    const payload = [];
    let status = STATUS.MORE;
    for (let at = 0; at < message.length; at += size) {
        const found = verifier.feed(message.subarray(at, at + size));
        payload.push(...found.payload);
        status = found.status;
    }
    return { status, payload: new Uint8Array(payload) };
}

/** The MAC of a message's structure, by HMAC 256/256 of Node. */
function macOf(verifier, payload, secret) {
    const hmac = createHmac("sha256", secret);
    for (const piece of verifier.front()) hmac.update(piece);
    return new Uint8Array(hmac.update(payload).digest());
}

for (const large of [false, true]) {
    test(`a MAC that the caller computes${large ? ", in the large size" : ""}`, () => {
        for (const size of [1, 2, 7, 64]) {
            const verifier = new Elsewhere(cose, { large });
            assert.equal(verifier.open(key).status, STATUS.MORE);
            const { status, payload } = fed(verifier, mac0, size);
            assert.equal(status, STATUS.COMPLETE);
            const asked = verifier.askedKey();
            assert.equal(asked.alg, 5);
            const mac = macOf(verifier, payload, asked.k);
            for (const other of [mac.subarray(0, 0), mac.subarray(0, 31), new Uint8Array(33)]) {
                assert.equal(verifier.verdictOfMac(other).status, STATUS.BAD_ARGUMENT);
            }
            assert.equal(verifier.askedSignature(), undefined);
            assert.equal(verifier.verdictOfAnswer(true).status, STATUS.BAD_ARGUMENT);
            const verdict = verifier.verdictOfMac(mac);
            assert.deepEqual([verdict.status, verdict.taken], [STATUS.AUTHENTIC, mac0.length]);
            assert.equal(verifier.verdictOfMac(mac).status, STATUS.BAD_ARGUMENT);
            verifier.reset();
            fed(verifier, mac0, size);
            assert.equal(verifier.verdictOfMac(mac.map((byte) => byte ^ 1)).status, STATUS.REFUSED);
            verifier.close();
        }
    });
}

test("a signature about which the caller answers", () => {
    for (const [holds, status] of [
        [true, STATUS.AUTHENTIC],
        [false, STATUS.REFUSED],
    ]) {
        const verifier = new Elsewhere(cose);
        verifier.open(sign1Key);
        assert.equal(fed(verifier, sign1, 7).status, STATUS.COMPLETE);
        assert.equal(verifier.askedKey().crv, 1);
        assert.throws(() => verifier.verdictOfAnswer(true));
        assert.deepEqual(verifier.askedSignature(), sign1.slice(-64));
        assert.throws(() => verifier.verdict());
        assert.equal(verifier.verdictOfMac(new Uint8Array(32)).status, STATUS.BAD_ARGUMENT);
        assert.equal(verifier.verdictOfAnswer(holds).status, status);
        assert.equal(verifier.verdictOfAnswer(true).status, STATUS.BAD_ARGUMENT);
        verifier.close();
    }
});
