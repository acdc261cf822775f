// Claims of any label, and items as values of JavaScript's: the cases of bindings/items.json.
import assert from "node:assert/strict";
import { readFileSync } from "node:fs";
import { test } from "node:test";
import { decodeItem, load, Simple, STATUS, Tagged, Verifier } from "../index.mjs";

const cose = await load();
const cases = JSON.parse(readFileSync(new URL("../../items.json", import.meta.url), "utf8"));
const bytes = (hex) => new Uint8Array(Buffer.from(hex, "hex"));
const exact = (number) => (Number.isSafeInteger(Number(number)) ? Number(number) : number);

/** The value that a case describes. */
function valueOf(it) {
    if ("integer" in it) return exact(BigInt(it.integer));
    if ("float" in it) return Number(it.float);
    if ("bytes" in it) return bytes(it.bytes);
    if ("text" in it) return it.text;
    if ("array" in it) return it.array.map(valueOf);
    if ("map" in it) return new Map(it.map.map((pair) => pair.map(valueOf)));
    if ("tag" in it) return new Tagged(it.tag, valueOf(it.value));
    const named = new Map([[20, false], [21, true], [22, null], [23, undefined]]);
    return named.has(it.simple) ? named.get(it.simple) : new Simple(it.simple);
}

test("the examples of RFC 8949", () => {
    for (const row of cases.items.rows) assert.deepStrictEqual(decodeItem(bytes(row.bytes)), valueOf(row.value), row.bytes);
});

test("what no value can be", () => {
    for (const hex of cases.refused.rows) assert.throws(() => decodeItem(bytes(hex)), hex);
});

test("the claim of each label, and of no other", () => {
    const payload = bytes(cases.claims.payload);
    assert.equal(cose.claims(payload, { now: 0 }).status, STATUS.AUTHENTIC);
    for (const { label, value } of cases.claims.rows) {
        assert.deepStrictEqual(decodeItem(cose.claim(payload, valueOf(label))), valueOf(value));
    }
    for (const label of cases.claims.absent) assert.equal(cose.claim(payload, valueOf(label)), undefined);
    assert.throws(() => cose.claim(payload, 2n ** 63n), RangeError);
});

test("the parameters of each header, and no others", () => {
    const { message: hex, absent, ...headers } = cases.parameters;
    const message = bytes(hex);
    assert.equal(cose.verify(bytes("a2010420444a656665"), message).status, STATUS.AUTHENTIC);
    for (const large of [false, true]) {
        for (const [name, other] of [["protected", "unprotected"], ["unprotected", "protected"]]) {
            const options = { protected: name === "protected", large };
            for (const { label, value } of headers[name]) {
                assert.deepStrictEqual(decodeItem(cose.parameter(message, valueOf(label), options)), valueOf(value));
            }
            for (const label of [...headers[other].map((it) => it.label), ...absent]) {
                assert.equal(cose.parameter(message, valueOf(label), options), undefined);
            }
        }
    }
});

test("the parameters of a message in pieces", () => {
    const message = bytes(cases.parameters.message);
    for (const large of [false, true]) {
        const verifier = new Verifier(cose, { large });
        verifier.open(bytes("a2010420444a656665"));
        assert.equal(verifier.parameter(4, { protected: true }), undefined);
        for (let at = 0; at < message.length; at += 1) verifier.feed(message.subarray(at, at + 1));
        assert.equal(verifier.verdict(false).status, STATUS.AUTHENTIC);
        for (const [name, other] of [["protected", "unprotected"], ["unprotected", "protected"]]) {
            const options = { protected: name === "protected" };
            for (const { label, value } of cases.parameters[name]) {
                assert.deepStrictEqual(decodeItem(verifier.parameter(valueOf(label), options)), valueOf(value));
            }
            for (const { label } of cases.parameters[other]) assert.equal(verifier.parameter(valueOf(label), options), undefined);
        }
        verifier.close();
    }
});
