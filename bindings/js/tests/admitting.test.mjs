// Messages and tokens under what a caller states and requires: what the rows of terms.json don't ask.
import assert from "node:assert/strict";
import { createHmac, generateKeyPairSync, sign } from "node:crypto";
import { test } from "node:test";
import { load, MISMATCH, reasonOf, Refused, STATUS, UNMET, Verifier, WANTED } from "../index.mjs";

const cose = await load();
const SECRET = Buffer.from("a secret of the tests");
const KEYS = Buffer.concat([Buffer.from("a301040305", "hex"), Buffer.from([0x20, 0x40 + SECRET.length]), SECRET]);
const NOW = 1444064943;
/** {1: "as", 4: NOW + 1} */
const CLAIMS = Buffer.from("a20162" + "6173" + "041a5612aeb0", "hex");

/** A byte string of less than 24 bytes, with its head. */
const short = (bytes) => Buffer.concat([Buffer.from([0x40 + bytes.length]), bytes]);

/** An unprotected bucket of more than 1,024 bytes: {100: 1,100 bytes}. */
const LARGE = Buffer.concat([Buffer.from("a1186459044c", "hex"), Buffer.alloc(1100, 7)]);

/** One that nests 12 deep: {100: [[[[[[[[[[[]]]]]]]]]]]}. */
const DEEP = Buffer.from(`a11864${"81".repeat(10)}80`, "hex");

/** A COSE_Mac0 with HMAC 256/256 under `KEYS`: its tag is of the MAC_structure (RFC 9052 section 6.3). */
function mac0(payload, { aad = Buffer.alloc(0), tag = "d1", detached = false, unprotected = Buffer.from([0xa0]) } = {}) {
    const structure = Buffer.concat([Buffer.from("84644d41433043a10105", "hex"), short(aad), short(payload)]);
    const mac = createHmac("sha256", SECRET).update(structure).digest();
    const content = detached ? Buffer.from("f6", "hex") : short(payload);
    return Buffer.concat([Buffer.from(`${tag}8443a10105`, "hex"), unprotected, content, Buffer.from("5820", "hex"), mac]);
}

/** A refusal of these numbers. */
const refused = (status, reason, place) => (error) =>
    error instanceof Refused && error.status === status && error.reason === reason && error.place === place;

test("external data, the kind, a detached payload and large headers are those of verify", async () => {
    const aad = Buffer.from("data");
    const hi = Buffer.from("hi");
    for (const large of [false, true]) {
        assert.deepEqual(Buffer.from(await cose.authenticPayload(KEYS, mac0(hi, { aad }), { aad, large })), hi);
        const untagged = mac0(hi, { tag: "" });
        assert.deepEqual(Buffer.from(await cose.authenticPayload(KEYS, untagged, { wanted: WANTED.MAC0, large })), hi);
        const detached = mac0(hi, { detached: true });
        assert.deepEqual(Buffer.from(await cose.authenticPayload(KEYS, detached, { payload: hi, large })), hi);
        await assert.rejects(cose.authenticPayload(KEYS, detached, { large }), refused("REFUSED", "Detached", 7));
        await assert.rejects(cose.authenticPayload(KEYS, mac0(hi, { aad }), { large }), refused("REFUSED", "BadAuth", 10));
    }
});

test("a header of more than 1,024 bytes, and claims that nest 12 deep, are large", async () => {
    const hi = Buffer.from("hi");
    const message = mac0(hi, { unprotected: LARGE });
    const pastRoom = refused("REFUSED", "PastRoom", 9);
    assert.deepEqual(Buffer.from(await cose.authenticPayload(KEYS, message, { large: true })), hi);
    await assert.rejects(cose.authenticPayload(KEYS, message), pastRoom);
    const token = mac0(CLAIMS, { unprotected: LARGE });
    const admit = (options) => cose.admit(KEYS, token, { now: NOW, ...options }).status;
    assert.deepEqual([admit({ large: true }), admit({})], [STATUS.AUTHENTIC, STATUS.REFUSED]);
    // {4: NOW + 1, 100: [[[[[[[[[[[]]]]]]]]]]]}
    const deep = Buffer.from(`a2041a5612aeb01864${"81".repeat(10)}80`, "hex");
    const claims = (options) => cose.admitClaims(deep, { now: NOW, ...options }).status;
    assert.deepEqual([claims({ large: true }), claims({})], [STATUS.AUTHENTIC, STATUS.CLAIMS_REFUSED]);
});

test("parameters of a large header, and of a message without a tag", () => {
    const message = mac0(Buffer.from("hi"), { unprotected: LARGE });
    const parameter = (options) => cose.parameter(message, 100, { protected: false, ...options })?.length;
    assert.deepEqual([parameter({ large: true }), parameter({})], [1103, undefined]);
    const untagged = mac0(Buffer.from("hi"), { tag: "" });
    const alg = (options) => cose.parameter(untagged, 1, { protected: true, ...options });
    assert.deepEqual([alg({ wanted: WANTED.MAC0 }), alg({})], [Uint8Array.of(5), undefined]);
    const verifier = new Verifier(cose, { large: true });
    verifier.open(KEYS);
    verifier.feed(message);
    const value = verifier.parameter(100, { protected: false }) ?? [];
    assert.deepEqual(Buffer.from(value), LARGE.subarray(3));
    verifier.close();
});

test("a signature over external data", async () => {
    const { publicKey, privateKey } = generateKeyPairSync("ec", { namedCurve: "P-256" });
    const [x, y] = ["x", "y"].map((name) => Buffer.from(publicKey.export({ format: "jwk" })[name], "base64url"));
    const keys = Buffer.concat([Buffer.from("a5010203262001215820", "hex"), x, Buffer.from("225820", "hex"), y]);
    const [aad, hi] = [Buffer.from("data"), Buffer.from("hi")];
    const structure = Buffer.concat([Buffer.from("846a5369676e61747572653143a10126", "hex"), short(aad), short(hi)]);
    const signature = sign("sha256", structure, { key: privateKey, dsaEncoding: "ieee-p1363" });
    const message = Buffer.concat([Buffer.from("d28443a10126a0", "hex"), short(hi), Buffer.from("5840", "hex"), signature]);
    assert.deepEqual(Buffer.from(await cose.authenticPayload(keys, message, { aad })), hi);
    await assert.rejects(cose.authenticPayload(keys, message), refused("REFUSED", "BadAuth", 10));
});

test("a token that doesn't meet what is required is refused for it", async () => {
    const token = mac0(CLAIMS);
    assert.equal((await cose.admitted(KEYS, token, { now: NOW, issuer: "as" })).iss, "as");
    await assert.rejects(cose.admitted(KEYS, token, { now: NOW, issuer: "a" }), refused("UNMET", "issuer", 2));
    await assert.rejects(cose.admitted(KEYS, token, { now: NOW, present: ["cti"] }), refused("UNMET", "cti", 0));
    // by default the time is that of the machine's clock
    await assert.rejects(cose.admitted(KEYS, token), refused("CLAIMS_REFUSED", "Expired", 6));
    const claims = cose.admitClaims(CLAIMS, { now: NOW, audience: "b" });
    assert.deepEqual([claims.status, UNMET[claims.reason], claims.place], [STATUS.UNMET, "audience", 0]);
});

test("what is out of its range is no argument", () => {
    const terms = [
        { algorithms: [] },
        { algorithms: [0] },
        { algorithms: Array(17).fill(5) },
        { algorithms: [2 ** 31] },
        { understood: [0] },
        { understood: [2n ** 63n] },
        { payloadLimit: 0 },
        { leastSecret: -1 },
        { wanted: 256 },
    ];
    for (const options of terms) assert.throws(() => cose.authenticate(KEYS, mac0(CLAIMS), options), RangeError);
    const requirements = [
        { issuer: "" },
        { subject: "" },
        { audience: "" },
        { present: ["issuer"] },
        { present: ["scope"] },
        { maxLifetime: 0 },
        { maxAge: 0n },
        { leeway: -1 },
        { now: 2n ** 63n },
        { now: undefined },
    ];
    for (const options of requirements) assert.throws(() => cose.admitClaims(CLAIMS, { now: NOW, ...options }), RangeError);
    assert.equal(cose.admitClaims(CLAIMS, { now: 0 }).status, STATUS.BAD_ARGUMENT);
    assert.equal(cose.authenticate(KEYS, mac0(CLAIMS), { wanted: 1 }).status, STATUS.BAD_ARGUMENT);
});

test("the key of a message is told, and why another one isn't it", () => {
    const other = Buffer.from(KEYS);
    other[4] = 6;
    const keys = Buffer.concat([Buffer.from("82", "hex"), other, KEYS]);
    const terms = { wanted: WANTED.MAC0 };
    const found = cose.keyOf(keys, mac0(Buffer.from("hi")), terms);
    assert.deepEqual([found.place, Buffer.from(found.item)], [1 + KEYS.length, KEYS]);
    assert.equal(cose.keyOf(other, mac0(Buffer.from("hi")), terms), undefined);
    const why = cose.mismatch(keys, mac0(Buffer.from("hi")), 1, terms);
    assert.deepEqual([why.status, MISMATCH[why.condition]], [STATUS.COMPLETE, "algorithm"]);
    assert.equal(cose.mismatch(keys, mac0(Buffer.from("hi")), found.place, terms).condition, 0);
    assert.equal(cose.mismatch(keys, mac0(Buffer.from("hi")), 1, {}).status, STATUS.BAD_ARGUMENT);
});

/** A set of two keys, of which the second one is that of messages under `KEYS`, and what is told of it. */
const OTHER = KEYS.map((byte, at) => (at === 4 ? 6 : byte));
const SET = Buffer.concat([Buffer.from("82", "hex"), OTHER, KEYS]);
const CHOSEN = [1 + OTHER.length, KEYS];

/** An answer of `keyOf`, to compare. */
const told = (found) => found && [found.place, Buffer.from(found.item)];

/** A verifier that was fed a message, or its first bytes, and what it answered. */
function fed(message, options) {
    const verifier = new Verifier(cose, options);
    verifier.open(KEYS);
    return { verifier, ...verifier.feed(message) };
}

test("the key of a message with large headers is told under terms that are large", () => {
    for (const [unprotected, reason] of [[LARGE, "PastRoom"], [DEEP, "TooDeep"]]) {
        const message = mac0(Buffer.from("hi"), { unprotected });
        const terms = { wanted: WANTED.MAC0, large: true };
        assert.deepEqual(told(cose.keyOf(SET, message, terms)), CHOSEN);
        assert.equal(cose.keyOf(SET, message, { wanted: WANTED.MAC0 }), undefined);
        assert.equal(cose.keyOf(SET, message, { ...terms, leastSecret: SECRET.length + 1 }), undefined);
        const why = (place, stated) => {
            const { status, condition } = cose.mismatch(SET, message, place, { ...terms, ...stated });
            return [status, MISMATCH[condition]];
        };
        assert.deepEqual(why(1), [STATUS.COMPLETE, "algorithm"]);
        assert.deepEqual(why(CHOSEN[0]), [STATUS.COMPLETE, ""]);
        assert.deepEqual(why(CHOSEN[0], { algorithms: [6] }), [STATUS.COMPLETE, "not permitted"]);
        assert.deepEqual(why(CHOSEN[0], { wanted: WANTED.SIGN1 }), [STATUS.REFUSED, ""]);
        const usual = cose.mismatch(SET, message, 1, { wanted: WANTED.MAC0 });
        assert.deepEqual([usual.status, reasonOf(usual.reason).name], [STATUS.REFUSED, reason]);
    }
});

test("the key of a message that is fed is told from the end of its headers until the verifier is reset", () => {
    const message = mac0(Buffer.from("hi"));
    const terms = { wanted: WANTED.MAC0 };
    // d1 84 43 a1 01 05 a0: the seventh byte is the unprotected bucket
    for (const large of [false, true])
        for (let count = 0; count <= message.length; count += 1) {
            const { verifier } = fed(message.subarray(0, count), { large });
            assert.deepEqual(told(verifier.keyOf(SET, terms)), count < 7 ? undefined : CHOSEN, `${count} bytes`);
            verifier.close();
        }
    const { verifier } = fed(message);
    for (let turn = 0; turn < 2; turn += 1) {
        verifier.end();
        const { status, kind } = verifier.verdict(false);
        assert.equal(status, STATUS.AUTHENTIC);
        assert.deepEqual(told(verifier.keyOf(SET, { wanted: kind })), CHOSEN);
        verifier.reset();
        assert.equal(verifier.keyOf(SET, terms), undefined);
        verifier.feed(message);
    }
    verifier.close();
    assert.throws(() => verifier.keyOf(SET, terms), /closed/);
});

test("no key of a message that is fed is told that the terms leave out, or that isn't the message's", () => {
    const { verifier } = fed(mac0(Buffer.from("hi")));
    const mac = { wanted: WANTED.MAC0 };
    const secret = SECRET.length;
    for (const terms of [{}, { wanted: WANTED.SIGN1 }, { ...mac, algorithms: [6] }, { ...mac, leastSecret: secret + 1 }])
        assert.equal(verifier.keyOf(SET, terms), undefined, JSON.stringify(terms));
    assert.deepEqual(told(verifier.keyOf(SET, { ...mac, algorithms: [5], leastSecret: secret })), CHOSEN);
    // without its algorithm: {1: 4, -1: SECRET}
    const unnamed = Buffer.concat([Buffer.from("a20104", "hex"), KEYS.subarray(5)]);
    for (const keys of [OTHER, unnamed, Buffer.from("80", "hex"), Buffer.alloc(0)]) assert.equal(verifier.keyOf(keys, mac), undefined);
    assert.deepEqual(told(verifier.keyOf(unnamed, { ...mac, shortMac: true, withoutAlg: true })), [0, unnamed]);
    assert.throws(() => verifier.keyOf(SET, { algorithms: [] }), RangeError);
    verifier.close();
});

test("large headers that are fed are those of the verifier, whatever the terms say", () => {
    for (const unprotected of [LARGE, DEEP]) {
        const message = mac0(Buffer.from("hi"), { unprotected });
        for (const large of [false, true]) {
            const { verifier, status } = fed(message, { large });
            assert.equal(status, large ? STATUS.COMPLETE : STATUS.REFUSED);
            const found = verifier.keyOf(SET, { wanted: WANTED.MAC0, large: !large });
            assert.deepEqual(told(found), large ? CHOSEN : undefined);
            verifier.close();
        }
    }
});
