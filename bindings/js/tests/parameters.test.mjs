// Each parameter of each call: a call that is accepted with it and refused without, and one the other way round.
import assert from "node:assert/strict";
import { createHash, createHmac, generateKeyPairSync, sign } from "node:crypto";
import { test } from "node:test";
import signatures from "../signatures.js";
import { load, Maker, Refused, STATUS, Verifier, WANTED } from "../index.mjs";

const cose = await load();
const { headOf } = signatures;
const SECRET = Buffer.from("a secret of the tests");
const DATA = Buffer.from("data");
const PAYLOAD = Buffer.from("what is said");

const byteString = (bytes) => [...headOf(2, bytes.length), ...bytes];
const MAC_KEYS = new Uint8Array([0xa2, 1, 4, 0x20, ...byteString(SECRET)]);

const { publicKey, privateKey } = generateKeyPairSync("ec", { namedCurve: "P-256" });
const point = ["x", "y"].map((name) => byteString(Buffer.from(publicKey.export({ format: "jwk" })[name], "base64url")));
const POINT = new Uint8Array([0xa4, 1, 2, 0x20, 1, 0x21, ...point[0], 0x22, ...point[1]]);

/** What is authenticated (RFC 9052 sections 4.4 and 6.3), by hand. */
function structureOf(context, content, aad, payload) {
    return Buffer.from([0x84, ...headOf(3, context.length), ...Buffer.from(context), ...[content, aad, payload].flatMap(byteString)]);
}

/** A message of either kind, the keys that it is verified under, and what is authenticated. */
function made(kind, { payload = PAYLOAD, aad = [], tagged = true, detached = false, long = false } = {}) {
    const isMac = kind === WANTED.MAC0;
    const content = [long ? 0xa2 : 0xa1, 1, isMac ? 5 : 0x26, ...(long ? [4, ...byteString(new Uint8Array(2_000))] : [])];
    const structure = structureOf(isMac ? "MAC0" : "Signature1", content, aad, payload);
    const auth = isMac
        ? createHmac("sha256", SECRET).update(structure).digest()
        : sign("sha256", structure, { key: privateKey, dsaEncoding: "ieee-p1363" });
    const tag = tagged ? [isMac ? 0xd1 : 0xd2] : [];
    const message = [...tag, 0x84, ...byteString(content), 0xa0, ...(detached ? [0xf6] : byteString(payload)), ...byteString(auth)];
    return { keys: isMac ? MAC_KEYS : POINT, message: new Uint8Array(message), structure };
}

const KINDS = [WANTED.MAC0, WANTED.SIGN1];
const otherThan = (kind) => KINDS.find((it) => it !== kind);

/** The verdict on a message that is fed; its signature is good where the digest is that of what was signed. */
async function fed({ keys, message, structure }, { large, payload, ...options } = {}) {
    const verifier = new Verifier(cose, { large });
    verifier.open(keys, { ...options, payloadLength: payload?.length });
    const { used } = verifier.feed(message);
    if (payload) {
        verifier.feedPayload(payload);
        verifier.feed(message.subarray(used));
    }
    const end = verifier.end();
    if (end.status !== STATUS.COMPLETE) throw new Refused(end);
    const input = verifier.signInput();
    const isGood = input !== undefined && createHash("sha256").update(structure).digest().equals(Buffer.from(input.digest));
    const verdict = verifier.verdict(isGood, input);
    verifier.close();
    if (verdict.status !== STATUS.AUTHENTIC) throw new Refused(verdict);
}

/** The call is accepted with the good options, and refused with the bad ones. */
async function both(call, good, bad, reason, what) {
    await call(good).catch((fault) => assert.fail(`${what}: ${fault}`));
    await assert.rejects(call(bad), (fault) => fault instanceof Refused && fault.reason === reason, what);
}

/** The two ways to verify a message. */
const waysOf = (it) => [(options) => cose.payload(it.keys, it.message, options), (options) => fed(it, options)];

test("the external data", async () => {
    for (const kind of KINDS) {
        for (const way of waysOf(made(kind, { aad: DATA }))) await both(way, { aad: DATA }, {}, "BadAuth", `kind ${kind}`);
        for (const way of waysOf(made(kind))) await both(way, {}, { aad: DATA }, "BadAuth", `kind ${kind}`);
        const it = made(kind, { aad: DATA, detached: true });
        for (const way of waysOf(it)) await both(way, { aad: DATA, payload: PAYLOAD }, { payload: PAYLOAD }, "BadAuth", `kind ${kind}`);
    }
});

test("the kind that is wanted", async () => {
    for (const kind of KINDS) {
        for (const way of waysOf(made(kind, { tagged: false }))) {
            await both(way, { wanted: kind }, {}, "WrongTag", `kind ${kind}`);
            await both(way, { wanted: kind }, { wanted: otherThan(kind) }, "UnknownAlg", `kind ${kind}`);
        }
        for (const way of waysOf(made(kind))) await both(way, {}, { wanted: otherThan(kind) }, "WrongTag", `kind ${kind}`);
        for (const way of waysOf(made(kind, { tagged: false, detached: true }))) {
            await both(way, { wanted: kind, payload: PAYLOAD }, { payload: PAYLOAD }, "WrongTag", `kind ${kind}`);
        }
        const untagged = made(kind, { tagged: false }).message;
        assert.equal(cose.shape(untagged, { wanted: kind }).status, STATUS.COMPLETE);
        assert.equal(cose.shape(untagged).status, STATUS.REFUSED);
    }
});

test("the detached payload, and its length", async () => {
    for (const kind of KINDS) {
        for (const way of waysOf(made(kind, { detached: true }))) {
            await both(way, { payload: PAYLOAD }, {}, "Detached", `kind ${kind}`);
            await both(way, { payload: PAYLOAD }, { payload: PAYLOAD.subarray(1) }, "BadAuth", `kind ${kind}`);
        }
        for (const way of waysOf(made(kind))) await both(way, {}, { payload: PAYLOAD }, "Attached", `kind ${kind}`);
    }
});

test("the larger limits", async () => {
    for (const kind of KINDS) {
        for (const way of waysOf(made(kind, { long: true }))) await both(way, { large: true }, {}, "PastRoom", `kind ${kind}`);
        for (const way of waysOf(made(kind, { long: true, detached: true }))) {
            await both(way, { large: true, payload: PAYLOAD }, { payload: PAYLOAD }, "PastRoom", `kind ${kind}`);
        }
    }
});

test("a signature that isn't good, under each option", async () => {
    const cases = [
        [{}, {}],
        [{ aad: DATA }, { aad: DATA }],
        [{ tagged: false }, { wanted: WANTED.SIGN1 }],
        [{ detached: true }, { payload: PAYLOAD }],
        [{ long: true }, { large: true }],
    ];
    for (const [how, options] of cases) {
        const { keys, message } = made(WANTED.SIGN1, how);
        const forged = message.map((byte, at) => (at === message.length - 1 ? byte ^ 1 : byte));
        const isBad = (fault) => fault instanceof Refused && fault.reason === "BadAuth";
        await cose.payload(keys, message, options);
        await assert.rejects(cose.payload(keys, forged, options), isBad, JSON.stringify(options));
    }
});

test("a promise is no good signature, and neither is anything but true", async () => {
    const { keys, message } = made(WANTED.SIGN1);
    for (const answer of [Promise.resolve(true), 1, "true", {}]) {
        const verifier = new Verifier(cose);
        verifier.open(keys);
        verifier.feed(message);
        assert.equal(verifier.verdict(answer, verifier.signInput()).status, STATUS.REFUSED);
        verifier.close();
    }
});

/** The ways to read claims: of a token of each kind, and of the payload alone. */
function readersOf(claims, how) {
    const payload = Buffer.from(claims);
    const readers = KINDS.map((kind) => {
        const { keys, message } = made(kind, { ...how, payload });
        return (options) => cose.token(keys, message, options);
    });
    const read = (call) => async (options) => {
        const found = call(options);
        if (found.status !== STATUS.AUTHENTIC) throw new Refused(found);
    };
    const { keys, message } = made(WANTED.MAC0, { ...how, payload });
    readers.push(read((options) => cose.verifyCwt(keys, message, options)));
    return how ? readers : [...readers, read((options) => cose.claims(payload, options))];
}

test("the time, the leeway and the audience of a token", async () => {
    // exp 1,000, nbf 500, the audiences "reader" and "writer"
    const claims = [0xa3, 4, 0x19, 0x03, 0xe8, 5, 0x19, 0x01, 0xf4, 3, 0x82, 0x66, ...Buffer.from("reader"), 0x66, ...Buffer.from("writer")];
    for (const read of readersOf(claims)) {
        await both(read, { now: 999 }, { now: 1_000 }, "Expired", "exp");
        await both(read, { now: 500 }, { now: 499 }, "NotYet", "nbf");
        await both(read, { now: 1_000, leeway: 1 }, { now: 1_000 }, "Expired", "the leeway");
        await both(read, { now: 499, leeway: 1 }, { now: 499 }, "NotYet", "the leeway");
        await both(read, { now: 999, audience: "writer" }, { now: 999, audience: "write" }, "WrongAudience", "the audience");
        await both(read, { now: 999 }, { now: 999, audience: "" }, "WrongAudience", "the audience");
    }
});

test("the options of a token's message, and claims that nest 12 deep", async () => {
    const empty = [0xa0];
    for (const read of readersOf(empty, { aad: DATA })) await both(read, { now: 0, aad: DATA }, { now: 0 }, "BadAuth", "the external data");
    for (const read of readersOf(empty, { long: true })) await both(read, { now: 0, large: true }, { now: 0 }, "PastRoom", "a long header");
    const deep = [0xa1, 0x18, 0x64, ...new Uint8Array(10).fill(0x81), 0x80];
    for (const read of readersOf(deep)) await both(read, { now: 0, large: true }, { now: 0 }, "TooDeep", "deep claims");
    for (const kind of KINDS) {
        const { keys, message } = made(kind, { tagged: false, payload: Buffer.from(empty) });
        await both((options) => cose.token(keys, message, options), { now: 0, wanted: kind }, { now: 0 }, "WrongTag", `kind ${kind}`);
    }
});

/** A COSE_Mac0 that is made of pieces of the payload. */
function madeBy(options, length = PAYLOAD.length) {
    const maker = new Maker(cose);
    const head = maker.head(MAC_KEYS, length, { alg: 5, ...options });
    const used = [maker.piece(PAYLOAD), maker.piece(PAYLOAD)];
    const end = maker.end();
    maker.close();
    return { used, message: new Uint8Array([...head.bytes, ...PAYLOAD.subarray(0, length), ...end.bytes]) };
}

test("what is made, under each option", async () => {
    assert.deepEqual(madeBy({}).message, made(WANTED.MAC0).message);
    assert.deepEqual(madeBy({ aad: DATA }).message, made(WANTED.MAC0, { aad: DATA }).message);
    assert.equal(cose.verify(MAC_KEYS, madeBy({ alg: 7 }).message).alg, 7);
    assert.ok(Buffer.from(madeBy({ kid: Buffer.from("k") }).message).includes(Buffer.from([4, 0x41, 0x6b])));
    assert.deepEqual(madeBy({}).used, [PAYLOAD.length, 0]);
    const short = madeBy({}, 4);
    assert.deepEqual(short.used, [4, 0]);
    assert.deepEqual(await cose.payload(MAC_KEYS, short.message), new Uint8Array(PAYLOAD.subarray(0, 4)));
});

test("how many bytes are used: none after the message and its payload", () => {
    const { keys, message } = made(WANTED.MAC0, { detached: true });
    const verifier = new Verifier(cose);
    verifier.open(keys, { payloadLength: PAYLOAD.length });
    assert.equal(verifier.feedPayload(PAYLOAD), 0);
    const { used } = verifier.feed(message);
    assert.equal(verifier.feed(message.subarray(used)).used, 0);
    assert.equal(verifier.feedPayload(Buffer.concat([PAYLOAD, PAYLOAD])), PAYLOAD.length);
    assert.equal(verifier.feedPayload(PAYLOAD), 0);
    const rest = message.subarray(used);
    assert.equal(verifier.feed(Buffer.concat([rest, PAYLOAD])).used, rest.length);
    assert.equal(verifier.feed(PAYLOAD).used, 0);
    verifier.close();
});
