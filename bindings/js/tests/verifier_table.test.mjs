// Verifiers that are fed under the keys of a table: what the rows don't ask.
import assert from "node:assert/strict";
import { createHmac } from "node:crypto";
import { readFileSync } from "node:fs";
import { test } from "node:test";
import signatures from "../signatures.js";
import { Elsewhere, isGoodSignature, KeyTable, load, protectedOf, reasonOf, sigStructure, STATUS, TermsTable, Verifier, WANTED } from "../index.mjs";

const cose = await load();
const { headOf, joined } = signatures;
const example = (name) => new Uint8Array(readFileSync(new URL(`../../../examples/${name}.cbor`, import.meta.url)));
const [sign1, sign1Key] = ["sign1", "sign1_key"].map(example);
const bytesOf = (text) => new TextEncoder().encode(text);
const byteString = (bytes) => joined(headOf(2, bytes.length), bytes);
const flipped = (bytes, at) => bytes.map((byte, i) => (i === at ? byte ^ 1 : byte));

/** A COSE_Key of a secret, with an identifier of one character and an algorithm: HMAC 256/256, unless it is another. */
const secretKey = (kid, secret, alg = 5) => joined(new Uint8Array([0xa4, 1, 4, 2, 0x41, kid.charCodeAt(0), 3, alg, 0x20]), byteString(bytesOf(secret)));

const SECRETS = { a: "the first secret of the tests", b: "the second secret of the tests" };
const KEYS = joined(new Uint8Array([0x82]), secretKey("a", SECRETS.a), secretKey("b", SECRETS.b));
const HI = bytesOf("hi");
const NOTHING = new Uint8Array();

/**
 * A COSE_Mac0 with HMAC 256/256 under the key of an identifier. Its header has as many bytes of another parameter as wanted, its MAC is of
 * the MAC_structure (RFC 9052 section 6.3), and a detached payload isn't in it.
 */
function mac0(payload, { kid = "a", named = true, aad = NOTHING, tag = [0xd1], filler = 0, isDetached = false } = {}) {
    const header = new Uint8Array([0xa1, 1, 5]);
    const parameters = [
        ...(named ? [new Uint8Array([4, 0x41, kid.charCodeAt(0)])] : []),
        ...(filler ? [joined(headOf(0, 99), byteString(new Uint8Array(filler)))] : []),
    ];
    const structure = joined(new Uint8Array([0x84, 0x64]), bytesOf("MAC0"), ...[header, aad, payload].map(byteString));
    const mac = createHmac("sha256", SECRETS[kid]).update(structure).digest();
    const buckets = joined(byteString(header), headOf(5, parameters.length), ...parameters);
    return joined(new Uint8Array([...tag, 0x84]), buckets, isDetached ? new Uint8Array([0xf6]) : byteString(payload), byteString(mac));
}

/** Where the identifier of such a message is. */
const KID = 9;

/** Feeds a message in pieces of seven bytes, and a detached payload where the message has none: the verdict and the payload. */
function fed(verifier, message, detached = NOTHING) {
    const payload = [];
    for (let at = 0; at < message.length; ) {
        const { status, used, payload: part } = verifier.feed(message.subarray(at, at + 7));
        payload.push(...part);
        at += used;
        if (status === STATUS.PAYLOAD_NEXT) verifier.feedPayload(detached);
        if (status !== STATUS.MORE && (status !== STATUS.PAYLOAD_NEXT || verifier.payloadWanted)) break;
    }
    verifier.end();
    return { ...verifier.verdict(false), payload: new Uint8Array(payload) };
}

/** The name of a verdict's reason, or its status, if that is no refusal. */
const said = ({ status, reason }) => (status === STATUS.REFUSED ? reasonOf(reason).name : Object.keys(STATUS).find((name) => STATUS[name] === status));

/** What a table and a verifier give, which are closed then. */
async function opened(table, { large = false, ...options }, run) {
    const verifier = new Verifier(cose, { large });
    try {
        assert.equal(verifier.open(table, options).status, STATUS.MORE);
        return await run(verifier);
    } finally {
        verifier.close();
        table.close();
    }
}

for (const large of [false, true]) {
    const size = large ? ", in the large size" : "";

    test(`the identifier chooses a key of the table, message after message${size}`, async () => {
        const keys = Uint8Array.from(KEYS);
        await opened(new KeyTable(cose, keys), { large }, (verifier) => {
            // the table has a copy of its own
            keys.fill(0);
            for (let turn = 0; turn < 3; turn += 1) {
                for (const kid of ["a", "b"]) {
                    const found = fed(verifier, mac0(HI, { kid }));
                    assert.deepEqual([said(found), found.payload, found.taken], ["AUTHENTIC", HI, mac0(HI).length]);
                    verifier.reset();
                    assert.equal(said(fed(verifier, flipped(mac0(HI, { kid }), mac0(HI).length - 1))), "BadAuth");
                    verifier.reset();
                }
                // the MAC is that of the other key
                const other = mac0(HI, { kid: "b" }).map((byte, at) => (at === KID ? "a".charCodeAt(0) : byte));
                for (const [message, name] of [
                    [other, "BadAuth"],
                    [flipped(mac0(HI), KID), "NoKey"],
                    [mac0(HI, { named: false }), "AmbiguousKey"],
                ]) {
                    assert.equal(said(fed(verifier, message)), name);
                    verifier.reset();
                }
            }
        });
    });

    test(`external data and the wanted kind are those of the verifier${size}`, async () => {
        const aad = bytesOf("data");
        await opened(new KeyTable(cose, KEYS), { large, aad, wanted: WANTED.MAC0 }, (verifier) => {
            aad.fill(0);
            const data = bytesOf("data");
            for (const [message, name] of [
                [mac0(HI, { aad: data, tag: [] }), "AUTHENTIC"],
                [mac0(HI, { aad: data }), "AUTHENTIC"],
                [mac0(HI, { tag: [] }), "BadAuth"],
                [sign1, "WrongTag"],
            ]) {
                assert.equal(said(fed(verifier, message)), name);
                verifier.reset();
            }
        });
        const table = new KeyTable(cose, KEYS);
        await opened(table, { large }, (verifier) => {
            assert.equal(said(fed(verifier, mac0(HI, { tag: [] }))), "WrongTag");
            assert.equal(verifier.open(table, { aad: new Uint8Array(65_536) }).status, STATUS.AAD_TOO_LONG);
            assert.equal(said(fed(verifier, mac0(HI))), "CLOSED");
            assert.equal(verifier.open(table, { wanted: 1 }).status, STATUS.BAD_ARGUMENT);
            assert.equal(verifier.open(table, { aad: new Uint8Array(65_535) }).status, STATUS.MORE);
        });
    });

    test(`detached payloads${size}`, async () => {
        const [aad, payload] = [bytesOf("data"), new Uint8Array(100_000).fill(7)];
        const message = mac0(payload, { kid: "b", aad, isDetached: true });
        const table = new KeyTable(cose, KEYS);
        await opened(table, { large, aad, payloadLength: payload.length }, (verifier) => {
            for (const [given, name] of [
                [payload, "AUTHENTIC"],
                [flipped(payload, 99_999), "BadAuth"],
                [payload.subarray(1), "Truncated"],
                [payload, "AUTHENTIC"],
            ]) {
                assert.equal(said(fed(verifier, message, given)), name);
                verifier.reset();
            }
            assert.equal(said(fed(verifier, mac0(HI, { aad }))), "Attached");
            assert.equal(verifier.open(table, { aad }).status, STATUS.MORE);
            assert.equal(said(fed(verifier, message)), "Detached");
            assert.throws(() => verifier.open(table, { payloadLength: 0.5 }), RangeError);
        });
    });

    test(`a signature, during whose verification the table is closed or not${size}`, async () => {
        for (const isClosed of [false, true]) {
            const table = new KeyTable(cose, sign1Key);
            await opened(table, { large }, async (verifier) => {
                verifier.feed(sign1);
                const input = verifier.signInput();
                const answer = isGoodSignature(input, sigStructure(protectedOf(sign1), NOTHING, bytesOf("This is the content.")));
                if (isClosed) table.close();
                assert.equal(await answer, true);
                if (!isClosed) return assert.equal(said(verifier.verdict(true, input)), "AUTHENTIC");
                assert.throws(() => verifier.verdict(true, input), /another message/);
                assert.equal(verifier.signInput(), undefined);
                assert.equal(said(verifier.verdict(false)), "CLOSED");
            });
        }
    });

    test(`a table that isn't read, or that has no usable key${size}`, async () => {
        const many = joined(headOf(4, 65), ...Array(65).fill(secretKey("a", SECRETS.a)));
        for (const keys of [many, new Uint8Array([1]), NOTHING]) {
            const [table, verifier] = [new KeyTable(cose, keys), new Verifier(cose, { large })];
            assert.equal(table.keySet.status, STATUS.KEYS_REFUSED);
            // it was open under others
            assert.equal(verifier.open(KEYS).status, STATUS.MORE);
            assert.equal(verifier.open(table).status, STATUS.CLOSED);
            assert.equal(verifier.feed(mac0(HI)).status, STATUS.CLOSED);
            assert.equal(said(verifier.verdict(false)), "CLOSED");
            assert.equal(verifier.open(table, { payloadLength: 2 }).status, STATUS.CLOSED);
            assert.equal(said(verifier.verdict(false)), "CLOSED");
            verifier.close();
            table.close();
        }
        const unknown = new Uint8Array([0x81, 0xa1, 1, 9]);
        const table = new KeyTable(cose, unknown);
        assert.deepEqual([table.keySet.status, table.keySet.usable], [STATUS.COMPLETE, 0]);
        await opened(table, { large }, (verifier) => assert.equal(said(fed(verifier, mac0(HI))), "NoKey"));
    });

    test(`once its table is closed, a verifier is as one that was never opened${size}`, () => {
        const table = new KeyTable(cose, KEYS);
        const [begun, first, second, other] = Array.from({ length: 4 }, () => new Verifier(cose, { large }));
        for (const verifier of [first, second]) {
            assert.equal(verifier.open(table, { aad: bytesOf("data") }).status, STATUS.MORE);
            verifier.feed(mac0(HI).subarray(0, 14));
        }
        // this one is under the table no more
        other.open(table);
        other.open(KEYS);
        other.feed(mac0(HI).subarray(0, 14));
        second.close();
        table.close();
        table.close();
        const rest = mac0(HI).subarray(14);
        const block = ({ at, size: length }) => cose.bytes(at, length);
        assert.deepEqual(block(first), block(begun));
        assert.equal(first.feed(rest).status, STATUS.CLOSED);
        assert.equal(first.end().status, STATUS.CLOSED);
        first.reset();
        assert.equal(said(fed(first, mac0(HI))), "CLOSED");
        assert.deepEqual([first.wanted, first.payloadWanted, first.taken, first.signInput()], [0, 0, 0, undefined]);
        assert.throws(() => second.feed(rest), /closed/);
        assert.equal(said(fed(other, rest)), "AUTHENTIC");
        // nothing is opened under it, and what was open stays so
        other.reset();
        assert.throws(() => other.open(table), /closed/);
        assert.equal(said(fed(other, mac0(HI))), "AUTHENTIC");
        const next = new KeyTable(cose, KEYS);
        for (const keys of [next, KEYS]) {
            assert.equal(first.open(keys).status, STATUS.MORE);
            assert.equal(said(fed(first, mac0(HI))), "AUTHENTIC");
        }
        for (const verifier of [begun, first, other]) verifier.close();
        assert.equal(next.verifiers.size, 0);
        next.close();
    });

    test(`a verifier that leaves a table is another's, and its table's close doesn't matter${size}`, () => {
        const [old, next] = [new KeyTable(cose, KEYS), new KeyTable(cose, KEYS)];
        const verifier = new Verifier(cose, { large });
        const ways = [() => verifier.open(next), () => verifier.open(KEYS), () => verifier.openUnder(KEYS)];
        for (const way of ways) {
            verifier.open(old);
            assert.equal(way().status, STATUS.MORE);
            assert.equal(old.verifiers.size, 0);
        }
        verifier.open(next);
        old.close();
        assert.equal(said(fed(verifier, mac0(HI))), "AUTHENTIC");
        // what throws leaves it under its table
        assert.throws(() => verifier.open(KEYS, { payloadLength: 0.5 }), RangeError);
        next.close();
        assert.equal(said(fed(verifier, mac0(HI))), "CLOSED");
        verifier.close();
    });

    test(`of a table under terms the keys are taken, and nothing else${size}`, async () => {
        const keys = joined(new Uint8Array([0x83]), secretKey("a", SECRETS.a), secretKey("b", SECRETS.b, 6), secretKey("b", SECRETS.b, 4));
        const terms = { keys, aad: bytesOf("data"), wanted: WANTED.SIGN1, payloadLimit: 1, algorithms: [5] };
        await opened(new TermsTable(cose, terms), { large }, (verifier) => {
            assert.equal(said(fed(verifier, mac0(HI))), "AUTHENTIC");
            verifier.reset();
            assert.equal(said(fed(verifier, mac0(HI, { kid: "b" }))), "NoKey");
        });
        const table = new TermsTable(cose, { keys: KEYS });
        await opened(table, { large }, (verifier) => {
            assert.throws(() => table.read(secretKey("b", SECRETS.b), {}), /once/);
            assert.equal(said(fed(verifier, mac0(HI))), "AUTHENTIC");
            verifier.reset();
            table.close();
            assert.equal(said(fed(verifier, mac0(HI))), "CLOSED");
        });
    });

    test(`which key a message under a table is verified with${size}`, async () => {
        await opened(new KeyTable(cose, KEYS), { large }, (verifier) => {
            assert.equal(said(fed(verifier, mac0(HI, { kid: "b" }))), "AUTHENTIC");
            const { item } = verifier.keyOf(KEYS, { wanted: WANTED.MAC0 });
            assert.deepEqual(item, secretKey("b", SECRETS.b));
            assert.deepEqual(verifier.parameter(4, { protected: false }), new Uint8Array([0x41, "b".charCodeAt(0)]));
        });
    });
}

test("headers of the large size are verified in it alone", async () => {
    const message = mac0(HI, { filler: 2_000 });
    await opened(new KeyTable(cose, KEYS), { large: true }, (verifier) => assert.equal(said(fed(verifier, message)), "AUTHENTIC"));
    await opened(new KeyTable(cose, KEYS), {}, (verifier) => assert.equal(said(fed(verifier, message)), "PastRoom"));
});

test("what no call takes a table for is refused, and the verifier stays as it is", async () => {
    const other = await load();
    const [table, foreign] = [new KeyTable(cose, KEYS), new KeyTable(other, KEYS)];
    const elsewhere = new Elsewhere(cose);
    elsewhere.open(KEYS);
    assert.throws(() => elsewhere.open(table), /no call/);
    elsewhere.feed(mac0(HI));
    assert.equal(elsewhere.askedKey().alg, 5);
    elsewhere.close();
    await opened(table, {}, (verifier) => {
        assert.throws(() => verifier.open(foreign), /another module/);
        assert.throws(() => verifier.openUnder(table), /under terms/);
        assert.equal(said(fed(verifier, mac0(HI))), "AUTHENTIC");
    });
    foreign.close();
});

test("verifiers under tables use rooms again, and leave no secret there", () => {
    const run = () => {
        const [table, verifier] = [new KeyTable(cose, KEYS), new Verifier(cose)];
        for (const options of [{}, { aad: bytesOf("data"), payloadLength: 2 }]) verifier.open(table, options);
        fed(verifier, mac0(HI, { aad: bytesOf("data"), isDetached: true }), HI);
        table.close();
        verifier.close();
    };
    run();
    const before = cose.rooms.next;
    for (let turn = 0; turn < 100; turn += 1) run();
    assert.equal(cose.rooms.next, before);
    for (const secret of Object.values(SECRETS)) assert.equal(Buffer.from(cose.rooms.memory.buffer).indexOf(secret), -1);
});
