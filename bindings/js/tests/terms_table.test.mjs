// Keys that terms permit, which are read once: what the rows don't ask.
import assert from "node:assert/strict";
import { createHmac, generateKeyPairSync, sign } from "node:crypto";
import { test } from "node:test";
import { load, reasonOf, Refused, STATUS, TermsTable, UNMET, WANTED } from "../index.mjs";

const cose = await load();
const SECRET = Buffer.from("a secret of the tests");
const secretFor = (alg) => Buffer.concat([Buffer.from([0xa3, 1, 4, 3, alg, 0x20, 0x40 + SECRET.length]), SECRET]);
const KEYS = secretFor(5);
const NOW = 1444064943;
/** {1: "as", 4: NOW + 1} */
const CLAIMS = Buffer.from("a20162" + "6173" + "041a5612aeb0", "hex");
const HI = Buffer.from("hi");

/** A byte string of less than 24 bytes, with its head. */
const short = (bytes) => Buffer.concat([Buffer.from([0x40 + bytes.length]), bytes]);

/** A COSE_Mac0 with HMAC 256/256 under `KEYS`: its tag is of the MAC_structure (RFC 9052 section 6.3). */
function mac0(payload, { aad = Buffer.alloc(0), tag = "d1" } = {}) {
    const structure = Buffer.concat([Buffer.from("84644d41433043a10105", "hex"), short(aad), short(payload)]);
    const mac = createHmac("sha256", SECRET).update(structure).digest();
    return Buffer.concat([Buffer.from(`${tag}8443a10105a0`, "hex"), short(payload), Buffer.from("5820", "hex"), mac]);
}

/** A key set of a secret and of a point, and a COSE_Sign1 under it. */
function signed(payload, aad = Buffer.alloc(0)) {
    const { publicKey, privateKey } = generateKeyPairSync("ec", { namedCurve: "P-256" });
    const [x, y] = ["x", "y"].map((name) => Buffer.from(publicKey.export({ format: "jwk" })[name], "base64url"));
    const point = Buffer.concat([Buffer.from("a5010203262001215820", "hex"), x, Buffer.from("225820", "hex"), y]);
    const structure = Buffer.concat([Buffer.from("846a5369676e61747572653143a10126", "hex"), short(aad), short(payload)]);
    const signature = sign("sha256", structure, { key: privateKey, dsaEncoding: "ieee-p1363" });
    const message = Buffer.concat([Buffer.from("d28443a10126a0", "hex"), short(payload), Buffer.from("5840", "hex"), signature]);
    return { keys: Buffer.concat([Buffer.from([0x82]), KEYS, point]), message };
}

/** A refusal of these numbers. */
const refused = (status, reason, place) => (error) =>
    error instanceof Refused && error.status === status && error.reason === reason && error.place === place;

/** What a table gives, which is closed then. */
async function withTable(options, run) {
    const table = new TermsTable(cose, options);
    try {
        return await run(table);
    } finally {
        table.close();
    }
}

test("a key that isn't permitted takes none of the 64 places", async () => {
    const set = (count, key, ...last) => Buffer.concat([Buffer.from([0x98, count + last.length]), ...Array(count).fill(key), ...last]);
    await withTable({ keys: set(80, secretFor(6), KEYS), algorithms: [5] }, async (table) => {
        assert.deepEqual([table.keySet.status, table.keySet.usable], [STATUS.COMPLETE, 1]);
        assert.deepEqual(Buffer.from(await table.authenticPayload(mac0(HI))), HI);
    });
    await withTable({ keys: set(64, KEYS) }, ({ keySet }) => assert.equal(keySet.usable, 64));
    await withTable({ keys: set(65, KEYS) }, (table) => {
        const { status, reason, place } = table.keySet;
        assert.deepEqual([status, reasonOf(reason).name, place], [STATUS.KEYS_REFUSED, "BadKeySet", 0]);
        assert.equal(table.authenticate(mac0(HI)).status, STATUS.CLOSED);
        assert.equal(table.admit(mac0(CLAIMS), { now: NOW }).status, STATUS.CLOSED);
    });
});

test("a table keeps its terms, its keys and its external data", async () => {
    const [keys, aad] = [Buffer.from(KEYS), Buffer.from("data")];
    const options = { keys, aad, wanted: WANTED.MAC0, payloadLimit: 2 };
    await withTable(options, async (table) => {
        keys.fill(0);
        aad.fill(0);
        const given = { aad: Buffer.from("data"), tag: "" };
        assert.deepEqual(Buffer.from(await table.authenticPayload(mac0(HI, given))), HI);
        await assert.rejects(table.authenticPayload(mac0(HI, { tag: "" })), refused("REFUSED", "BadAuth", 9));
        await assert.rejects(table.authenticPayload(mac0(Buffer.from("hi!"), given)), refused("REFUSED", "PayloadTooLong", 6));
        assert.deepEqual(Buffer.from(await table.authenticPayload(mac0(HI, given))), HI);
    });
});

test("the signature of a message, and of a token, is verified over the table's external data", async () => {
    const aad = Buffer.from("data");
    const { keys, message } = signed(CLAIMS, aad);
    await withTable({ keys, aad }, async (table) => {
        assert.deepEqual(Buffer.from(await table.authenticPayload(message)), CLAIMS);
        assert.equal((await table.admitted(message, { now: NOW, issuer: "as" })).iss, "as");
        assert.equal(table.admit(message, { now: NOW }).status, STATUS.SIGNED);
        await assert.rejects(table.admitted(message, { now: NOW, issuer: "a" }), refused("UNMET", "issuer", 2));
        // many at once, between which the table is used
        const both = Array.from({ length: 20 }, () => [table.authenticPayload(message), table.authenticPayload(mac0(HI, { aad }))]);
        const found = (await Promise.all(both.flat())).map((payload) => Buffer.from(payload));
        assert.deepEqual(found, Array(20).fill([CLAIMS, HI]).flat());
        message[message.length - 1] ^= 1;
        await assert.rejects(table.admitted(message, { now: NOW }), refused("REFUSED", "BadAuth", 19));
    });
    await withTable({ keys }, (table) => assert.rejects(table.authenticPayload(message), refused("REFUSED", "BadAuth", 19)));
});

test("a token that doesn't meet what is required is refused for it", async () => {
    await withTable({ keys: KEYS }, async (table) => {
        const token = mac0(CLAIMS);
        assert.equal((await table.admitted(token, { now: NOW })).iss, "as");
        await assert.rejects(table.admitted(token, { now: NOW, present: ["cti"] }), refused("UNMET", "cti", 0));
        await assert.rejects(table.admitted(token, { now: NOW + 1 }), refused("CLAIMS_REFUSED", "Expired", 6));
        // by default the time is that of the machine's clock
        await assert.rejects(table.admitted(token), refused("CLAIMS_REFUSED", "Expired", 6));
        const claims = table.admit(token, { now: NOW, audience: "b" });
        assert.deepEqual([claims.status, UNMET[claims.reason], claims.place], [STATUS.UNMET, "audience", 0]);
        for (const options of [{ issuer: "" }, { present: ["scope"] }, { now: undefined }])
            assert.throws(() => table.admit(token, { now: NOW, ...options }), RangeError);
        assert.equal(table.admit(token, { now: 0 }).status, STATUS.BAD_ARGUMENT);
    });
});

test("what is out of its range makes no table, and a closed one isn't used", async () => {
    for (const options of [{ large: true }, { algorithms: [] }, { understood: [0] }, { payloadLimit: 0 }, { wanted: 256 }])
        assert.throws(() => new TermsTable(cose, { keys: KEYS, ...options }), RangeError);
    const status = (options) => withTable({ keys: KEYS, ...options }, ({ keySet }) => keySet.status);
    assert.equal(await status({ wanted: 1 }), STATUS.BAD_ARGUMENT);
    assert.equal(await status({ aad: new Uint8Array(65_536) }), STATUS.AAD_TOO_LONG);
    const table = new TermsTable(cose, { keys: KEYS });
    const { at, size } = table;
    assert.ok(cose.bytes(at, size).some((byte) => byte !== 0));
    table.close();
    table.close();
    assert.ok(cose.bytes(at, size).every((byte) => byte === 0));
    assert.throws(() => table.authenticate(mac0(HI)), /closed/);
    assert.throws(() => table.admit(mac0(CLAIMS), { now: NOW }), /closed/);
});
