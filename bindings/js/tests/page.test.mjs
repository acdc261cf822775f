// What the page of web/ finds, without a browser: its scripts, but for those of elements, run here.
import assert from "node:assert/strict";
import { File } from "node:buffer";
import { webcrypto } from "node:crypto";
import { readFileSync } from "node:fs";
import { test } from "node:test";
import { runInThisContext } from "node:vm";

const TOP = new URL("../../../", import.meta.url);
const html = readFileSync(new URL("web/index.html", TOP), "utf8");
const OF_ELEMENTS = ["cose_wasm.js", "elements.js", "bytes_view.js", "answer_view.js", "page.js"];
const scripts = [...html.matchAll(/<script defer src="([^"]+)"/g)].map((it) => it[1]).filter((it) => !OF_ELEMENTS.includes(it));
const names = "Cose, STATUS, Stated, answerTo, bytesFrom, keysFrom, phaseOf, pictureOf, reasonOf, diagnostic, wholeItem, EXAMPLES, REASONS, SENTENCES, spanText, momentText";
const text = scripts.map((it) => readFileSync(new URL(`web/${it}`, TOP), "utf8")).join("\n");
// Node 18 has no such globals
globalThis.crypto ??= webcrypto;
globalThis.File ??= File;
const page = runInThisContext(`(() => { ${text}\nreturn { ${names} }; })()`, { filename: "web" });

const cose = await page.Cose.load(readFileSync(new URL("../cose.wasm", import.meta.url)));
const octets = (hex) => new Uint8Array(Buffer.from(hex, "hex"));
const NOW = 1795780800n; // 2026-11-27
const TERMS = { aad: new Uint8Array(), wanted: 0 };
const ask = ({ terms, requirements, ...inquiry }) => {
    const stated = { terms: { ...TERMS, ...terms }, requirements: { now: NOW, leeway: 0, ...requirements } };
    return page.answerTo(cose, { ...stated, ...inquiry }, () => true);
};
/** A COSE_Sign1 whose protected header has one parameter, alg: EdDSA, Ed25519 or Ed448. */
const EDDSA = /^d284(?:43a10127|43a10132|44a1013834)/;
/** As they were before anything was stated: any key will do. */
const ALL_KEYS = { shortMac: true, withoutAlg: true };
const said = ({ state, refusal, claims }) => {
    if (claims?.status === page.STATUS.UNMET) return `${state}, ${page.Stated.UNMET[claims.reason]} at ${claims.place}`;
    const fault = refusal ?? (claims && claims.status !== 1 ? claims : undefined);
    return fault ? `${state}, ${page.reasonOf(fault.reason).name} at ${fault.place}` : `${state}${claims ? ", admitted" : ""}`;
};

test("each example has its verdict", async () => {
    const found = {};
    for (const example of page.EXAMPLES) {
        const requirements = example.now ? { now: BigInt(Date.parse(`${example.now.replace(" ", "T")}Z`) / 1000) } : {};
        const terms = { shortMac: example.permits?.includes("short_mac"), withoutAlg: example.permits?.includes("without_alg") };
        const [message, keys] = [page.bytesFrom(example.message, "message"), page.keysFrom(example.keys)];
        const answer = await ask({ message, keys, terms, requirements, payload: example.payload?.() });
        found[example.name] = said(answer);
        if (answer.state === "authentic") assert.equal(answer.keys.filter((it) => it.state === "chosen").length, 1, example.name);
        for (const { state, why } of answer.keys) assert.equal(state === "chosen", why === undefined, example.name);
    }
    assert.deepEqual(found, {
        COSE_Mac0: "authentic",
        COSE_Sign1: "authentic",
        Ed25519: "authentic",
        Token: "authentic, admitted",
        "Expired token": "authentic, Expired at 59",
        "Changed token": "refused, BadAuth at 105",
        "No key fits": "refused, NoKey at 11",
        "Firmware, detached": "authentic",
        "Health certificate": "authentic, admitted",
        Attestation: "authentic",
    });
});

test("each row of messages that needs no signature is answered as it says, and its bytes are parts without gaps", async () => {
    let count = 0;
    for (const group of JSON.parse(readFileSync(new URL("rows/messages.json", TOP), "utf8")).testGroups) {
        if (group.understood?.length || "payloadLimit" in group || group.cwt === false || group.headerLimit !== 1024) continue;
        for (const { message, signature, result, tcId } of group.tests) {
            if (signature || ["PastRoom", "TooDeep"].includes(result.reason)) continue;
            const bytes = octets(message).subarray(0, result.taken);
            const wanted = { tagged: 0, mac0: 17, sign1: 18 }[group.wanted];
            const answer = await ask({ message: bytes, keys: octets(group.keys), terms: { ...ALL_KEYS, aad: octets(group.aad), wanted } });
            // of EdDSA the page asks the call that knows it, and no key of these rows is for it
            const reason = result.reason === "UnknownAlg" && EDDSA.test(message) ? "NoKey" : result.reason;
            const expected = result.verdict === "refused" ? `refused, ${reason} at ${result.place}` : "authentic";
            assert.equal(said(answer).split(", ").slice(0, expected.split(", ").length).join(", "), expected, `messages ${tcId}`);
            const ends = [0, ...answer.picture.parts.map((it) => it.to)];
            assert.deepEqual(answer.picture.parts.map((it) => it.from), ends.slice(0, -1), `messages ${tcId}`);
            assert.equal(ends.at(-1), bytes.length, `messages ${tcId}`);
            count += 1;
        }
    }
    assert.ok(count > 250, `${count} rows`);
});

test("each row of terms is answered as it says", async () => {
    const statedBy = (group) => {
        const { algorithms, leastSecret, shortMac, withoutAlg, iss: issuer, sub: subject, aud: audience, present, withoutExp, leeway, understood, payloadLimit } = group;
        const terms = { algorithms, leastSecret, shortMac, withoutAlg, understood, payloadLimit, aad: octets(group.aad), wanted: { tagged: 0, mac0: 17, sign1: 18 }[group.wanted] };
        const requirements = { now: BigInt(group.now), leeway, issuer, subject, audience, present, withoutExp, maxLifetime: group.lifetime, maxAge: group.age };
        return { terms, requirements, keys: octets(group.keys) };
    };
    for (const group of JSON.parse(readFileSync(new URL("rows/terms.json", TOP), "utf8")).testGroups) {
        for (const { token, result, tcId } of group.tests) {
            const answer = await ask({ message: octets(token), ...statedBy(group) });
            const { verdict, reason, claim, requirement, place } = result;
            const name = reason ?? claim ?? requirement?.toLowerCase();
            const state = verdict.startsWith("refused message") ? "refused" : "authentic";
            // what has no claim of admission isn't taken for a token here
            if (answer.state === "authentic" && !answer.claims) continue;
            assert.equal(said(answer), verdict === "admitted" ? "authentic, admitted" : `${state}, ${name} at ${place}`, `terms ${tcId}`);
        }
    }
});

test("a key that what is stated leaves out is said to be left out", async () => {
    const [message, keys] = [octets("d18443a10105a042686958207d81e964aaee5fbd8adfb3f533657a9ef9f782f04b91877b6004272a0352f960"), octets("a2010420444a656665")];
    const states = async (terms) => {
        const answer = await ask({ message, keys, terms });
        return [said(answer), ...answer.keys.map((it) => it.state)];
    };
    assert.deepEqual(await states({}), ["refused, NoKey at 7", "left out"]);
    assert.deepEqual(await states(ALL_KEYS), ["authentic", "chosen"]);
    assert.deepEqual(await states({ ...ALL_KEYS, leastSecret: 5 }), ["refused, NoKey at 7", "left out"]);
    assert.deepEqual(await states({ ...ALL_KEYS, algorithms: [5] }), ["refused, NoKey at 7", "left out"]);
});

/** Of a message by EdDSA, the verdicts of the page: its limits of headers are those of the library's call. */
test("each row of messages by EdDSA is answered as it says, by Ed25519", async () => {
    const counts = { authentic: 0, refused: 0, "not verified": 0 };
    for (const group of JSON.parse(readFileSync(new URL("rows/further_messages.json", TOP), "utf8")).testGroups) {
        if (group.understood.length || "payloadLimit" in group || !group.cwt || group.headerLimit !== 1024) continue;
        const terms = { ...ALL_KEYS, aad: octets(group.aad), wanted: { tagged: 0, mac0: 17, sign1: 18 }[group.wanted] };
        for (const { message, payload, x, result, tcId } of group.tests) {
            if (["TooDeep", "PastRoom"].includes(result.reason)) continue;
            const file = payload === undefined ? undefined : new File([octets(payload)], "payload");
            const answer = await ask({ message: octets(message), keys: octets(group.keys), terms, payload: file });
            counts[answer.state] += 1;
            const isEd448 = x?.length === 114;
            // what follows a message is refused before its signature is asked about, and other algorithms are those of another call
            const isOtherwise = isEd448 || answer.refusal?.reason === 42 || result.reason === "UnknownAlg";
            const expected = result.verdict === "refused" ? `refused, ${result.reason} at ${result.place}` : "authentic";
            if (isOtherwise) assert.notEqual(answer.state, "authentic", `further_messages ${tcId}`);
            else assert.equal(said(answer).split(", ").slice(0, expected.split(", ").length).join(", "), expected, `further_messages ${tcId}`);
        }
    }
    assert.ok(counts.authentic > 5 && counts.refused > 20 && counts["not verified"] > 5, JSON.stringify(counts));
});

test("what is stated of keys holds for a key of EdDSA too", async () => {
    const { message, keys } = page.EXAMPLES.find((it) => it.name === "Ed25519");
    const other = keys.replace("0332", "0327");
    const states = async (set, terms) => {
        const answer = await ask({ message: octets(message), keys: octets(set), terms });
        return [said(answer), ...answer.keys.map((it) => it.state)];
    };
    const without = keys.replace("a5", "a4").replace("0332", "");
    assert.deepEqual(await states(keys, {}), ["authentic", "chosen"]);
    assert.deepEqual(await states(keys, { algorithms: [-7, -19] }), ["authentic", "chosen"]);
    assert.deepEqual(await states(keys, { algorithms: [-7, -8] }), ["refused, NoKey at 11", "left out"]);
    assert.deepEqual(await states(without, {}), ["refused, NoKey at 11", "left out"]);
    assert.deepEqual(await states(without, { withoutAlg: true }), ["authentic", "chosen"]);
    assert.deepEqual(await states(without, { withoutAlg: true, algorithms: [-19] }), ["refused, NoKey at 11", "left out"]);
    assert.deepEqual(await states(`82${keys}${without}`, {}), ["authentic", "chosen", "left out"]);
    assert.deepEqual(await states(`82${keys}${without}`, { withoutAlg: true }), ["refused, AmbiguousKey at 11", "fits", "fits"]);
    assert.deepEqual(await states(`83${keys}a2010420444a656665${other}`, {}), ["authentic", "chosen", "other", "other"]);
    const mac0 = page.EXAMPLES.find((it) => it.name === "COSE_Mac0");
    const under = await ask({ message: octets(mac0.message), keys: octets(`82${mac0.keys}${keys}`), terms: {} });
    assert.deepEqual([said(under), ...under.keys.map((it) => it.state)], ["authentic", "chosen", "other"]);
});

test("each reason has a sentence of its own, in plain words", () => {
    assert.deepEqual(Object.keys(page.SENTENCES), page.REASONS.map((it) => it.name));
    const words = Object.values(page.SENTENCES).flatMap((it) => (typeof it === "function" ? [] : it));
    assert.ok(words.length > 50);
    for (const it of words) assert.doesNotMatch(it, /EcVerifier|\bH\b|undefined/);
});

test("times are said as a person says them", () => {
    const rows = [[1n, "1 second"], [119n, "119 seconds"], [120n, "2 minutes"], [7199n, "119 minutes"], [7200n, "2 hours"], [172800n, "2 days"], [347126472n, "11 years"]];
    for (const [seconds, text] of rows) assert.equal(page.spanText(seconds), text);
    // NOW is noon
    assert.equal(page.momentText(NOW + 720n, NOW), "12:12:00 UTC, in 12 minutes");
    assert.equal(page.momentText(NOW - 60n, NOW), "11:59:00 UTC, 60 seconds ago");
    assert.equal(page.momentText(NOW - 43260n, NOW), "2026-11-26 23:59:00 UTC, 12 hours ago");
    assert.equal(page.momentText(NOW, NOW), "12:00:00 UTC, now");
});

test("items in diagnostic notation, as in RFC 8949 appendix A", () => {
    const rows = [
        ["1bffffffffffffffff", "18446744073709551615"],
        ["3bffffffffffffffff", "-18446744073709551616"],
        ["f90001", "5.960464477539063e-8"],
        ["f93c00", "1.0"],
        ["f97c00", "Infinity"],
        ["fbc010666666666666", "-4.1"],
        ["f4", "false"],
        ["f7", "undefined"],
        ["f8ff", "simple(255)"],
        ["c11a514b67b0", "1(1363896240)"],
        ["4401020304", "h'01020304'"],
        ["62225c", '"\\"\\\\"'],
        ["8301820203820405", "[1, [2, 3], [4, 5]]"],
        ["a26161016162820203", '{"a": 1, "b": [2, 3]}'],
        ["9fff", "[_ ]"],
        ["bf61610161629f0203ffff", '{_ "a": 1, "b": [_ 2, 3]}'],
    ];
    for (const [hex, notation] of rows) assert.equal(page.diagnostic(page.wholeItem(octets(hex))), notation);
});
