// Runs the rows of rows/ through the package, and so through the WebAssembly module.
//
// rows/README.md is the schema. The interface has fixed limits: header buckets of 1,024 bytes nested 8 deep, and of 65,535 bytes
// nested 16 deep in the large size; a CWT tag may come; no label is understood in addition; payloads have no limit. A group with
// narrower limits is run too: these can change an answer only to the reasons that they give, so only rows that expect one of
// these reasons are left out. `node tests/rows.mjs` prints what each file has, what is left out and why,
// `node tests/rows.mjs NAME` that of one file.
import assert from "node:assert/strict";
import { readFileSync } from "node:fs";
import { fileURLToPath } from "node:url";
import { Elsewhere, KeyTable, load, Maker, reasonOf, Refused, Sign1Maker, STATUS, TermsTable, UNMET, Verifier } from "../index.mjs";

const ROWS = new URL("../../../rows/", import.meta.url);
const CUTS = [1, 2, 7, 64, 65_536];
const WANTED = { tagged: 0, mac0: 17, sign1: 18 };
const KINDS = { 17: "mac0", 18: "sign1" };
const SIZES = [
    { large: false, header: 1_024, nesting: 8 },
    { large: true, header: 65_535, nesting: 16 },
];

/** A row that the interface can't ask, and why. */
class LeftOut extends Error {}

const cose = await load();
const octets = (text) => new Uint8Array(Buffer.from(text, "hex"));
const hex = (bytes) => Buffer.from(bytes).toString("hex");
const equal = (seen, wanted, how) => assert.deepEqual(seen, wanted, `${how}: ${JSON.stringify(seen)}, not ${JSON.stringify(wanted)}`);
const refusal = (result) => [result.verdict.replace(" message", ""), result.reason, result.place];
const refused = ({ status, reason, place }) => {
    const name = { [STATUS.REFUSED]: "refused", [STATUS.CLAIMS_REFUSED]: "refused claims", [STATUS.KEYS_REFUSED]: "refused" }[status];
    return [name ?? `status ${status}`, reasonOf(reason).name, place];
};
const cut = function* (bytes, size) {
    for (let at = 0; at < bytes.length; at += size) yield bytes.subarray(at, at + size);
};

/** Which sizes answer a row of a group as its own limits do. */
function sizes(group, reason) {
    if (group.understood?.length) throw new LeftOut("labels are understood");
    if (reason === "PayloadTooLong" && "payloadLimit" in group) throw new LeftOut("its limit of the payload is the reason");
    if (reason === "WrongTag" && group.cwt === false) throw new LeftOut("no CWT tag may come");
    const found = SIZES.filter(
        ({ header, nesting }) =>
            (group.headerLimit ?? header) <= header &&
            group.nesting <= nesting &&
            !(reason === "PastRoom" && (group.headerLimit ?? header) < header) &&
            !(reason === "TooDeep" && group.nesting < nesting),
    );
    if (!found.length) throw new LeftOut("its limits of headers are others");
    return found.map((it) => it.large);
}

/** What a row says of its signature: asked about anything else, it says the contrary. */
function holds(test, input) {
    const said = test.signature;
    const isAsked = Boolean(said) && said.digest === hex(input.digest) && said.signature === hex(input.signature);
    return isAsked ? said.holds : Boolean(said) && !said.holds;
}

/** The verdict on a message whose signature isn't good. */
const badSignature = ({ place }) => ({ status: STATUS.REFUSED, reason: 28, place });

const options = (group, large) => ({ aad: octets(group.aad), wanted: WANTED[group.wanted], large });

// ---- messages

/** One call over a message in memory, and the answer with what the row says of its signature. */
function inOneCall(keys, message, test, settings) {
    const verdict = cose.verify(keys, message, settings);
    const isGood = verdict.status === STATUS.AUTHENTIC || (verdict.status === STATUS.SIGNED && holds(test, verdict.input));
    if (isGood) {
        const { kind, alg, taken, payloadAt, payloadLength } = verdict;
        const payload = settings.payload ?? message.subarray(payloadAt, payloadAt + payloadLength);
        return ["authentic", KINDS[kind], alg, hex(payload), taken];
    }
    return refused(verdict.status === STATUS.SIGNED ? badSignature(verdict.input) : verdict);
}

function expected(result, payload) {
    if (result.verdict !== "authentic") return refusal(result);
    return ["authentic", result.kind, result.alg, payload, result.taken];
}

/** One call: what decides it, all bytes, and each shorter prefix of an authentic message. */
function runWhole(keys, message, test, settings) {
    const { result } = test;
    const [isGood, taken] = [result.verdict === "authentic", result.taken];
    const wanted = expected(result, result.payload);
    equal(inOneCall(keys, message.subarray(0, taken), test, settings), wanted, "verify");
    for (let end = 0; end < (isGood ? taken : 0); end += 1) {
        equal(inOneCall(keys, message.subarray(0, end), test, settings), ["refused", "Truncated", end], `verify, ${end} bytes`);
    }
    if (message.length > taken) {
        // a byte after the message goes before the question whether its signature is good
        const trailing = isGood || test.signature ? ["refused", "Trailing", taken] : wanted;
        equal(inOneCall(keys, message, test, settings), trailing, "verify, all bytes");
    }
}

/** Feeds a message in pieces, up to its payload where that is detached. */
function feed(verifier, message, size, came) {
    let [used, status] = [0, undefined];
    for (const piece of cut(message, size)) {
        const fed = verifier.feed(piece);
        came.push(...fed.payload);
        used += fed.used;
        status = fed;
        if (fed.status !== STATUS.MORE) break;
    }
    return { used, status };
}

function decided(verifier, status, test) {
    const last = status && status.status !== STATUS.MORE && status.status !== STATUS.PAYLOAD_NEXT ? status : verifier.end();
    if (last.status !== STATUS.COMPLETE) return refused(last);
    const input = verifier.signInput();
    const verdict = verifier.verdict(input ? holds(test, input) : false, input);
    if (verdict.status !== STATUS.AUTHENTIC) return refused(verdict);
    return ["authentic", KINDS[verdict.kind], verdict.alg, verdict.payloadLength, verdict.taken];
}

function runPieces(keys, message, test, { large, ...settings }, size) {
    const { result } = test;
    const [verifier, came, how] = [new Verifier(cose, { large }), [], `Verifier, pieces of ${size}`];
    verifier.open(keys, settings);
    const { status } = feed(verifier, message, size, came);
    const isGood = result.verdict === "authentic";
    equal(decided(verifier, status, test), expected(result, isGood ? result.payload.length / 2 : 0), how);
    equal(verifier.taken, result.taken, `${how}, taken`);
    if (isGood) equal(hex(came), result.payload, `${how}, payload`);
    verifier.close();
}

function runMessage(group, test) {
    const [keys, message] = [octets(group.keys), octets(test.message)];
    for (const large of sizes(group, test.result.reason)) {
        const settings = options(group, large);
        const table = new KeyTable(cose, keys);
        for (const held of [keys, table]) {
            // the calls over memory that a table has are of the small size
            if (held === keys || !large) runWhole(held, message, test, settings);
            for (const size of CUTS) runPieces(held, message, test, settings, size);
        }
        table.close();
    }
}

// ---- detached messages

function feedPayload(verifier, payload, size) {
    let taken = 0;
    for (const piece of cut(payload, size)) if (verifier.payloadWanted) taken += verifier.feedPayload(piece);
    return taken;
}

/** A detached message in pieces, or its first bytes. */
function runDetachedPieces(keys, test, length, { large, ...settings }, size, end) {
    const { result } = test;
    const [message, payload] = [octets(test.message).subarray(0, end), octets(test.payload)];
    const [verifier, how] = [new Verifier(cose, { large }), `Verifier, detached, pieces of ${size}`];
    verifier.open(keys, { ...settings, payloadLength: length });
    const first = feed(verifier, message, size, []);
    const count = feedPayload(verifier, payload, size);
    const { status } = first.status?.status === STATUS.PAYLOAD_NEXT ? feed(verifier, message.subarray(first.used), size, []) : first;
    const wanted = end === undefined ? expected(result, Number(length)) : ["refused", "Truncated", end];
    equal(decided(verifier, status, test), wanted, how);
    if (end === undefined) equal([verifier.taken, count], [result.taken, result.payloadTaken], how);
    verifier.close();
}

function runDetached(group, test) {
    const [{ result }, length, keys] = [test, BigInt(group.payloadLength), octets(group.keys)];
    const [message, payload] = [octets(test.message), octets(test.payload)];
    for (const large of sizes(group, result.reason)) {
        const settings = options(group, large);
        const table = new KeyTable(cose, keys);
        for (const held of [keys, table]) {
            for (const size of CUTS) runDetachedPieces(held, test, length, settings, size);
            for (let end = 0; end < (result.verdict === "authentic" ? result.taken : 0); end += 1) {
                runDetachedPieces(held, test, length, settings, 64, end);
            }
        }
        table.close();
        if (payload.length < length) continue;
        const content = payload.subarray(0, Number(length));
        const seen = inOneCall(keys, message.subarray(0, result.taken), test, { ...settings, payload: content });
        equal(seen, expected(result, hex(content)), "verify, detached");
    }
}

// ---- messages that the caller authenticates

/** What a row states, and the answer. */
function saidBy(verifier, test) {
    const last = verifier.end();
    if (last.status !== STATUS.COMPLETE) return refused(last);
    if ("earlier" in test) verifier.verdictOfMac(octets(test.earlier));
    verifier.askedSignature();
    const verdict = "mac" in test ? verifier.verdictOfMac(octets(test.mac)) : verifier.verdictOfAnswer(test.holds);
    if (verdict.status === STATUS.BAD_ARGUMENT) return ["none"];
    if (verdict.status !== STATUS.AUTHENTIC) return refused(verdict);
    return ["authentic", KINDS[verdict.kind], verdict.alg, verdict.payloadLength, verdict.taken];
}

/** What a caller states of a message after its last byte. */
function runStated(group, test) {
    const { result } = test;
    const isGood = result.verdict === "authentic";
    const wanted = result.verdict === "none" ? ["none"] : expected(result, isGood ? result.payload.length / 2 : 0);
    for (const { large } of SIZES) {
        for (const size of CUTS) {
            const [verifier, came, how] = [new Elsewhere(cose, { large }), [], `Elsewhere, large: ${large}, pieces of ${size}`];
            verifier.open(octets(group.keys), { aad: octets(group.aad), wanted: WANTED[group.wanted] });
            feed(verifier, octets(test.message), size, came);
            const [front, key] = [verifier.front(), verifier.askedKey()];
            equal(front && hex(Buffer.concat(front)), test.front, `${how}, front`);
            equal(key && hex(key.k ?? key.x), test.key, `${how}, key`);
            equal(saidBy(verifier, test), wanted, how);
            if (result.verdict !== "none") equal(verifier.taken, result.taken, `${how}, taken`);
            if (isGood) equal(hex(came), result.payload, `${how}, payload`);
            verifier.close();
        }
    }
}

// ---- shapes

function runShape(group, test) {
    const { result } = test;
    if (!sizes(group, result.reason).includes(false)) throw new LeftOut("its limits of headers are others");
    const found = cose.shape(octets(test.message).subarray(0, result.taken), { wanted: WANTED[group.wanted] });
    const { kind, payloadLength, authLength, taken } = found;
    const seen = found.status === STATUS.COMPLETE ? [KINDS[kind], payloadLength, authLength, taken] : refused(found);
    equal(seen, result.verdict === "shape" ? [result.kind, result.payload, result.auth, result.taken] : refusal(result), "shape");
}

// ---- tokens

/** Claims as rows have them, of a confirmed key its point. */
function plain({ iss, sub, aud, cti, exp, nbf, iat, cnf }) {
    const found = { iss, sub, exp: exp?.toString(), nbf: nbf?.toString(), iat: iat?.toString(), cti: cti && hex(cti) };
    if (aud.length) found.aud = aud;
    if (cnf) found.cnf = { kid: cnf.kid && hex(cnf.kid) };
    if (cnf?.crv) found.cnf.key = { curve: cnf.crv, x: hex(cnf.x), y: cnf.y instanceof Uint8Array ? hex(cnf.y) : cnf.y };
    return JSON.parse(JSON.stringify(found));
}

/** The claims of a row, as far as the interface gives them. */
function wantedClaims({ cnf, ...wanted }) {
    if (cnf?.key) return { ...wanted, cnf: { ...cnf, key: { curve: cnf.key.curve, x: cnf.key.x, y: cnf.key.y } } };
    return cnf && Object.keys(cnf).length ? { ...wanted, cnf } : wanted;
}

function policyOf(group) {
    if (group.audience && group.audience.length !== 1) throw new LeftOut("the policy has no audience or several");
    return { now: BigInt(group.now), leeway: group.leeway, audience: group.audience?.[0] };
}

function admitted(claims) {
    return claims.status === STATUS.AUTHENTIC ? ["admitted", plain(claims)] : refused(claims);
}

/** The answer of one call; of a COSE_Sign1 that of the three that go together. */
function tokenAnswer(keys, token, test, settings, policy) {
    if (settings.wanted === WANTED.tagged) {
        const claims = cose.verifyCwt(keys, token, { ...settings, ...policy });
        if (claims.status !== STATUS.SIGNED) return admitted(claims);
    }
    const verdict = cose.verify(keys, token, settings);
    const isGood = verdict.status === STATUS.AUTHENTIC || (verdict.status === STATUS.SIGNED && holds(test, verdict.input));
    if (!isGood) return refused(verdict.status === STATUS.SIGNED ? badSignature(verdict.input) : verdict);
    const payload = token.subarray(verdict.payloadAt, verdict.payloadAt + verdict.payloadLength);
    return admitted(cose.claims(payload, { ...policy, large: settings.large }));
}

function runToken(group, test) {
    const [{ result }, token, keys, policy] = [test, octets(test.token), octets(group.keys), policyOf(group)];
    const isGood = result.verdict === "admitted";
    for (const large of sizes(group, result.reason)) {
        const settings = options(group, large);
        const table = large ? undefined : new KeyTable(cose, keys);
        for (const held of table ? [keys, table] : [keys]) {
            const call = (bytes) => tokenAnswer(held, bytes, test, settings, policy);
            const taken = result.taken ?? token.length;
            let seen = call(token.subarray(0, taken));
            // the row doesn't say how long its token is, after which bytes follow
            if (seen[0] === "refused" && seen[1] === "Trailing" && result.verdict === "refused claims") seen = call(token.subarray(0, seen[2]));
            equal(seen, isGood ? ["admitted", wantedClaims(result.claims)] : refusal(result), "verifyCwt");
            for (let end = 0; end < (isGood ? taken : 0); end += 1) {
                equal(call(token.subarray(0, end)), ["refused", "Truncated", end], `verifyCwt, ${end} bytes`);
            }
            if (token.length > taken) equal(call(token), ["refused", "Trailing", taken], "verifyCwt, all bytes");
        }
        table?.close();
    }
}

/** A time at which claims are admitted, since the interface reads none without a time. */
function momentFor({ nbf = -(2n ** 63n), exp = 2n ** 63n }) {
    const least = BigInt(nbf) > -(2n ** 63n) ? BigInt(nbf) : -(2n ** 63n);
    const most = BigInt(exp) <= 2n ** 63n ? BigInt(exp) - 1n : 2n ** 63n - 1n;
    if (least > most) throw new LeftOut("there is no time at which it is admitted");
    const from = least > 0n ? least : 0n;
    return from < most ? from : most;
}

function runClaims(group, test) {
    const { result } = test;
    const policy = "now" in group ? policyOf(group) : { now: result.claims ? momentFor(result.claims) : 0n };
    for (const large of sizes(group, result.reason)) {
        const claims = cose.claims(octets(test.payload), { ...policy, large });
        const seen = claims.status === STATUS.AUTHENTIC ? ["claims", plain(claims)] : refused(claims);
        const wanted = result.verdict === "claims" ? ["claims", wantedClaims(result.claims)] : ["refused claims", result.reason, result.place];
        equal(seen, wanted, "claims");
    }
}

// ---- tokens under terms and requirements

function termsOf(group, large) {
    const { algorithms, leastSecret, payloadLimit, understood, shortMac, withoutAlg, present, withoutExp, leeway } = group;
    const terms = { aad: octets(group.aad), wanted: WANTED[group.wanted], large, algorithms, leastSecret, payloadLimit, understood };
    const { iss: issuer, sub: subject, aud: audience, lifetime: maxLifetime, age: maxAge } = group;
    return { ...terms, shortMac, withoutAlg, now: BigInt(group.now), leeway, issuer, subject, audience, present, maxLifetime, maxAge, withoutExp };
}

/** The answer for claims, or which requirement they don't meet. */
function required(claims) {
    return claims.status === STATUS.UNMET ? ["unmet", UNMET[claims.reason], claims.place] : admitted(claims);
}

function wantedOf({ verdict, claims, requirement, claim, place, ...result }) {
    if (verdict === "admitted") return ["admitted", wantedClaims(claims)];
    return verdict === "unmet" ? ["unmet", claim ?? requirement.toLowerCase(), place] : refusal({ verdict, place, ...result });
}

function runTerms(group, test) {
    const [keys, token, wanted] = [octets(group.keys), octets(test.token), wantedOf(test.result)];
    for (const large of [false, true]) {
        const stated = termsOf(group, large);
        equal(required(cose.admit(keys, token, stated)), wanted, "admit");
        equal(claimsIn(cose.authenticate(keys, token, stated), token, stated), wanted, "authenticate and admitClaims");
        if (test.result.reason === "Trailing" || stated.understood?.length) continue;
        const openUnder = (verifier) => verifier.openUnder(keys, stated);
        for (const size of [1, 7, 64]) equal(inPieces(openUnder, token, stated, size), wanted, `openUnder, pieces of ${size}`);
        runTermsKey(keys, token, stated, test.result);
    }
    runTermsInTable(keys, token, termsOf(group, false), wanted);
}

/** How many times a row was asked for its key. */
export const askedForKey = { terms: 0 };

/** The key of a token in memory, and of one that is fed, where one fits: alone it authenticates the token. */
function runTermsKey(keys, token, stated, { verdict, reason }) {
    const fits = verdict !== "refused message";
    if (!fits && reason !== "NoKey") return;
    const verifier = new Verifier(cose, { large: stated.large });
    try {
        verifier.open(keys);
        // without the terms more keys may fit, and the message is refused after its headers
        feed(verifier, token, 7, []);
        const terms = { ...stated, wanted: WANTED.mac0 };
        for (const found of [cose.keyOf(keys, token, terms), verifier.keyOf(keys, terms)]) {
            equal(found !== undefined, fits, "keyOf");
            if (found) equal(cose.authenticate(found.item, token, stated).status, STATUS.AUTHENTIC, "authenticate by the key of keyOf");
        }
        askedForKey.terms += 1;
    } finally {
        verifier.close();
    }
}

/** The answer for the claims of a message with this verdict. */
function claimsIn(verdict, token, stated) {
    const payload = token.subarray(verdict.payloadAt, verdict.payloadAt + verdict.payloadLength);
    return verdict.status === STATUS.AUTHENTIC ? required(cose.admitClaims(payload, stated)) : refused(verdict);
}

/** How many rows of each file went through a table too. */
export const throughTable = { terms: 0, checklist: 0 };

/** How many rows were fed to verifiers under a table. */
export const fedUnderTable = { terms: 0 };

/** A token under a table that is read once: no call changes it. */
function runTermsInTable(keys, token, stated, wanted) {
    const table = new TermsTable(cose, { keys, ...stated });
    try {
        for (let turn = 0; turn < 2; turn += 1) {
            equal(required(table.admit(token, stated)), wanted, "TermsTable.admit");
            equal(claimsIn(table.authenticate(token), token, stated), wanted, "TermsTable.authenticate");
        }
        throughTable.terms += 1;
        // a verifier takes the keys of a table, and not what the terms state of messages
        if (wanted[1] === "Trailing" || stated.understood?.length || stated.payloadLimit !== undefined) return;
        const open = (verifier) => verifier.open(table, { aad: stated.aad, wanted: stated.wanted });
        for (const { large } of SIZES) equal(inPieces(open, token, { ...stated, large }, 7), wanted, `open, TermsTable, large: ${large}`);
        fedUnderTable.terms += 1;
    } finally {
        table.close();
    }
}

/** The answer for a token that is fed to a verifier once it is opened, and for its claims. */
function inPieces(open, token, stated, size) {
    const verifier = new Verifier(cose, { large: stated.large });
    try {
        const opened = open(verifier);
        if (opened.status !== STATUS.MORE) return refused(opened);
        const payload = [];
        for (const piece of cut(token, size)) payload.push(...verifier.feed(piece).payload);
        verifier.end();
        const verdict = verifier.verdict(false);
        return verdict.status === STATUS.AUTHENTIC ? required(cose.admitClaims(new Uint8Array(payload), stated)) : refused(verdict);
    } finally {
        verifier.close();
    }
}

// ---- EdDSA

async function runEddsa(group, test) {
    const { result } = test;
    if (!sizes(group, result.reason).some(({ large }) => !large)) throw new LeftOut("its limits of headers are others");
    // (the head of the signature has two bytes)
    const isFollowed = result.reason === "BadAuth" && test.message.length > 2 * (result.place + 2) + test.signature.length;
    if (isFollowed) throw new LeftOut("a byte after the message is refused before its signature is asked about");
    let alg;
    const isGood = (input) => {
        equal([input.x, input.structure, input.signature].map(hex), [test.x, test.structure, test.signature], "what is asked");
        alg = input.alg;
        return test.holds;
    };
    const given = { aad: octets(group.aad), wanted: WANTED[group.wanted], payload: "payload" in test ? octets(test.payload) : undefined };
    const seen = await cose
        .eddsaPayload(octets(group.keys), octets(test.message), { ...given, isGood })
        .then((payload) => ["authentic", hex(payload), alg], refusedAs);
    equal(seen, result.verdict === "authentic" ? ["authentic", result.payload, result.alg] : refusal(result), "eddsaPayload");
}

// ---- the lines of SECURITY's checklist

/** What a caller who follows the checklist makes of a message: the safe calls, with what it states. */
async function checked(group, test, large) {
    const [keys, token, stated] = [octets(group.keys), octets(test.token), termsOf(group, large)];
    if ("payload" in test) {
        await cose.authenticPayload(keys, token, { ...stated, payload: octets(test.payload) });
        return ["accepted"];
    }
    await cose.admitted(keys, token, stated);
    return keptOrDropped(group, token, stated);
}

/** The same by a table, which has no call for a detached payload. */
async function checkedInTable(group, test) {
    const [keys, token, stated] = [octets(group.keys), octets(test.token), termsOf(group, false)];
    const table = new TermsTable(cose, { keys, ...stated });
    try {
        await table.admitted(token, stated);
        return keptOrDropped(group, token, stated);
    } finally {
        table.close();
    }
}

/** Whether the buckets of an admitted token have the parameters without which the caller drops it. */
function keptOrDropped(group, token, { wanted, large }) {
    const lacks = ["protected", "unprotected"].some((bucket) =>
        (group[bucket] ?? []).some((label) => cose.parameter(token, label, { protected: bucket === "protected", wanted, large }) === undefined),
    );
    return [lacks ? "dropped" : "accepted"];
}

/** The refusal of a message, a token or claims, as rows have it. */
function refusedAs(fault) {
    if (!(fault instanceof Refused)) throw fault;
    const verdict = { REFUSED: "refused", CLAIMS_REFUSED: "refused claims", UNMET: "unmet" }[fault.status];
    return [verdict ?? fault.status, fault.reason, fault.place];
}

async function runChecklist(group, test) {
    const { verdict, reason } = test.result;
    const wanted = verdict === "unmet" || reason ? wantedOf(test.result) : [verdict];
    for (const large of reason === "PastRoom" ? [false] : [false, true]) {
        equal(await checked(group, test, large).catch(refusedAs), wanted, `line ${group.line}`);
    }
    if ("payload" in test) return;
    equal(await checkedInTable(group, test).catch(refusedAs), wanted, `line ${group.line}, TermsTable`);
    throughTable.checklist += 1;
}

// ---- keys

// what a set is refused for; a key in it that is refused for another reason isn't usable
const SET_REASONS = ["Reserved", "Indefinite", "BadSimple", "TooDeep", "PastRoom", "Trailing"];
const counted = (it) => (it.status === STATUS.COMPLETE ? ["set", it.usable] : refused(it));

function countInTable(keys) {
    const table = new KeyTable(cose, keys);
    const { keySet } = table;
    table.close();
    return counted(keySet);
}

function runKey(group, test) {
    const [{ result }, key] = [test, octets(test.key)];
    if (result.reason === "NotMap") throw new LeftOut("no map: as a key set it is another thing");
    if (key.length > 65_535) throw new LeftOut("longer than a key set");
    const isSet = SET_REASONS.includes(result.reason);
    const wanted = isSet ? ["refused", result.reason, result.place - group.place] : ["set", Number(result.verdict === "key")];
    equal(counted(cose.readKeys(key)), wanted, "readKeys");
    equal(countInTable(key), wanted, "KeyTable");
}

function runSet(group, test) {
    const [{ result }, keys] = [test, octets(test.set)];
    const wanted = result.verdict === "set" ? ["set", result.usable] : refusal(result);
    if (!("table" in group)) equal(counted(cose.readKeys(keys)), wanted, "readKeys");
    if ((group.table ?? 64) < 64 && result.reason === "BadKeySet") throw new LeftOut("the table's size is the reason");
    if ((result.usable ?? 0) <= 64) equal(countInTable(keys), wanted, "KeyTable");
}

// ---- messages that are made

function runMade(group, test) {
    const [{ result }, payload, length] = [test, octets(test.payload), BigInt(test.payloadLength)];
    if (test.kid === "") throw new LeftOut("an empty key identifier is none");
    for (const size of [1, 64]) {
        const maker = new Maker(cose);
        const head = maker.head(octets(group.key), length, { alg: test.alg, kid: octets(test.kid ?? ""), aad: octets(test.aad) });
        const made = [...head.bytes];
        let [left, fault] = [payload.length, head.status !== STATUS.MORE];
        if (!fault) {
            for (const piece of cut(payload, size)) {
                const used = maker.piece(piece);
                made.push(...piece.subarray(0, used));
                left -= used;
            }
            const tail = maker.end();
            made.push(...tail.bytes);
            fault = tail.status !== STATUS.COMPLETE;
        }
        equal([fault, hex(made), left], [result.verdict === "fault", result.message, result.left], `Maker, pieces of ${size}`);
        maker.close();
    }
}

function runSigned(group, test) {
    const [{ result }, payload, length] = [test, octets(test.payload), BigInt(test.payloadLength)];
    if (test.kid === "") throw new LeftOut("an empty key identifier is none");
    for (const size of [1, 64]) {
        const maker = new Sign1Maker(cose);
        const head = maker.head(length, { alg: test.alg, kid: octets(test.kid ?? ""), aad: octets(test.aad) });
        const made = [...head.bytes];
        let [left, fault, digest] = [payload.length, head.status !== STATUS.MORE, undefined];
        if (!fault) {
            for (const piece of cut(payload, size)) {
                const used = maker.piece(piece);
                made.push(...piece.subarray(0, used));
                left -= used;
            }
            digest = hex(maker.digest().bytes);
            const tail = maker.end(octets(test.signature));
            made.push(...tail.bytes);
            fault = tail.status !== STATUS.COMPLETE;
        }
        const wanted = [result.verdict === "fault", result.message, result.left];
        equal([fault, hex(made), left], wanted, `Sign1Maker, pieces of ${size}`);
        if (!fault) equal(digest, result.digest, `the digest, pieces of ${size}`);
        maker.close();
    }
}

const RUNNERS = {
    messages: runMessage,
    detached: runDetached,
    elsewhere: runStated,
    further_messages: runEddsa,
    shapes: runShape,
    tokens: runToken,
    claims: runClaims,
    terms: runTerms,
    checklist: runChecklist,
    keys: runKey,
    sets: runSet,
    made: runMade,
    signed: runSigned,
};

/** The files of rows that the interface can be asked. */
export const SCHEMAS = Object.keys(RUNNERS);

/**
 * Runs the rows of a file: how many it has, which differ, and why others are left out.
 * @param {string} schema
 */
export async function runFile(schema) {
    const counts = { rows: 0, differ: [], leftOut: new Map() };
    for (const group of JSON.parse(readFileSync(new URL(`${schema}.json`, ROWS), "utf8")).testGroups) {
        for (const test of group.tests) {
            counts.rows += 1;
            try {
                await RUNNERS[schema](group, test);
            } catch (fault) {
                if (fault instanceof LeftOut) counts.leftOut.set(fault.message, (counts.leftOut.get(fault.message) ?? 0) + 1);
                else counts.differ.push(`${schema} ${test.tcId}, ${test.comment}: ${fault.message}`);
            }
        }
    }
    return counts;
}

/** @param {{leftOut: Map<string, number>}} counts */
export const leftOutOf = ({ leftOut }) => [...leftOut.values()].reduce((sum, it) => sum + it, 0);

/**
 * What became of the rows of a file, in a line.
 * @param {string} schema
 * @param {{rows: number, differ: string[], leftOut: Map<string, number>}} counts
 */
export function lineOf(schema, counts) {
    const why = [...counts.leftOut].map(([reason, number]) => `${reason}: ${number}`).join("; ");
    const left = leftOutOf(counts);
    const text = `${schema}: ${counts.rows} rows, ${counts.rows - left} run, ${left} left out, ${counts.differ.length} differ`;
    return why ? `${text} (${why})` : text;
}

if (process.argv[1] === fileURLToPath(import.meta.url)) {
    const names = process.argv.slice(2);
    for (const schema of names.length ? names : SCHEMAS) {
        const counts = await runFile(schema);
        console.log([...counts.differ, lineOf(schema, counts)].join("\n"));
        if (counts.differ.length) process.exitCode = 1;
    }
}
