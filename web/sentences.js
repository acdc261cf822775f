// What a refusal says to a person: for each reason of reasons.js a clause, and what it means or what to do about it.
"use strict";

/** The longest header and the nesting that the library's large calls take, and those of a message that is looked at without a key. */
const LIMITS = Object.freeze({ large: { bytes: 65535, depth: 16 }, small: { bytes: 1024, depth: 8 }, keyDepth: 8 });

/**
 * What is refused: a message, the keys, or the claims of an authentic message.
 * @typedef {object} Refusal
 * @property {"message" | "keys" | "claims"} where
 * @property {Inquiry} request
 * @property {Picture} picture
 * @property {{reason: number, place: number}} refusal
 */

/** @param {bigint} seconds */
function dateText(seconds) {
    const date = new Date(Number(seconds) * 1000);
    return Number.isNaN(date.getTime()) ? `${seconds} seconds since 1970` : `${date.toISOString().slice(0, 19).replace("T", " ")} UTC`;
}

/** @type {readonly [string, bigint][]} */
const UNITS = [["year", 31556952n], ["day", 86400n], ["hour", 3600n], ["minute", 60n]];

/**
 * A span of time, in the largest unit of which there are two or more.
 * @param {bigint} seconds
 */
function spanText(seconds) {
    const [unit, size] = UNITS.find((it) => seconds >= 2n * it[1]) ?? ["second", 1n];
    const count = seconds / size;
    return `${count.toLocaleString("en")} ${unit}${count === 1n ? "" : "s"}`;
}

/**
 * How far a time is from now.
 * @param {bigint} at
 * @param {bigint} now
 */
function relativeText(at, now) {
    if (at === now) return "now";
    return at > now ? `in ${spanText(at - now)}` : `${spanText(now - at)} ago`;
}

/**
 * A time, with its date unless that is today's, and how far it is from now.
 * @param {bigint} at
 * @param {bigint} now
 */
function momentText(at, now) {
    const [text, today] = [dateText(at), dateText(now)];
    const short = text.slice(0, 10) === today.slice(0, 10) ? text.slice(11) : text;
    return `${short}, ${relativeText(at, now)}`;
}

/**
 * The date of a claim, if it has one.
 * @param {Refusal} it
 * @param {number} label
 */
function dateIn({ picture }, label) {
    const date = picture.claims && valueOf(picture.claims, label);
    return date?.type === "integer" ? date.number : undefined;
}

/** @param {Refusal} it */
function expiredWords(it) {
    const [exp, { now, leeway }] = [dateIn(it, 4), it.request.requirements];
    if (exp === undefined) return ["it has expired"];
    const after = leeway ? ` The leeway of ${leeway.toLocaleString("en")} seconds is over too.` : "";
    return [`it expired ${relativeText(exp, now)}`, `It expired at ${momentText(exp, now)}.${after}`];
}

/** @param {Refusal} it */
function notYetWords(it) {
    const [nbf, { now }] = [dateIn(it, 5), it.request.requirements];
    if (nbf === undefined) return ["it isn't valid yet"];
    return ["it isn't valid yet", `It is valid from ${momentText(nbf, now)}.`];
}

/** @param {Refusal} it */
function audienceWords({ request, picture }) {
    const aud = picture.claims && valueOf(picture.claims, 3);
    return ["it is for another audience", `It is for ${aud ? diagnostic(aud) : "another"}, and ${quoted(request.requirements.audience ?? "")} is asked.`];
}

/**
 * What a message asks of a key: its algorithm and its identifier.
 * @param {Picture} picture
 */
function askedOf(picture) {
    const [alg, kid] = [headerOf(picture, 1), headerOf(picture, 4)];
    const identifier = kid && `the identifier ${kid.type === "bytes" ? identifierText(kid.bytes) : diagnostic(kid)}`;
    const asked = [alg && algorithmText(alg), identifier].filter(Boolean).join(" and ");
    return asked || "no algorithm and no identifier";
}

/** @param {Uint8Array} kid */
function identifierText(kid) {
    const text = textOf(kid);
    return text && /^[\x20-\x7e]{1,64}$/.test(text) ? `${bytesText(kid)} (${quoted(text)})` : bytesText(kid);
}

/** @param {Refusal} it */
function tooLongWords({ where, request, picture, refusal }) {
    const { bytes } = request.keys ? LIMITS.large : LIMITS.small;
    const limit = `this page's limit of ${bytesCount(bytes)}`;
    const payload = picture.payload ? picture.payload.to - picture.payload.from : 0;
    if (where === "claims" && payload > LIMITS.large.bytes) return [`its claims are longer than ${limit}`];
    if (where === "message" && Math.max(0, ...picture.headerLengths) > bytes) {
        return [`a header is longer than ${limit}`, ...(request.keys ? [] : ["With a key the limit is 65,535 bytes."])];
    }
    return ["an item is longer than what holds it", `At byte ${refusal.place} something goes past the end of its header, claims or key.`];
}

/** @param {Refusal} it */
function tooDeepWords({ where, request }) {
    const depth = where === "keys" ? LIMITS.keyDepth : (request.keys ? LIMITS.large : LIMITS.small).depth;
    return ["it is nested too deep", `This page reads arrays, maps and tags ${depth} deep.`];
}

/** @param {Refusal} it */
function wrongTagWords({ request, picture }) {
    if (isUntagged(picture)) return ["it has no tag that says what it is", "Is it a COSE_Mac0, of a shared secret, or a COSE_Sign1, of a signature?"];
    const kind = request.terms.wanted ? "the kind that is chosen" : "a COSE_Mac0 or a COSE_Sign1";
    return [`its tag isn't that of ${kind}`];
}

/**
 * Whether a message begins with its array: its kind can be chosen.
 * @param {Picture} picture
 */
const isUntagged = ({ tags, parts }) => tags.length === 0 && parts[0]?.group === "array";

/** @param {Refusal} it */
function badAuthWords({ picture }) {
    return [`the ${picture.kind === 18 ? "signature" : "MAC"} isn't good`, "The message was changed, or made with another key or other external data."];
}

/** @param {Refusal} it */
function noKeyWords({ picture }) {
    return ["no key fits", `It asks for ${askedOf(picture)}.`, "Below is the library's answer for each key alone."];
}

/** @param {Refusal} it */
function unknownAlgorithmWords({ picture }) {
    const alg = headerOf(picture, 1);
    const name = alg ? algorithmText(alg) : "its algorithm";
    const { bytes, depth } = EDDSA_LIMITS;
    if (picture.kind === 18 && isEddsa(alg)) return [`${name} isn't verified with such a header`, `Of a message by EdDSA a header has at most ${bytesCount(bytes)} here, and nests at most ${depth} deep.`];
    const kind = picture.kind === 18 ? "COSE_Sign1" : "COSE_Mac0";
    return [`${name} isn't verified in a ${kind}`, "A MAC by HMAC with SHA-2, and a signature by ECDSA or Ed25519, are verified."];
}

/** @type {Readonly<Record<string, string[] | ((it: Refusal) => string[])>>} */
const SENTENCES = Object.freeze({
    Truncated: ["it isn't whole", "It goes on after its last byte here: was all of it copied?"],
    Reserved: ["this isn't CBOR", "A byte has a form that has no meaning yet."],
    Indefinite: ["a length isn't stated", "Items of indefinite length are CBOR, and aren't accepted here."],
    BadSimple: ["this isn't CBOR", "A simple value below 32 is spelled in two bytes."],
    TooDeep: tooDeepWords,
    PastRoom: tooLongWords,
    WrongTag: wrongTagWords,
    Encrypted: ["it is encrypted", "Nothing is decrypted here."],
    SeveralParties: ["it is for several recipients, or of several signers", "This page verifies a message of one."],
    NotFour: ["this isn't a COSE message", "Its array doesn't have four elements."],
    WrongType: ["this isn't a COSE message", "A part is of another type than it should be."],
    NotMap: ["a part should be a map, and isn't"],
    BadLabel: ["a label is neither a number nor a text"],
    DuplicateLabel: ["a label comes twice"],
    BothBuckets: ["a label is in both headers"],
    BadValue: ["a value has another form than it should", "Or a key lacks a part."],
    CritUnprotected: ["crit isn't protected", "A list of what has to be understood counts only in the protected header."],
    CritAbsent: ["crit names something that isn't there"],
    CritUnknown: ["it needs something that this page doesn't know", "crit lists a header parameter that has to be understood."],
    BothIvs: ["it has an IV and a Partial IV", "Only one of them may be there."],
    NoAlg: ["no algorithm is named", "Neither the message nor a key that fits says which it is."],
    UnknownAlg: unknownAlgorithmWords,
    AlgUnprotected: ["its algorithm isn't protected", "So a key has to name that algorithm itself, and none that fits does."],
    NoKey: noKeyWords,
    AmbiguousKey: ["several keys fit", "Which one is meant can't be known: leave the others out."],
    Detached: ["its payload is elsewhere", "Open the file that it authenticates as the detached payload."],
    BadAuthLength: (it) => [`the ${it.picture.kind === 18 ? "signature" : "MAC"} is too short or too long for its algorithm`],
    BadAuth: badAuthWords,
    PayloadTooLong: ["its payload is too long"],
    CwtTagAlone: ["this isn't a whole token", "The tag of a CWT has to be followed by that of a message."],
    BadKeySet: ["this isn't a key or a set of keys", "Or the set is empty, or has more keys than this page takes."],
    UnknownKey: ["no key of this type or curve is used here", "Symmetric keys are, and keys on P-256, P-384, P-521 and Ed25519."],
    FloatDate: ["a date isn't a whole number"],
    TaggedDate: ["a date has a tag", "In a token it is a number alone."],
    Expired: expiredWords,
    NotYet: notYetWords,
    WrongAudience: audienceWords,
    EncryptedKey: ["the holder's key is encrypted", "Nothing is decrypted here."],
    PlainKey: ["the holder's secret key is there for all to read"],
    BadConfirmation: ["the holder's key can't be used"],
    NestedCwt: ["there is another message inside", "Only one layer is verified."],
    Trailing: ["something follows it", "After the last byte of the message there should be nothing."],
    Attached: ["its payload is inside already", "Remove the file: only a message without a payload takes one."],
});

/** What is said of a claim that isn't there, and of one that doesn't meet a requirement, by its label. */
const CLAIM_OF_UNMET = new Map([["issuer", 1], ["subject", 2], ["audience", 3], ["lifetime", 4], ["age", 6], ["issued", 6]]);

/** @type {Readonly<Record<string, (it: Refusal, value: Item) => string[]>>} */
const UNMET_SENTENCES = Object.freeze({
    issuer: ({ request }, value) => ["it is from another issuer", `It is from ${diagnostic(value)}, and ${quoted(request.requirements.issuer ?? "")} is asked.`],
    subject: ({ request }, value) => ["it is about another subject", `It is about ${diagnostic(value)}, and ${quoted(request.requirements.subject ?? "")} is asked.`],
    audience: audienceWords,
    lifetime: ({ request }) => ["it lasts too long", `At most ${spanText(BigInt(request.requirements.maxLifetime ?? 0))} are allowed.`],
    age: ({ request }) => ["it is too old", `At most ${spanText(BigInt(request.requirements.maxAge ?? 0))} are allowed.`],
    issued: () => ["it is issued in the future", "So its age isn't known."],
});

/**
 * A requirement that claims don't meet: a clause, and sentences.
 * @param {Refusal} it
 * @returns {string[]}
 */
function unmetWords(it) {
    const name = Stated.UNMET[it.refusal.reason];
    const label = CLAIM_OF_UNMET.get(name) ?? it.refusal.reason;
    const value = it.picture.claims && valueOf(it.picture.claims, label);
    if (value && UNMET_SENTENCES[name]) return UNMET_SENTENCES[name](it, value);
    return [label === 4 ? "it never expires" : `it has no ${CLAIM_NAMES.get(label)}`, `The claim ${CLAIM_NAMES.get(label)} has to be there.`];
}

/**
 * A refusal: a clause, and sentences.
 * @param {Refusal} it
 * @returns {string[]}
 */
function refusalWords(it) {
    const { name, meaning } = reasonOf(it.refusal.reason);
    const words = SENTENCES[name] ?? [meaning];
    return typeof words === "function" ? words(it) : words;
}
