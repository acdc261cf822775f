// The parts of a message: which bytes they are, what they are called, and what they mean.
"use strict";

/**
 * Bytes of a message that are one part. `value` is in diagnostic notation, and `note` says what it means.
 * @typedef {object} Part
 * @property {number} from
 * @property {number} to
 * @property {"tag" | "array" | "protected" | "unprotected" | "payload" | "auth" | "rest"} group
 * @property {string} name
 * @property {string} meaning
 * @property {number} phase
 * @property {string} [value]
 * @property {string} [note]
 */

/**
 * A message as far as it can be read.
 * @typedef {object} Picture
 * @property {Part[]} parts all bytes, in their order
 * @property {number[]} tags
 * @property {number} [kind] the number of its tag
 * @property {boolean} isCwt whether the tag of a CWT comes first
 * @property {number[]} headerLengths of the headers' bytes, as far as the message says or has them
 * @property {Item} [protectedMap]
 * @property {Item} [unprotectedMap]
 * @property {{from: number, to: number}} [payload]
 * @property {boolean} isDetached
 * @property {Item} [claims] the payload, where it is a map
 * @property {{from: number, to: number}} [auth]
 * @property {number} stopped the phase in which the bytes end, or can't be read any further; 13 of a whole message
 */

/** The phases of docs/MESSAGE.md, from 1 on. */
const PHASES = [
    "tags, and the array of four",
    "the head of the protected header",
    "its content",
    "the protected bucket: a map of header parameters",
    "the unprotected header",
    "the unprotected bucket: a map of header parameters",
    "both buckets together",
    "the choice of the key",
    "the head of the payload",
    "the payload",
    "the head of the tag or signature",
    "the tag or signature",
    "the comparison, or the decision on the signature",
];

const TAG_MEANINGS = new Map([
    [61, "The tag of a CBOR Web Token: the payload is a claims set (RFC 8392 section 6)."],
    [17, "The tag of a COSE_Mac0: a MAC under a shared key authenticates it (RFC 9052 section 6.2)."],
    [18, "The tag of a COSE_Sign1: a signature authenticates it (RFC 9052 section 4.2)."],
    [16, "The tag of an encrypted message. Nothing is decrypted here."],
    [96, "The tag of an encrypted message. Nothing is decrypted here."],
    [97, "The tag of a message for several recipients."],
    [98, "The tag of a message of several signers."],
]);

const HEADER_MEANINGS = new Map([
    [1, "The algorithm that authenticates the message."],
    [2, "Labels of header parameters that a recipient has to understand."],
    [3, "What kind of content the payload is."],
    [4, "The identifier of the key. It helps to find the key, and says nothing else."],
    [5, "The full initialization vector."],
    [6, "A part of the initialization vector."],
    [15, "Claims of a CWT in the header (RFC 9597)."],
    [16, "The type of the whole message (RFC 9596)."],
    [33, "A chain of X.509 certificates (RFC 9360). This page verifies none."],
    [34, "The hash of an X.509 certificate (RFC 9360)."],
]);

const CLAIM_MEANINGS = new Map([
    [1, "Issuer: who made the token."],
    [2, "Subject: whom or what the token is about."],
    [3, "Audience: for whom the token is."],
    ...DATE_MEANINGS,
    [7, "The identifier of the token."],
    [8, "Confirmation: the key that the token's holder has to prove to have (RFC 8747)."],
    [10, "A value that shows that the token is fresh."],
    [256, "The identifier of the device (RFC 9711)."],
    [-260, "A health certificate, as the European Union defines it."],
]);

/**
 * A date of a claim, as a date.
 * @param {Item} item
 * @returns {string | undefined}
 */
function dateOf(item) {
    const seconds = item.type === "float" ? item.float : item.type === "integer" ? Number(item.number) : NaN;
    const date = new Date(seconds * 1000);
    return Number.isNaN(date.getTime()) ? undefined : `${date.toISOString().slice(0, 19).replace("T", " ")} UTC`;
}

/**
 * A label that is an integer.
 * @param {Item} item
 * @returns {number}
 */
const labelNumber = (item) => (item.type === "integer" ? Number(item.number) : NaN);

/** @param {Item} label */
const headerName = (label) => HEADER_NAMES.get(labelNumber(label));
/** @param {Item} label */
const claimName = (label) => CLAIM_NAMES.get(labelNumber(label));

/**
 * What the value of a header parameter means.
 * @param {Item} label
 * @param {Item} value
 * @returns {string | undefined}
 */
function headerNote(label, value) {
    const number = labelNumber(label);
    if (number === 1) return ALGORITHM_NAMES.get(labelNumber(value));
    if (number === 2) return value.children.map((it) => headerName(it) ?? diagnostic(it)).join(", ");
    if (number === 4 && value.type === "bytes") return printable(value.bytes);
    return undefined;
}

/**
 * The text of bytes, where it is one that is easily read.
 * @param {Uint8Array} bytes
 */
function printable(bytes) {
    const text = textOf(bytes);
    return text && /^[\x20-\x7e]{3,64}$/.test(text) ? `the text ${quoted(text)}` : undefined;
}

/**
 * What the value of a claim means.
 * @param {Item} label
 * @param {Item} value
 * @returns {string | undefined}
 */
function claimNote(label, value) {
    const number = labelNumber(label);
    if (DATE_MEANINGS.has(number)) return dateOf(value);
    if (number === 8 && value.type === "map") return confirmationNote(value);
    return value.type === "bytes" ? printable(value.bytes) : undefined;
}

/**
 * The confirmation key with its curve (RFC 8747 section 3).
 * @param {Item} cnf
 */
function confirmationNote(cnf) {
    const key = valueOf(cnf, 1);
    const kid = valueOf(cnf, 3);
    const named = kid ? `the key with the identifier ${diagnostic(kid)}` : undefined;
    if (key?.type !== "map") return named;
    const curve = valueOf(key, -1);
    const x = valueOf(key, -2);
    const name = curve && (CURVE_NAMES.get(labelNumber(curve)) ?? `curve ${diagnostic(curve)}`);
    return `a key${name ? ` on ${name}` : ""}${x ? `, x ${hexOf(x.bytes)}` : ""}`;
}

/** Collects the parts of a message from its first byte on. */
class Painter {
    /**
     * @param {Uint8Array} message
     * @param {number} wanted of WANTED
     */
    constructor(message, wanted) {
        this.message = message;
        this.at = 0;
        /** @type {Picture} */
        this.picture = { parts: [], tags: [], kind: wanted || undefined, isCwt: false, isDetached: false, headerLengths: [], stopped: 1 };
    }

    /**
     * The next part, up to a place.
     * @param {number} to
     * @param {Part["group"]} group
     * @param {number} phase
     * @param {string} name
     * @param {string} meaning
     * @param {{value?: string, note?: string}} [more]
     */
    add(to, group, phase, name, meaning, more = {}) {
        if (to > this.at) this.picture.parts.push({ from: this.at, to, group, phase, name, meaning, ...more });
        this.at = Math.max(this.at, to);
    }

    paint() {
        try {
            this.front();
            this.buckets();
            this.payload();
            this.auth();
            this.picture.stopped = 13;
            this.add(this.message.length, "rest", 13, "after the message", "Bytes that are no part of the message.");
        } catch (fault) {
            if (!(fault instanceof NotCbor || fault instanceof Unread)) throw fault;
            this.add(this.message.length, "rest", this.picture.stopped, NOT_READ, "No part of a message could be read here.");
        }
        return this.picture;
    }

    front() {
        let head = headAt(this.message, this.at);
        while (head.major === 6) {
            const number = Number(head.argument);
            const meaning = TAG_MEANINGS.get(number) ?? "A tag of no message that is verified here.";
            this.add(head.end, "tag", 1, `tag ${number}${TAG_NAMES.has(number) ? `, ${TAG_NAMES.get(number)}` : ""}`, meaning);
            this.picture.tags.push(number);
            if (number === 61) this.picture.isCwt = true;
            if (number === 17 || number === 18) this.picture.kind = number;
            head = headAt(this.message, this.at);
        }
        if (head.major !== 4) throw new Unread();
        const count = head.low === 31 ? "of no stated length" : `of ${head.argument}`;
        this.add(head.end, "array", 1, `array ${count}`, "The protected header, the unprotected header, the payload, and the tag or signature.");
    }

    /**
     * The head of a byte string, which is looked for in a phase.
     * @param {number} phase
     */
    stringHead(phase) {
        this.picture.stopped = phase;
        const head = headAt(this.message, this.at);
        if (head.major !== 2 || head.low === 31) throw new Unread();
        return { end: head.end, length: Number(head.argument) };
    }

    /**
     * Goes on after the content of a string, unless the bytes end within it: in this phase.
     * @param {number} end
     * @param {number} phase
     */
    goOn(end, phase) {
        this.picture.stopped = phase;
        if (end > this.message.length) throw new NotCbor(this.message.length);
    }

    buckets() {
        const head = this.stringHead(2);
        const { length } = head;
        this.picture.headerLengths.push(length);
        this.add(head.end, "protected", 2, "protected header", `A byte string of ${bytesCount(length)}. What it holds is authenticated.`);
        const end = Math.min(this.at + length, this.message.length);
        const content = wholeItem(this.message.subarray(this.at, end));
        if (content?.type === "map") this.picture.protectedMap = this.map(content, "protected", 4);
        this.add(end, "protected", 4, "protected header, content", "The bytes of the protected header aren't a map.");
        this.goOn(head.end + length, 3);
        this.picture.stopped = 5;
        this.picture.headerLengths.push(this.message.length - this.at);
        const item = itemAt(this.message, this.at);
        this.picture.headerLengths[1] = item.end - item.at;
        if (item.type === "map") this.picture.unprotectedMap = this.map(relative(item, item.at), "unprotected", 6);
        this.add(item.end, "unprotected", 5, "unprotected header", "It isn't a map.");
    }

    /**
     * The parts of a map that begins here; its places are relative to it. Returns it as it was given.
     * @param {Item} map
     * @param {"protected" | "unprotected" | "payload"} group
     * @param {number} phase
     */
    map(map, group, phase) {
        const start = this.at;
        const isClaims = group === "payload";
        const [nameOf, noteOf] = isClaims ? [claimName, claimNote] : [headerName, headerNote];
        const meanings = isClaims ? CLAIM_MEANINGS : HEADER_MEANINGS;
        const pairs = pairsOf(map);
        const one = isClaims ? "claim" : "header parameter";
        const what = `A map of ${pairs.length} ${one}${pairs.length === 1 ? "" : "s"}.`;
        this.add(start + map.content, group, phase, isClaims ? "payload: claims" : `${group} header: map`, what);
        for (const { label, value } of pairs.slice(0, MOST_PARTS)) {
            const name = nameOf(label);
            const meaning = meanings.get(labelNumber(label)) ?? (name ? `A registered ${one}.` : `A ${one} that this page has no name for.`);
            const title = name ? `${name} (${diagnostic(label)})` : `label ${diagnostic(label)}`;
            const note = noteOf(label, value);
            this.add(start + value.end, group, phase, isClaims ? `claim ${title}` : title, meaning, { value: diagnostic(value), note });
        }
        const last = pairs.at(-1);
        if (last && pairs.length > MOST_PARTS) {
            const more = `${(pairs.length - MOST_PARTS).toLocaleString("en")} more ${one}s`;
            this.add(start + last.value.end, group, phase, more, `What follows the first ${MOST_PARTS} is one part here.`);
        }
        this.add(start + map.end, group, phase, "end of the map", "A break.");
        return map;
    }

    payload() {
        this.picture.stopped = 9;
        if (this.message[this.at] === NIL) {
            this.picture.isDetached = true;
            this.picture.payload = { from: this.at + 1, to: this.at + 1 };
            this.add(this.at + 1, "payload", 9, "payload: nil", "The payload is detached: it comes by another way, as a file.");
            return;
        }
        const head = this.stringHead(9);
        const { length } = head;
        this.add(head.end, "payload", 9, "payload", `A byte string of ${bytesCount(length)}.`);
        const end = Math.min(this.at + length, this.message.length);
        this.picture.payload = { from: this.at, to: end };
        const bytes = this.message.subarray(this.at, end);
        const claims = bytes.length <= LONGEST_CLAIMS ? wholeItem(bytes) : undefined;
        if (claims?.type === "map") this.picture.claims = this.map(claims, "payload", 10);
        this.add(end, "payload", 10, "payload, content", "What the sender says.");
        this.goOn(head.end + length, 10);
    }

    auth() {
        const head = this.stringHead(11);
        const { length } = head;
        const name = this.picture.kind === 17 ? "tag" : this.picture.kind === 18 ? "signature" : "tag or signature";
        this.add(head.end, "auth", 11, name, `A byte string of ${bytesCount(length)}.`);
        const end = Math.min(this.at + length, this.message.length);
        this.picture.auth = { from: this.at, to: end };
        this.add(end, "auth", 12, `${name}, content`, authMeaning(this.picture));
        this.goOn(head.end + length, 12);
    }
}

const NOT_READ = "not read";
/** So many pairs of a map are parts of their own. */
const MOST_PARTS = 200;
/** The simple value null, in the place of a payload. */
const NIL = 0xf6;

const AUTH_MEANINGS = new Map([
    [17, "The MAC of the protected header, the external data and the payload, under the key."],
    [18, "The integers r and s, of the protected header, the external data and the payload, by the private key."],
]);
const EDDSA_MEANING = "The point R and the integer S, of the protected header, the external data and the payload, by the private key.";

/** @param {Picture} picture */
function authMeaning(picture) {
    const { kind = 0 } = picture;
    if (kind === 18 && isEddsa(headerOf(picture, 1))) return EDDSA_MEANING;
    return AUTH_MEANINGS.get(kind) ?? "What authenticates the message.";
}

/** The longest payload that is looked at as claims, in bytes. */
const LONGEST_CLAIMS = 65536;

/** Where a message has something else than it should. */
class Unread extends Error {}

/** @param {number} count */
const bytesCount = (count) => `${count.toLocaleString("en")} byte${count === 1 ? "" : "s"}`;

/**
 * An item with places relative to another place.
 * @param {Item} item
 * @param {number} origin
 * @returns {Item}
 */
function relative(item, origin) {
    return {
        ...item,
        at: item.at - origin,
        content: item.content - origin,
        end: item.end - origin,
        children: item.children.map((it) => relative(it, origin)),
    };
}

/**
 * The parts of a message.
 * @param {Uint8Array} message
 * @param {number} [wanted] of WANTED
 * @returns {Picture}
 */
const pictureOf = (message, wanted = WANTED.TAGGED) => new Painter(message, wanted).paint();

/** The phase in which a reason arises, where that doesn't depend on the place. */
const PHASE_OF_REASON = new Map([
    ...[7, 8, 9, 10, 30].map((reason) => /** @type {const} */ ([reason, 1])),
    ...[15, 17, 18, 19, 20].map((reason) => /** @type {const} */ ([reason, 7])),
    ...[21, 22, 23, 24, 25].map((reason) => /** @type {const} */ ([reason, 8])),
    ...[26, 29, 43].map((reason) => /** @type {const} */ ([reason, 9])),
    [27, 11],
    [28, 13],
]);

/**
 * The phase of a refusal.
 * @param {{reason: number, place: number}} refusal
 * @param {Picture} picture
 * @returns {number}
 */
function phaseOf({ reason, place }, picture) {
    const fixed = PHASE_OF_REASON.get(reason);
    if (fixed) return fixed;
    const part = picture.parts.find((it) => it.from <= place && place < it.to);
    if (!part || part.name === NOT_READ) return picture.stopped;
    // an item of the unprotected header is read in phase 5, and judged in phase 6
    return part.group === "unprotected" ? (reason <= 6 ? 5 : 6) : part.phase;
}
