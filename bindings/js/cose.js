// The calls of include/cose.h, over the WebAssembly module that ci/web_module builds. All pointers and lengths are in this file and in
// those that it requires.
//
// They are scripts without imports, so that a page reads them from `file:` too, and modules of Node (index.mjs exports this one).
"use strict";

/** What the scripts have that a page reads before this one. */
const ROOMS = typeof module === "object" ? module.require("./rooms.js").Rooms : Rooms;
const STATED = typeof module === "object" ? module.require("./terms.js").Stated : Stated;
const BLOCKS = typeof module === "object" ? module.require("./cose_blocks.js") : { Block, Table, KeyTable, Verifier, Maker };
const STRUCTS =
    typeof module === "object"
        ? module.require("./cose_structs.js")
        : { STATUS, WANTED, FIELDS, LAYOUTS, NOTHING, layoutOf, labelOf, exact, copyOf };

/**
 * @typedef {object} Options
 * @property {Uint8Array} [aad] the externally supplied data
 * @property {number} [wanted] of WANTED
 * @property {boolean} [large] headers of 65,535 bytes that nest 16 deep
 */

/**
 * @typedef {object} Policy
 * @property {number | bigint} now the current time, in seconds since 1970
 * @property {number} [leeway]
 * @property {string} [audience]
 */

/**
 * What a signature is verified with: the numbers of struct cose_signature_input.
 * @typedef {object} SignInput
 * @property {number} crv
 * @property {number} ySign
 * @property {Uint8Array} x
 * @property {Uint8Array} y
 * @property {Uint8Array} digest
 * @property {Uint8Array} signature
 * @property {number} place where the signature's head is: BadAuth is at this place, if it isn't good
 */

/**
 * The verdict on a message. Of SIGNED the message is authentic only if the signature of `input` is good.
 * @typedef {object} Verdict
 * @property {number} status
 * @property {number} reason
 * @property {number} place
 * @property {number} kind
 * @property {number} alg
 * @property {number} payloadAt
 * @property {number} payloadLength
 * @property {number} taken
 * @property {SignInput} [input]
 */

/**
 * @typedef {object} Claims
 * @property {number} status
 * @property {number} reason
 * @property {number} place
 * @property {number} payloadAt
 * @property {number} payloadLength
 * @property {string} [iss]
 * @property {string} [sub]
 * @property {string[]} aud
 * @property {Uint8Array} [cti]
 * @property {bigint} [exp]
 * @property {bigint} [nbf]
 * @property {bigint} [iat]
 * @property {{kid?: Uint8Array, crv?: number, x?: Uint8Array, y?: Uint8Array | boolean}} [cnf]
 */

/** The module's calls. */
class Cose {
    /**
     * From the bytes of the module.
     * @param {BufferSource} bytes
     * @returns {Promise<Cose>}
     */
    static async load(bytes) {
        if (typeof WebAssembly !== "object") throw new Error("this engine has no WebAssembly");
        const { instance } = await WebAssembly.instantiate(bytes, {});
        return new this(instance.exports);
    }

    /** @param {WebAssembly.Exports} exports */
    constructor(exports) {
        /** @type {Record<string, any>} */
        this.exports = exports;
        this.rooms = new ROOMS(/** @type {WebAssembly.Memory} */ (exports.memory));
    }

    /**
     * Runs a call with rooms of its own.
     * @template T
     * @param {(scope: Scope) => T} run
     * @returns {T}
     */
    scoped(run) {
        const scope = this.rooms.scope();
        try {
            return run(scope);
        } finally {
            scope.end();
        }
    }

    /**
     * @param {number} at
     * @param {number} length
     */
    bytes(at, length) {
        return new Uint8Array(this.rooms.memory.buffer, at, length).slice();
    }

    /**
     * The fields of a struct, with their names in C. A number of 64 bits is a BigInt only where it isn't exact otherwise.
     * @param {number} at
     * @param {string} name
     * @returns {Record<string, any>}
     */
    read(at, name) {
        const view = new DataView(this.rooms.memory.buffer);
        /** @type {Record<string, any>} */
        const found = {};
        for (const [field, { at: offset, type }] of STRUCTS.LAYOUTS[name].fields) {
            const place = at + offset;
            if (type in STRUCTS.LAYOUTS) found[field] = this.read(place, type);
            else if (type === "uint8_t") found[field] = view.getUint8(place);
            else if (type === "int32_t") found[field] = view.getInt32(place, true);
            else if (type === "uint64_t") found[field] = STRUCTS.exact(view.getBigUint64(place, true));
            else if (type === "pointer") found[field] = Number(view.getBigUint64(place, true));
            else if (type.startsWith("uint8_t[")) found[field] = this.bytes(place, STRUCTS.layoutOf(type).size);
        }
        return found;
    }

    /**
     * @param {number} at
     * @returns {SignInput}
     */
    readInput(at) {
        const all = this.read(at, "cose_signature_input");
        /** @param {string} name */
        const part = (name) => all[name].slice(0, all[`${name}_length`]);
        const [x, y, digest, signature] = ["x", "y", "digest", "signature"].map(part);
        return { crv: all.crv, ySign: all.y_sign, x, y, digest, signature, place: all.place };
    }

    /**
     * @param {number} at
     * @param {number} [input]
     * @returns {Verdict}
     */
    readVerdict(at, input) {
        const all = this.read(at, "cose_message_verdict");
        const { status, reason, place, kind, alg, taken } = all;
        /** @type {Verdict} */
        const verdict = {
            status,
            reason,
            place,
            kind,
            alg,
            payloadAt: all.payload_at,
            payloadLength: all.payload_length,
            taken,
        };
        if (status === STRUCTS.STATUS.SIGNED && input !== undefined) verdict.input = this.readInput(input);
        return verdict;
    }

    /** @param {string} name of a struct */
    layout(name) {
        return STRUCTS.LAYOUTS[name];
    }

    // ---- one call over memory, under terms and requirements, which terms.js puts where the module reads them

    /**
     * Verifies a message as `verify` does, under terms, whose defaults are safe. Where its payload is detached, pass it.
     * @param {Uint8Array | KeyTable} keys
     * @param {Uint8Array} message
     * @param {Terms & {payload?: Uint8Array}} [terms]
     */
    authenticate(keys, message, terms = {}) {
        return STATED.authenticate(this, bytesOfKeys(keys), message, terms);
    }

    /**
     * The claims of a token under terms, where they meet requirements. Where it is SIGNED `authenticate` it, and call `admitClaims`.
     * @param {Uint8Array | KeyTable} keys
     * @param {Uint8Array} token
     * @param {Terms & Requirements} options
     */
    admit(keys, token, options) {
        return STATED.admit(this, bytesOfKeys(keys), token, options);
    }

    /**
     * The claims of a payload that is known to be authentic, where they meet the requirements.
     * @param {Uint8Array} payload
     * @param {Requirements & {large?: boolean}} options
     */
    admitClaims(payload, options) {
        return STATED.admitClaims(this, payload, options);
    }

    // ---- one call over memory

    /**
     * Verifies a message under a COSE_Key, a COSE_KeySet, or a table of keys. Where its payload is detached, pass it.
     * @param {Uint8Array | KeyTable} keys
     * @param {Uint8Array} message
     * @param {Options & {payload?: Uint8Array}} options
     * @returns {Verdict}
     */
    verify(keys, message, { aad = STRUCTS.NOTHING, wanted = STRUCTS.WANTED.TAGGED, large = false, payload } = {}) {
        return this.scoped((scope) => {
            const at = scope.room(STRUCTS.LAYOUTS.cose_message_verdict.size);
            const input = scope.room(STRUCTS.LAYOUTS.cose_signature_input.size);
            const under = keys instanceof BLOCKS.KeyTable ? [keys.handle] : scope.put(keys);
            const detached = payload === undefined ? [] : scope.put(payload);
            if (keys instanceof BLOCKS.KeyTable && payload !== undefined) throw new Error("a table has no call for detached payloads");
            const name = `${keys instanceof BLOCKS.KeyTable ? "table_" : large ? "large_" : ""}verify${payload ? "_detached" : ""}`;
            this.exports[`cose_edge_${name}`](
                ...under,
                ...scope.put(aad),
                wanted,
                ...scope.put(message),
                ...detached,
                at,
                input,
            );
            return this.readVerdict(at, input);
        });
    }

    /**
     * The shape of a message, of which nothing is authenticated.
     * @param {Uint8Array} message
     * @param {{wanted?: number}} options
     */
    shape(message, { wanted = STRUCTS.WANTED.TAGGED } = {}) {
        return this.scoped((scope) => {
            const at = scope.room(STRUCTS.LAYOUTS.cose_message_shape.size);
            this.exports.cose_edge_shape(wanted, ...scope.put(message), at);
            const all = this.read(at, "cose_message_shape");
            const { status, reason, place, kind, taken } = all;
            const [payloadLength, authLength] = [all.payload_length, all.auth_length];
            return { status, reason, place, kind, payloadLength, authLength, taken };
        });
    }

    /**
     * How many usable keys a COSE_Key or a COSE_KeySet has.
     * @param {Uint8Array} keys
     */
    readKeys(keys) {
        return this.scoped((scope) => {
            const at = scope.room(STRUCTS.LAYOUTS.cose_key_set.size);
            this.exports.cose_edge_read_keys(...scope.put(keys), at);
            const { status, reason, place, usable } = this.read(at, "cose_key_set");
            return { status, reason, place, usable };
        });
    }

    // ---- tokens

    /**
     * @param {Scope} scope
     * @param {Policy} policy
     */
    putPolicy(scope, { now, leeway = 0, audience }) {
        const at = scope.room(STRUCTS.LAYOUTS.cose_policy.size);
        const [text, length] = scope.put(new TextEncoder().encode(audience ?? ""));
        const view = new DataView(this.rooms.memory.buffer);
        /** @param {string} name */
        const place = (name) => at + /** @type {{at: number}} */ (STRUCTS.LAYOUTS.cose_policy.fields.get(name)).at;
        view.setBigInt64(place("now"), BigInt(now), true);
        view.setUint32(place("leeway"), leeway, true);
        view.setUint8(place("has_audience"), audience === undefined ? 0 : 1);
        view.setUint32(place("audience"), text, true);
        view.setBigUint64(place("audience_length"), length, true);
        return at;
    }

    /**
     * Verifies a token that is a COSE_Mac0, and reads its claims. Of a COSE_Sign1 the status is SIGNED: verify it, and call `claims`.
     * @param {Uint8Array | KeyTable} keys
     * @param {Uint8Array} token
     * @param {Policy & {aad?: Uint8Array, large?: boolean}} options
     * @returns {Claims}
     */
    verifyCwt(keys, token, { aad = STRUCTS.NOTHING, large = false, ...policy }) {
        return this.scoped((scope) => {
            const at = scope.room(STRUCTS.LAYOUTS.cose_claims_set.size);
            const under = keys instanceof BLOCKS.KeyTable ? [keys.handle] : scope.put(keys);
            const name = keys instanceof BLOCKS.KeyTable ? "table_" : large ? "large_" : "";
            const external = scope.put(aad);
            const conditions = this.putPolicy(scope, policy);
            this.exports[`cose_edge_${name}verify_cwt`](...under, ...external, conditions, ...scope.put(token), at);
            return this.readClaims(at, token);
        });
    }

    /**
     * Reads the claims of a payload that is known to be authentic.
     * @param {Uint8Array} payload
     * @param {Policy & {large?: boolean}} options
     * @returns {Claims}
     */
    claims(payload, { large = false, ...policy }) {
        return this.scoped((scope) => {
            const at = scope.room(STRUCTS.LAYOUTS.cose_claims_set.size);
            const conditions = this.putPolicy(scope, policy);
            this.exports[`cose_edge_${large ? "large_" : ""}claims`](...scope.put(payload), conditions, at);
            return this.readClaims(at, payload);
        });
    }

    /**
     * @param {number} at
     * @param {Uint8Array} whole what the ranges' payload is a part of
     * @returns {Claims}
     */
    readClaims(at, whole) {
        const all = this.read(at, "cose_claims_set");
        const { status, reason, place } = all;
        const [payloadAt, payloadLength] = [all.payload_at, all.payload_length];
        /** @type {Claims} */
        const claims = { status, reason, place, payloadAt, payloadLength, aud: [] };
        if (status !== STRUCTS.STATUS.AUTHENTIC) return claims;
        const payload = whole.subarray(payloadAt, payloadAt + payloadLength);
        /** @param {{at: number, length: number, present: number}} range */
        const bytes = (range) => (range.present ? STRUCTS.copyOf(payload, range.at, range.length) : undefined);
        const text = new TextDecoder("utf-8", { ignoreBOM: true });
        for (const name of /** @type {const} */ (["iss", "sub"])) {
            const content = bytes(all[name]);
            if (content) claims[name] = text.decode(content);
        }
        const cti = bytes(all.cti);
        if (cti) claims.cti = cti;
        for (const name of /** @type {const} */ (["exp", "nbf", "iat"])) {
            const { number, present, negative } = all[name];
            if (present) claims[name] = negative ? -1n - BigInt(number) : BigInt(number);
        }
        if (all.aud_count > 0) putAudience(claims, payload, all.aud, all.aud_count);
        const [kid, x, y] = [all.cnf_kid, all.cnf_x, all.cnf_y].map(bytes);
        if (kid || all.cnf_crv) claims.cnf = {};
        if (claims.cnf && kid) claims.cnf.kid = kid;
        if (claims.cnf && all.cnf_crv) Object.assign(claims.cnf, { crv: all.cnf_crv, x, y: y ?? all.cnf_y_sign === 2 });
        return claims;
    }

    /**
     * The claim of any label, of claims that were read: the bytes of its item, which `decodeItem` makes a value.
     * @param {Uint8Array} payload
     * @param {number | bigint | string} label
     * @returns {Uint8Array | undefined}
     */
    claim(payload, label) {
        return this.scoped((scope) => {
            const at = scope.room(STRUCTS.LAYOUTS.cose_item.size);
            if (typeof label === "string") {
                const name = scope.put(new TextEncoder().encode(label));
                this.exports.cose_edge_claim_named(...scope.put(payload), ...name, at);
            } else {
                this.exports.cose_edge_claim(...scope.put(payload), STRUCTS.labelOf(label), at);
            }
            const item = this.read(at, "cose_item");
            return item.present ? STRUCTS.copyOf(payload, item.at, item.length) : undefined;
        });
    }

    /**
     * A header parameter of a message that is known to be authentic: the bytes of its item, which `decodeItem` makes a value. Those of
     * the unprotected header are not authentic: anyone may have changed them.
     * @param {Uint8Array} message
     * @param {number | bigint | string} label
     * @param {{protected: boolean, wanted?: number, large?: boolean}} options
     * @returns {Uint8Array | undefined}
     */
    parameter(message, label, { protected: isProtected, wanted = STRUCTS.WANTED.TAGGED, large = false }) {
        return this.scoped((scope) => {
            const at = scope.room(STRUCTS.LAYOUTS.cose_item.size);
            const name = `cose_edge_${large ? "large_" : ""}parameter`;
            const before = [wanted, ...scope.put(message), isProtected ? 1 : 0];
            if (typeof label === "string") {
                this.exports[`${name}_named`](...before, ...scope.put(new TextEncoder().encode(label)), at);
            } else {
                this.exports[name](...before, STRUCTS.labelOf(label), at);
            }
            const item = this.read(at, "cose_item");
            return item.present ? STRUCTS.copyOf(message, item.at, item.length) : undefined;
        });
    }

    /**
     * Which key of a set a message is verified with, by `authenticate` under the same terms: where its item begins in the set, and its
     * bytes. `wanted` of the terms is the kind of the message, 17 or 18. Nothing is authenticated: ask after the verdict.
     * @param {Uint8Array} keys
     * @param {Uint8Array} message
     * @param {Terms} terms
     * @returns {{place: number, item: Uint8Array} | undefined}
     */
    keyOf(keys, message, terms) {
        return this.scoped((scope) => {
            const at = scope.room(STRUCTS.LAYOUTS.cose_item.size);
            const name = `cose_edge_${terms.large ? "large_" : ""}key_of`;
            this.exports[name](STATED.terms(this, scope, keys, terms), ...scope.put(message), at);
            const item = this.read(at, "cose_item");
            return item.present ? { place: item.at, item: STRUCTS.copyOf(keys, item.at, item.length) } : undefined;
        });
    }

    /**
     * Why the key of a set that is the item at this place isn't the one that a message is verified with: the number of the first
     * condition that it fails, of MISMATCH, which is 0 where it fits. `wanted` of the terms is the kind of the message, 17 or 18.
     * @param {Uint8Array} keys
     * @param {Uint8Array} message
     * @param {number | bigint} place
     * @param {Terms} terms
     * @returns {{status: number, reason: number, condition: number, place: number}}
     */
    mismatch(keys, message, place, terms) {
        return this.scoped((scope) => {
            const at = scope.room(STRUCTS.LAYOUTS.cose_key_fit.size);
            const name = `cose_edge_${terms.large ? "large_" : ""}mismatch`;
            this.exports[name](STATED.terms(this, scope, keys, terms), ...scope.put(message), BigInt(place), at);
            return this.read(at, "cose_key_fit");
        });
    }

    /**
     * The text string of this number, from 0, of the audience that a payload names.
     * @param {Uint8Array} payload
     * @param {number} index
     * @returns {Uint8Array | undefined}
     */
    audience(payload, index) {
        return this.scoped((scope) => {
            const at = scope.room(STRUCTS.LAYOUTS.cose_range.size);
            this.exports.cose_edge_audience(...scope.put(payload), BigInt(index), at);
            const range = this.read(at, "cose_range");
            return range.present ? STRUCTS.copyOf(payload, range.at, range.length) : undefined;
        });
    }
}

/** @param {Uint8Array | KeyTable} keys */
const bytesOfKeys = (keys) => (keys instanceof BLOCKS.KeyTable ? keys.keys : keys);

/**
 * Gives claims their audience: text strings that follow one another, of which the first is the range. They are decoded when they
 * are read first, from a copy. The library has read them: each has a head with its length (RFC 8949 section 3), and is UTF-8.
 * @param {Claims} claims
 * @param {Uint8Array} payload
 * @param {{at: number, length: number}} first
 * @param {number} count
 */
function putAudience(claims, payload, first, count) {
    const rest = STRUCTS.copyOf(payload, first.at, payload.length - first.at);
    const decoder = new TextDecoder("utf-8", { ignoreBOM: true });
    const decode = () => {
        const found = [];
        for (let at = 0, length = first.length; found.length < count; ) {
            found.push(decoder.decode(rest.subarray(at, at + length)));
            at += length;
            const width = widthOf(rest[at]);
            length = width === 0 ? rest[at] & 31 : 0;
            for (const byte of rest.subarray(at + 1, at + 1 + width)) length = length * 256 + byte;
            at += 1 + width;
        }
        return found;
    };
    /** @type {string[] | undefined} */
    let aud;
    Object.defineProperty(claims, "aud", { enumerable: true, configurable: true, get: () => (aud ??= decode()) });
}

/**
 * How many bytes of a length follow the first byte of a text string's head.
 * @param {number} first
 */
const widthOf = (first) => ((first & 31) < 24 ? 0 : 2 ** ((first & 31) - 24));

if (typeof module === "object") {
    const { STATUS, WANTED, FIELDS, LAYOUTS, copyOf } = STRUCTS;
    const { UNMET, MISMATCH } = STATED;
    Object.assign(module.exports, { Cose, ...BLOCKS, STATUS, WANTED, UNMET, MISMATCH, FIELDS, LAYOUTS, copyOf });
}
