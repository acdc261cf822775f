// What a caller states of messages and requires of tokens, as the module reads it. What isn't stated is safe.
//
// As cose.js, which a page reads after this one, it is a script without imports, and a module of Node.
"use strict";

/**
 * What a caller states of messages. By default keys for HMAC 256/64 and keys that name no algorithm are left out.
 * @typedef {object} Terms
 * @property {Uint8Array} [aad] the externally supplied data
 * @property {number} [wanted] of WANTED
 * @property {boolean} [large] headers of 65,535 bytes that nest 16 deep
 * @property {number[]} [algorithms] those that are allowed, from 1 to 16: a key has to name one of them as its own
 * @property {number | bigint} [leastSecret] the fewest bytes of a secret
 * @property {number | bigint} [payloadLimit] the most bytes of a payload, from 1 on
 * @property {(number | bigint)[]} [understood] labels that crit may list in addition to the standard's
 * @property {boolean} [shortMac] with no algorithms stated, allow keys for HMAC 256/64, whose tag one guess in 2^64 meets
 * @property {boolean} [withoutAlg] with none stated, allow keys that name no algorithm, a secret only with `shortMac` too
 */

/**
 * What a caller requires of tokens. By default `exp` has to be there.
 * @typedef {object} Requirements
 * @property {number | bigint} now the current time, in seconds since 1970
 * @property {number} [leeway]
 * @property {string} [issuer] what `iss` has to be
 * @property {string} [subject] what `sub` has to be
 * @property {string} [audience] what `aud` has to name
 * @property {string[]} [present] the names of claims that have to be there, as "cti"
 * @property {number | bigint} [maxLifetime] `exp` is at most so many seconds after now, and after `iat` where it is there; from 1 on
 * @property {number | bigint} [maxAge] `iat` is at most so many seconds before now, and not after it; from 1 on
 * @property {boolean} [withoutExp] admit a token that never expires
 */

/**
 * Numbers that aren't 0, at most 16.
 * @param {(number | bigint)[]} numbers
 * @param {string} name
 */
function listed(numbers, name) {
    if (numbers.length > 16 || numbers.some((number) => BigInt(number) === 0n)) throw new RangeError(`${name} isn't up to 16 numbers`);
    return numbers;
}

/**
 * A number that is stated, which isn't 0, or 0.
 * @param {number | bigint | undefined} number
 * @param {string} name
 */
function stated(number, name) {
    if (number !== undefined && BigInt(number) === 0n) throw new RangeError(`${name} is 0`);
    return number ?? 0;
}

/** The structs that a caller fills. */
class Stated {
    /** The requirements of tokens by their numbers: what `reason` is where a status is UNMET. First the claims that aren't there. */
    static UNMET = Object.freeze([
        "",
        ...["iss", "sub", "aud", "exp", "nbf", "iat", "cti"],
        ...["issuer", "subject", "audience", "lifetime", "age", "issued"],
    ]);

    /** The conditions under which a key fits a message, by their numbers, in the order in which they are checked. */
    static MISMATCH = Object.freeze(["", "algorithm", "key type", "curve", "operation", "identifier", "not permitted"]);

    /**
     * Writes the fields of a struct: a value for each, and of an array those that are stated before zeros.
     * @param {DataView} view of the struct
     * @param {Map<string, {at: number, type: string}>} fields
     * @param {Record<string, any>} values
     */
    static write(view, fields, values) {
        for (const [field, { at, type }] of fields) {
            const [, sign, bits, count] = /** @type {string[]} */ (/^(u?)(?:int(\d+)_t|pointer)(?:\[(\d+)\])?$/.exec(type));
            const width = Number(bits ?? 64);
            for (let index = 0; index < Number(count ?? 1); index += 1) {
                const value = BigInt((count ? values[field][index] : values[field]) ?? 0);
                const fitting = sign || !bits ? BigInt.asUintN(width, value) : BigInt.asIntN(width, value);
                if (fitting !== value) throw new RangeError(`${field} is out of its range`);
                for (let byte = 0; byte < width / 8; byte += 1) {
                    const place = at + (index * width) / 8 + byte;
                    view.setUint8(place, Number((value >> BigInt(8 * byte)) & 255n));
                }
            }
        }
    }

    /**
     * Puts a struct, which begins with its size, where the module reads it.
     * @param {Cose} cose
     * @param {Scope} scope
     * @param {string} name
     * @param {Record<string, any>} values
     */
    static put(cose, scope, name, values) {
        const { size, fields } = cose.layout(name);
        const at = scope.room(size);
        Stated.write(new DataView(cose.rooms.memory.buffer, at, size), fields, { size, ...values });
        return at;
    }

    /**
     * Puts the terms where the module reads them.
     * @param {Cose} cose
     * @param {Scope} scope
     * @param {Uint8Array} keys
     * @param {Terms} terms
     */
    static terms(cose, scope, keys, terms) {
        const { aad = new Uint8Array(), wanted = 0, algorithms, payloadLimit, understood = [] } = terms;
        const [keysAt, keysLength] = scope.put(keys);
        const [aadAt, aadLength] = scope.put(aad);
        if (algorithms?.length === 0) throw new RangeError("algorithms is empty");
        return Stated.put(cose, scope, "cose_terms", {
            kind: wanted,
            permitted: (terms.shortMac ? 1 : 0) + (terms.withoutAlg ? 2 : 0),
            least_secret: terms.leastSecret ?? 0,
            payload_limit: stated(payloadLimit, "payloadLimit"),
            keys: keysAt,
            keys_length: keysLength,
            aad: aadAt,
            aad_length: aadLength,
            algorithms: listed(algorithms ?? [], "algorithms"),
            understood: listed(understood, "understood"),
        });
    }

    /**
     * Opens the block of a verifier under terms.
     * @param {Verifier} verifier
     * @param {Uint8Array} keys
     * @param {Terms & {payloadLength?: number | bigint}} options
     */
    static open(verifier, keys, { payloadLength, ...terms }) {
        const cose = verifier.cose;
        verifier.asked = undefined;
        const old = verifier.kept.length;
        const status = cose.scoped((scope) => {
            const at = scope.room(cose.layout("cose_status").size);
            // the block leads to the keys and to the external data until it is opened again
            const kept = { ...scope, room: scope.room.bind(scope), put: verifier.keep.bind(verifier) };
            const given = Stated.terms(cose, /** @type {Scope} */ (kept), keys, terms);
            if (payloadLength === undefined) verifier.call("open_under", true)(verifier.handle, given, at);
            else verifier.call("open_under_detached", true)(verifier.handle, given, BigInt(payloadLength), at);
            return cose.read(at, "cose_status");
        });
        verifier.opened(old);
        return status;
    }

    /**
     * Puts the requirements where the module reads them.
     * @param {Cose} cose
     * @param {Scope} scope
     * @param {Requirements} requirements
     */
    static requirements(cose, scope, requirements) {
        const { issuer, subject, audience, present = [], maxLifetime, maxAge } = requirements;
        /** @type {Record<string, any>} */
        const texts = {};
        for (const [name, text] of /** @type {const} */ ([["iss", issuer], ["sub", subject], ["aud", audience]])) {
            if (text === "") throw new RangeError(`${name} is empty`);
            [texts[name], texts[`${name}_length`]] = scope.put(new TextEncoder().encode(text ?? ""));
        }
        if (requirements.now === undefined) throw new RangeError("now isn't stated");
        const numbers = present.map((name) => Stated.UNMET.indexOf(name));
        if (numbers.some((number) => number < 1 || number > 7)) throw new RangeError("present has a name that is no claim's");
        return Stated.put(cose, scope, "cose_requirements", {
            leeway: requirements.leeway ?? 0,
            now: requirements.now,
            lifetime: stated(maxLifetime, "maxLifetime"),
            age: stated(maxAge, "maxAge"),
            ...texts,
            present: numbers.reduce((flags, number) => flags | (1 << (number - 1)), 0),
            permitted: requirements.withoutExp ? 1 : 0,
        });
    }

    /**
     * @param {Cose} cose
     * @param {Uint8Array} keys
     * @param {Uint8Array} message
     * @param {Terms & {payload?: Uint8Array}} options
     * @returns {Verdict}
     */
    static authenticate(cose, keys, message, { payload, ...terms }) {
        return cose.scoped((scope) => {
            const [at, input] = ["cose_message_verdict", "cose_signature_input"].map((name) => scope.room(cose.layout(name).size));
            const under = Stated.terms(cose, scope, keys, terms);
            const detached = payload === undefined ? [] : scope.put(payload);
            const name = payload ? "authenticate_detached" : "authenticate";
            cose.exports[`cose_edge_${terms.large ? "large_" : ""}${name}`](under, ...scope.put(message), ...detached, at, input);
            return cose.readVerdict(at, input);
        });
    }

    /**
     * @param {Cose} cose
     * @param {Uint8Array} keys
     * @param {Uint8Array} token
     * @param {Terms & Requirements} options
     * @returns {Claims}
     */
    static admit(cose, keys, token, options) {
        return cose.scoped((scope) => {
            const at = scope.room(cose.layout("cose_claims_set").size);
            const terms = Stated.terms(cose, scope, keys, options);
            const required = Stated.requirements(cose, scope, options);
            cose.exports[`cose_edge_${options.large ? "large_" : ""}admit`](terms, required, ...scope.put(token), at);
            return cose.readClaims(at, token);
        });
    }

    /**
     * @param {Cose} cose
     * @param {Uint8Array} payload
     * @param {Requirements & {large?: boolean}} options
     * @returns {Claims}
     */
    static admitClaims(cose, payload, options) {
        return cose.scoped((scope) => {
            const at = scope.room(cose.layout("cose_claims_set").size);
            const required = Stated.requirements(cose, scope, options);
            cose.exports[`cose_edge_${options.large ? "large_" : ""}admit_claims`](required, ...scope.put(payload), at);
            return cose.readClaims(at, payload);
        });
    }
}

if (typeof module === "object") Object.assign(module.exports, { Stated });
