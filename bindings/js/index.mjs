// The package `cose` for Node: messages and tokens, by the module that ci/web_module builds.
import { readFile } from "node:fs/promises";
import low from "./cose.js";
import edwards from "./cose_eddsa.js";
import elsewhere from "./cose_elsewhere.js";
import signing from "./cose_sign1.js";
import items from "./items.js";
import reasons from "./reasons.js";
import signatures from "./signatures.js";
import tables from "./terms_table.js";

export const { isGoodEddsa } = edwards;
export const { Elsewhere } = elsewhere;
export const { KeyTable, Verifier, Maker, STATUS, WANTED, UNMET, MISMATCH } = low;
export const { Sign1Maker, sign1 } = signing;
export const { decodeItem, Tagged, Simple } = items;
export const { REASONS, reasonOf } = reasons;
export const { sigStructure, protectedOf, isGoodSignature } = signatures;

/** A message, a token or an argument that is refused: the status, and of a refusal the reason and the place. */
export class Refused extends Error {
    /** @param {{status: number, reason: number, place: number}} answer */
    constructor({ status, reason, place }) {
        const name = Object.entries(STATUS).find(([, number]) => number === status)?.[0] ?? `status ${status}`;
        const why = status === STATUS.UNMET ? `UNMET ${UNMET[reason]}` : reason ? reasonOf(reason).name : undefined;
        super(why ? `${why} at ${place}` : name);
        this.status = name;
        this.reason = status === STATUS.UNMET ? UNMET[reason] : why;
        this.place = place;
    }
}

/** The number of BadAuth. */
const BAD_AUTH = 28;

/**
 * What a message is refused with whose signature isn't good.
 * @param {{place: number}} input
 */
const badSignature = ({ place }) => new Refused({ status: STATUS.REFUSED, reason: BAD_AUTH, place });

/**
 * Claims that meet what is required. Else it throws `Refused`.
 * @param {Claims} claims
 */
function met(claims) {
    if (claims.status !== STATUS.AUTHENTIC) throw new Refused(claims);
    return claims;
}

/**
 * The payload of a message with this verdict, whose signature, if it has one, WebCrypto verifies. Else it rejects with `Refused`.
 * @param {Verdict} verdict
 * @param {Uint8Array} message
 * @param {{aad?: Uint8Array, payload?: Uint8Array}} options the external data, and a detached payload
 * @returns {Promise<Uint8Array>}
 */
async function authenticated({ payloadAt, payloadLength, input, ...verdict }, message, { aad = new Uint8Array(), payload }) {
    const content = payload ?? low.copyOf(message, payloadAt, payloadLength);
    if (verdict.status === STATUS.AUTHENTIC) return content;
    if (verdict.status !== STATUS.SIGNED) throw new Refused(verdict);
    if (await isGoodSignature(input, sigStructure(protectedOf(message), aad, content))) return content;
    throw badSignature(input);
}

/** The library. */
export class Cose extends low.Cose {
    /**
     * The payload of a message that is authentic. A signature is verified by WebCrypto. Else it rejects with `Refused`.
     * @param {Uint8Array | KeyTable} keys a COSE_Key or a COSE_KeySet
     * @param {Uint8Array} message
     * @param {{aad?: Uint8Array, wanted?: number, large?: boolean, payload?: Uint8Array}} [options]
     * @returns {Promise<Uint8Array>}
     */
    async payload(keys, message, options = {}) {
        return authenticated(this.verify(keys, message, options), message, options);
    }

    /**
     * What a message that is signed by EdDSA asks of the caller: `input` is what its signature is verified with.
     * @param {Uint8Array} keys a COSE_Key or a COSE_KeySet
     * @param {Uint8Array} message
     * @param {{aad?: Uint8Array, wanted?: number, payload?: Uint8Array}} [options]
     */
    verifyEddsa(keys, message, options) {
        return edwards.verifyEddsa(this, keys, message, options);
    }

    /**
     * The payload of a message that is authentic, and signed by EdDSA. `isGood` is asked about its signature: by default WebCrypto is.
     * Else it rejects with `Refused`.
     * @param {Uint8Array} keys
     * @param {Uint8Array} message
     * @param {{aad?: Uint8Array, wanted?: number, payload?: Uint8Array, isGood?: (input: EddsaInput) => boolean | Promise<boolean>}} [options]
     * @returns {Promise<Uint8Array>}
     */
    async eddsaPayload(keys, message, { isGood = isGoodEddsa, ...options } = {}) {
        const answer = this.verifyEddsa(keys, message, options);
        if (!answer.input || !answer.payload) throw new Refused(answer);
        if ((await isGood(answer.input)) === true) return answer.payload;
        throw badSignature(answer);
    }

    /**
     * The claims of a token that is authentic and admitted at a time: `now`, in seconds since 1970, or else that of the machine's
     * clock. Else it rejects with `Refused`.
     * @param {Uint8Array | KeyTable} keys
     * @param {Uint8Array} token
     * @param {{now?: number | bigint, leeway?: number, audience?: string, aad?: Uint8Array, large?: boolean}} [options]
     */
    async token(keys, token, options = {}) {
        const { now = Math.floor(Date.now() / 1000), leeway, audience, ...others } = options;
        const payload = await this.payload(keys, token, others);
        return met(this.claims(payload, { now, leeway, audience, large: options.large }));
    }

    /**
     * The payload of a message that is authentic under terms, whose defaults are safe. A signature is verified by WebCrypto. Else it
     * rejects with `Refused`.
     * @param {Uint8Array | KeyTable} keys
     * @param {Uint8Array} message
     * @param {Terms & {payload?: Uint8Array}} [terms]
     * @returns {Promise<Uint8Array>}
     */
    async authenticPayload(keys, message, terms = {}) {
        return authenticated(this.authenticate(keys, message, terms), message, terms);
    }

    /**
     * The claims of a token that is authentic under terms and meets the requirements, by default at the time of the machine's clock.
     * Else it rejects with `Refused`.
     * @param {Uint8Array | KeyTable} keys
     * @param {Uint8Array} token
     * @param {Terms & Partial<Requirements>} [options]
     */
    async admitted(keys, token, options = {}) {
        const { now = Math.floor(Date.now() / 1000), ...others } = options;
        const payload = await this.authenticPayload(keys, token, others);
        return met(this.admitClaims(payload, { ...others, now }));
    }
}

/** A table of the keys that terms permit: `new TermsTable(cose, { keys, ...terms })`. `close` it, or the module's memory has it. */
export class TermsTable extends tables.TermsTable {
    /**
     * The payload of a message that is authentic under the table's terms. A signature is verified by WebCrypto. Else it rejects with
     * `Refused`.
     * @param {Uint8Array} message
     * @returns {Promise<Uint8Array>}
     */
    async authenticPayload(message) {
        return authenticated(this.authenticate(message), message, { aad: this.aad });
    }

    /**
     * The claims of a token that is authentic under the table's terms and meets the requirements, by default at the time of the
     * machine's clock. Else it rejects with `Refused`.
     * @param {Uint8Array} token
     * @param {Partial<Requirements>} [requirements]
     */
    async admitted(token, requirements = {}) {
        const { now = Math.floor(Date.now() / 1000), ...others } = requirements;
        const claims = this.admit(token, { ...others, now });
        if (claims.status !== STATUS.SIGNED) return met(claims);
        return met(this.cose.admitClaims(await this.authenticPayload(token), { ...others, now }));
    }
}

/**
 * The library, from the module next to this file or at another place.
 * @param {string | URL} [place]
 * @returns {Promise<Cose>}
 */
export async function load(place = new URL("cose.wasm", import.meta.url)) {
    return /** @type {Promise<Cose>} */ (Cose.load(await readFile(place)));
}
