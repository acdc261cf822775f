// Messages that are signed by EdDSA (RFC 9053 section 2.2), whose signature another library verifies.
//
// As cose.js and signatures.js, which a page reads before this one, it is a script without imports, and a module of Node.
"use strict";

const COMMON = typeof module === "object" ? module.require("./cose.js") : { LAYOUTS, STATUS, WANTED };
const JOINS = typeof module === "object" ? module.require("./signatures.js") : { joined };

/** What EdDSA is by the names of WebCrypto, for the number of a curve (RFC 9053 section 7.1). */
const EDDSA_CURVES = Object.freeze({ 6: "Ed25519", 7: "Ed448" });

/**
 * What an EdDSA signature is verified with: `alg` is -8, -19 (Ed25519) or -53 (Ed448), `crv` 6 or 7; `structure` is what is signed
 * (RFC 9052 section 4.4), which EdDSA hashes itself.
 * @typedef {{alg: number, crv: number, kid?: Uint8Array, x: Uint8Array, structure: Uint8Array, signature: Uint8Array}} EddsaInput
 */

/**
 * Reads a message that is signed by EdDSA, which `verify` refuses, under the OKP keys of a key set. Of SIGNED it is authentic only if the
 * signature of `input` is good; if it isn't, it is refused as BadAuth at `place`.
 * @param {Cose} cose
 * @param {Uint8Array} keys
 * @param {Uint8Array} message
 * @param {{aad?: Uint8Array, wanted?: number, payload?: Uint8Array}} options
 * @returns {{status: number, reason: number, place: number, input?: EddsaInput, payload?: Uint8Array}}
 */
function verifyEddsa(cose, keys, message, { aad = new Uint8Array(), wanted = COMMON.WANTED.TAGGED, payload } = {}) {
    return cose.scoped((scope) => {
        const at = scope.room(COMMON.LAYOUTS.cose_eddsa_input.size);
        const pieces = scope.room(COMMON.LAYOUTS.cose_pieces.size);
        const detached = payload === undefined ? [] : scope.put(payload);
        const name = payload === undefined ? "verify_eddsa" : "verify_eddsa_detached";
        const given = [...scope.put(keys), ...scope.put(aad), wanted, ...scope.put(message), ...detached];
        cose.exports[`cose_edge_${name}`](...given, at, pieces);
        const { status, reason, place, ...all } = cose.read(at, "cose_eddsa_input");
        if (status !== COMMON.STATUS.SIGNED) return { status, reason, place };
        /** @param {string} field */
        const part = (field) => cose.bytes(all[field], all[`${field}_length`]);
        const heads = cose.read(pieces, "cose_pieces");
        /** @param {string} field */
        const head = (field) => heads[field].slice(0, heads[`${field}_length`]);
        const content = part("payload");
        const front = [head("context"), head("protected_head"), part("header"), head("aad_head"), aad, head("payload_head")];
        const structure = JOINS.joined(...front, content);
        const kid = all.has_kid === 1 ? part("kid") : undefined;
        const input = { alg: all.alg, crv: all.crv, kid, x: part("x"), structure, signature: part("signature") };
        return { status, reason, place, input, payload: content };
    });
}

/**
 * Whether a signature is good, by WebCrypto, where that has the curve. It rejects where that hasn't.
 * @param {EddsaInput} input
 * @returns {Promise<boolean>}
 */
async function isGoodEddsa({ crv, x, structure, signature }) {
    const name = EDDSA_CURVES[/** @type {keyof typeof EDDSA_CURVES} */ (crv)];
    const key = await globalThis.crypto.subtle.importKey("raw", x, name, false, ["verify"]);
    return globalThis.crypto.subtle.verify(name, key, signature, structure);
}

if (typeof module === "object") Object.assign(module.exports, { verifyEddsa, isGoodEddsa });
