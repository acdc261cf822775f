// The numbers and the structs of include/cose.h, which the scripts over the WebAssembly module have in common.
//
// As cose.js, which a page reads after this one, it is a script without imports, and a module of Node.
"use strict";

/** The statuses of include/cose.h, by their names. */
const STATUS = Object.freeze({
    // made by ci/edge_tables: statuses
    MORE: 0,
    AUTHENTIC: 1,
    SIGNED: 2,
    REFUSED: 3,
    KEYS_REFUSED: 4,
    AAD_TOO_LONG: 5,
    PAYLOAD_NEXT: 6,
    COMPLETE: 7,
    CLAIMS_REFUSED: 8,
    BAD_AUDIENCE: 9,
    CLOSED: 10,
    STOPPED: 11,
    BAD_ARGUMENT: 12,
    UNMET: 13,
    // end of what ci/edge_tables makes
});

/** The messages that are wanted: by their tag, or of one kind with its tag or without. */
const WANTED = Object.freeze({ TAGGED: 0, MAC0: 17, SIGN1: 18 });

/** The structs of include/cose.h: each field with its type in C, in their order. */
const FIELDS = Object.freeze({
    // made by ci/edge_tables: structs
    cose_policy: [
        "int64_t now", "uint32_t leeway", "uint8_t has_audience", "pointer audience", "uint64_t audience_length",
    ],
    cose_range: ["uint64_t at", "uint64_t length", "uint8_t present"],
    cose_date: ["uint64_t number", "uint8_t present", "uint8_t negative"],
    cose_claims_set: [
        "uint8_t status", "uint8_t reason", "uint64_t place", "uint64_t payload_at", "uint64_t payload_length",
        "cose_range iss", "cose_range sub", "cose_range aud", "cose_range cti", "uint64_t aud_count", "cose_date exp",
        "cose_date nbf", "cose_date iat", "cose_range cnf_kid", "cose_range cnf_x", "cose_range cnf_y",
        "uint8_t cnf_crv", "uint8_t cnf_y_sign",
    ],
    cose_eddsa_input: [
        "uint8_t status", "uint8_t reason", "uint8_t crv", "uint8_t has_kid", "int32_t alg", "uint64_t place",
        "pointer kid", "uint64_t kid_length", "pointer x", "uint64_t x_length", "pointer header",
        "uint64_t header_length", "pointer payload", "uint64_t payload_length", "pointer signature",
        "uint64_t signature_length",
    ],
    cose_pieces: [
        "uint64_t protected_length", "uint8_t context_length", "uint8_t protected_head_length",
        "uint8_t aad_head_length", "uint8_t payload_head_length", "uint8_t[12] context", "uint8_t[9] protected_head",
        "uint8_t[9] aad_head", "uint8_t[9] payload_head",
    ],
    cose_chosen_key: [
        "int32_t alg", "uint8_t crv", "uint8_t y_sign", "uint8_t has_kid", "pointer kid", "uint64_t kid_length",
        "pointer k", "uint64_t k_length", "pointer x", "uint64_t x_length", "pointer y", "uint64_t y_length",
    ],
    cose_received_signature: ["uint64_t length", "uint8_t[132] signature"],
    cose_device_verifier: ["pointer at"],
    cose_large_verifier: ["pointer at"],
    cose_maker: ["pointer at"],
    cose_signer: ["pointer at"],
    cose_table: ["pointer at"],
    cose_verifier: ["pointer at"],
    cose_signature_input: [
        "uint8_t crv", "uint8_t y_sign", "uint64_t x_length", "uint64_t y_length", "uint64_t digest_length",
        "uint64_t signature_length", "uint64_t place", "uint8_t[66] x", "uint8_t[66] y", "uint8_t[64] digest",
        "uint8_t[132] signature",
    ],
    cose_item: [
        "uint64_t at", "uint64_t length", "uint64_t content_at", "uint64_t number", "uint8_t present", "uint8_t major",
    ],
    cose_key_fit: ["uint8_t status", "uint8_t reason", "uint8_t condition", "uint64_t place"],
    cose_key_set: ["uint8_t status", "uint8_t reason", "uint64_t place", "uint64_t usable"],
    cose_made: ["uint8_t status", "uint8_t reason", "uint64_t length"],
    cose_status: ["uint8_t status", "uint8_t reason", "uint64_t place"],
    cose_message_verdict: [
        "uint8_t status", "uint8_t reason", "uint8_t kind", "int32_t alg", "uint64_t place", "uint64_t payload_at",
        "uint64_t payload_length", "uint64_t taken",
    ],
    cose_requirements: [
        "uint32_t size", "uint32_t leeway", "int64_t now", "uint64_t lifetime", "uint64_t age", "pointer iss",
        "uint64_t iss_length", "pointer sub", "uint64_t sub_length", "pointer aud", "uint64_t aud_length",
        "uint8_t present", "uint8_t permitted",
    ],
    cose_message_shape: [
        "uint8_t status", "uint8_t reason", "uint8_t kind", "uint64_t place", "uint64_t payload_length",
        "uint64_t auth_length", "uint64_t taken",
    ],
    cose_terms: [
        "uint32_t size", "uint8_t kind", "uint8_t permitted", "uint64_t least_secret", "uint64_t payload_limit",
        "pointer keys", "uint64_t keys_length", "pointer aad", "uint64_t aad_length", "int32_t[16] algorithms",
        "int64_t[16] understood",
    ],
    cose_fed: ["cose_status status", "uint64_t used", "uint64_t payload_at", "uint64_t payload_length"],
    // end of what ci/edge_tables makes
});

const SIZES = Object.freeze({
    uint8_t: 1,
    int32_t: 4,
    uint32_t: 4,
    uint64_t: 8,
    int64_t: 8,
    pointer: 8,
});

/**
 * @typedef {object} Layout
 * @property {number} size
 * @property {number} align
 * @property {Map<string, {at: number, type: string}>} fields
 */

/**
 * The layout of a type by the rules of C on a target of 64 bits. The module's pointers have 32 bits, and lie in the first half of
 * their 8 bytes.
 * @param {string} type
 * @returns {Layout}
 */
function layoutOf(type) {
    const array = /^(\w+)\[(\d+)\]$/.exec(type);
    if (array) {
        const one = layoutOf(array[1]);
        return { ...one, size: one.size * Number(array[2]) };
    }
    if (type in SIZES) {
        const size = SIZES[/** @type {keyof typeof SIZES} */ (type)];
        return { size, align: size, fields: new Map() };
    }
    const fields = new Map();
    let [size, align] = [0, 1];
    for (const field of FIELDS[/** @type {keyof typeof FIELDS} */ (type)]) {
        const [its, name] = field.split(" ");
        const layout = layoutOf(its);
        size = Math.ceil(size / layout.align) * layout.align;
        fields.set(name, { at: size, type: its });
        size += layout.size;
        align = Math.max(align, layout.align);
    }
    return { size: Math.ceil(size / align) * align, align, fields };
}

/** @type {Record<string, Layout>} */
const LAYOUTS = Object.fromEntries(Object.keys(FIELDS).map((name) => [name, layoutOf(name)]));

/** No bytes. */
const NOTHING = new Uint8Array();

/**
 * A label, which has 64 bits.
 * @param {number | bigint} label
 */
function labelOf(label) {
    const number = BigInt(label);
    if (BigInt.asIntN(64, number) !== number) throw new RangeError("a label has 64 bits");
    return number;
}

/**
 * A number, as a BigInt only where it isn't exact otherwise.
 * @param {bigint} number
 * @returns {any}
 */
function exact(number) {
    return number <= BigInt(Number.MAX_SAFE_INTEGER) ? Number(number) : number;
}

/**
 * A copy of a range. (`slice` of a Buffer of Node copies nothing.)
 * @param {Uint8Array} bytes
 * @param {number} at
 * @param {number} length
 */
const copyOf = (bytes, at, length) => new Uint8Array(bytes.subarray(at, at + length));

if (typeof module === "object") {
    Object.assign(module.exports, { STATUS, WANTED, FIELDS, LAYOUTS, NOTHING, layoutOf, labelOf, exact, copyOf });
}
