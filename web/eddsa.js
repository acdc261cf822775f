// Messages that are signed by EdDSA (RFC 9053 section 2.2): the library's call for them says what the signature is verified with. It
// takes no terms, so the keys that those leave out are left out here. WebCrypto says whether a signature is good, where it has Ed25519.
"use strict";

/** EdDSA, and the algorithms of one of its curves (RFC 9053 section 2.2, RFC 9864 section 2.2). */
const EDDSA_ALGORITHMS = [-8, -19, -53];
/** The header buckets of such a message: the most bytes of one, and how deep it nests. */
const EDDSA_LIMITS = Object.freeze({ bytes: 1024, depth: 8 });

/** The number of the curve that browsers have (RFC 9053 section 7.1). */
const ED25519 = 6;
const [TOO_DEEP, PAST_ROOM, NO_ALG, UNKNOWN_ALG] = [5, 6, 21, 22];
/** A map without pairs, in the place of a key that is left out: the library ignores it. */
const NO_PAIRS = new Uint8Array([0xa0]);

/**
 * Whether an item names EdDSA as an algorithm.
 * @param {Item | undefined} alg
 */
const isEddsa = (alg) => alg !== undefined && EDDSA_ALGORITHMS.includes(labelNumber(alg));

/**
 * Whether an item is a key of the type OKP on a curve of EdDSA.
 * @param {Item} item
 */
function isEddsaKey(item) {
    if (item.type !== "map") return false;
    const [type, curve] = [1, -1].map((label) => valueOf(item, label));
    return type !== undefined && labelNumber(type) === 1 && curve !== undefined && labelNumber(curve) in EDDSA_CURVES;
}

/**
 * Whether the terms allow such a key, by the rule that the library has for other keys: where algorithms are stated, the key names one of
 * them as its own; where none is, it names any, unless a key without one is allowed.
 * @param {Item} item
 * @param {Terms} terms
 */
function isAllowed(item, { algorithms, withoutAlg = false }) {
    const own = item.type === "map" ? valueOf(item, 3) : undefined;
    if (algorithms) return own !== undefined && algorithms.includes(labelNumber(own));
    return own !== undefined || withoutAlg;
}

/**
 * The key set in which those that the terms leave out are no keys.
 * @param {Cose} cose
 * @param {Inquiry} request
 */
function allowedKeys(cose, { keys = NOTHING, terms }) {
    const kept = keysIn(cose, keys).map(({ bytes, item }) => (isAllowed(item, terms) ? bytes : NO_PAIRS));
    return kept.length === 1 ? kept[0] : joined(headOf(4, kept.length), ...kept);
}

/**
 * Whether the call for EdDSA finds more in the headers of a message than that of the terms, which finds no algorithm that it knows.
 * @param {Cose} cose
 * @param {Inquiry} request
 * @param {Picture} picture
 */
function isLeftToEddsa(cose, request, picture) {
    const { keys = NOTHING, terms } = request;
    const front = frontOf(request.message, picture);
    const { reason } = cose.authenticate(keys, front, { ...terms, large: true });
    if (reason !== UNKNOWN_ALG && reason !== NO_ALG) return false;
    const { aad, wanted } = terms;
    const other = verifyEddsa(cose, allowedKeys(cose, request), front, { aad, wanted });
    return ![reason, TOO_DEEP, PAST_ROOM].includes(other.reason);
}

/**
 * What the library says of one key for a message that is left to EdDSA, and whether the terms allow that key.
 * @param {Cose} cose
 * @param {Inquiry} request
 * @param {Picture} picture
 * @param {KeyFound} key
 * @returns {KeyAnswer}
 */
function eddsaKeyAnswer(cose, { message, terms: { aad, wanted, ...terms } }, picture, { bytes, item, keySet }) {
    if (keySet.status !== STATUS.COMPLETE || item.type !== "map") return { bytes, item, state: "unusable", why: libraryWords(keySet.reason) };
    const { reason } = verifyEddsa(cose, bytes, frontOf(message, picture), { aad, wanted });
    if (isPastKeyChoice(reason, picture)) return isAllowed(item, terms) ? { bytes, item, state: "fits" } : { bytes, item, state: "left out", why: LEFT_OUT };
    if (!NO_KEY_FITS.includes(reason)) return { bytes, item, state: "unasked", why: UNASKED };
    return { bytes, item, state: "other", why: `${libraryWords(reason)}. The message asks for ${askedOf(picture)}.` };
}

/**
 * The verdict on a message that is left to EdDSA. EdDSA hashes a part of the signature first, so a detached payload is in memory as a
 * whole: where a key is chosen, since nothing else needs it.
 * @param {Cose} cose
 * @param {Inquiry} request
 * @param {(done: number, total: number) => boolean} progress
 * @param {Answer} answer
 * @returns {Promise<Answer>}
 */
async function eddsaVerdict(cose, request, progress, answer) {
    const { message, payload: file } = request;
    const { aad, wanted } = request.terms;
    const isChosen = answer.keys.some((it) => it.state === "chosen");
    const payload = file && (isChosen ? await wholeFile(file, progress) : NOTHING);
    const asked = verifyEddsa(cose, allowedKeys(cose, request), message, { aad, wanted, payload });
    if (asked.status !== STATUS.REFUSED && asked.status !== STATUS.SIGNED) return { ...answer, state: "fault", fault: faultOf(asked.status) };
    if (!asked.input || !asked.payload) return { ...answer, state: "refused", refusal: asked };
    const { alg, crv } = asked.input;
    const found = { ...answer, alg, payloadLength: asked.payload.length, taken: message.length };
    const isSignatureGood = await eddsaHolds(asked.input);
    if (isSignatureGood === undefined) return { ...found, state: "not verified", crv };
    if (isSignatureGood === true) return { ...found, isSignatureGood, state: "authentic" };
    return { ...found, isSignatureGood, state: "refused", refusal: { reason: BAD_AUTH, place: asked.place } };
}

/**
 * The bytes of a file.
 * @param {Blob} file
 * @param {(done: number, total: number) => boolean} progress
 */
async function wholeFile(file, progress) {
    if (!progress(0, file.size)) throw new Stale();
    const bytes = new Uint8Array(await file.arrayBuffer());
    if (!progress(file.size, file.size)) throw new Stale();
    return bytes;
}

/**
 * Whether a signature is good, by WebCrypto: nothing where that hasn't the curve. Browsers have no Ed448, and aren't asked for it.
 * @param {EddsaInput} input
 * @returns {Promise<boolean | undefined>}
 */
async function eddsaHolds(input) {
    if (input.crv !== ED25519) return undefined;
    try {
        return await isGoodEddsa(input);
    } catch (fault) {
        if (!(fault instanceof DOMException)) throw fault;
        // any other fault is of bytes that are no point of the curve
        return fault.name === "NotSupportedError" ? undefined : false;
    }
}
