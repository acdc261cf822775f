// What the library says of a message: the verdict, the key, and the admission of a token. Each verdict is the library's; WebCrypto says
// whether a signature is good.
"use strict";

/**
 * What is asked.
 * @typedef {object} Inquiry
 * @property {Uint8Array} message
 * @property {Uint8Array} [keys]
 * @property {Terms & {aad: Uint8Array, wanted: number}} terms
 * @property {Blob} [payload] a detached payload
 * @property {Requirements & {now: bigint, leeway: number}} requirements
 */

/**
 * @typedef {object} KeyAnswer
 * @property {Item} item
 * @property {"chosen" | "fits" | "left out" | "other" | "unusable" | "unasked"} state
 * @property {Uint8Array} bytes
 * @property {string} [why]
 */

/**
 * @typedef {object} Answer
 * @property {Picture} picture
 * @property {"authentic" | "refused" | "not verified" | "keys refused" | "no keys" | "fault"} state
 * @property {{reason: number, place: number}} [refusal] of the message, or of the keys
 * @property {string} [fault]
 * @property {number} alg
 * @property {number} payloadLength
 * @property {number} taken
 * @property {boolean} [isSignatureGood] what WebCrypto says, where it was asked
 * @property {number} [crv] the curve of a signature that this browser can't verify
 * @property {KeyAnswer[]} keys
 * @property {Claims} [claims] the admission of a token that is authentic
 */

/** How many bytes of a file are read at once. */
const CHUNK = 2 ** 20;

/** A newer request has come. */
class Stale extends Error {}

/**
 * The answer to a request. `progress` is called with the bytes of a file that were read, and says whether to go on.
 * @param {Cose} cose
 * @param {Inquiry} request
 * @param {(done: number, total: number) => boolean} progress
 * @returns {Promise<Answer>}
 */
async function answerTo(cose, request, progress) {
    const picture = pictureOf(request.message, request.terms.wanted);
    /** @type {Answer} */
    const answer = { picture, state: "no keys", alg: 0, payloadLength: 0, taken: 0, keys: [] };
    if (!request.keys) return withShape(cose, request, answer);
    const keySet = cose.readKeys(request.keys);
    if (keySet.status !== STATUS.COMPLETE) return { ...answer, state: "keys refused", refusal: keySet };
    const isLeft = isLeftToEddsa(cose, request, picture);
    answer.keys = keyAnswers(cose, request, picture, isLeft ? eddsaKeyAnswer : keyAnswer);
    const decided = await (isLeft ? eddsaVerdict : verdictOn)(cose, request, progress, answer);
    if (decided.state === "authentic" && picture.payload && isToken(picture)) {
        const payload = request.message.subarray(picture.payload.from, picture.payload.to);
        decided.claims = cose.admitClaims(payload, { ...request.requirements, large: true });
    }
    return decided;
}

/**
 * Whether a payload is to be admitted: by the tag of a CWT, or as a map with a claim that admission reads.
 * @param {Picture} picture
 */
function isToken({ isCwt, isDetached, claims }) {
    const isRead = claims && pairsOf(claims).some((it) => labelNumber(it.label) >= 1 && labelNumber(it.label) <= 8);
    return !isDetached && (isCwt || Boolean(isRead));
}

/**
 * The shape of a message for which there is no key. A payload that is detached isn't refused here.
 * @param {Cose} cose
 * @param {Inquiry} request
 * @param {Answer} answer
 * @returns {Answer}
 */
function withShape(cose, { message, terms }, answer) {
    const shape = cose.shape(message, { wanted: terms.wanted });
    const isDetached = answer.picture.isDetached && reasonOf(shape.reason).name === "Detached";
    if (shape.status === STATUS.COMPLETE || isDetached) return { ...answer, taken: shape.taken, payloadLength: shape.payloadLength };
    return { ...answer, state: "refused", refusal: shape };
}

/**
 * The verdict under the terms: of a message in memory by one call; of one with a detached payload that call chooses the key, and a
 * verifier with this key alone is fed.
 * @param {Cose} cose
 * @param {Inquiry} request
 * @param {(done: number, total: number) => boolean} progress
 * @param {Answer} answer
 * @returns {Promise<Answer>}
 */
async function verdictOn(cose, request, progress, answer) {
    const keys = /** @type {Uint8Array} */ (request.keys);
    const detached = request.payload ? { payload: NOTHING } : {};
    const verdict = cose.authenticate(keys, request.message, { ...request.terms, large: true, ...detached });
    const { status, reason, input } = verdict;
    const found = { ...answer, alg: verdict.alg, payloadLength: verdict.payloadLength, taken: verdict.taken };
    if (status !== STATUS.REFUSED && status !== STATUS.AUTHENTIC && status !== STATUS.SIGNED) return { ...answer, state: "fault", fault: faultOf(status) };
    const chosen = answer.keys.find((it) => it.state === "chosen");
    if (request.payload && chosen && (status !== STATUS.REFUSED || reason === BAD_AUTH)) return fed(cose, request, chosen.bytes, progress, answer);
    if (status === STATUS.REFUSED) return { ...answer, state: "refused", refusal: verdict };
    if (status === STATUS.AUTHENTIC || !input) return { ...found, state: "authentic" };
    const isSignatureGood = await signatureHolds(request, input, answer.picture);
    if (isSignatureGood === true) return { ...found, isSignatureGood, state: "authentic" };
    return { ...found, isSignatureGood, state: "refused", refusal: { reason: BAD_AUTH, place: input.place } };
}

/**
 * The verdict by a verifier that is fed: a message in memory, and its detached payload in pieces.
 * @param {Cose} cose
 * @param {Inquiry} request
 * @param {Uint8Array} key
 * @param {(done: number, total: number) => boolean} progress
 * @param {Answer} answer
 * @returns {Promise<Answer>}
 */
async function fed(cose, request, key, progress, answer) {
    const { message, terms } = request;
    const payload = /** @type {Blob} */ (request.payload);
    const verifier = new Verifier(cose, { large: true });
    try {
        const { aad, wanted } = terms;
        const opened = verifier.open(key, { aad, wanted, payloadLength: payload.size });
        if (opened.status !== STATUS.MORE) return { ...answer, state: "fault", fault: faultOf(opened.status) };
        const first = verifier.feed(message);
        await feedFile(verifier, payload, progress);
        const rest = verifier.feed(message.subarray(first.used));
        const last = rest.status === STATUS.MORE ? verifier.end() : rest;
        if (last.status !== STATUS.COMPLETE) return { ...answer, state: "refused", refusal: last };
        return await decided(verifier, request, first.used + rest.used, answer);
    } finally {
        verifier.close();
    }
}

/**
 * Feeds a file in pieces, none of which is kept.
 * @param {Verifier} verifier
 * @param {Blob} file
 * @param {(done: number, total: number) => boolean} progress
 */
async function feedFile(verifier, file, progress) {
    for (let at = 0; at < file.size; at += CHUNK) {
        const piece = new Uint8Array(await file.slice(at, at + CHUNK).arrayBuffer());
        if (!progress(at, file.size)) throw new Stale();
        verifier.feedPayload(piece);
    }
    if (!progress(file.size, file.size)) throw new Stale();
}

/**
 * The verdict on a complete message.
 * @param {Verifier} verifier
 * @param {Inquiry} request
 * @param {number} used
 * @param {Answer} answer
 * @returns {Promise<Answer>}
 */
async function decided(verifier, request, used, answer) {
    const input = verifier.signInput();
    const isSignatureGood = input && (await signatureHolds(request, input, answer.picture));
    const verdict = verifier.verdict(isSignatureGood === true, input);
    const found = { ...answer, isSignatureGood, alg: verdict.alg, payloadLength: verdict.payloadLength, taken: verdict.taken };
    if (verdict.status !== STATUS.AUTHENTIC) return { ...found, state: "refused", refusal: verdict };
    const isTrailed = used < request.message.length;
    return isTrailed ? { ...found, state: "refused", refusal: { reason: TRAILING, place: used } } : { ...found, state: "authentic" };
}

const BAD_AUTH = 28;
const TRAILING = 42;

/**
 * Whether a signature is good. WebCrypto takes no digest and no pieces, so it gets the whole structure.
 * @param {Inquiry} request
 * @param {SignInput} input
 * @param {Picture} picture
 */
async function signatureHolds(request, input, picture) {
    const structure = sigStructure(protectedOf(request.message), request.terms.aad, await payloadOf(request, picture));
    return isGoodSignature(input, structure);
}

/**
 * @param {Inquiry} request
 * @param {Picture} picture
 */
async function payloadOf({ message, payload }, picture) {
    if (payload) return new Uint8Array(await payload.arrayBuffer());
    return message.subarray(picture.payload?.from ?? 0, picture.payload?.to ?? 0);
}

/** @param {number} status */
function faultOf(status) {
    return status === STATUS.AAD_TOO_LONG ? "The external data has more than 65,535 bytes." : `The library answers with status ${status}.`;
}

/**
 * Of each key whether it fits: the library reads the message as far as the choice of the key, under this key alone.
 * @param {Cose} cose
 * @param {Inquiry} request
 * @param {Picture} picture
 * @param {typeof keyAnswer} answerOf
 * @returns {KeyAnswer[]}
 */
function keyAnswers(cose, request, picture, answerOf) {
    const found = keysIn(cose, /** @type {Uint8Array} */ (request.keys));
    const answers = found.map((key) => answerOf(cose, request, picture, key));
    const fitting = answers.filter((it) => it.state === "fits");
    if (fitting.length === 1) fitting[0].state = "chosen";
    for (const it of fitting.length > 1 ? fitting : []) it.why = "it fits, and so does another: none is chosen";
    return answers;
}

/** The terms under which every key is used. */
const ALL_KEYS = { algorithms: undefined, leastSecret: 0, shortMac: true, withoutAlg: true };

/**
 * @param {Cose} cose
 * @param {Inquiry} request
 * @param {Picture} picture
 * @param {KeyFound} key
 * @returns {KeyAnswer}
 */
function keyAnswer(cose, { message, terms }, picture, { bytes, item, keySet }) {
    const isUsable = item.type === "map" && (keySet.usable === 1 || isEddsaKey(item));
    if (!isUsable) return { bytes, item, state: "unusable", why: libraryWords(keySet.reason) };
    const front = frontOf(message, picture);
    /** @param {Terms} stated */
    const reasonUnder = (stated) => cose.authenticate(bytes, front, { ...terms, ...stated, large: true }).reason;
    const reason = reasonUnder({});
    if (isPastKeyChoice(reason, picture)) return { bytes, item, state: "fits" };
    if (!NO_KEY_FITS.includes(reason)) return { bytes, item, state: "unasked", why: UNASKED };
    if (isPastKeyChoice(reasonUnder(ALL_KEYS), picture)) return { bytes, item, state: "left out", why: LEFT_OUT };
    return { bytes, item, state: "other", why: `${libraryWords(reason)}. The message asks for ${askedOf(picture)}.` };
}

const UNASKED = "the message is refused before a key is chosen";
const LEFT_OUT = "it would fit, and isn't allowed by what is stated of keys";

/**
 * A message without the content of its payload, so that no more than the headers counts.
 * @param {Uint8Array} message
 * @param {Picture} picture
 */
const frontOf = (message, picture) => message.subarray(0, picture.payload?.from ?? message.length);

/**
 * Whether a front is refused, if at all, only once a key is chosen.
 * @param {number} reason
 * @param {Picture} picture
 */
const isPastKeyChoice = (reason, picture) => PAST_KEY_CHOICE.includes(reason) || (reason <= TRUNCATED && picture.payload !== undefined);

const TRUNCATED = 1;

/**
 * The library's reason, by its name and its meaning.
 * @param {number} reason
 */
function libraryWords(reason) {
    const { name, meaning } = reasonOf(reason);
    return reason ? `${name}: ${meaning}` : "the library ignores it";
}

/** What is refused only once a key is chosen: Detached, PayloadTooLong, Attached, and what follows. */
const PAST_KEY_CHOICE = [26, 27, 28, 29, 43];
