// What the answer shows: the verdict in words, the phases, the header parameters, the payload with its claims, and the keys.
"use strict";

/**
 * The verdict: its tone, a title and sentences.
 * @typedef {object} Words
 * @property {"good" | "bad" | "unknown"} tone
 * @property {string} title
 * @property {string[]} sentences
 * @property {string} [technical] the library's reason, the place and the phase
 * @property {boolean} [asksKind] whether the kind of the message is to be chosen
 * @property {{place: number, what: string}} [fault] the place that is marked in the message
 */

/**
 * @param {Inquiry} request
 * @param {Answer} answer
 * @returns {Words}
 */
function wordsOf(request, answer) {
    const { picture, refusal } = answer;
    const kind = picture.kind === 17 ? "COSE_Mac0" : picture.kind === 18 ? "COSE_Sign1" : "message";
    if (answer.state === "fault") return { tone: "unknown", title: "No answer", sentences: [answer.fault ?? ""] };
    if (answer.state === "keys refused" && refusal) {
        const [clause, ...sentences] = refusalWords({ where: "keys", request, picture, refusal });
        const technical = `${reasonOf(refusal.reason).name} at byte ${refusal.place} of the keys`;
        return { tone: "unknown", title: `The keys are refused: ${clause}`, sentences: [...sentences, "Nothing is known of the message."], technical };
    }
    if (answer.state === "refused" && refusal) return refusedWords(request, answer, refusal);
    if (answer.state === "no keys") {
        const sentence = picture.isDetached ? `The payload of this ${kind} is detached.` : `This is a ${kind} with a payload of ${bytesCount(answer.payloadLength)}.`;
        return { tone: "unknown", title: "Not verified: there is no key", sentences: [sentence, "Anybody may have made it."] };
    }
    if (answer.state === "not verified") {
        const name = EDDSA_CURVES[/** @type {keyof typeof EDDSA_CURVES} */ (answer.crv)];
        return { tone: "unknown", title: `Not verified: it is signed by ${name}`, sentences: ["This browser verifies no such signature.", "Anybody may have made it."] };
    }
    return authenticWords(request, answer, kind);
}

/**
 * @param {Inquiry} request
 * @param {Answer} answer
 * @param {{reason: number, place: number}} refusal
 * @returns {Words}
 */
function refusedWords(request, answer, refusal) {
    const { picture } = answer;
    const [clause, ...sentences] = refusalWords({ where: "message", request, picture, refusal });
    if (!request.keys) sentences.push("No key was looked at.");
    if (answer.keys.some((it) => it.state === "left out")) sentences.push("One that would isn't allowed by what is stated of keys.");
    const phase = phaseOf(refusal, picture);
    const where = refusal.reason === TRAILING ? "after its last byte" : `phase ${phase} of 13: ${PHASES[phase - 1]}`;
    return {
        tone: "bad",
        title: `Refused: ${clause}`,
        sentences,
        technical: `${reasonOf(refusal.reason).name} at byte ${refusal.place}, ${where}`,
        asksKind: refusal.reason === WRONG_TAG && isUntagged(picture),
        fault: { place: refusal.place, what: `${clause}.` },
    };
}

const WRONG_TAG = 7;

/**
 * @param {Inquiry} request
 * @param {Answer} answer
 * @param {string} kind
 * @returns {Words}
 */
function authenticWords(request, answer, kind) {
    const algorithm = ALGORITHM_NAMES.get(answer.alg) ?? `algorithm ${answer.alg}`;
    const how =
        answer.isSignatureGood === undefined
            ? `The MAC of this ${kind} (${algorithm}) is that of the chosen key.`
            : `WebCrypto finds the signature of this ${kind} (${algorithm}) good.`;
    const payload = `Its payload has ${bytesCount(answer.payloadLength)}.`;
    const { claims, picture } = answer;
    if (!claims) return { tone: "good", title: "Authentic", sentences: [how, payload] };
    if (claims.status === STATUS.AUTHENTIC) {
        return { tone: "good", title: "Authentic, and admitted as a token", sentences: [admittedText(claims, request.requirements.now), how] };
    }
    return notAdmittedWords(request, picture, claims, how);
}

/**
 * An authentic token whose claims are refused, or don't meet what is required.
 * @param {Inquiry} request
 * @param {Picture} picture
 * @param {Claims} claims
 * @param {string} how it is authentic
 * @returns {Words}
 */
function notAdmittedWords(request, picture, claims, how) {
    const refusal = /** @type {const} */ ({ where: "claims" });
    const isUnmet = claims.status === STATUS.UNMET;
    const it = { ...refusal, request, picture, refusal: claims };
    const [clause, ...sentences] = isUnmet ? unmetWords(it) : refusalWords(it);
    const name = isUnmet ? `Unmet ${Stated.UNMET[claims.reason]}` : reasonOf(claims.reason).name;
    const words = /** @type {const} */ ({ tone: "bad", title: `Authentic, but refused: ${clause}` });
    // a requirement of a claim that isn't there has no place
    if (isUnmet && claims.place === 0) return { ...words, sentences: [...sentences, how], technical: `${name}, a claim that isn't there` };
    const place = (picture.payload?.from ?? 0) + claims.place;
    const technical = `${name} at byte ${place}, which is byte ${claims.place} of the payload`;
    return { ...words, sentences: [...sentences, how], technical, fault: { place, what: `${clause}.` } };
}

/**
 * @param {Claims} claims
 * @param {bigint} now
 */
function admittedText({ exp, aud }, now) {
    const until = exp === undefined ? "It never expires." : `It expires at ${momentText(exp, now)}.`;
    return aud.length ? until : `${until} It names no audience.`;
}

/**
 * The phases in their order, and what became of each.
 * @param {HTMLElement} host
 * @param {Answer} answer
 */
function showPhases(host, answer) {
    const isRefused = answer.state === "refused" && answer.refusal && answer.refusal.reason !== TRAILING;
    const stop = isRefused && answer.refusal ? phaseOf(answer.refusal, answer.picture) : 14;
    const isVerified = answer.state === "authentic" || answer.state === "refused" || answer.state === "not verified";
    const rows = PHASES.map((text, index) => {
        const phase = index + 1;
        const isKnown = isVerified && (phase !== 13 || isDecided(answer));
        const isAsked = isKnown || (answer.state === "no keys" && phase !== 8 && phase !== 13 && !(answer.picture.isDetached && phase > 9));
        const state = phase === stop ? "refused" : phase < stop && isAsked ? "passed" : "not reached";
        return element("li", { "data-state": state }, element("span", { class: "text" }, text), element("span", { class: "state" }, state));
    });
    host.replaceChildren(...rows);
}

/**
 * Whether the last phase has an answer: of a message that something follows, and of a signature that this browser can't verify, it has none.
 * @param {Answer} answer
 */
function isDecided({ state, refusal, picture, isSignatureGood }) {
    if (state === "not verified") return false;
    return refusal?.reason !== TRAILING || picture.kind !== 18 || isSignatureGood !== undefined;
}

/** @param {string} text */
const comment = (text) => `/ ${text.replaceAll("/", "|")} /`;

/**
 * A map, with what its labels and values stand for as comments.
 * @param {Item} map
 * @param {(label: Item) => string | undefined} nameOf
 * @param {(label: Item, value: Item) => string | undefined} noteOf
 */
function commentedMap(map, nameOf, noteOf) {
    const lines = pairsOf(map).map(({ label, value }) => {
        const [name, note] = [nameOf(label), noteOf(label, value)];
        return `        ${name ? `${comment(name)} ` : ""}${diagnostic(label)}: ${diagnostic(value)}${note ? ` ${comment(note)}` : ""}`;
    });
    return lines.length ? `{\n${lines.join(",\n")}\n    }` : "{}";
}

/**
 * The message in diagnostic notation, with what is encoded in its byte strings in << >>.
 * @param {HTMLElement} host
 * @param {Uint8Array} message
 * @param {Picture} picture
 */
function showNotation(host, message, picture) {
    const { protectedMap, unprotectedMap, payload, auth, claims, isDetached } = picture;
    if (!unprotectedMap || !payload || !auth) return host.replaceChildren();
    /** @param {{from: number, to: number}} range */
    const bytes = ({ from, to }) => bytesText(message.subarray(from, to));
    const content = claims ? `<< ${commentedMap(claims, claimName, claimNote)} >>` : isDetached ? "null" : bytes(payload);
    const elements = [
        ["protected", protectedMap ? `<< ${commentedMap(protectedMap, headerName, headerNote)} >>` : "h''"],
        ["unprotected", commentedMap(unprotectedMap, headerName, headerNote)],
        ["payload", content],
        [picture.kind === 18 ? "signature" : "tag", bytes(auth)],
    ];
    const array = `[\n${elements.map(([name, text]) => `    ${comment(name)} ${text}`).join(",\n")}\n]`;
    const text = picture.tags.reduceRight((inner, tag) => `${tag}(${inner})`, array);
    const notation = element("details", {}, element("summary", {}, "In diagnostic notation"), element("pre", {}, text));
    host.replaceChildren(notation);
    return undefined;
}

/**
 * The label of a pair as the library is asked for it, where it can be.
 * @param {Item} label
 */
function labelAsked(label) {
    if (label.type === "text") return textOf(label.bytes);
    return label.type === "integer" && BigInt.asIntN(64, label.number) === label.number ? label.number : undefined;
}

/** The library reads a map anew for each label: one up to so many bytes. */
const SHORT_MAP = 1024;

/**
 * The value of a label as the library hands it out, of an authentic message; what this page reads of a message that isn't, and of a
 * longer map.
 * @param {Answer} answer
 * @param {Item} map
 * @param {{label: Item, value: Item}} pair
 * @param {(label: bigint | string) => Uint8Array | undefined} ask
 */
function valueHandedOut(answer, map, { label, value }, ask) {
    const isAsked = answer.state === "authentic" && map.end - map.at <= SHORT_MAP;
    const asked = isAsked ? labelAsked(label) : undefined;
    const bytes = asked === undefined ? undefined : ask(asked);
    return bytes ? (wholeItem(bytes) ?? value) : value;
}

/**
 * @param {HTMLElement} host
 * @param {Inquiry} request
 * @param {Answer} answer
 */
function showHeaders(host, { message, terms: { wanted } }, answer) {
    const { protectedMap, unprotectedMap } = answer.picture;
    const buckets = /** @type {const} */ ([["protected", protectedMap], ["unprotected", unprotectedMap]]);
    const rows = buckets.flatMap(([bucket, map]) =>
        (map ? pairsOf(map) : []).map((pair) => () => {
            /** @param {bigint | string} label */
            const ask = (label) => state.cose?.parameter(message, label, { protected: bucket === "protected", wanted, large: true });
            const value = map ? valueHandedOut(answer, map, pair, ask) : pair.value;
            const { label } = pair;
            return [headerName(label) ?? "not registered here", diagnostic(label), code(diagnostic(value)), headerNote(label, value) ?? "", bucket];
        }),
    );
    if (!rows.length) return host.replaceChildren(element("p", {}, "There are none that could be read."));
    host.replaceChildren(...shortTable("Header parameters", ["Name", "Label", "Value", "Meaning", "Bucket"], rows));
    return undefined;
}

/**
 * @param {HTMLElement} host
 * @param {Inquiry} request
 * @param {Answer} answer
 */
function showPayload(host, request, answer) {
    const { picture } = answer;
    const isAuthentic = answer.state === "authentic";
    const caution = isAuthentic ? [] : [element("p", { class: "caution" }, "Nobody vouches for what is shown here: the message isn't authentic.")];
    if (picture.isDetached) {
        const file = request.payload ? `The file has ${bytesCount(request.payload.size)}.` : "It comes as a file.";
        return host.replaceChildren(...(isAuthentic ? [] : caution), element("p", {}, `The payload is detached. ${file}`));
    }
    if (!picture.payload) return host.replaceChildren(element("p", {}, "There is none that could be read."));
    if (picture.claims) return host.replaceChildren(...caution, ...claimsTable(picture.claims, request, answer));
    const bytes = request.message.subarray(picture.payload.from, picture.payload.to);
    return host.replaceChildren(...caution, ...payloadTexts(bytes));
}

/**
 * @param {Item} claims
 * @param {Inquiry} request
 * @param {Answer} answer
 */
function claimsTable(claims, { message, requirements: { now } }, answer) {
    const payload = message.subarray(answer.picture.payload?.from ?? 0, answer.picture.payload?.to ?? 0);
    /** @param {bigint | string} label */
    const ask = (label) => state.cose?.claim(payload, label);
    const rows = pairsOf(claims).map((pair) => () => {
        // those of claims that the library read alone
        const value = answer.claims ? valueHandedOut(answer, claims, pair, ask) : pair.value;
        return [claimTitle(pair.label), diagnostic(pair.label), code(diagnostic(value)), claimMeaning(pair.label, value, now)];
    });
    return shortTable("Claims", ["Name", "Label", "Value", "Meaning"], rows);
}

/** @param {Item} label */
function claimTitle(label) {
    const [name, title] = [claimName(label), CLAIM_TITLES.get(labelNumber(label))];
    return title ? `${title} (${name})` : (name ?? "not registered here");
}

/**
 * What the value of a claim means, with how far a date is from the time of admission.
 * @param {Item} label
 * @param {Item} value
 * @param {bigint} now
 */
function claimMeaning(label, value, now) {
    const note = claimNote(label, value) ?? "";
    return DATE_MEANINGS.has(labelNumber(label)) && value.type === "integer" ? `${note}, ${relativeText(value.number, now)}` : note;
}

/** So many rows of a table are shown at first. */
const MOST_ROWS = 100;

/**
 * A table of the first rows, and a button for the others.
 * @param {string} caption
 * @param {string[]} columns
 * @param {(() => (Node | string)[])[]} rows
 */
function shortTable(caption, columns, rows) {
    const first = table(caption, columns, rows.slice(0, MOST_ROWS).map((row) => row()));
    if (rows.length <= MOST_ROWS) return [first];
    const button = element("button", { type: "button" }, `Show all ${rows.length.toLocaleString("en")}`);
    button.addEventListener("click", () => {
        button.remove();
        first.replaceWith(table(caption, columns, rows.map((row) => row())));
    });
    return [first, element("p", { class: "more" }, button)];
}

/** @param {Uint8Array} bytes */
function payloadTexts(bytes) {
    const item = bytes.length <= LONGEST_CLAIMS ? wholeItem(bytes) : undefined;
    const text = bytes.length <= LONGEST_CLAIMS ? textOf(bytes) : undefined;
    const isText = text !== undefined && text !== "" && !/[\u0000-\u0008\u000b\u000c\u000e-\u001f\u007f-\u009f]/.test(text);
    const rest = bytes.length > SHOWN ? [element("p", { class: "hint" }, `The first ${SHOWN} of ${bytesCount(bytes.length)}.`)] : [];
    if (!bytes.length) return [element("p", {}, "It is empty.")];
    if (isText) return [element("p", { class: "hint" }, `Text of ${bytesCount(bytes.length)}:`), element("pre", { dir: "ltr" }, text)];
    if (item && item.type !== "integer") return [element("p", { class: "hint" }, "CBOR in diagnostic notation:"), element("pre", {}, diagnostic(item))];
    return [element("pre", { class: "hex" }, hexOf(bytes.subarray(0, SHOWN))), ...rest];
}

const KEY_STATES = new Map([
    ["chosen", "chosen"],
    ["fits", "fits"],
    ["left out", "left out"],
    ["other", "doesn't fit"],
    ["unusable", "not usable"],
    ["unasked", "not asked"],
]);

/**
 * @param {HTMLElement} host
 * @param {KeyAnswer[]} keys
 */
function showKeys(host, keys) {
    if (!keys.length) return host.replaceChildren(element("p", {}, "There are none."));
    const rows = keys.map(({ item, state, why }, index) => {
        const mark = element("span", { class: "key_state", "data-state": state }, KEY_STATES.get(state) ?? "");
        const kid = item.type === "map" ? valueOf(item, 2) : undefined;
        const alg = item.type === "map" ? valueOf(item, 3) : undefined;
        return () => [String(index + 1), mark, keyTitle(item), kid ? kidText(kid) : "", alg ? algorithmText(alg) : "", why ?? ""];
    });
    host.replaceChildren(...shortTable("Keys", ["Key", "State", "Type", "kid", "alg", "Why"], rows));
    return undefined;
}

/** @param {Item} kid */
function kidText(kid) {
    const note = kid.type === "bytes" ? printable(kid.bytes) : undefined;
    return element("span", {}, code(diagnostic(kid)), note ? ` ${note}` : "");
}
