// The page: reads the inputs, asks the library, and shows the answer.
"use strict";

/** A message up to this size is shown in its field, in hexadecimal. */
const SHOWN_FILE = 16384;
/** Messages are held in memory up to this size. */
const LONGEST_MESSAGE = 2 ** 26;

/**
 * What the fields don't hold: a detached payload, a message that is too long for its field, and the number of the last run, since an
 * earlier one is stale.
 * @type {{cose?: Cose, payload?: Blob, message?: Uint8Array, number: number, timer: number}}
 */
const state = { number: 0, timer: 0 };

/**
 * @param {string} id
 * @returns {string}
 */
const valueIn = (id) => /** @type {HTMLInputElement} */ (byId(id)).value;

/**
 * The value of a field, and what is wrong with it next to it.
 * @template T
 * @param {string} id
 * @param {() => T} read
 * @returns {T | undefined}
 */
function checked(id, read) {
    const [field, fault] = [byId(id), byId(`${id}_fault`)];
    fault.textContent = "";
    field.removeAttribute("aria-invalid");
    try {
        return read();
    } catch (problem) {
        if (!(problem instanceof BadInput)) throw problem;
        fault.textContent = problem.message;
        field.setAttribute("aria-invalid", "true");
        return undefined;
    }
}

/**
 * The time of admission: seconds since 1970, a date in UTC, or now.
 * @param {string} text
 * @returns {bigint}
 */
function timeFrom(text) {
    const given = text.trim();
    if (given === "") return BigInt(Math.floor(Date.now() / 1000));
    if (/^-?0+$/.test(given)) throw new BadInput("The time 0 is none.");
    if (/^-?\d{1,18}$/.test(given)) return BigInt(given);
    const date = Date.parse(`${given.replace(" ", "T").replace(/(Z| *UTC)$/i, "")}Z`);
    if (Number.isNaN(date)) throw new BadInput("It is neither a number of seconds nor a date.");
    return BigInt(Math.floor(date / 1000));
}

/**
 * A number of a field, from one on, if it has one.
 * @param {string} id
 * @param {bigint} least
 */
function numberFrom(id, least) {
    const given = valueIn(id).trim();
    if (given === "") return undefined;
    if (!/^\d{1,20}$/.test(given) || BigInt(given) < least || BigInt(given) >= 2n ** 64n) throw new BadInput(`It isn't a whole number from ${least} on.`);
    return BigInt(given);
}

/** @param {string} id */
const isChecked = (id) => /** @type {HTMLInputElement} */ (byId(id)).checked;

/**
 * The boxes of a name.
 * @param {string} name
 * @returns {HTMLInputElement[]}
 */
const boxes = (name) => [...document.querySelectorAll(`#inputs input[name=${name}]`)].map((it) => /** @type {HTMLInputElement} */ (it));

/** @param {string} name */
const chosen = (name) => boxes(name).filter((it) => it.checked).map((it) => it.value);

/**
 * What keys have to be.
 * @returns {Terms | undefined}
 */
function termsOf() {
    const algorithms = chosen("algorithm").map(Number);
    const least = checked("least_secret", () => ({ leastSecret: numberFrom("least_secret", 0n) ?? 0 }));
    return least && { ...least, algorithms: algorithms.length ? algorithms : undefined, shortMac: isChecked("short_mac"), withoutAlg: isChecked("without_alg") };
}

/**
 * What a token has to have.
 * @returns {Requirements & {now: bigint, leeway: number} | undefined}
 */
function requirementsOf() {
    const now = checked("now", () => timeFrom(valueIn("now")));
    const lifetime = checked("max_lifetime", () => ({ maxLifetime: numberFrom("max_lifetime", 1n) }));
    const age = checked("max_age", () => ({ maxAge: numberFrom("max_age", 1n) }));
    if (now === undefined || !lifetime || !age) return undefined;
    const leeway = Math.min(2 ** 32 - 1, Math.max(0, Math.floor(Number(valueIn("leeway")) || 0)));
    const present = chosen("present");
    const [issuer, subject, audience] = ["issuer", "subject", "audience"].map((id) => valueIn(id) || undefined);
    return { now, leeway, issuer, subject, audience, present, withoutExp: !present.includes("exp"), ...lifetime, ...age };
}

/** @returns {Inquiry | undefined} */
function requestOf() {
    const message = state.message ?? checked("message", () => bytesFrom(valueIn("message"), "message"));
    const keys = checked("keys", () => (valueIn("keys").trim() ? keysFrom(valueIn("keys")) : NOTHING));
    const aad = checked("aad", () => hexadecimal(valueIn("aad")) ?? badHexadecimal());
    const [terms, requirements] = [termsOf(), requirementsOf()];
    if (!message?.length || !keys || !aad || !terms || !requirements) return undefined;
    const wanted = Number(valueIn("wanted"));
    return { message, keys: keys.length ? keys : undefined, terms: { ...terms, aad, wanted }, payload: state.payload, requirements };
}

/** @returns {never} */
function badHexadecimal() {
    throw new BadInput("It isn't hexadecimal.");
}

/**
 * @param {Words["tone"] | "none"} tone
 * @param {string} title
 * @param {string[]} sentences
 * @param {{technical?: string, asksKind?: boolean}} more
 */
function showVerdict(tone, title, sentences, { technical = "", asksKind = false } = {}) {
    byId("verdict").dataset.tone = tone;
    byId("verdict_reason").textContent = technical;
    byId("kinds").hidden = !asksKind;
    byId("verdict_title").textContent = title;
    byId("verdict_text").textContent = sentences.join(" ");
}

/** Asks the library about what is in the fields now. */
async function run() {
    state.number += 1;
    const number = state.number;
    const request = requestOf();
    if (!state.cose) return;
    hideDetails();
    if (!request) return showNothing();
    try {
        const answer = await answerTo(state.cose, request, (done, total) => showProgress(number, done, total));
        if (number === state.number) show(request, answer);
    } catch (fault) {
        if (!(fault instanceof Stale)) showVerdict("unknown", "No answer", [String(fault instanceof Error ? fault.message : fault)]);
    } finally {
        if (number === state.number) {
            byId("progress_line").hidden = true;
            byId("answer").dataset.number = String(number);
        }
    }
}

/** What is there while an answer is shown, besides the verdict. */
const SHOWN_PARTS = ["content", "details", "to_details"];

/** Nothing of an earlier answer stays, in closed details neither. */
function hideDetails() {
    for (const id of SHOWN_PARTS) byId(id).hidden = true;
    for (const id of ["payload", "key_list", "bytes", "notation", "phases", "headers"]) byId(id).replaceChildren();
}

function showNothing() {
    const faults = [...document.querySelectorAll("#inputs .fault")].filter((it) => it.textContent);
    for (const it of document.querySelectorAll("#inputs details")) {
        const more = /** @type {HTMLDetailsElement} */ (it);
        more.open ||= faults.some((fault) => more.contains(fault));
    }
    if (faults.length) showVerdict("unknown", "No answer yet", faults.map((it) => it.textContent ?? ""));
    else showVerdict("none", "No message yet", ["Paste one, drop a file, or choose an example."]);
    byId("answer").dataset.number = String(state.number);
}

/**
 * @param {number} number
 * @param {number} done
 * @param {number} total
 */
function showProgress(number, done, total) {
    if (number !== state.number) return false;
    const progress = /** @type {HTMLProgressElement} */ (byId("progress"));
    [progress.max, progress.value] = [Math.max(1, total), done];
    byId("progress_line").hidden = total <= CHUNK;
    if (done === 0 && total > CHUNK) showVerdict("none", "Not known yet", ["The detached payload is being read."]);
    byId("progress_text").textContent = `${done.toLocaleString("en")} of ${bytesCount(total)}`;
    return true;
}

/**
 * @param {Inquiry} request
 * @param {Answer} answer
 */
function show(request, answer) {
    const words = wordsOf(request, answer);
    showVerdict(words.tone, words.title, words.sentences, words);
    for (const id of SHOWN_PARTS) byId(id).hidden = false;
    new BytesView(byId("bytes"), request.message, answer.picture, words.fault);
    showNotation(byId("notation"), request.message, answer.picture);
    showPhases(byId("phases"), answer);
    showHeaders(byId("headers"), request, answer);
    showPayload(byId("payload"), request, answer);
    showKeys(byId("key_list"), answer.keys);
}

// ---- inputs

/** The fields of what a caller states, whose first value is nothing or 0. */
const STATED_FIELDS = ["least_secret", "issuer", "subject", "audience", "max_lifetime", "max_age", "leeway", "aad", "wanted"];
/** The boxes of what is allowed though it is unsafe. */
const PERMITTED = /** @type {const} */ (["short_mac", "without_alg"]);

/** @param {Example} example */
function showExample(example) {
    state.message = undefined;
    state.payload = example.payload?.();
    for (const id of ["message", "keys", "now"]) {
        /** @type {HTMLInputElement} */ (byId(id)).value = example[/** @type {"message" | "keys" | "now"} */ (id)];
    }
    for (const id of STATED_FIELDS) {
        const input = /** @type {HTMLInputElement | HTMLSelectElement} */ (byId(id));
        input.value = input instanceof HTMLSelectElement || id === "leeway" || id === "least_secret" ? "0" : "";
    }
    for (const box of [...boxes("algorithm"), ...boxes("present")]) box.checked = box.defaultChecked;
    for (const id of PERMITTED) /** @type {HTMLInputElement} */ (byId(id)).checked = example.permits?.includes(id) ?? false;
    /** @type {HTMLDetailsElement} */ (byId("more")).open = example.now !== "";
    /** @type {HTMLDetailsElement} */ (byId("keys_used")).open = example.permits !== undefined;
    byId("example_about").hidden = false;
    byId("example_about").textContent = example.about;
    showNames();
    run();
    byId("verdict").scrollIntoView({ block: "nearest" });
}

function showNames() {
    const file = state.message ? `a file of ${bytesCount(state.message.length)}` : "";
    byId("message_name").textContent = file;
    byId("message").setAttribute("placeholder", file && `${file}, too long for this field`);
    const { payload } = state;
    byId("payload_name").textContent = payload ? `${payload instanceof File ? payload.name : "a file"}, ${bytesCount(payload.size)}` : "none";
    byId("payload_remove").hidden = !payload;
}

/**
 * What a file of a field holds: text as it is, other bytes in hexadecimal.
 * @param {string} field
 * @param {File} file
 */
async function openFile(field, file) {
    if (field === "payload") state.payload = file;
    else await openText(field, file);
    showNames();
    await run();
}

/**
 * @param {string} field
 * @param {File} file
 */
async function openText(field, file) {
    const input = /** @type {HTMLTextAreaElement} */ (byId(field));
    if (file.size > LONGEST_MESSAGE) {
        byId(`${field}_fault`).textContent = `The file has more than ${bytesCount(LONGEST_MESSAGE)}.`;
        return;
    }
    const bytes = new Uint8Array(await file.arrayBuffer());
    const text = textOf(bytes);
    const isText = text !== undefined && /^[\x09\x0a\x0d\x20-\x7e]+$/.test(text);
    const isLong = field === "message" && !isText && bytes.length > SHOWN_FILE;
    if (field === "message") state.message = isLong ? bytes : undefined;
    input.value = isText ? text : isLong ? "" : hexOf(bytes);
}

/** Runs soon, since more is typed. */
function runSoon() {
    clearTimeout(state.timer);
    state.timer = setTimeout(run, 150);
}

function listen() {
    byId("inputs").addEventListener("submit", (event) => event.preventDefault());
    for (const id of ["message", "keys", "now", ...STATED_FIELDS, ...PERMITTED]) byId(id).addEventListener("input", runSoon);
    for (const box of [...boxes("algorithm"), ...boxes("present")]) box.addEventListener("input", runSoon);
    byId("message").addEventListener("input", () => {
        state.message = undefined;
        showNames();
    });
    for (const field of ["message", "keys", "payload"]) {
        const input = /** @type {HTMLInputElement} */ (byId(`${field}_file`));
        input.addEventListener("change", async () => {
            const file = input.files?.[0];
            if (file) await openFile(field, file);
            input.value = "";
        });
    }
    byId("payload_remove").addEventListener("click", () => {
        state.payload = undefined;
        showNames();
        byId("payload_file").focus();
        run();
    });
    byId("kinds").addEventListener("click", ({ target }) => {
        const kind = target instanceof HTMLElement ? target.dataset.kind : undefined;
        if (!kind) return;
        /** @type {HTMLSelectElement} */ (byId("wanted")).value = kind;
        byId("verdict").focus();
        run();
    });
    listenToDrops();
}

/** A file that is dropped goes to the field below it, or else to the message. */
function listenToDrops() {
    /** @param {DragEvent} event */
    const fieldOf = (event) => {
        const field = event.target instanceof Element ? event.target.closest("[data-drop]") : null;
        return /** @type {HTMLElement} */ (field ?? document.querySelector("[data-drop=message]"));
    };
    const unmark = () => document.querySelectorAll(".dropping").forEach((it) => it.classList.remove("dropping"));
    document.addEventListener("dragover", (event) => {
        event.preventDefault();
        unmark();
        fieldOf(event).classList.add("dropping");
    });
    document.addEventListener("dragleave", unmark);
    document.addEventListener("drop", (event) => {
        event.preventDefault();
        unmark();
        const file = event.dataTransfer?.files[0];
        if (file) openFile(fieldOf(event).dataset.drop ?? "message", file);
    });
}

/** What this copy of the page, or its address, lacks: a title and a sentence. */
function whatIsMissing() {
    if (typeof COSE_WASM === "undefined") return ["This copy of the page isn't whole", "Its file cose_wasm.js, with the library, is missing: ci/web_module builds it."];
    if (!crypto.subtle) return ["This address can't verify", "A browser has WebCrypto only for a page from a file, from https or from localhost."];
    return undefined;
}

async function start() {
    byId("example_buttons").append(
        ...EXAMPLES.map((example) => {
            const button = element("button", { type: "button" }, example.name);
            button.addEventListener("click", () => showExample(example));
            return button;
        }),
    );
    listen();
    showNames();
    const lack = whatIsMissing();
    if (lack) return showVerdict("unknown", lack[0], [lack[1]]);
    try {
        state.cose = await Cose.load(Uint8Array.from(atob(COSE_WASM), (one) => one.charCodeAt(0)));
        await run();
    } catch (fault) {
        const message = fault instanceof Error ? fault.message : String(fault);
        showVerdict("unknown", "This browser can't verify", [`${message}.`]);
    }
    return undefined;
}

start();
