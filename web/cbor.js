// Reads CBOR (RFC 8949) with the place of each item, for the picture of a message, and writes it in diagnostic notation. What is
// accepted and refused the library says; this reader also takes indefinite lengths, so that they can be shown.
"use strict";

/**
 * An item: `at` is the place of its head, `content` that of what follows the head, and `end` that after it.
 * @typedef {object} Item
 * @property {number} at
 * @property {number} content
 * @property {number} end
 * @property {"integer" | "bytes" | "text" | "array" | "map" | "tag" | "simple" | "float" | "break"} type
 * @property {bigint} number an integer, a tag's number, a simple value, or how many bytes or children there are
 * @property {boolean} isIndefinite
 * @property {number} float
 * @property {Uint8Array} bytes the content of a byte string or a text string
 * @property {Item[]} children of a map its labels and values in turn
 */

/** Bytes that aren't an item. */
class NotCbor extends Error {
    /** @param {number} place */
    constructor(place) {
        super(`no item at ${place}`);
        this.place = place;
    }
}

const DEEPEST = 64;

/**
 * A head: the major type, the argument if there is one, and where it ends.
 * @param {Uint8Array} bytes
 * @param {number} at
 */
function headAt(bytes, at) {
    if (at >= bytes.length) throw new NotCbor(at);
    const [major, low] = [bytes[at] >> 5, bytes[at] & 31];
    if (low < 24 || low === 31) return { major, low, argument: BigInt(low), end: at + 1 };
    if (low > 27) throw new NotCbor(at);
    const end = at + 1 + 2 ** (low - 24);
    if (end > bytes.length) throw new NotCbor(at);
    let argument = 0n;
    for (let place = at + 1; place < end; place += 1) argument = (argument << 8n) | BigInt(bytes[place]);
    return { major, low, argument, end };
}

/**
 * A float of two, four or eight bytes.
 * @param {Uint8Array} bytes
 */
function floatOf(bytes) {
    const view = new DataView(bytes.buffer, bytes.byteOffset, bytes.length);
    if (bytes.length === 8) return view.getFloat64(0);
    if (bytes.length === 4) return view.getFloat32(0);
    const bits = view.getUint16(0);
    const [sign, exponent, fraction] = [bits >> 15 ? -1 : 1, (bits >> 10) & 31, bits & 1023];
    if (exponent === 31) return fraction ? NaN : sign * Infinity;
    return sign * (exponent ? (1024 + fraction) * 2 ** (exponent - 25) : fraction * 2 ** -24);
}

/**
 * The item that begins at a place.
 * @param {Uint8Array} bytes
 * @param {number} at
 * @param {number} [depth]
 * @returns {Item}
 */
function itemAt(bytes, at, depth = 0) {
    const { major, low, argument, end } = headAt(bytes, at);
    const isIndefinite = low === 31;
    /** @type {Item} */
    const item = {
        at,
        content: end,
        end,
        type: "integer",
        number: argument,
        isIndefinite,
        float: 0,
        bytes: bytes.subarray(end, end),
        children: [],
    };
    if (major === 7) return simpleAt(bytes, item, low);
    if (isIndefinite && (major < 2 || major === 6)) throw new NotCbor(at);
    if (major < 2) return { ...item, number: major ? -1n - argument : argument };
    if (major < 4) return stringAt(bytes, { ...item, type: major === 2 ? "bytes" : "text" }, depth);
    if (depth >= DEEPEST) throw new NotCbor(at);
    const type = /** @type {const} */ (["array", "map", "tag"])[major - 4];
    return childrenAt(bytes, { ...item, type }, depth);
}

/**
 * @param {Uint8Array} bytes
 * @param {Item} item
 * @param {number} low
 * @returns {Item}
 */
function simpleAt(bytes, item, low) {
    if (low === 31) return { ...item, type: "break" };
    if (low < 25) return { ...item, type: "simple" };
    return { ...item, type: "float", float: floatOf(bytes.subarray(item.at + 1, item.end)) };
}

/**
 * @param {Uint8Array} bytes
 * @param {Item} item
 * @param {number} depth
 * @returns {Item}
 */
function stringAt(bytes, item, depth) {
    if (item.isIndefinite) {
        const chunks = untilBreak(bytes, item.content, depth);
        const content = joined(...chunks.children.map((it) => it.bytes));
        return { ...item, end: chunks.end, bytes: content, children: chunks.children };
    }
    const end = item.content + Number(item.number);
    if (end > bytes.length) throw new NotCbor(item.at);
    return { ...item, end, bytes: bytes.subarray(item.content, end) };
}

/**
 * @param {Uint8Array} bytes
 * @param {number} at
 * @param {number} depth
 */
function untilBreak(bytes, at, depth) {
    const children = [];
    let place = at;
    for (;;) {
        const child = itemAt(bytes, place, depth + 1);
        place = child.end;
        if (child.type === "break") return { children, end: place };
        children.push(child);
    }
}

/**
 * @param {Uint8Array} bytes
 * @param {Item} item
 * @param {number} depth
 * @returns {Item}
 */
function childrenAt(bytes, item, depth) {
    if (item.isIndefinite) return { ...item, ...untilBreak(bytes, item.content, depth) };
    const count = item.type === "tag" ? 1 : Number(item.number) * (item.type === "map" ? 2 : 1);
    const children = [];
    let place = item.content;
    for (let i = 0; i < count; i += 1) {
        const child = itemAt(bytes, place, depth + 1);
        if (child.type === "break") throw new NotCbor(place);
        children.push(child);
        place = child.end;
    }
    return { ...item, children, end: place };
}

/**
 * The item that the bytes are, if they are one.
 * @param {Uint8Array} bytes
 * @returns {Item | undefined}
 */
function wholeItem(bytes) {
    try {
        const item = itemAt(bytes, 0);
        return item.end === bytes.length ? item : undefined;
    } catch (fault) {
        if (fault instanceof NotCbor) return undefined;
        throw fault;
    }
}

/**
 * The pairs of a map.
 * @param {Item} item
 * @returns {{label: Item, value: Item}[]}
 */
function pairsOf(item) {
    return Array.from({ length: item.children.length >> 1 }, (_, i) => ({
        label: item.children[2 * i],
        value: item.children[2 * i + 1],
    }));
}

/**
 * The value of a label that is an integer.
 * @param {Item} map
 * @param {number} label
 * @returns {Item | undefined}
 */
function valueOf(map, label) {
    return pairsOf(map).find((it) => it.label.type === "integer" && it.label.number === BigInt(label))?.value;
}

/** @param {Uint8Array} bytes */
const hexOf = (bytes) => Array.from(bytes, (byte) => byte.toString(16).padStart(2, "0")).join("");

/**
 * The text that bytes spell in UTF-8, if they do.
 * @param {Uint8Array} bytes
 * @returns {string | undefined}
 */
function textOf(bytes) {
    try {
        return new TextDecoder("utf-8", { fatal: true, ignoreBOM: true }).decode(bytes);
    } catch {
        return undefined;
    }
}

/** @param {number} number */
function floatText(number) {
    if (Number.isNaN(number)) return "NaN";
    if (!Number.isFinite(number)) return number < 0 ? "-Infinity" : "Infinity";
    return Number.isInteger(number) && Math.abs(number) < 1e21 ? `${number}.0` : String(number);
}

const SIMPLE = new Map([
    [20n, "false"],
    [21n, "true"],
    [22n, "null"],
    [23n, "undefined"],
]);

/** How many bytes of a string are shown. */
const SHOWN = 512;

/**
 * A text string as JSON spells it, where no character is invisible or turns the line around.
 * @param {string} text
 */
function quoted(text) {
    return JSON.stringify(text).replace(
        /[\u007f-\u009f\u00ad\u061c\u200b-\u200f\u2028-\u202e\u2060-\u206f\ufeff\ufff9-\ufffb]/g,
        (one) => `\\u${one.charCodeAt(0).toString(16).padStart(4, "0")}`,
    );
}

/**
 * An item in diagnostic notation (RFC 8949 section 8).
 * @param {Item} item
 * @returns {string}
 */
function diagnostic(item) {
    const dots = item.isIndefinite ? "_ " : "";
    switch (item.type) {
        case "integer":
            return String(item.number);
        case "bytes":
            return bytesText(item.bytes);
        case "text":
            return quoted(textOf(item.bytes)?.slice(0, SHOWN) ?? "not UTF-8");
        case "array":
            return `[${dots}${item.children.map(diagnostic).join(", ")}]`;
        case "map":
            return `{${dots}${pairsOf(item).map(({ label, value }) => `${diagnostic(label)}: ${diagnostic(value)}`).join(", ")}}`;
        case "tag":
            return `${item.number}(${item.children.map(diagnostic).join("")})`;
        case "float":
            return floatText(item.float);
        default:
            return SIMPLE.get(item.number) ?? `simple(${item.number})`;
    }
}

/** @param {Uint8Array} bytes */
function bytesText(bytes) {
    const rest = bytes.length > SHOWN ? ` / and ${(bytes.length - SHOWN).toLocaleString("en")} bytes / ` : "";
    return `h'${hexOf(bytes.subarray(0, SHOWN))}${rest}'`;
}

/**
 * CBOR of an item that this page makes: an integer, a byte string, a boolean, an array or a map with integers as labels.
 * @param {number | boolean | Uint8Array | any[] | Map<number, any>} value
 * @returns {Uint8Array}
 */
function encoded(value) {
    if (typeof value === "number") return value < 0 ? headOf(1, -1 - value) : headOf(0, value);
    if (typeof value === "boolean") return new Uint8Array([value ? 0xf5 : 0xf4]);
    if (value instanceof Uint8Array) return joined(headOf(2, value.length), value);
    if (Array.isArray(value)) return joined(headOf(4, value.length), ...value.map(encoded));
    return joined(headOf(5, value.size), ...[...value].flatMap(([label, it]) => [encoded(label), encoded(it)]));
}
