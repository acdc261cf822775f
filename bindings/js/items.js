// Data items (RFC 8949) as values of JavaScript's: those that the library has read, which are well-formed and of definite lengths.
"use strict";

/** An item under a tag (RFC 8949 section 3.4). */
class Tagged {
    /**
     * @param {number | bigint} number
     * @param {any} value
     */
    constructor(number, value) {
        this.number = number;
        this.value = value;
    }
}

/** A simple value that JavaScript has no type for (RFC 8949 section 3.3). */
class Simple {
    /** @param {number} number */
    constructor(number) {
        this.number = number;
    }
}

/** The simple values that JavaScript has.
 * @type {Map<bigint, boolean | null | undefined>} */
const SIMPLE = new Map([[20n, false], [21n, true], [22n, null], [23n, undefined]]);

/** Reads the items of bytes one after the other. */
class ItemReader {
    /** @param {Uint8Array} bytes */
    constructor(bytes) {
        this.bytes = bytes;
        this.view = new DataView(bytes.buffer, bytes.byteOffset, bytes.byteLength);
        this.at = 0;
    }

    /** The next head: its major type, its argument, and how many bytes the argument has. */
    head() {
        const first = this.bytes[this.at];
        const low = first & 31;
        const width = low < 24 ? 0 : 1 << (low - 24);
        let argument = BigInt(low);
        for (let i = 1; i <= width; i += 1) argument = (i === 1 ? 0n : argument << 8n) | BigInt(this.bytes[this.at + i]);
        this.at += 1 + width;
        return { major: first >> 5, argument, width };
    }

    /** @returns {any} */
    item() {
        const { major, argument, width } = this.head();
        if (major === 0) return small(argument);
        if (major === 1) return small(-1n - argument);
        if (major === 2) return this.content(Number(argument));
        if (major === 3) return new TextDecoder("utf-8", { fatal: true, ignoreBOM: true }).decode(this.content(Number(argument)));
        if (major === 4) return this.items(Number(argument));
        if (major === 5) return pairsOf(this.items(2 * Number(argument)));
        if (major === 6) return new Tagged(small(argument), this.item());
        if (width > 1) return this.float(width);
        return SIMPLE.has(argument) ? SIMPLE.get(argument) : new Simple(Number(argument));
    }

    /** @param {number} length */
    content(length) {
        this.at += length;
        return new Uint8Array(this.bytes.subarray(this.at - length, this.at));
    }

    /** @param {number} count */
    items(count) {
        const found = [];
        while (found.length < count) found.push(this.item());
        return found;
    }

    /** @param {number} width */
    float(width) {
        const at = this.at - width;
        if (width === 8) return this.view.getFloat64(at);
        if (width === 4) return this.view.getFloat32(at);
        return half(this.view.getUint16(at));
    }
}

/**
 * A number, as a BigInt only where it isn't exact otherwise.
 * @param {bigint} number
 */
const small = (number) => (Number.isSafeInteger(Number(number)) ? Number(number) : number);

/**
 * A float of 16 bits (RFC 8949 appendix D).
 * @param {number} bits
 */
function half(bits) {
    const [exponent, fraction, sign] = [(bits >> 10) & 31, bits & 1023, bits & 0x8000 ? -1 : 1];
    if (exponent === 31) return fraction ? NaN : sign * Infinity;
    return sign * (exponent ? (1024 + fraction) * 2 ** (exponent - 25) : fraction * 2 ** -24);
}

/**
 * The pairs of a map. Keys that are bytes, arrays or maps are objects, of which each is another one.
 * @param {any[]} items
 */
function pairsOf(items) {
    const found = new Map();
    for (let i = 0; i < items.length; i += 2) {
        if (found.has(items[i])) throw new RangeError("a map has a key twice");
        found.set(items[i], items[i + 1]);
    }
    return found;
}

/**
 * The item that the bytes are: a number or a bigint, a Uint8Array, a string, an array, a Map, a boolean, null, undefined, `Tagged` or
 * `Simple`. It throws where a text isn't UTF-8, or a map has a key twice.
 * @param {Uint8Array} bytes
 * @returns {any}
 */
function decodeItem(bytes) {
    return new ItemReader(bytes).item();
}

if (typeof module === "object") {
    Object.assign(module.exports, { Tagged, Simple, decodeItem });
}
