// Signatures by WebCrypto. It takes no digest, so the Sig_structure is built here again, and counts only where its hash is the
// digest that the library gave.
"use strict";

/** The curves of RFC 9053 section 7.1: the name that WebCrypto has, the bytes of a coordinate, and p and b of y^2 = x^3 - 3x + b. */
const CURVES = Object.freeze({
    1: {
        name: "P-256",
        bytes: 32,
        p: 2n ** 256n - 2n ** 224n + 2n ** 192n + 2n ** 96n - 1n,
        b: 0x5ac635d8aa3a93e7b3ebbd55769886bc651d06b0cc53b0f63bce3c3e27d2604bn,
    },
    2: {
        name: "P-384",
        bytes: 48,
        p: 2n ** 384n - 2n ** 128n - 2n ** 96n + 2n ** 32n - 1n,
        b: 0xb3312fa7e23ee7e4988e056be3f82d19181d9c6efe8141120314088f5013875ac656398d8a2ed19d2a85c8edd3ec2aefn,
    },
    3: {
        name: "P-521",
        bytes: 66,
        p: 2n ** 521n - 1n,
        b: 0x051953eb9618e1c9a1f929a21a0b68540eea2da725b99b315f3b8b489918ef109e156193951ec7e937b1652c0bd3bb1bf073573df883d2c34f1ef451fd46b503f00n,
    },
});

/** WebCrypto, which Node has as a global from 20 on. */
const CRYPTO = typeof module === "object" ? module.require("node:crypto").webcrypto : crypto;

/** The hash functions, by the length of their digests. */
const HASHES = Object.freeze({ 32: "SHA-256", 48: "SHA-384", 64: "SHA-512" });

/** @param {Uint8Array[]} pieces */
function joined(...pieces) {
    const all = new Uint8Array(pieces.reduce((sum, it) => sum + it.length, 0));
    let at = 0;
    for (const piece of pieces) {
        all.set(piece, at);
        at += piece.length;
    }
    return all;
}

/**
 * The shortest head of a major type and an argument (RFC 8949 section 3).
 * @param {number} major
 * @param {number | bigint} argument
 */
function headOf(major, argument) {
    const n = BigInt(argument);
    if (n < 24n) return new Uint8Array([(major << 5) | Number(n)]);
    const width = n < 2n ** 8n ? 1 : n < 2n ** 16n ? 2 : n < 2n ** 32n ? 4 : 8;
    const low = 24 + Math.log2(width);
    const digits = Array.from({ length: width }, (_, i) => Number((n >> BigInt(8 * (width - 1 - i))) & 255n));
    return new Uint8Array([(major << 5) | low, ...digits]);
}

/** @param {Uint8Array} bytes */
const byteString = (bytes) => joined(headOf(2, bytes.length), bytes);

/**
 * The Sig_structure of a COSE_Sign1 (RFC 9052 section 4.4).
 * @param {Uint8Array} protectedBytes the content of the protected header's byte string
 * @param {Uint8Array} aad
 * @param {Uint8Array} payload
 */
function sigStructure(protectedBytes, aad, payload) {
    const context = new TextEncoder().encode("Signature1");
    const head = joined(headOf(4, 4), headOf(3, context.length), context);
    const authenticated = isEmptyMap(protectedBytes) ? new Uint8Array() : protectedBytes;
    return joined(head, byteString(authenticated), byteString(aad), byteString(payload));
}

/**
 * The head at a place: its major type, its argument, and the place after it.
 * @param {Uint8Array} bytes
 * @param {number} at
 */
function headFrom(bytes, at) {
    const [major, low] = [bytes[at] >> 5, bytes[at] & 31];
    const end = at + 1 + (low < 24 ? 0 : 2 ** (low - 24));
    const argument = low < 24 ? low : bytes.subarray(at + 1, end).reduce((sum, byte) => sum * 256 + byte, 0);
    return { major, argument, end };
}

/**
 * Whether bytes are a map without pairs, whatever the width of its count: it is authenticated as no bytes (RFC 9052 section 3).
 * @param {Uint8Array} bytes
 */
function isEmptyMap(bytes) {
    if (bytes.length === 0) return false;
    const { major, argument, end } = headFrom(bytes, 0);
    return major === 5 && argument === 0 && end === bytes.length;
}

/**
 * The content of the protected header of a message that isn't refused: tags, the array, then a byte string.
 * @param {Uint8Array} message
 */
function protectedOf(message) {
    let head = headFrom(message, 0);
    while (head.major === 6) head = headFrom(message, head.end);
    const { argument, end } = headFrom(message, head.end);
    return new Uint8Array(message.subarray(end, end + argument));
}

/**
 * @param {bigint} base
 * @param {bigint} exponent
 * @param {bigint} p
 */
function power(base, exponent, p) {
    let [result, square] = [1n, base % p];
    for (let left = exponent; left > 0n; left >>= 1n) {
        if (left & 1n) result = (result * square) % p;
        square = (square * square) % p;
    }
    return result;
}

/** @param {Uint8Array} bytes */
const integerOf = (bytes) => bytes.reduce((n, byte) => (n << 8n) | BigInt(byte), 0n);

/**
 * The coordinate y of a point that is given by x and the sign of y (SEC 1 section 2.3.4), if there is one.
 * @param {{p: bigint, b: bigint, bytes: number}} curve
 * @param {Uint8Array} x
 * @param {boolean} isOdd
 * @returns {Uint8Array | undefined}
 */
function decompressed({ p, b, bytes }, x, isOdd) {
    const at = integerOf(x);
    const square = (at * at * at - 3n * at + b) % p;
    const root = power(square + p, (p + 1n) / 4n, p);
    if (at >= p || (root * root - square) % p !== 0n) return undefined;
    const y = (root & 1n) === (isOdd ? 1n : 0n) ? root : p - root;
    return new Uint8Array(Array.from({ length: bytes }, (_, i) => Number((y >> BigInt(8 * (bytes - 1 - i))) & 255n)));
}

/**
 * @param {Uint8Array} first
 * @param {Uint8Array} second
 */
const sameBytes = (first, second) => first.length === second.length && first.every((byte, i) => byte === second[i]);

/**
 * Whether WebCrypto finds a signature good: of the structure whose hash is the digest that the library gave, and of no other.
 * @param {SignInput} input
 * @param {Uint8Array} structure
 * @returns {Promise<boolean>}
 */
async function isGoodSignature(input, structure) {
    const curve = CURVES[/** @type {keyof typeof CURVES} */ (input.crv)];
    const hash = HASHES[/** @type {keyof typeof HASHES} */ (input.digest.length)];
    if (!sameBytes(new Uint8Array(await CRYPTO.subtle.digest(hash, structure)), input.digest)) return false;
    const y = input.ySign === 0 ? input.y : decompressed(curve, input.x, input.ySign === 2);
    if (!y) return false;
    const algorithm = { name: "ECDSA", namedCurve: curve.name, hash };
    try {
        const key = await CRYPTO.subtle.importKey("raw", joined(new Uint8Array([4]), input.x, y), algorithm, false, ["verify"]);
        return await CRYPTO.subtle.verify(algorithm, key, input.signature, structure);
    } catch (fault) {
        // the point isn't on the curve
        if (fault instanceof DOMException) return false;
        throw fault;
    }
}

if (typeof module === "object") {
    Object.assign(module.exports, { CURVES, joined, headOf, sigStructure, protectedOf, decompressed, isGoodSignature });
}
