// Keys as they are pasted: a COSE_Key or a COSE_KeySet in hexadecimal or base64url, a JWK or a JWK set, or PEM. And of each key of a set
// whether it fits a message: that says the library, of a set of this key alone, and why not.
"use strict";

/** What is wrong with an input, in a sentence. */
class BadInput extends Error {}

/** @param {string} text */
function hexadecimal(text) {
    const digits = text.replace(/^0x/i, "").replace(/[\s:,]|0x/gi, "");
    if (digits.length % 2 || !/^[0-9a-f]*$/i.test(digits)) return undefined;
    return new Uint8Array((digits.match(/../g) ?? []).map((pair) => parseInt(pair, 16)));
}

/** @param {string} text */
function base64url(text) {
    const digits = text.replace(/\s/g, "").replace(/=+$/, "").replaceAll("+", "-").replaceAll("/", "_");
    if (!/^[A-Za-z0-9_-]*$/.test(digits) || digits.length % 4 === 1) return undefined;
    const binary = atob(digits.replaceAll("-", "+").replaceAll("_", "/"));
    return Uint8Array.from(binary, (one) => one.charCodeAt(0));
}

/**
 * Bytes that are written in hexadecimal, or else in base64url: a text of more than some digits is hardly ever both.
 * @param {string} text
 * @param {string} what
 * @returns {Uint8Array}
 */
function bytesFrom(text, what) {
    const other = otherForm(text.trim(), what);
    if (other) throw new BadInput(other);
    const content = /^h'([^']*)'$/i.exec(text.trim())?.[1] ?? text;
    const bytes = hexadecimal(content) ?? base64url(content);
    if (bytes) return bytes;
    throw new BadInput(`The ${what} is neither hexadecimal nor base64url.`);
}

/**
 * What a text is that is written for something else than this field, in a sentence.
 * @param {string} text
 * @param {string} what
 */
function otherForm(text, what) {
    if (/^(Bearer +)?ey[\w-]*\.[\w-]*\.[\w.-]*$/i.test(text)) return "This is a JSON Web Token (JWT), and no COSE: here a CBOR Web Token is verified, whose text has no dots.";
    const isKey = text.includes("-----BEGIN ") || text.startsWith("{");
    if (isKey && what === "message") return `This is ${text.startsWith("{") ? "JSON" : "PEM"}: a key goes into the field of the keys.`;
    if (/^(\d+ *\(|\[|<<)/.test(text)) return `This is diagnostic notation: paste the ${what} that it describes, in hexadecimal.`;
    return undefined;
}

// ---- DER

/**
 * @typedef {object} DerElement
 * @property {number} tag
 * @property {Uint8Array} content
 * @property {Uint8Array} rest
 */

/**
 * The DER element that bytes begin with.
 * @param {Uint8Array} bytes
 * @returns {DerElement}
 */
function elementOf(bytes) {
    let [length, at] = [bytes[1], 2];
    if (length > 127) {
        at += length - 128;
        length = Number(integerOf(bytes.subarray(2, at)));
    }
    if (!(at + length <= bytes.length)) throw new BadInput("The PEM block is cut off.");
    return { tag: bytes[0], content: bytes.subarray(at, at + length), rest: bytes.subarray(at + length) };
}

/** @param {Uint8Array} bytes */
function elementsOf(bytes) {
    /** @type {DerElement[]} */
    const found = [];
    for (let rest = bytes; rest.length; rest = found[found.length - 1].rest) found.push(elementOf(rest));
    return found;
}

const [SEQUENCE, BIT_STRING, IDENTIFIER] = [0x30, 3, 6];
/** The bytes of a coordinate, or of a public key of EdDSA, by the number of the curve (RFC 9053 section 7.1, RFC 8032 sections 5.1.5 and 5.2.5). */
const KEY_BYTES = new Map([[1, 32], [2, 48], [3, 66], [6, 32], [7, 57]]);
/** The curves of EdDSA by their identifiers (RFC 8410 section 3). */
const OKP_IDENTIFIERS = new Map([["2b6570", 6], ["2b6571", 7]]);
const EC_PUBLIC_KEY = "2a8648ce3d0201";
const CURVE_IDENTIFIERS = new Map([
    ["2a8648ce3d030107", 1],
    ["2b81040022", 2],
    ["2b81040023", 3],
]);

/**
 * The COSE_Key of a SubjectPublicKeyInfo: of ECDSA (RFC 5480 section 2), or of EdDSA, which has no parameters (RFC 8410 section 3).
 * @param {Uint8Array} der
 */
function keyOfInfo(der) {
    const outer = elementOf(der);
    const [algorithm, bits, ...others] = elementsOf(outer.content);
    const [kind, curve, ...more] = algorithm?.tag === SEQUENCE ? elementsOf(algorithm.content) : [];
    const isInfo = outer.tag === SEQUENCE && !outer.rest.length && !others.length && !more.length && kind?.tag === IDENTIFIER;
    const isWhole = isInfo && bits?.tag === BIT_STRING && bits.content[0] === 0;
    const octets = isWhole && !curve ? OKP_IDENTIFIERS.get(hexOf(kind.content)) : undefined;
    if (octets) return keyOfOctets(octets, bits.content.slice(1));
    const isPoint = isWhole && hexOf(kind.content) === EC_PUBLIC_KEY && curve?.tag === IDENTIFIER;
    if (!isPoint) throw new BadInput("The PEM block isn't a public key of ECDSA or EdDSA.");
    const crv = CURVE_IDENTIFIERS.get(hexOf(curve.content));
    if (!crv) throw new BadInput("The key's curve isn't P-256, P-384 or P-521.");
    return keyOfPoint(crv, bits.content.subarray(1));
}

/**
 * @param {number} crv
 * @param {Uint8Array} x
 */
function keyOfOctets(crv, x) {
    if (x.length !== KEY_BYTES.get(crv)) throw new BadInput("The key hasn't the length of its curve's.");
    return new Map(/** @type {[number, any][]} */ ([[1, 1], [-1, crv], [-2, x]]));
}

/**
 * @param {number} crv
 * @param {Uint8Array} point in the form of SEC 1 section 2.3.3
 */
function keyOfPoint(crv, point) {
    const size = CURVES[/** @type {1 | 2 | 3} */ (crv)].bytes;
    const [x, rest] = [point.slice(1, 1 + size), point.slice(1 + size)];
    const isWhole = point[0] === 4 && rest.length === size;
    if (!isWhole && !((point[0] === 2 || point[0] === 3) && point.length === 1 + size)) throw new BadInput("The key isn't a point of its curve.");
    const y = isWhole ? rest : point[0] === 3;
    return new Map(/** @type {[number, any][]} */ ([[1, 2], [-1, crv], [-2, x], [-3, y]]));
}

/**
 * The keys of PEM blocks: public keys, and those of certificates, which nothing verifies here.
 * @param {string} text
 */
function keysOfPem(text) {
    const blocks = [...text.matchAll(/-----BEGIN ([A-Z0-9 ]+)-----([^-]*)-----END \1-----/g)];
    if (!blocks.length) throw new BadInput("The PEM block is cut off.");
    return blocks.map(([, label, content]) => {
        const der = base64url(content);
        if (!der) throw new BadInput("The PEM block isn't base64.");
        if (label === "PUBLIC KEY") return keyOfInfo(der);
        if (label === "CERTIFICATE") return keyOfInfo(infoOf(der));
        throw new BadInput(`The PEM block is a ${label}: a PUBLIC KEY is wanted (openssl pkey -pubout), or a CERTIFICATE.`);
    });
}

/**
 * The SubjectPublicKeyInfo of a certificate (RFC 5280 section 4.1).
 * @param {Uint8Array} der
 */
function infoOf(der) {
    let fields = elementOf(elementOf(der).content).content;
    const skipped = fields[0] === 0xa0 ? 6 : 5;
    for (let i = 0; i < skipped; i += 1) fields = elementOf(fields).rest;
    return fields.subarray(0, fields.length - elementOf(fields).rest.length);
}

// ---- JWK

const JWK_ALGORITHMS = new Map([
    ...new Map([["HS256", 5], ["HS384", 6], ["HS512", 7], ["ES256", -7], ["ES384", -35], ["ES512", -36]]),
    ...new Map([["EdDSA", -8], ["Ed25519", -19], ["Ed448", -53]]),
]);
/**
 * The types of JWKs: their numbers in a COSE_Key, and their curves (RFC 7518 section 6, RFC 8037 section 2).
 * @type {Map<string, {kty: number, curves?: Map<string, number>}>}
 */
const JWK_TYPES = new Map([
    ["oct", { kty: 4 }],
    ["EC", { kty: 2, curves: new Map([["P-256", 1], ["P-384", 2], ["P-521", 3]]) }],
    ["OKP", { kty: 1, curves: new Map([["Ed25519", 6], ["Ed448", 7]]) }],
]);
const JWK_OPERATIONS = new Map([["sign", 1], ["verify", 2], ["encrypt", 3], ["decrypt", 4], ["wrapKey", 5], ["unwrapKey", 6], ["deriveKey", 7], ["deriveBits", 8]]);

/**
 * The bytes of a member in base64url, with its padding or without (RFC 7515 section 2).
 * @param {Record<string, any>} key
 * @param {string} name
 */
function member(key, name) {
    const bytes = typeof key[name] === "string" && /^[\w-]*=*$/.test(key[name]) ? base64url(key[name]) : undefined;
    if (!bytes) throw new BadInput(`A JWK has no ${name} in base64url.`);
    return bytes;
}

/**
 * A number of a JWK on a curve.
 * @param {Record<string, any>} key
 * @param {string} name
 * @param {number} crv
 */
function coordinate(key, name, crv) {
    const bytes = member(key, name);
    const wanted = KEY_BYTES.get(crv);
    if (bytes.length !== wanted) throw new BadInput(`The ${name} of a JWK has ${bytesCount(bytes.length)} in place of ${wanted}.`);
    return bytes;
}

/**
 * The COSE_Key of a JWK (RFC 7517), without a private part, or nothing of one for something else.
 * @param {Record<string, any>} key
 * @returns {Map<number, any> | undefined}
 */
function keyOfJwk(key) {
    const type = JWK_TYPES.get(key.kty);
    const crv = type?.curves?.get(key.crv);
    if (!type || (type.curves && !crv)) return undefined;
    const alg = key.alg === undefined ? undefined : JWK_ALGORITHMS.get(key.alg);
    if ((key.use ?? "sig") !== "sig" || (key.alg !== undefined && alg === undefined)) return undefined;
    const made = new Map(/** @type {[number, any][]} */ ([[1, type.kty]]));
    if (key.kid !== undefined && typeof key.kid !== "string") throw new BadInput("The kid of a JWK is no text.");
    if (key.kid !== undefined) made.set(2, new TextEncoder().encode(key.kid));
    if (alg !== undefined) made.set(3, alg);
    if (key.key_ops !== undefined) made.set(4, operationsOf(key.key_ops, !crv));
    if (made.get(4)?.length === 0) return undefined;
    if (!crv) return made.set(-1, member(key, "k"));
    made.set(-1, crv).set(-2, coordinate(key, "x", crv));
    return type.kty === 1 ? made : made.set(-3, coordinate(key, "y", crv));
}

/**
 * The numbers of operations (RFC 7517 section 4.3, RFC 9052 section 7.1): of a MAC's key two have others. Those that aren't
 * registered are left out.
 * @param {any} names
 * @param {boolean} isSymmetric
 */
function operationsOf(names, isSymmetric) {
    if (!Array.isArray(names) || names.some((name) => typeof name !== "string")) throw new BadInput("The key_ops of a JWK aren't an array of texts.");
    const numbers = names.map((name) => (isSymmetric && name === "sign" ? 9 : isSymmetric && name === "verify" ? 10 : JWK_OPERATIONS.get(name)));
    return numbers.filter((it) => it !== undefined);
}

/**
 * The keys of a JWK or a JWK set (RFC 7517 section 5): of a set those that can be made.
 * @param {string} text
 */
function keysOfJson(text) {
    let value;
    try {
        value = JSON.parse(text);
    } catch {
        throw new BadInput("The keys begin like a JWK, and aren't JSON.");
    }
    const isSet = value?.keys !== undefined;
    const keys = isSet && Array.isArray(value.keys) ? value.keys : isSet ? [] : [value];
    const made = keys.flatMap((/** @type {any} */ key) => {
        try {
            return keyOfJwk(Object(key)) ?? [];
        } catch (fault) {
            if (isSet && fault instanceof BadInput) return [];
            throw fault;
        }
    });
    if (!made.length) throw new BadInput("None of the JWKs is an HMAC key, or an EC or OKP key that verifies signatures.");
    return made;
}

/**
 * The COSE_Key or COSE_KeySet that is pasted.
 * @param {string} text
 * @returns {Uint8Array}
 */
function keysFrom(text) {
    if (text.includes("-----BEGIN ")) return encoded(keysOfPem(text));
    if (text.trimStart().startsWith("{")) return encoded(keysOfJson(text));
    return bytesFrom(text, "key");
}

// ---- which key fits, and why the others don't

/**
 * A key of a set.
 * @typedef {object} KeyFound
 * @property {Uint8Array} bytes the COSE_Key
 * @property {Item} item
 * @property {{status: number, reason: number, usable: number}} keySet what the library says of it alone
 */

/**
 * The keys of a COSE_Key or a COSE_KeySet, in their order.
 * @param {Cose} cose
 * @param {Uint8Array} keys
 * @returns {KeyFound[]}
 */
function keysIn(cose, keys) {
    const whole = wholeItem(keys);
    const items = whole?.type === "array" ? whole.children : whole ? [whole] : [];
    return items.map((item) => {
        const bytes = keys.slice(item.at, item.end);
        return { bytes, item, keySet: cose.readKeys(bytes) };
    });
}

/**
 * What a key is, in words. No secret is among them.
 * @param {Item} key
 */
function keyTitle(key) {
    if (key.type !== "map") return "no map";
    const type = valueOf(key, 1);
    const curve = valueOf(key, -1);
    const name = type ? (KEY_TYPES.get(labelNumber(type)) ?? `type ${diagnostic(type)}`) : "no type";
    if (name === "Symmetric") return `symmetric, ${bytesCount(curve?.bytes.length ?? 0)}`;
    return curve && (name === "EC2" || name === "OKP") ? `${name}, ${CURVE_NAMES.get(labelNumber(curve)) ?? diagnostic(curve)}` : name;
}

/** The reasons that say that no key fits, or that several do. */
const NO_KEY_FITS = [21, 23, 24];

/** @param {Item} alg */
const algorithmText = (alg) => ALGORITHM_NAMES.get(labelNumber(alg)) ?? diagnostic(alg);

/**
 * A header parameter of either bucket.
 * @param {Picture} picture
 * @param {number} label
 */
function headerOf(picture, label) {
    const maps = [picture.protectedMap, picture.unprotectedMap];
    return maps.flatMap((map) => (map ? (valueOf(map, label) ?? []) : []))[0];
}
