// The reasons of docs/REASONS.md: the number, the name, what it means, the place, and the section. A test compares them with the page.
"use strict";

/**
 * @typedef {object} Reason
 * @property {number} number
 * @property {string} name
 * @property {string} meaning
 * @property {string} place
 * @property {string} section
 */

/** @type {readonly Reason[]} */
const REASONS = Object.freeze(
    [
        // made by ci/edge_tables: reasons
        [1, "Truncated", "The bytes end before the message or the item is whole, or a detached payload ends before the stated length", "the number of bytes; of a detached payload the payload head", "RFC 8949 section 3"],
        [2, "Reserved", "The low five bits of an initial byte are 28 to 30, or 31 in the major types 0, 1 and 6", "the head", "RFC 8949 section 3"],
        [3, "Indefinite", "A head has an indefinite length or is a break", "the head", "(RFC 8949 section 3.2)"],
        [4, "BadSimple", "A simple value below 32 is spelled in two bytes", "the head", "RFC 8949 section 3.3"],
        [5, "TooDeep", "An array, a map or a tag has no nesting left: of D in a message and its claims, of 8 in a key or a key set", "the head", "own"],
        [6, "PastRoom", "A head, a string or the children of an item don't fit into the room; a protected header has more than H bytes", "the head of that item, or the place where an item should begin", "own"],
        [7, "WrongTag", "A tag isn't one of a wanted message, or tag 61 isn't allowed here, or an array comes without the tag that is wanted", "the head", "RFC 9052 section 2"],
        [8, "Encrypted", "The tag is that of a COSE_Encrypt0 or COSE_Encrypt: 16 or 96", "the tag", "(RFC 9052 section 5)"],
        [9, "SeveralParties", "The tag is that of a COSE_Mac or COSE_Sign: 97 or 98", "the tag", "(RFC 9052 sections 6.1 and 4.1)"],
        [10, "NotFour", "The array of the message doesn't have four elements", "the array", "RFC 9052 sections 4.2 and 6.2"],
        [11, "WrongType", "A head has another major type than the one required: a tag or the array first, the array after a COSE tag, a byte string for the protected header, the payload and the tag or signature", "the head", "RFC 9052 sections 3, 4.2 and 6.2"],
        [12, "NotMap", "A header bucket, a key or a claims set isn't a map", "the head of that item", "RFC 9052 sections 3 and 7, RFC 8392 section 3"],
        [13, "BadLabel", "A label is neither an integer nor a text in UTF-8", "the label", "RFC 9052 section 1.5"],
        [14, "DuplicateLabel", "A label equals an earlier one of its map, by value", "the later label", "RFC 9052 section 3"],
        [15, "BothBuckets", "A label is in both header buckets", "the label in the unprotected bucket", "(RFC 9052 section 3)"],
        [16, "BadValue", "A value doesn't have the form of its label, or a key lacks a member", "the value; the key's head for a missing member", "RFC 9052 sections 3.1 and 7.1, RFC 9053 section 7, RFC 8392 section 3.1, RFC 8747 section 3"],
        [17, "CritUnprotected", "The unprotected bucket has crit", "the label of crit", "RFC 9052 section 3.1"],
        [18, "CritAbsent", "crit lists a label that isn't in the protected bucket", "the element of crit", "RFC 9052 section 3.1"],
        [19, "CritUnknown", "crit lists a label that is neither 1 to 6 nor understood by the application", "the element of crit", "RFC 9052 section 3.1"],
        [20, "BothIvs", "IV and Partial IV are both present, in whichever buckets", "payload head", "RFC 9052 section 3.1"],
        [21, "NoAlg", "Neither bucket names an algorithm, and no key fits", "payload head", "(RFC 9052 section 3.1)"],
        [22, "UnknownAlg", "The algorithm that the message names is none of its kind", "payload head", "(RFC 9053 sections 2.1 and 3.1)"],
        [23, "AlgUnprotected", "Only the unprotected bucket names an algorithm, and no key with this algorithm as its own fits", "payload head", "own"],
        [24, "NoKey", "The protected bucket names an algorithm, and no key fits", "payload head", "(RFC 9052 section 7.1)"],
        [25, "AmbiguousKey", "Two or more keys fit", "payload head", "own"],
        [26, "Detached", "The payload is nil", "payload head", "(RFC 9052 sections 4.2 and 6.2)"],
        [27, "BadAuthLength", "The tag or signature doesn't have the length of its algorithm; while inspecting, it has more than 65,535 bytes", "the head of the tag or signature", "RFC 9053 sections 2.1 and 3.1"],
        [28, "BadAuth", "The tag isn't the MAC of the structure, or the EcVerifier says no to the signature", "the head of the tag or signature", "RFC 9052 sections 6.3 and 4.4"],
        [29, "PayloadTooLong", "The payload has 2^56 bytes or more, or more than the context's limit", "payload head", "own"],
        [30, "CwtTagAlone", "No tag follows the tag of a CWT, 61", "the head after it", "RFC 8392 section 6"],
        [31, "BadKeySet", "A key set is neither a map nor an array of one or more items, or has more than 65,535 bytes, or more usable keys than its table holds", "0", "RFC 9052 section 7"],
        [32, "UnknownKey", "A key is of a type other than EC2 and Symmetric, or on another curve than P-256, P-384 and P-521", "the key's head", "(RFC 9053 section 7)"],
        [33, "FloatDate", "exp, nbf or iat is a float", "the value", "(RFC 8392 section 2)"],
        [34, "TaggedDate", "exp, nbf or iat has tag 1", "the value", "RFC 8392 section 2"],
        [35, "Expired", "The current time is exp plus the leeway, or later", "the value of exp", "RFC 8392 section 3.1.4"],
        [36, "NotYet", "The current time plus the leeway is before nbf", "the value of nbf", "RFC 8392 section 3.1.5"],
        [37, "WrongAudience", "aud is present, and none of its texts is one of the policy's", "the value of aud", "RFC 8392 section 3.1.3"],
        [38, "EncryptedKey", "The confirmation has an Encrypted_COSE_Key", "its label", "(RFC 8747 section 3.3)"],
        [39, "PlainKey", "The confirmation key is symmetric, in a token that isn't encrypted", "its value", "RFC 8747 section 3.2"],
        [40, "BadConfirmation", "The confirmation has both a key and an encrypted one, or its key is refused", "the head of the value of cnf; the key's value", "RFC 8747 section 3"],
        [41, "NestedCwt", "The payload is itself a COSE message or a CWT in its tag", "0", "(RFC 8392 section 7)"],
        [42, "Trailing", "A byte follows the one item that the bytes should be; in the program, a byte follows the accepted message or token", "that byte", "RFC 8949 section 3"],
        [43, "Attached", "A detached payload is wanted, and the message has its payload", "payload head", "(RFC 9052 sections 4.2 and 6.2)"],
        // end of what ci/edge_tables makes
    ].map(([number, name, meaning, place, section]) =>
        Object.freeze({
            number: Number(number),
            name: String(name),
            meaning: String(meaning),
            place: String(place),
            section: String(section),
        }),
    ),
);

/**
 * The reason with a number.
 * @param {number} number
 * @returns {Reason}
 */
function reasonOf(number) {
    const unknown = { number, name: `reason ${number}`, meaning: "", place: "", section: "" };
    return REASONS.find((it) => it.number === number) ?? unknown;
}

if (typeof module === "object") Object.assign(module.exports, { REASONS, reasonOf });
