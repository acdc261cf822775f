// Names of the IANA registries of COSE and CWT, as far as this page shows them by name.
"use strict";

/** Header parameters (RFC 9052 section 3.1 and the registry of COSE header parameters). */
const HEADER_NAMES = new Map(
    /** @type {[number, string][]} */ ([
        [1, "alg"],
        [2, "crit"],
        [3, "content type"],
        [4, "kid"],
        [5, "IV"],
        [6, "Partial IV"],
        [7, "counter signature"],
        [9, "CounterSignature0"],
        [10, "kid context"],
        [11, "Countersignature version 2"],
        [12, "Countersignature0 version 2"],
        [13, "kcwt"],
        [14, "kccs"],
        [15, "CWT Claims"],
        [16, "typ"],
        [32, "x5bag"],
        [33, "x5chain"],
        [34, "x5t"],
        [35, "x5u"],
        [258, "payload hash alg"],
        [259, "preimage content type"],
        [260, "payload location"],
        [394, "receipts"],
        [395, "vds"],
        [396, "vdp"],
    ]),
);

/** Claims (RFC 8392 section 3.1, RFC 8747, RFC 9711 and the registry of CWT claims). */
const CLAIM_NAMES = new Map(
    /** @type {[number, string][]} */ ([
        [1, "iss"],
        [2, "sub"],
        [3, "aud"],
        [4, "exp"],
        [5, "nbf"],
        [6, "iat"],
        [7, "cti"],
        [8, "cnf"],
        [9, "scope"],
        [10, "nonce"],
        [38, "ace_profile"],
        [39, "cnonce"],
        [40, "exi"],
        [256, "ueid"],
        [257, "sueids"],
        [258, "oemid"],
        [259, "hwmodel"],
        [260, "hwversion"],
        [261, "uptime"],
        [262, "oemboot"],
        [263, "dbgstat"],
        [264, "location"],
        [265, "eat_profile"],
        [266, "submods"],
        [267, "bootcount"],
        [268, "bootseed"],
        [269, "dloas"],
        [270, "swname"],
        [271, "swversion"],
        [272, "manifests"],
        [273, "measurements"],
        [274, "measres"],
        [275, "intuse"],
        [2394, "psa-client-id"],
        [2395, "psa-security-lifecycle"],
        [2396, "psa-implementation-id"],
        [2398, "psa-certification-reference"],
        [2399, "psa-software-components"],
        [2400, "psa-verification-service-indicator"],
        [-260, "hcert"],
    ]),
);

/** What the claims that admission reads are called in plain words. */
const CLAIM_TITLES = new Map([
    [1, "Issuer"],
    [2, "Subject"],
    [3, "Audience"],
    [4, "Expires"],
    [5, "Valid from"],
    [6, "Issued"],
    [7, "Token's identifier"],
    [8, "Holder's key"],
]);

/** What the claims of a date say. */
const DATE_MEANINGS = new Map([
    [4, "Expiration time: the token isn't accepted at this time or later."],
    [5, "Not before: the token isn't accepted earlier."],
    [6, "Issued at."],
]);

/** Algorithms (RFC 9053, RFC 9864), as far as messages that are verified here may name them, and some that they may not. */
const ALGORITHM_NAMES = new Map(
    /** @type {[number, string][]} */ ([
        [4, "HMAC 256/64"],
        [5, "HMAC 256/256"],
        [6, "HMAC 384/384"],
        [7, "HMAC 512/512"],
        [-7, "ES256"],
        [-35, "ES384"],
        [-36, "ES512"],
        [-9, "ESP256"],
        [-51, "ESP384"],
        [-52, "ESP512"],
        [-8, "EdDSA"],
        [-19, "Ed25519"],
        [-53, "Ed448"],
        [-37, "PS256"],
        [-38, "PS384"],
        [-39, "PS512"],
        [-47, "ES256K"],
        [14, "AES-MAC 128/64"],
        [15, "AES-MAC 256/64"],
        [25, "AES-MAC 128/128"],
        [26, "AES-MAC 256/128"],
        [1, "A128GCM"],
        [2, "A192GCM"],
        [3, "A256GCM"],
    ]),
);

/** Types of keys, and curves (RFC 9053 section 7). */
const KEY_TYPES = new Map([
    [1, "OKP"],
    [2, "EC2"],
    [3, "RSA"],
    [4, "Symmetric"],
]);
const CURVE_NAMES = new Map([
    [1, "P-256"],
    [2, "P-384"],
    [3, "P-521"],
    [6, "Ed25519"],
    [7, "Ed448"],
    [8, "secp256k1"],
]);

/** Tags (RFC 9052 section 2, RFC 8392 section 6). */
const TAG_NAMES = new Map([
    [16, "COSE_Encrypt0"],
    [17, "COSE_Mac0"],
    [18, "COSE_Sign1"],
    [61, "CWT"],
    [96, "COSE_Encrypt"],
    [97, "COSE_Mac"],
    [98, "COSE_Sign"],
]);
