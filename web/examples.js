// Examples: messages and tokens, with keys. Those of RFC 9052 and RFC 8392 are the standards' own; `openssl` signed the firmware,
// the health certificate and the attestation, whose private keys nobody has kept, and Python's `cryptography` the message by Ed25519.
"use strict";

/**
 * @typedef {object} Example
 * @property {string} name
 * @property {string} about
 * @property {string} message
 * @property {string} keys
 * @property {string} now
 * @property {() => File} [payload]
 * @property {("short_mac" | "without_alg")[]} [permits] what the page has to allow of the keys, though it is unsafe
 */

/** The firmware of the example: 65,536 bytes. */
function firmware() {
    const image = Uint8Array.from({ length: 65536 }, (_, i) => (i * i * 7 + Math.floor(i / 251)) % 256);
    return new File([image], "firmware.bin");
}

/** @type {readonly Example[]} */
const EXAMPLES = [
    {
        name: "COSE_Mac0",
        about: "A MAC under a shared key, and a payload of two bytes.",
        message: "d18443a10105a042686958207d81e964aaee5fbd8adfb3f533657a9ef9f782f04b91877b6004272a0352f960",
        keys: "a30104030520444a656665",
        now: "",
    },
    {
        name: "COSE_Sign1",
        about: "The signature of RFC 9052 appendix C.2.1, by ECDSA on P-256. The standard's key names no algorithm, which is allowed here.",
        permits: ["without_alg"],
        message: [
            "d28443a10126a10442313154546869732069732074686520636f6e74656e742e58408eb33e4ca31d1c465ab05aac34cc6b23",
            "d58fef5c083106c4d25a91aef0b0117e2af9a291aa32e14ab834dc56ed2a223444547e01f11d3b0916e5a4c345cacb36",
        ].join(""),
        keys: [
            "a50102024231312001215820bac5b11cad8f99f9c72b05cf4b9e26d244dc189f745228255a219a86d6a09eff22582020138b",
            "f82dc1b6d562be0fa54ab7804a3a64b6d72ccfed6b6fb6ed28bbfc117e",
        ].join(""),
        now: "",
    },
    {
        name: "Ed25519",
        about: "A signature by Ed25519 under the first key of RFC 8032 section 7.1, which this browser verifies, if it has Ed25519.",
        message: [
            "d28443a10132a10442313154546869732069732074686520636f6e74656e742e5840d492f52368492eefde152b706cced7c2",
            "57bade0d041020909154f68b9b375ccc058a5ebf6da9e526a7e56abdfdefce6f73dc08fb4bd7667e471986c12f81c705",
        ].join(""),
        keys: "a501010242313103322006215820d75a980182b10ab7d54bfed3c964073a0ee172f3daa62325af021a68f707511a",
        now: "",
    },
    {
        name: "Token",
        about: "The token of RFC 8392 appendix A.4 at a time at which it was valid, and three keys. Its tag is short, which is allowed here.",
        permits: ["short_mac"],
        message: [
            "d83dd18443a10104a1044c53796d6d65747269633235365850a70175636f61703a2f2f61732e6578616d706c652e636f6d02",
            "656572696b77037818636f61703a2f2f6c696768742e6578616d706c652e636f6d041a5612aeb0051a5610d9f0061a5610d9",
            "f007420b7148093101ef6d789200",
        ].join(""),
        keys: [
            "83a6010203262001215820143329cce7868e416927599cf65a34f3ce2ffda55a7eca69ed8919a394d42f0f22582060f7f1a7",
            "80d8a783bfb7a2dd6b2796e8128dbbcef9d3d168db9529971a36e7b902524173796d6d65747269634543445341323536a401",
            "04024c53796d6d657472696331323803042050231f4c4d4d3051fdc2ec0a3851d5b383a4205820403697de87af64611c1d32",
            "a05dab0fe1fcb715a86ab435f1ec99192d795693880104024c53796d6d65747269633235360304",
        ].join(""),
        now: "2015-10-05 12:00:00",
    },
    {
        name: "Expired token",
        about: "The same token now.",
        permits: ["short_mac"],
        message: [
            "d83dd18443a10104a1044c53796d6d65747269633235365850a70175636f61703a2f2f61732e6578616d706c652e636f6d02",
            "656572696b77037818636f61703a2f2f6c696768742e6578616d706c652e636f6d041a5612aeb0051a5610d9f0061a5610d9",
            "f007420b7148093101ef6d789200",
        ].join(""),
        keys: [
            "83a6010203262001215820143329cce7868e416927599cf65a34f3ce2ffda55a7eca69ed8919a394d42f0f22582060f7f1a7",
            "80d8a783bfb7a2dd6b2796e8128dbbcef9d3d168db9529971a36e7b902524173796d6d65747269634543445341323536a401",
            "04024c53796d6d657472696331323803042050231f4c4d4d3051fdc2ec0a3851d5b383a4205820403697de87af64611c1d32",
            "a05dab0fe1fcb715a86ab435f1ec99192d795693880104024c53796d6d65747269633235360304",
        ].join(""),
        now: "",
    },
    {
        name: "Changed token",
        about: "The same token at that time, for another subject: one byte was changed.",
        permits: ["short_mac"],
        message: [
            "d83dd18443a10104a1044c53796d6d65747269633235365850a70175636f61703a2f2f61732e6578616d706c652e636f6d02",
            "656572696b78037818636f61703a2f2f6c696768742e6578616d706c652e636f6d041a5612aeb0051a5610d9f0061a5610d9",
            "f007420b7148093101ef6d789200",
        ].join(""),
        keys: [
            "83a6010203262001215820143329cce7868e416927599cf65a34f3ce2ffda55a7eca69ed8919a394d42f0f22582060f7f1a7",
            "80d8a783bfb7a2dd6b2796e8128dbbcef9d3d168db9529971a36e7b902524173796d6d65747269634543445341323536a401",
            "04024c53796d6d657472696331323803042050231f4c4d4d3051fdc2ec0a3851d5b383a4205820403697de87af64611c1d32",
            "a05dab0fe1fcb715a86ab435f1ec99192d795693880104024c53796d6d65747269633235360304",
        ].join(""),
        now: "2015-10-05 12:00:00",
    },
    {
        name: "No key fits",
        about: "The message of RFC 9052 appendix C.2.1 under two keys of somebody else.",
        message: [
            "d28443a10126a10442313154546869732069732074686520636f6e74656e742e58408eb33e4ca31d1c465ab05aac34cc6b23",
            "d58fef5c083106c4d25a91aef0b0117e2af9a291aa32e14ab834dc56ed2a223444547e01f11d3b0916e5a4c345cacb36",
        ].join(""),
        keys: [
            "82a50102024569616b2d3020012158202f5dfdf03955168c113b612835a3e2151cead1f9466531fa08c827e406de9d7f2258",
            "20f43ab1bb8239651112be97e0f5dc7900f41bb6f2220ee074f982549d835eaa12a60102024569616b2d3103262001215820",
            "f43ab1bb8239651112be97e0f5dc7900f41bb6f2220ee074f982549d835eaa122258202f5dfdf03955168c113b612835a3e2",
            "151cead1f9466531fa08c827e406de9d7f",
        ].join(""),
        now: "",
    },
    {
        name: "Firmware, detached",
        about: "A signature by ECDSA on P-384 over a file of 65,536 bytes, and the public key in PEM, which names no algorithm: that is allowed here.",
        permits: ["without_alg"],
        message: [
            "d284581fa20138220378186170706c69636174696f6e2f6f637465742d73747265616da1044766772d32303236f6586034ba",
            "aeb63e04703117889f4eb5d91292474297fa22d916ad2d6c60ce44129758fa63de19259e679478daa30034f5060af28752b5",
            "1521ede24af976597bd03ea6be722bcec532608c1c5c25576fb5270fae50b9a7dfe91424587417fc39461686",
        ].join(""),
        keys: `-----BEGIN PUBLIC KEY-----
MHYwEAYHKoZIzj0CAQYFK4EEACIDYgAEgSU/lA1zOd22hFIoaGJ/Rbg01hq98ucl
XtHWQzY/gjBUpc/yI/yrniCs2J3ciiuljhNKKEdoOuRIItWB9r1Itr4T7lIjugIv
X4VuW4qfOOZqlZvXZJ7vLvdQwAPK9iJO
-----END PUBLIC KEY-----`,
        now: "",
        payload: firmware,
    },
    {
        name: "Health certificate",
        about: "A certificate in the form of the European Union, made up, and a JWK set.",
        message: [
            "d2844da2012604487d89cd1fe660d7d9a059010da401624445041a6bfdff00061a6a18d700390103a101a4617681aa626369",
            "782f55524e3a555643493a303144452f495a3132333435412f3543574c553132524e4f4239525853454f5036464738235762",
            "636f62444562646e026264746a323032362d30352d323962697374526f62657274204b6f63682d496e737469747574626d61",
            "6d4f52472d313030303331313834626d706c45552f312f32302f313530376273640262746769383430353339303036627670",
            "6a3131313933343930303763646f626a313936342d30382d3132636e616da462666e6a4d75737465726d616e6e62676e6545",
            "72696b6163666e746a4d55535445524d414e4e63676e74654552494b416376657265312e332e3058405cab66bdd9f1afbfa9",
            "617ef540aedc014e27189db7208c556f4a3e1742f7fa6d537cb056b6fba18113feb7c338ba4146e6699622ddfeb5ae166a3b",
            "691bbb1eb6",
        ].join(""),
        keys: `{
  "keys": [
    {
      "kty": "EC",
      "crv": "P-256",
      "kid": "another",
      "x": "XzqGL8x_Q6t8fUBN0TeQlE4Z5fzV-hX8S_v0MXxyGAg",
      "y": "mKkZYzaQy8A4FEfYp4qHAq7Ob3evXmhpZFEiTPZQec8",
      "alg": "ES384"
    },
    {
      "kty": "EC",
      "crv": "P-256",
      "use": "sig",
      "x": "XzqGL8x_Q6t8fUBN0TeQlE4Z5fzV-hX8S_v0MXxyGAg",
      "y": "mKkZYzaQy8A4FEfYp4qHAq7Ob3evXmhpZFEiTPZQec8",
      "alg": "ES256"
    }
  ]
}`,
        now: "2026-11-27 12:00:00",
    },
    {
        name: "Attestation",
        about: "A token of a device in the form of RFC 9783, and a set of two keys.",
        message: [
            "d28443a10126a1044569616b2d31590191aa19010978217461673a7073616365727469666965642e6f72672c323032333a70",
            "73612374666d0a5820000102030405060708090a0b0c0d0e0f101112131415161718191a1b1c1d1e1f190100582101263a4d",
            "be41488fb87214b0032339dbb9f0c8da14c16dfcf13084bf3c2552eca519095a0119095b19300019095c5820da31012c4033",
            "0e7e21538e7dd57503b16e8a0839159e96137090cccc9910b17119010c504509beb0ab401d71fa4a5cd94a55c9a719095e73",
            "303630343536353237323832392d313030313019095f82a40162424c0465312e322e3002582029d9489564c875d731108c8f",
            "bd8dfa3e698ca20be4c00878dda716de8c993b97055820ffdcc4ba1ba029d91fb645eab1563010ee7bcfac6f321326f4eab2",
            "98601b5bcea4016450526f540465312e342e32025820468975301494a245020f5324d25fd5e8297027ff7a129acb44232b33",
            "1b535b40055820ffdcc4ba1ba029d91fb645eab1563010ee7bcfac6f321326f4eab298601b5bce190960781868747470733a",
            "2f2f76657269666965722e6578616d706c65584011370b2147ef6b0485afcbf71225b837a43947151d9c6c6b5dddd74dce8f",
            "ce4b7f60d708ad2d9956566d4885b781a9ad7baa55b0e9300bf83f85c83dfc4b88e2",
        ].join(""),
        keys: [
            "82a50102024569616b2d3020012158202f5dfdf03955168c113b612835a3e2151cead1f9466531fa08c827e406de9d7f2258",
            "20f43ab1bb8239651112be97e0f5dc7900f41bb6f2220ee074f982549d835eaa12a60102024569616b2d3103262001215820",
            "f43ab1bb8239651112be97e0f5dc7900f41bb6f2220ee074f982549d835eaa122258202f5dfdf03955168c113b612835a3e2",
            "151cead1f9466531fa08c827e406de9d7f",
        ].join(""),
        now: "",
    },
];
