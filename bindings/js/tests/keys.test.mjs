// The keys that the page takes, those of EdDSA too, by the rows of rows/forms.json.
import assert from "node:assert/strict";
import { webcrypto } from "node:crypto";
import { readFileSync } from "node:fs";
import { test } from "node:test";
import vm from "node:vm";

const REPOSITORY = new URL("../../../", import.meta.url);
// what web/keys.js uses, in the order of web/index.html
const SCRIPTS = ["bindings/js/signatures.js", "web/registry.js", "web/cbor.js", "web/parts.js", "web/keys.js"];

/** @param {string} name */
const read = (name) => readFileSync(new URL(name, REPOSITORY), "utf8");

const page = vm.createContext({ atob, crypto: webcrypto, TextEncoder, TextDecoder, Uint8Array });
for (const name of SCRIPTS) vm.runInContext(read(name), page, { filename: name });
const keysFrom = vm.runInContext("keysFrom", page);
const BadInput = vm.runInContext("BadInput", page);

/**
 * What is read of a text: a key set in hexadecimal, or a refusal.
 * @param {string} text
 */
function answer(text) {
    try {
        return { verdict: "keys", set: Buffer.from(keysFrom(text)).toString("hex") };
    } catch (fault) {
        if (!(fault instanceof BadInput)) throw fault;
        return { verdict: "refused" };
    }
}

/** @param {any} row */
const wanted = ({ eddsa, result }) => (eddsa ? { verdict: "keys", set: eddsa } : result);

for (const group of JSON.parse(read("rows/forms.json")).testGroups)
    test(`each row of forms with ${group.form} is read as it says`, () => {
        const differing = group.tests.filter((/** @type {any} */ row) => JSON.stringify(answer(row.text)) !== JSON.stringify(wanted(row)));
        assert.deepEqual(differing, []);
        assert.ok(group.tests.length > 20);
    });
