// What a message and a token cost in JavaScript under a table of one key, next to their HMAC by node:crypto: nanoseconds of each.
//
// usage: rate.mjs PACKAGE MESSAGE TOKEN AUTHENTICATED
import { createHmac } from "node:crypto";
import { readFile } from "node:fs/promises";
import { pathToFileURL } from "node:url";

const [CALLS, TURNS] = [20000, 7];
const [folder, ...names] = process.argv.slice(2);
const { load, KeyTable } = await import(pathToFileURL(`${folder}/index.mjs`));
const cose = await load();
const [message, token, text] = await Promise.all(names.map((name) => readFile(name)));
const table = new KeyTable(cose, Uint8Array.from(Buffer.from("a2010420444a656665", "hex")));
const policy = { now: 1444064943, leeway: 60, audience: "coap://light.example.com" };

/** The fastest of some turns, for one call. */
async function fastest(call) {
    let least = Infinity;
    for (let turn = 0; turn < TURNS; turn += 1) {
        const start = process.cpuUsage();
        for (let i = 0; i < CALLS; i += 1) await call();
        const { user, system } = process.cpuUsage(start);
        least = Math.min(least, ((user + system) * 1000) / CALLS);
    }
    return least.toFixed(0);
}

const calls = [
    () => createHmac("sha256", "Jefe").update(text).digest(),
    () => cose.payload(table, message),
    () => cose.token(table, token, policy),
];
const took = [];
for (const call of calls) took.push(await fastest(call));
console.log(took.join(" "));
