// The structs and calls are those of include/cose.h, and the reasons those of docs/REASONS.md.
import assert from "node:assert/strict";
import { mkdtempSync, readFileSync, rmSync, writeFileSync } from "node:fs";
import { spawnSync } from "node:child_process";
import { tmpdir } from "node:os";
import { join } from "node:path";
import { fileURLToPath } from "node:url";
import { test } from "node:test";
import low from "../cose.js";
import { load, REASONS } from "../index.mjs";

const TOP = fileURLToPath(new URL("../../../", import.meta.url));
const header = readFileSync(join(TOP, "include/cose.h"), "utf8").replaceAll(/\/\*.*?\*\//gs, "");

/** The fields of the header's structs, as FIELDS has them. */
function declared() {
    const structs = {};
    for (const [, name, body] of header.matchAll(/struct (cose_\w+) \{(.*?)\};/gs)) {
        structs[name] = body.replaceAll(/COSE_SLOT_\((.*)\)/g, "$1").split(";").flatMap((line) => {
            const found = /^(?:const )?(?:struct )?(\w+) (.*)$/s.exec(line.trim());
            return (found?.[2].split(",") ?? []).map((each) => {
                const [, star, field, size] = /^(\*?)(\w+)(\[\d+\])?$/.exec(each.trim());
                return `${star ? "pointer" : found[1]}${size ?? ""} ${field}`;
            });
        });
    }
    return structs;
}

test("each struct has the fields of the header", () => {
    assert.deepEqual(low.FIELDS, declared());
});

test("each struct has the size and the offsets that a C compiler gives it", (t) => {
    const folder = mkdtempSync(join(tmpdir(), "cose-"));
    const lines = Object.entries(low.LAYOUTS).flatMap(([name, { size, fields }]) => [
        `_Static_assert(sizeof(struct ${name}) == ${size}, "${name}");`,
        ...[...fields].map(([field, { at }]) => `_Static_assert(offsetof(struct ${name}, ${field}) == ${at}, "${name}.${field}");`),
    ]);
    const file = join(folder, "layout.c");
    writeFileSync(file, `#include "cose.h"\n${lines.join("\n")}\n`);
    const run = spawnSync("cc", ["-std=c11", `-I${join(TOP, "include")}`, "-fsyntax-only", file], { encoding: "utf8" });
    rmSync(folder, { recursive: true });
    if (run.error) return t.skip("there is no C compiler");
    assert.equal(run.status, 0, run.stderr);
});

test("the module exports the functions of the header, and imports nothing", async () => {
    const bytes = readFileSync(new URL("../cose.wasm", import.meta.url));
    const module = await WebAssembly.compile(bytes);
    assert.deepEqual(WebAssembly.Module.imports(module), []);
    const functions = WebAssembly.Module.exports(module).filter((it) => it.kind === "function").map((it) => it.name);
    const wanted = [...header.matchAll(/^\w+ (cose_\w+)\([^)]*\);/gm)].map((it) => it[1]);
    assert.deepEqual(functions.filter((it) => it.startsWith("cose_")).sort(), wanted.sort());
});

test("the module has 32-bit memory, and its lengths have 64 bits", async () => {
    const { exports } = await load();
    // a 64-bit memory would want a BigInt, and its functions BigInts as pointers
    assert.equal(exports.memory.grow(0), exports.memory.buffer.byteLength / 65_536);
    assert.throws(() => exports.cose_begin(0n), TypeError);
    assert.equal(typeof exports.cose_verifier_size(), "bigint");
});

test("the statuses are those of the header", () => {
    const [, body] = /enum cose_status_number \{(.*?)\};/s.exec(header);
    const wanted = [...body.matchAll(/COSE_(\w+) = (\d+)/g)].map(([, name, number]) => [name, Number(number)]);
    assert.deepEqual(Object.entries(low.STATUS), wanted);
});

test("the reasons are those of the page", () => {
    const page = readFileSync(join(TOP, "docs/REASONS.md"), "utf8");
    const plain = (text) => text.replaceAll(/\[([^\]]*)\]\([^)]*\)/g, "$1").replaceAll("`", "");
    const rows = [...page.matchAll(/^\| (\d+) \| `(\w+)` \| (.*?) \| (.*?) \| (.*?) \|$/gm)];
    const wanted = rows.map(([, number, ...texts]) => [Number(number), ...texts.map(plain)]);
    assert.deepEqual(REASONS.map((it) => [it.number, it.name, it.meaning, it.place, it.section]), wanted);
});
