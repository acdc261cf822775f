// The rows of rows/, a test a file.
import assert from "node:assert/strict";
import { test } from "node:test";
import { askedForKey, fedUnderTable, leftOutOf, lineOf, runFile, SCHEMAS, throughTable } from "./rows.mjs";

/** How many rows of each file are left out, so that no more are. */
const LEFT_OUT = {
    messages: 68,
    further_messages: 11,
    detached: 7,
    elsewhere: 0,
    shapes: 7,
    tokens: 4,
    claims: 23,
    terms: 0,
    checklist: 0,
    keys: 2,
    sets: 11,
    made: 1,
    signed: 1,
};

for (const schema of SCHEMAS) {
    test(`each row of ${schema} that the interface can ask is answered as it says`, async (t) => {
        const counts = await runFile(schema);
        t.diagnostic(lineOf(schema, counts));
        assert.deepEqual(counts.differ, []);
        assert.equal(leftOutOf(counts), LEFT_OUT[schema]);
        assert.ok(counts.rows > LEFT_OUT[schema]);
    });
}

/** Rows whose payload is detached, for which a table has no call. */
const DETACHED = { terms: 0, checklist: 5 };

for (const [schema, detached] of Object.entries(DETACHED)) {
    test(`each row of ${schema} whose payload is in its message goes through a table too`, async () => {
        throughTable[schema] = 0;
        const { rows, differ } = await runFile(schema);
        assert.deepEqual([differ, rows - throughTable[schema]], [[], detached]);
    });
}

/** Rows with labels that are understood, or that are refused for another reason than NoKey. */
const WITHOUT_KEY = 7;

test("each other row of terms is asked for its key, in both sizes", async () => {
    askedForKey.terms = 0;
    const { rows, differ } = await runFile("terms");
    assert.deepEqual([differ, rows - askedForKey.terms / 2], [[], WITHOUT_KEY]);
});

/** Rows with labels that are understood, with a limit of the payload, or whose message is followed by a byte. */
const OF_ONE_CALL = 5;

test("each other row of terms is fed to a verifier under a table, in both sizes", async () => {
    fedUnderTable.terms = 0;
    const { rows, differ } = await runFile("terms");
    assert.deepEqual([differ, rows - fedUnderTable.terms], [[], OF_ONE_CALL]);
});
