// Keys that terms permit, which are read once: a table of them, and what its messages are verified under.
"use strict";

const TABLES = typeof module === "object" ? module.require("./cose.js") : { Table, LAYOUTS };
const GIVEN = typeof module === "object" ? module.require("./terms.js").Stated : Stated;

/** The keys that terms permit, at most 64, read once, and what the terms state besides. */
class TermsTable extends TABLES.Table {
    /**
     * @param {Cose} cose
     * @param {Terms & {keys: Uint8Array}} options a COSE_Key or a COSE_KeySet, and terms that aren't `large`
     */
    constructor(cose, { keys, ...terms }) {
        if (terms.large) throw new RangeError("a table reads no large headers");
        super(cose);
        /** The external data of the table's messages. */
        this.aad = new Uint8Array(terms.aad ?? []);
        try {
            /** The status, and the reason and place of a refusal; or the number of keys that are usable and permitted. */
            this.keySet = this.read(keys, terms);
        } catch (fault) {
            this.close();
            throw fault;
        }
    }

    /**
     * @param {Uint8Array} keys
     * @param {Terms} terms
     */
    read(keys, terms) {
        if (this.keySet) throw new Error("a table is read once");
        return this.cose.scoped((scope) => {
            const at = scope.room(TABLES.LAYOUTS.cose_key_set.size);
            // the block leads to the keys and to the external data until it is closed
            const kept = { ...scope, room: scope.room.bind(scope), put: this.keep.bind(this) };
            const given = GIVEN.terms(this.cose, /** @type {Scope} */ (kept), keys, terms);
            this.cose.exports.cose_edge_table_read_under(this.handle, given, at);
            const { status, reason, place, usable } = this.cose.read(at, "cose_key_set");
            return { status, reason, place, usable };
        });
    }

    /**
     * Verifies a message under the table's terms, as `Cose.authenticate` does.
     * @param {Uint8Array} message
     * @returns {Verdict}
     */
    authenticate(message) {
        return this.cose.scoped((scope) => {
            const at = scope.room(TABLES.LAYOUTS.cose_message_verdict.size);
            const input = scope.room(TABLES.LAYOUTS.cose_signature_input.size);
            this.cose.exports.cose_edge_table_authenticate(this.handle, ...scope.put(message), at, input);
            return this.cose.readVerdict(at, input);
        });
    }

    /**
     * The claims of a token under the table's terms, where they meet requirements, as of `Cose.admit`. Where it is SIGNED `authenticate`
     * it, and call `Cose.admitClaims`.
     * @param {Uint8Array} token
     * @param {Requirements} requirements
     * @returns {Claims}
     */
    admit(token, requirements) {
        return this.cose.scoped((scope) => {
            const at = scope.room(TABLES.LAYOUTS.cose_claims_set.size);
            const required = GIVEN.requirements(this.cose, scope, requirements);
            this.cose.exports.cose_edge_table_admit(this.handle, required, ...scope.put(token), at);
            return this.cose.readClaims(at, token);
        });
    }
}

if (typeof module === "object") Object.assign(module.exports, { TermsTable });
