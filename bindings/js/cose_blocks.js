// What the module keeps in a block of memory between calls: tables of keys, verifiers that are fed, and makers.
//
// As cose.js, which a page reads after this one, it is a script without imports, and a module of Node.
"use strict";

/** What cose_structs.js and terms.js have, which a page reads as scripts before this one. */
const FORMS = typeof module === "object" ? module.require("./cose_structs.js") : { LAYOUTS, NOTHING, WANTED, labelOf, copyOf };
const UNDER = typeof module === "object" ? module.require("./terms.js").Stated : Stated;

/** A block of the module's memory, with the struct that leads to it. `close` overwrites the block and gives both back. */
class Block {
    /**
     * @param {Cose} cose
     * @param {string} name the middle of the names of its functions: `verifier`, `table`, `maker` or `signer`
     * @param {string} begin
     */
    constructor(cose, name, begin) {
        this.cose = cose;
        this.size = Number(cose.exports[`cose_${name}_size`]());
        if (cose.exports[`cose_${name}_align`]() > 64n) throw new Error("a block's alignment is more than 64");
        this.at = cose.rooms.take(this.size);
        this.struct = cose.rooms.take(8);
        /** @type {[number, number][]} */
        this.kept = [];
        cose.exports[begin](this.at);
        new DataView(cose.rooms.memory.buffer).setUint32(this.struct, this.at, true);
        this.isOpen = true;
    }

    get handle() {
        if (!this.isOpen) throw new Error("it is closed");
        return this.struct;
    }

    /**
     * Keeps bytes until the next call of `release`, as a pointer and a length.
     * @param {Uint8Array} bytes
     * @returns {[number, bigint]}
     */
    keep(bytes) {
        const at = this.cose.rooms.take(bytes.length);
        this.kept.push([at, bytes.length]);
        new Uint8Array(this.cose.rooms.memory.buffer, at, bytes.length).set(bytes);
        return [at, BigInt(bytes.length)];
    }

    release() {
        for (const [at, length] of this.kept.splice(0)) this.cose.rooms.give(at, length);
    }

    /** Overwrites the block: what is derived from keys is as secret as they are. */
    wipe() {
        this.cose.exports.cose_edge_wipe_bytes(this.at, BigInt(this.size));
    }

    close() {
        if (!this.isOpen) return;
        this.isOpen = false;
        this.release();
        this.wipe();
        this.cose.rooms.give(this.struct, 8);
        this.cose.rooms.give(this.at, this.size);
    }
}

/** Keys that are read once, under which verifiers are opened. Once it is closed, these are as ones that were never opened. */
class Table extends Block {
    /** @param {Cose} cose */
    constructor(cose) {
        super(cose, "table", "cose_table_begin");
        /**
         * The verifiers whose blocks lead to this one.
         * @type {Set<Verifier>}
         */
        this.verifiers = new Set();
    }

    close() {
        for (const verifier of this.verifiers) verifier.forget();
        super.close();
    }
}

/** A table of at most 64 keys, each of which is read once. */
class KeyTable extends Table {
    /**
     * @param {Cose} cose
     * @param {Uint8Array} keys
     */
    constructor(cose, keys) {
        super(cose);
        this.keys = keys;
        const given = this.keep(keys);
        /** The status, and the reason and place of a refusal; or the number of usable keys. */
        this.keySet = cose.scoped((scope) => {
            const at = scope.room(FORMS.LAYOUTS.cose_key_set.size);
            cose.exports.cose_edge_table_read(this.handle, ...given, at);
            const { status, reason, place, usable } = cose.read(at, "cose_key_set");
            return { status, reason, place, usable };
        });
    }
}

/** A verifier that is fed. Its payload comes before the verdict: drop it unless the verdict is AUTHENTIC. */
class Verifier extends Block {
    /**
     * @param {Cose} cose
     * @param {{large?: boolean}} options
     */
    constructor(cose, { large = false } = {}) {
        super(cose, `${large ? "large_" : ""}verifier`, `cose_${large ? "large_" : ""}begin`);
        this.prefix = large ? "large_" : "";
        /**
         * What `signInput` returned of the message: no other message has the same object.
         * @type {SignInput | undefined}
         */
        this.asked = undefined;
        /**
         * The table that it is open under.
         * @type {Table | undefined}
         */
        this.table = undefined;
    }

    /**
     * A function of this size by its name.
     * @param {string} name
     * @param {boolean} [isEdge]
     */
    call(name, isEdge = false) {
        return this.cose.exports[`cose_${isEdge ? "edge_" : ""}${this.prefix}${name}`];
    }

    /**
     * The keys and the external data of the next messages, and of detached payloads the number of bytes. Of a `TermsTable` the keys
     * alone are taken: what its terms state besides doesn't count. A table that isn't read is CLOSED, and so is a verifier whose table
     * was closed, until it is opened again.
     * @param {Uint8Array | Table} keys
     * @param {Options & {payloadLength?: number | bigint}} options
     */
    open(keys, { aad = FORMS.NOTHING, wanted = FORMS.WANTED.TAGGED, payloadLength } = {}) {
        const table = keys instanceof Table ? keys : undefined;
        if (table && table.cose !== this.cose) throw new Error("the table is of another module");
        this.asked = undefined;
        const old = this.kept.length;
        const under = keys instanceof Table ? [keys.handle] : this.keep(keys);
        const given = [...under, ...this.keep(aad)];
        const name = table ? "open_table" : "open";
        const status = this.cose.scoped((scope) => {
            const at = scope.room(FORMS.LAYOUTS.cose_status.size);
            if (payloadLength === undefined) this.call(name, true)(this.handle, ...given, wanted, at);
            else this.call(`${name}_detached`, true)(this.handle, ...given, wanted, BigInt(payloadLength), at);
            return this.cose.read(at, "cose_status");
        });
        this.opened(old, table);
        return status;
    }

    /**
     * What is stated of the next messages, whose defaults are safe, as `authenticate` takes it, but for `understood`: a block keeps no
     * labels.
     * @param {Uint8Array} keys
     * @param {Terms & {payloadLength?: number | bigint}} terms
     */
    openUnder(keys, terms = {}) {
        if (keys instanceof Table) throw new Error("a verifier is opened under terms with the bytes of keys");
        return UNDER.open(this, keys, terms);
    }

    /**
     * It was opened: the block leads to no bytes that were kept before.
     * @param {number} old in how many rooms they are
     * @param {Table} [table] which it leads to now
     */
    opened(old, table) {
        for (const [at, length] of this.kept.splice(0, old)) this.cose.rooms.give(at, length);
        this.leave();
        table?.verifiers.add(this);
        this.table = table;
    }

    /** The block leads to no table. */
    leave() {
        this.table?.verifiers.delete(this);
        this.table = undefined;
    }

    /** Overwrites the block, and begins it again: it is as one that was never opened. */
    forget() {
        this.asked = undefined;
        this.wipe();
        this.call("begin")(this.at);
        this.leave();
        this.release();
    }

    close() {
        this.leave();
        super.close();
    }

    /**
     * The next bytes of the message: the status, how many were used, and those of them that are of the payload.
     * @param {Uint8Array} piece
     */
    feed(piece) {
        return this.cose.scoped((scope) => {
            const at = scope.room(FORMS.LAYOUTS.cose_fed.size);
            this.call("feed", true)(this.handle, ...scope.put(piece), at);
            const { status, used, payload_at: from, payload_length: length } = this.cose.read(at, "cose_fed");
            return { ...status, used, payload: piece.subarray(from, from + length) };
        });
    }

    /**
     * The next bytes of a detached payload: how many were used.
     * @param {Uint8Array} piece
     */
    feedPayload(piece) {
        return this.cose.scoped((scope) => Number(this.call("feed_payload", true)(this.handle, ...scope.put(piece))));
    }

    /** Says that no byte follows. */
    end() {
        return this.cose.scoped((scope) => {
            const at = scope.room(FORMS.LAYOUTS.cose_status.size);
            this.call("end")(this.handle, at);
            return this.cose.read(at, "cose_status");
        });
    }

    /**
     * What the signature of a complete message is verified with, if it has one: the same object until the next message.
     * @returns {SignInput | undefined}
     */
    signInput() {
        this.asked ??= this.cose.scoped((scope) => {
            const at = scope.room(FORMS.LAYOUTS.cose_signature_input.size);
            return this.call("sign_input")(this.handle, at) === 1 ? this.cose.readInput(at) : undefined;
        });
        return this.asked;
    }

    /**
     * The verdict on a complete message. `signatureIsGood` is about `input`, which `signInput` returned for this message: a good
     * signature of another one throws. For a COSE_Mac0 neither counts.
     * @param {boolean} signatureIsGood
     * @param {SignInput} [input]
     * @returns {Verdict}
     */
    verdict(signatureIsGood, input) {
        if (signatureIsGood === true && input !== this.signInput()) throw new Error("the signature is of another message");
        return this.cose.scoped((scope) => {
            const at = scope.room(FORMS.LAYOUTS.cose_message_verdict.size);
            this.call("verdict")(this.handle, signatureIsGood === true ? 1 : 0, at);
            return this.cose.readVerdict(at);
        });
    }

    /**
     * A header parameter of the message so far, as of `Cose.parameter`. Nothing of it is authentic before the verdict.
     * @param {number | bigint | string} label
     * @param {{protected: boolean}} options
     * @returns {Uint8Array | undefined}
     */
    parameter(label, { protected: isProtected }) {
        return this.cose.scoped((scope) => {
            const length = this.prefix ? 65_535 : 1_024;
            const [at, room] = [scope.room(FORMS.LAYOUTS.cose_item.size), scope.room(length)];
            const which = [this.handle, isProtected ? 1 : 0];
            if (typeof label === "string") {
                const name = scope.put(new TextEncoder().encode(label));
                this.call("header_named", true)(...which, ...name, room, BigInt(length), at);
            } else {
                this.call("header", true)(...which, FORMS.labelOf(label), room, BigInt(length), at);
            }
            const item = this.cose.read(at, "cose_item");
            return item.present ? this.cose.bytes(room, item.length) : undefined;
        });
    }

    /**
     * Which key of a set the message so far is verified with, as of `Cose.keyOf`: once both header buckets were found good, until `reset`.
     * `wanted` of the terms is the kind of the message, 17 or 18, as its verdict has it, and `large` is that of the verifier. Nothing is
     * authenticated: ask after the verdict.
     * @param {Uint8Array} keys
     * @param {Terms} terms
     * @returns {{place: number, item: Uint8Array} | undefined}
     */
    keyOf(keys, terms) {
        return this.cose.scoped((scope) => {
            const at = scope.room(FORMS.LAYOUTS.cose_item.size);
            this.call("fed_key_of", true)(this.handle, UNDER.terms(this.cose, scope, keys, terms), at);
            const item = this.cose.read(at, "cose_item");
            return item.present ? { place: item.at, item: FORMS.copyOf(keys, item.at, item.length) } : undefined;
        });
    }

    /** Begins the next message, under the same keys. */
    reset() {
        this.asked = undefined;
        this.call("reset")(this.handle);
    }

    /** How many bytes of the message are to come for certain. */
    get wanted() {
        return Number(this.call("wanted")(this.handle));
    }

    /** How many bytes of a detached payload are wanted. */
    get payloadWanted() {
        return Number(this.call("payload_wanted")(this.handle));
    }

    /** How many bytes of the message were taken. */
    get taken() {
        return Number(this.call("taken")(this.handle));
    }

    /** How many bytes of it are held, and 256 for the running hash. */
    get held() {
        return Number(this.call("held")(this.handle));
    }
}

/** A COSE_Mac0 that is being made: `head`, the pieces of the payload and `end` are the message. */
class Maker extends Block {
    /** @param {Cose} cose */
    constructor(cose) {
        super(cose, "maker", "cose_maker_begin");
    }

    /**
     * What precedes a payload of so many bytes.
     * @param {Uint8Array} key
     * @param {number | bigint} payloadLength
     * @param {{alg: number, kid?: Uint8Array, aad?: Uint8Array}} options
     */
    head(key, payloadLength, { alg, kid = FORMS.NOTHING, aad = FORMS.NOTHING }) {
        return this.written(384, (scope, at, made) =>
            this.cose.exports.cose_edge_make(
                this.handle,
                alg,
                ...scope.put(key),
                ...scope.put(kid),
                ...scope.put(aad),
                BigInt(payloadLength),
                at,
                384n,
                made,
            ),
        );
    }

    /**
     * The next bytes of the payload: how many were used.
     * @param {Uint8Array} piece
     */
    piece(piece) {
        return this.cose.scoped((scope) =>
            Number(this.cose.exports.cose_edge_make_piece(this.handle, ...scope.put(piece))),
        );
    }

    /** What follows the payload. */
    end() {
        return this.written(70, (_, at, made) =>
            this.cose.exports.cose_edge_make_end(this.handle, at, 70n, made),
        );
    }

    /**
     * @param {number} room
     * @param {(scope: Scope, at: number, made: number) => void} call
     */
    written(room, call) {
        return this.cose.scoped((scope) => {
            const [at, made] = [scope.room(room), scope.room(FORMS.LAYOUTS.cose_made.size)];
            call(scope, at, made);
            const { status, reason, length } = this.cose.read(made, "cose_made");
            return { status, reason, bytes: this.cose.bytes(at, length) };
        });
    }
}

if (typeof module === "object") Object.assign(module.exports, { Block, Table, KeyTable, Verifier, Maker });
