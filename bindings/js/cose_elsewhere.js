// Messages that the caller authenticates, since it has the hash or the key.
"use strict";

const CORE = typeof module === "object" ? module.require("./cose.js") : { Table, Verifier, LAYOUTS };

/**
 * The key that was chosen for a message: its material is `k`, or `crv`, `x` and `y`, or `ySign` (1 even, 2 odd).
 * @typedef {{alg: number, kid?: Uint8Array, k?: Uint8Array, crv?: number, ySign?: number, x?: Uint8Array, y?: Uint8Array}} AskedKey
 */

/**
 * A verifier of messages that the caller authenticates, since it has the hash or the key: nothing is hashed here, and the bytes of a
 * symmetric key are given back and not used. Feed the message; from its payload's head on `front` has the pieces that are hashed before
 * the payload, and `askedKey` the key. Then state what was found of the pieces, the payload, and nothing after.
 */
class Elsewhere extends CORE.Verifier {
    /**
     * @param {Cose} cose
     * @param {{large?: boolean}} options
     */
    constructor(cose, options = {}) {
        super(cose, options);
        this.aad = new Uint8Array();
        /**
         * The number of the message whose signature was asked for: an answer is about no other.
         * @type {bigint | undefined}
         */
        this.number = undefined;
    }

    /**
     * As `Verifier.open`, but it takes no table.
     * @param {Uint8Array} keys
     * @param {Options & {payloadLength?: number | bigint}} options
     */
    open(keys, options = {}) {
        if (keys instanceof CORE.Table) throw new Error("a table has no call for what the caller authenticates");
        this.aad = options.aad ?? new Uint8Array();
        return super.open(keys, options);
    }

    /**
     * @param {string} name
     * @param {boolean} [isEdge]
     */
    call(name, isEdge = false) {
        return super.call(name.replace(/^open/, "open_elsewhere"), isEdge);
    }

    /**
     * The six pieces before the payload, in their order: from its head on and until the verdict.
     * @returns {Uint8Array[] | undefined}
     */
    front() {
        return this.cose.scoped((scope) => {
            const length = this.prefix ? 65_535 : 1_024;
            const [at, room] = [scope.room(CORE.LAYOUTS.cose_pieces.size), scope.room(length)];
            if (this.call("front_pieces", true)(this.handle, room, BigInt(length), at) !== 1) return undefined;
            const all = this.cose.read(at, "cose_pieces");
            /** @param {string} name */
            const part = (name) => all[name].slice(0, all[`${name}_length`]);
            const content = this.cose.bytes(room, all.protected_length);
            return [part("context"), part("protected_head"), content, part("aad_head"), this.aad, part("payload_head")];
        });
    }

    /**
     * The key that was chosen: from the payload's head on and until the verdict.
     * @returns {AskedKey | undefined}
     */
    askedKey() {
        return this.cose.scoped((scope) => {
            const at = scope.room(CORE.LAYOUTS.cose_chosen_key.size);
            if (this.call("asked_key", true)(this.handle, at) !== 1) return undefined;
            const all = this.cose.read(at, "cose_chosen_key");
            /** @param {string} name */
            const part = (name) => this.cose.bytes(all[name], all[`${name}_length`]);
            const kid = all.has_kid === 1 ? part("kid") : undefined;
            if (all.crv === 0) return { alg: all.alg, kid, k: part("k") };
            return { alg: all.alg, kid, crv: all.crv, ySign: all.y_sign, x: part("x"), y: part("y") };
        });
    }

    /**
     * The signature of a complete COSE_Sign1, until the verdict.
     * @returns {Uint8Array | undefined}
     */
    askedSignature() {
        return this.cose.scoped((scope) => {
            const at = scope.room(CORE.LAYOUTS.cose_received_signature.size);
            this.number = this.call("message_number")(this.handle);
            if (this.call("asked_signature")(this.handle, at) !== 1) return undefined;
            const { length, signature } = this.cose.read(at, "cose_received_signature");
            return signature.slice(0, length);
        });
    }

    /**
     * There is a verdict only by what is stated.
     * @returns {never}
     */
    verdict() {
        throw new Error("use verdictOfMac or verdictOfAnswer");
    }

    /**
     * The verdict on a complete COSE_Mac0, whose tag is compared with this MAC. The first verdict stands until `reset`.
     * @param {Uint8Array} mac
     */
    verdictOfMac(mac) {
        return this.cose.scoped((scope) => {
            const at = scope.room(CORE.LAYOUTS.cose_message_verdict.size);
            this.call("verdict_of_mac", true)(this.handle, ...scope.put(mac), at);
            return this.cose.readVerdict(at);
        });
    }

    /**
     * The verdict on a complete COSE_Sign1, whose `askedSignature` holds or doesn't. The first verdict stands until `reset`.
     * @param {boolean} holds
     */
    verdictOfAnswer(holds) {
        const { number } = this;
        if (number === undefined) throw new Error("the signature wasn't asked for");
        return this.cose.scoped((scope) => {
            const at = scope.room(CORE.LAYOUTS.cose_message_verdict.size);
            this.call("verdict_of_answer")(this.handle, number, holds === true ? 1 : 0, at);
            return this.cose.readVerdict(at);
        });
    }
}

if (typeof module === "object") Object.assign(module.exports, { Elsewhere });
