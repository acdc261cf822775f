// COSE_Sign1 messages that are made, with a signature of the caller's.
"use strict";

const LOW = typeof module === "object" ? module.require("./cose.js") : { Block, LAYOUTS, STATUS };

/** The bytes of the rooms for what precedes a payload, for a digest, and for what follows the payload. */
const ROOM = Object.freeze({ head: 384, digest: 64, tail: 134 });

/**
 * A COSE_Sign1 that is being made: `head`, the pieces of the payload and `end` are the message.
 *
 * WebCrypto signs what it hashes itself, and no digest: with it, sign the `sigStructure` of signatures.js, whose hash is `digest`.
 */
class Sign1Maker extends LOW.Block {
    /** @param {Cose} cose */
    constructor(cose) {
        super(cose, "signer", "cose_signer_begin");
    }

    /**
     * What precedes a payload of so many bytes.
     * @param {number | bigint} payloadLength
     * @param {{alg: number, kid?: Uint8Array, aad?: Uint8Array}} options
     */
    head(payloadLength, { alg, kid = new Uint8Array(), aad = new Uint8Array() }) {
        return this.made(ROOM.head, (scope, ...rest) =>
            this.cose.exports.cose_edge_make_sign1(
                this.handle,
                alg,
                ...scope.put(kid),
                ...scope.put(aad),
                BigInt(payloadLength),
                ...rest,
            ),
        );
    }

    /**
     * The next bytes of the payload: how many were used.
     * @param {Uint8Array} piece
     */
    piece(piece) {
        return this.cose.scoped((scope) =>
            Number(this.cose.exports.cose_edge_make_sign1_piece(this.handle, ...scope.put(piece))),
        );
    }

    /** The digest of the Sig_structure (RFC 9052 section 4.4), which is to be signed: COMPLETE once the payload is whole. */
    digest() {
        return this.made(ROOM.digest, (_, ...rest) =>
            this.cose.exports.cose_edge_make_sign1_digest(this.handle, ...rest),
        );
    }

    /**
     * What follows the payload. The signature is r and then s (RFC 9053 section 2.1), and isn't verified.
     * @param {Uint8Array} signature
     */
    end(signature) {
        return this.made(ROOM.tail, (scope, ...rest) =>
            this.cose.exports.cose_edge_make_sign1_end(this.handle, ...scope.put(signature), ...rest),
        );
    }

    /**
     * @param {number} room
     * @param {(scope: Scope, at: number, room: bigint, made: number) => void} call
     */
    made(room, call) {
        return this.cose.scoped((scope) => {
            const [at, made] = [scope.room(room), scope.room(LOW.LAYOUTS.cose_made.size)];
            call(scope, at, BigInt(room), made);
            const { status, reason, length } = this.cose.read(made, "cose_made");
            return { status, reason, bytes: this.cose.bytes(at, length) };
        });
    }
}

/**
 * Makes a COSE_Sign1 of a payload in memory. `sign` gets the digest, and returns the signature, or a promise of one.
 * @param {Cose} cose
 * @param {Uint8Array} payload
 * @param {{alg: number, kid?: Uint8Array, aad?: Uint8Array, sign: (digest: Uint8Array) => Uint8Array | Promise<Uint8Array>}} options
 */
async function sign1(cose, payload, { sign, ...options }) {
    const maker = new Sign1Maker(cose);
    try {
        const head = wanted(maker.head(payload.length, options), LOW.STATUS.MORE);
        maker.piece(payload);
        const signature = await sign(wanted(maker.digest(), LOW.STATUS.COMPLETE));
        const tail = wanted(maker.end(signature), LOW.STATUS.COMPLETE);
        const message = new Uint8Array(head.length + payload.length + tail.length);
        message.set(head);
        message.set(payload, head.length);
        message.set(tail, head.length + payload.length);
        return message;
    } finally {
        maker.close();
    }
}

/**
 * The bytes that were made, where the status is the one that is wanted.
 * @param {{status: number, bytes: Uint8Array}} made
 * @param {number} status
 */
function wanted(made, status) {
    if (made.status !== status) throw new Error(`no message is made: the status is ${made.status}`);
    return made.bytes;
}

if (typeof module === "object") Object.assign(module.exports, { Sign1Maker, sign1 });
