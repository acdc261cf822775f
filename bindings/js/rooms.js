// The memory of the WebAssembly module, as cose.js divides it into rooms for arguments and answers.
"use strict";

/** The size of a page of WebAssembly's memory. */
const PAGE = 65536;

/**
 * The memory of the module after its own part, which the module touches only by the pointers that it is passed. Rooms are
 * of 64 bytes times a power of two, and what is given back is set to zero.
 */
class Rooms {
    /** @param {WebAssembly.Memory} memory */
    constructor(memory) {
        this.memory = memory;
        this.next = this.end = memory.buffer.byteLength;
        /** @type {Map<number, number[]>} */
        this.free = new Map();
    }

    /**
     * @param {number} length
     * @returns {number}
     */
    sizeFor(length) {
        return 64 * 2 ** Math.max(0, Math.ceil(Math.log2(Math.max(1, length) / 64)));
    }

    /**
     * Room for so many bytes. Its address is never 0, and a multiple of 64.
     * @param {number} length
     * @returns {number}
     */
    take(length) {
        const size = this.sizeFor(length);
        const again = this.free.get(size)?.pop();
        if (again !== undefined) return again;
        const at = this.next;
        if (at + size > this.end) this.grow(Math.ceil((at + size - this.end) / PAGE));
        this.next = at + size;
        return at;
    }

    /**
     * @param {number} at
     * @param {number} length
     */
    give(at, length) {
        const size = this.sizeFor(length);
        new Uint8Array(this.memory.buffer, at, length).fill(0);
        const free = this.free.get(size) ?? [];
        free.push(at);
        this.free.set(size, free);
    }

    /** @param {number} pages */
    grow(pages) {
        this.memory.grow(pages);
        this.end += pages * PAGE;
    }

    /** The rooms of one call. */
    scope() {
        return new Scope(this);
    }
}

/** The rooms of one call, which are given back when it ends. */
class Scope {
    /** @param {Rooms} rooms */
    constructor(rooms) {
        this.rooms = rooms;
        /** @type {[number, number][]} */
        this.taken = [];
    }

    /**
     * @param {number} length
     * @returns {number}
     */
    room(length) {
        const at = this.rooms.take(length);
        this.taken.push([at, length]);
        return at;
    }

    /**
     * Bytes, as a pointer and a length.
     * @param {Uint8Array} bytes
     * @returns {[number, bigint]}
     */
    put(bytes) {
        const at = this.room(bytes.length);
        new Uint8Array(this.rooms.memory.buffer, at, bytes.length).set(bytes);
        return [at, BigInt(bytes.length)];
    }

    end() {
        for (const [at, length] of this.taken) this.rooms.give(at, length);
    }
}

if (typeof module === "object") Object.assign(module.exports, { Rooms });
