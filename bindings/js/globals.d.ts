// What a script finds: in Node `module`, and in the page the bytes of cose_wasm.js.
interface ModulesOfScripts {
    "./cose.js": { Block: typeof Block; LAYOUTS: typeof LAYOUTS; STATUS: typeof STATUS; WANTED: typeof WANTED };
    "./cose_blocks.js": {
        Block: typeof Block;
        Table: typeof Table;
        KeyTable: typeof KeyTable;
        Verifier: typeof Verifier;
        Maker: typeof Maker;
    };
    "./cose_structs.js": {
        STATUS: typeof STATUS;
        WANTED: typeof WANTED;
        FIELDS: typeof FIELDS;
        LAYOUTS: typeof LAYOUTS;
        NOTHING: typeof NOTHING;
        layoutOf: typeof layoutOf;
        labelOf: typeof labelOf;
        exact: typeof exact;
        copyOf: typeof copyOf;
    };
    "./rooms.js": { Rooms: typeof Rooms };
    "./signatures.js": { joined: typeof joined };
    "./terms.js": { Stated: typeof Stated };
    "node:crypto": { webcrypto: Crypto };
}
declare var module: { exports: object; require<Path extends keyof ModulesOfScripts>(path: Path): ModulesOfScripts[Path] } | undefined;
declare const COSE_WASM: string;
