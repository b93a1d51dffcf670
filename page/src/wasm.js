// What page/build puts in place of this file: the module, gzipped, and its hash.
export const WASM = { module: async () => new URL("../../js/src/is_ice.wasm", import.meta.url), size: 0, hash: "" };
