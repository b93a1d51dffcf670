// The library for the tests: js/src, or what IS_ICE_JS names, with its module, or what IS_ICE_WASM names.
import { existsSync, readFileSync } from "node:fs";
import { resolve } from "node:path";
import { fileURLToPath, pathToFileURL } from "node:url";

const folder = resolve(process.env.IS_ICE_JS ?? fileURLToPath(new URL("../../js/src", import.meta.url)));
const module = resolve(process.env.IS_ICE_WASM ?? `${folder}/is_ice.wasm`);
const missing = [`${folder}/index.js`, module].find((path) => !existsSync(path));

/** Why tests with agents are skipped, or false. */
export const skip = missing ? `${missing} does not exist` : false;
/** The library, or null. */
export const ice = missing ? null : await import(pathToFileURL(`${folder}/index.js`));
if (ice) await ice.init(readFileSync(module));
