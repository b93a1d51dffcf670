/** The module of WebAssembly. */

/**
 * Loads the module, once: call it before all else. By default it is the file `is_ice.wasm` of the package: Node reads it, a browser
 * fetches it.
 */
export function init(source?: ModuleSource | Promise<ModuleSource>): Promise<void>;

/**
 * What `init` takes: a URL (a `URL` or a string), the module's bytes, a `Response`, or a `WebAssembly.Module`. The type names none of
 * these, since a program for Node may be without the types of browsers.
 */
export type ModuleSource = string | object;

/** How many bytes of the module's memory are in use. It grows and never shrinks, but what is freed is used again. */
export function heapUsed(): number;
