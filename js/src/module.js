// Loads the module of WebAssembly.
import { VERSION } from "./abi.js";
import { Memory } from "./memory.js";

let compiled = null, loading = null, memory = null;

/** Loads the module, once. Call it before all else. `source` is its URL, bytes, Response or WebAssembly.Module. By default it is the file
 *  is_ice.wasm next to this one. */
export function init(source = new URL("./is_ice.wasm", import.meta.url)) {
  loading ??= load(source).catch((why) => {
    loading = null;
    throw why;
  });
  return loading;
}

async function load(source) {
  compiled = await compile(await source);
  memory = checked(await WebAssembly.instantiate(compiled, {}));
}

async function compile(source) {
  if (source instanceof WebAssembly.Module) return source;
  const found = typeof source === "string" || source instanceof URL ? await read(source) : source;
  const isResponse = typeof Response !== "undefined" && found instanceof Response;
  return WebAssembly.compile(isResponse ? await body(found) : found);
}

/** Reads a file in Node, and fetches elsewhere. */
function read(source) {
  const url = new URL(source, globalThis.location?.href ?? import.meta.url);
  const files = url.protocol === "file:" ? globalThis.process?.getBuiltinModule?.("node:fs") : null;
  return files ? files.promises.readFile(url) : fetch(url);
}

function body(response) {
  if (!response.ok) throw new Error(`${response.url}: status ${response.status}`);
  return response.arrayBuffer();
}

function checked({ exports }) {
  const version = exports.is_ice_version();
  if (version !== VERSION) throw new Error(`is_ice.wasm has the interface ${version}, and not ${VERSION}`);
  return new Memory(exports);
}

/** The instance for new agents and for calls without an agent. After a trap it is a new one: the agents of the old one are lost. */
export function library() {
  if (!memory) throw new Error("the module is not loaded: `await init()` comes first");
  if (memory.trap) memory = checked(new WebAssembly.Instance(compiled, {}));
  return memory;
}

/** How many bytes of the module's memory are in use. */
export const heapUsed = () => Number(library().call("is_ice_heap_used"));
