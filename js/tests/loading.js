// The module is loaded once, and from each kind of source.
import assert from "node:assert/strict";
import { once } from "node:events";
import { readFileSync } from "node:fs";
import http from "node:http";
import { test } from "node:test";
import { Worker } from "node:worker_threads";
import { init } from "is-ice";
import { VERSION } from "../src/abi.js";
import { library } from "../src/module.js";

const url = new URL("../src/is_ice.wasm", import.meta.url), bytes = readFileSync(url);
let copies = 0;
/** src/module.js with a state of its own, in which nothing is loaded yet. */
const copy = () => import(`../src/module.js?${copies++}`);

test("once", async () => {
  const before = library();
  await Promise.all([init(), init(new URL("http://127.0.0.1:1/none.wasm"))]);
  assert.equal(library(), before);
  const other = await copy();
  assert.throws(() => other.library(), /await init\(\)/);
  await Promise.all([other.init(), other.init()]);
  assert.notEqual(other.library(), before);
});

test("from its URL, its bytes, a response or a compiled module", async () => {
  const response = () => new Response(bytes, { headers: { "content-type": "text/plain" } });
  for (const source of [undefined, url, url.href, bytes, new Uint8Array(bytes).buffer, response(), new WebAssembly.Module(bytes),
    Promise.resolve(bytes), Promise.resolve(response())]) {
    const { init: load, library: loaded } = await copy();
    await load(source);
    assert.equal(loaded().exports.is_ice_version(), VERSION);
  }
});

test("over HTTP, as in a browser", async () => {
  const server = http.createServer((request, response) => {
    if (request.url === "/is_ice.wasm") response.end(bytes);
    else response.writeHead(404).end();
  });
  server.listen(0, "127.0.0.1");
  await once(server, "listening");
  const base = `http://127.0.0.1:${server.address().port}`, { init: load, library: loaded } = await copy();
  await assert.rejects(load(`${base}/none.wasm`), /none\.wasm: status 404/);
  await assert.rejects(load(new Uint8Array(3)), WebAssembly.CompileError);
  await load(new URL("/is_ice.wasm", base)); // what failed is tried again
  assert.equal(loaded().exports.is_ice_version(), VERSION);
  server.closeAllConnections();
  server.close();
});

test("a module of another version is an error", async () => {
  // (module (func (export "is_ice_version") (result i32) i32.const 99))
  const other = [0, 97, 115, 109, 1, 0, 0, 0, 1, 5, 1, 96, 0, 1, 127, 3, 2, 1, 0, 7, 18, 1, 14, ...Buffer.from("is_ice_version"), 0, 0, 10, 7, 1, 5, 0,
    65, 227, 0, 11];
  const { init: load } = await copy();
  await assert.rejects(load(Uint8Array.from(other)), /interface 99, and not/);
});

test("in a worker thread, by itself and with the module of this one", async () => {
  const text = `
    import { parentPort, workerData } from "node:worker_threads";
    import { init, IceAgent } from ${JSON.stringify(new URL("../src/index.js", import.meta.url))};
    await init(workerData);
    parentPort.postMessage(new IceAgent().state);`;
  for (const workerData of [undefined, new WebAssembly.Module(bytes)]) {
    const worker = new Worker(new URL(`data:text/javascript,${encodeURIComponent(text)}`), { workerData });
    const [state] = await once(worker, "message");
    assert.equal(state, "new");
    await worker.terminate();
  }
});
