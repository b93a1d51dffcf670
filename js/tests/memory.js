// The module's memory: every byte comes back, also what is left of errors; a full memory; a trap.
import assert from "node:assert/strict";
import { test } from "node:test";
import { heapUsed, IceAgent, isStun } from "is-ice";
import { IceLoop } from "is-ice/node";
import { library } from "../src/module.js";
import { closed, pair, run } from "./support.js";

const AGENTS = 10000;

async function collected() {
  for (let i = 0; i < 5; i++) {
    globalThis.gc();
    await new Promise((done) => setTimeout(done, 20));
  }
}

/** Sessions of two agents each, in one of which a path is found and one agent makes an ICE restart. */
function sessions(count, end) {
  for (let i = 0; i < count / 2; i++) {
    const agents = pair();
    run(agents, 0, 250);
    if (i % 2) agents[0].iceRestart();
    end(agents);
  }
}

test(`close() gives back every byte of ${AGENTS} agents`, () => {
  sessions(2, closed);
  const before = heapUsed();
  sessions(AGENTS, closed);
  assert.equal(heapUsed(), before);
});

test(`so does the garbage collector, of ${AGENTS} agents that nobody closed`, { skip: !globalThis.gc && "needs --expose-gc" }, async () => {
  await collected();
  const before = heapUsed();
  sessions(AGENTS, () => {});
  assert.ok(heapUsed() > before);
  await collected();
  assert.equal(heapUsed(), before);
});

test("an agent that is not created leaves nothing", () => {
  const before = heapUsed();
  for (let i = 0; i < 100; i++) assert.throws(() => new IceAgent({ ufrag: "x".repeat(256), pass: "no" }), RangeError);
  assert.equal(heapUsed(), before);
});

test("Symbol.dispose closes", { skip: !Symbol.dispose && "needs Symbol.dispose" }, () => {
  const agent = new IceAgent();
  agent[Symbol.dispose]();
  assert.ok(agent.closed);
});

test("a memory that is full is an error, and the agent is as it was", () => {
  const agents = pair(), memory = library(), { malloc } = memory.exports;
  memory.exports = { ...memory.exports, malloc: () => 0n };
  assert.throws(() => new IceAgent(), { code: "OutOfMemory" });
  assert.throws(() => agents[0].acceptsMessage(new Uint8Array(1 << 20)), { code: "OutOfMemory" });
  memory.exports = { ...memory.exports, malloc };
  assert.ok(run(agents, 0, 500)[0].some((it) => it.type === "nominatedSend"));
  closed(agents);
});

test("after a trap the old agents are lost, and new ones are not", () => {
  const agents = pair(), memory = library();
  assert.throws(() => memory.call("is_ice_is_stun", 0xfffffff0n, 100n), { code: "Trapped" }); // beyond the memory
  for (const call of [() => agents[0].state, () => agents[0].handleTimeout(0), () => agents[1].localCandidates()]) {
    assert.throws(call, (error) => error.code === "Trapped" && error.cause instanceof WebAssembly.RuntimeError);
  }
  const loop = new IceLoop(agents[0]), errors = [];
  loop.on("error", (error) => errors.push(error.code));
  loop.begin();
  loop.wake();
  assert.deepEqual(errors, ["Trapped"]);
  closed(agents);
  assert.equal(isStun(new Uint8Array(20)), false);
  assert.notEqual(library(), memory);
  const others = pair();
  assert.ok(run(others, 0, 500)[0].some((it) => it.type === "nominatedSend"));
  closed(others);
});
