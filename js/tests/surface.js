// Each call of is_ice.h is made by a method or function, with arguments of the header's kinds; and the types name what is there.
import assert from "node:assert/strict";
import { readdirSync, readFileSync } from "node:fs";
import { test } from "node:test";
import * as ice from "is-ice";
import { CALLS } from "../src/abi.js";
import { Memory } from "../src/memory.js";

const folder = new URL("../src/", import.meta.url);
const textOf = (name) => readFileSync(new URL(name, folder), "utf8");
const sources = (ending) => readdirSync(folder).filter((name) => name.endsWith(ending)).map((name) => [name, textOf(name)]);
const made = new Set(["is_ice_version"]); // by init, before a memory is there
const OTHERS = ["malloc", "free", "is_ice_heap_used"];

const isKind = (kind, value) => (["bool", "u8", "u16", "u32"].includes(kind) ? Number.isInteger(value) : typeof value === "bigint");

/** From now on each call is checked, and noted. */
export function recorded() {
  const { call } = Memory.prototype;
  Memory.prototype.call = function (name, ...values) {
    if (!OTHERS.includes(name)) {
      const kinds = CALLS[name];
      assert.ok(kinds, `no call ${name}`);
      assert.equal(values.length, kinds.length, name);
      kinds.forEach((kind, i) => assert.ok(isKind(kind, values[i]), `${name}: argument ${i} is ${kind}`));
      made.add(name);
    }
    return call.call(this, name, ...values);
  };
}

/** Once all tests have run. */
export function allMade() {
  test("each call of the header is made, and with the header's arguments", () => {
    assert.deepEqual(Object.keys(CALLS).filter((name) => !made.has(name)), []);
  });
}

test("each call of the header is in the sources", () => {
  const text = sources(".js").filter(([name]) => name !== "abi.js").map(([, text]) => text).join();
  assert.deepEqual(Object.keys(CALLS).filter((name) => !text.includes(`"${name}"`) && !text.includes(`.${name}(`)), []);
});

test("the types name each export, and nothing else", () => {
  const values = sources(".d.ts").filter(([name]) => name !== "node.d.ts").flatMap(([, text]) =>
    [...text.matchAll(/^export (?:function|const|class) (\w+)/gm)].map((it) => it[1]));
  assert.deepEqual(values.filter((name) => name !== "Settings").sort(), Object.keys(ice).sort());
});

const CLASSES = { IceAgent: ["agent.d.ts", "settings.d.ts"], Servers: ["servers.d.ts"], IceGatherer: ["gatherer.d.ts"] };

for (const [kind, files] of Object.entries(CLASSES)) {
  test(`the types name each method and property of ${kind}`, () => {
    const classes = files.map(textOf).map((text) => text.slice(text.lastIndexOf("\nexport class ")));
    const names = [...classes.join("").matchAll(/^ {2}(?:readonly )?(\w+)[(:]/gm)].map((it) => it[1]);
    const found = new Set();
    for (let it = ice[kind].prototype; it !== Object.prototype; it = Object.getPrototypeOf(it)) {
      Object.getOwnPropertyNames(it).forEach((name) => found.add(name));
    }
    assert.deepEqual([...new Set(names)].sort(), [...found].sort());
  });
}

test("the blocks of README.md are JavaScript", () => {
  const Async = (async () => {}).constructor, blocks = [...textOf("../README.md").matchAll(/^```js\n(.*?)^```$/gms)];
  assert.ok(blocks.length >= 2);
  for (const [, block] of blocks) new Async(block.replace(/^import .*$/gm, "")); // it parses
});

test("lines have at most 140 characters", () => {
  for (const [name, text] of [...sources(".js"), ...sources(".d.ts")]) {
    text.split("\n").forEach((line, i) => assert.ok(line.length <= 140, `${name}:${i + 1}`));
  }
});
