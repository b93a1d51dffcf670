// Links, the scale of the diagram, and captures: without agents.
import assert from "node:assert/strict";
import { test } from "node:test";
import { checksum, ipPacket } from "../src/pcapng.js";
import { Scale } from "../src/scale.js";
import { DEFAULTS, fromFragment, toFragment } from "../src/settings.js";
import { STORIES } from "../src/stories.js";

test("each story has a name of its own, and says in a sentence or three what happens", () => {
  assert.equal(new Set(STORIES.map((it) => it.id)).size, STORIES.length);
  for (const { says, settings } of STORIES) {
    assert.ok(says.length < 180 && says.split(/[.:] /).length <= 4, says);
    for (const name of Object.keys(settings)) assert.ok(name in DEFAULTS, name);
  }
});

test("a link keeps the settings and what the viewer did", () => {
  for (const story of STORIES) {
    const settings = { ...DEFAULTS, ...story.settings, seed: 17, natA: "symmetric", turnB: true, loss: 12 };
    const actions = [...story.actions, { at: 300, do: "cutRelay", value: 1 }, { at: 450, do: "restart" }].toSorted((a, b) => a.at - b.at);
    const back = fromFragment(`#${toFragment({ story, settings, actions })}`, STORIES);
    assert.deepEqual([back.story.id, back.settings, back.actions], [story.id, settings, actions]);
  }
});

test("the link of an unchanged story names the story alone", () => {
  for (const story of STORIES) {
    const link = toFragment({ story, settings: { ...DEFAULTS, ...story.settings }, actions: story.actions });
    assert.equal(link, `story=${story.id}`);
  }
});

test("any text gives a session", () => {
  const texts = ["", "#", "story=none", "natA=%", "delay=1e9&loss=-3&seed=x&natB=<b>&turnA=yes", "__proto__=1&constructor=2",
    "do=@@@!restart@-1!cutAB@5!restart@7!__proto__@9"];
  for (const text of texts) {
    const { settings, actions } = fromFragment(text, STORIES);
    assert.deepEqual(settings, { ...DEFAULTS, ...STORIES[0].settings });
    assert.deepEqual(actions, text.includes("restart@7") ? [{ at: 7, do: "restart" }] : []);
  }
});

test("a place of the diagram and its time are the inverse of each other, with waits cut", () => {
  const scale = new Scale(1.5);
  scale.wait(100, 5000);
  scale.wait(6000, 9000);
  assert.equal(scale.cuts.length, 2);
  assert.ok(scale.y(9000) < 3000);
  let last = -1;
  for (let time = 0; time < 12_000; time += 7) {
    const y = scale.y(time);
    assert.ok(y > last && Math.abs(scale.time(y) - time) < 1e-6);
    last = y;
  }
});

test("a short wait is not cut, and one that goes on is one cut", () => {
  const scale = new Scale(1);
  scale.wait(0, 60);
  assert.equal(scale.cuts.length, 0);
  scale.wait(100, 500);
  scale.wait(488, 900); // nothing happened at 500
  assert.deepEqual(scale.cuts.map(({ from, to }) => [from, to]), [[112, 888]]);
});

test("the checksum is that of RFC 1071's example, and a packet with its checksum sums to zero", () => {
  assert.equal(checksum(Uint8Array.of(0x00, 0x01, 0xf2, 0x03, 0xf4, 0xf5, 0xf6, 0xf7)), 0xffff ^ 0xddf2);
  const packet = ipPacket({ address: "192.0.2.1", port: 5000 }, { address: "198.51.100.1", port: 6000 }, Uint8Array.of(1, 2, 3));
  assert.equal(packet.length, 31);
  assert.equal(checksum(packet.subarray(0, 20)), 0);
});
