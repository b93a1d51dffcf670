// What each story of the page tells, and that a session repeats to the packet.
import assert from "node:assert/strict";
import { test } from "node:test";
import { Session } from "../src/session.js";
import { DEFAULTS, fromFragment, toFragment } from "../src/settings.js";
import { STORIES } from "../src/stories.js";
import { StoryText } from "../src/story_text.js";
import { ice, skip } from "./library.js";

const story = (id) => STORIES.find((it) => it.id === id);
function played(id, changes = {}, until = story(id).until) {
  const session = new Session({ ...DEFAULTS, ...story(id).settings, ...changes }, story(id).actions, ice);
  session.runTo(until);
  return session;
}
const agents = ({ endpoints }) => [endpoints.A.agent, endpoints.B.agent];
const selections = ({ events }, side) => events.filter((it) => it.what === "nominatedSend" && it.side === side);
const isRelayed = ({ server }, { source, destination }) => [source, destination].some((it) => it.address === server.address.address);
const packetOf = (it) => [it.side, it.sent, it.taken?.at, it.end?.why, Buffer.from(it.contents).toString("hex")];
const packets = ({ tracks }) => tracks.filter((it) => it.contents).map(packetOf);

function connected(session) {
  for (const agent of agents(session)) assert.ok(["connected", "completed"].includes(agent.state), agent.state);
  const [a, b] = agents(session).map((it) => it.nominatedPair);
  assert.ok(a && b);
  return a;
}

test("two homes: B's first check is filtered, and both select the direct path", { skip }, () => {
  const session = played("two-homes");
  assert.equal(isRelayed(session, connected(session)), false);
  const filtered = session.tracks.find((it) => it.end?.why === "filtered by router A");
  assert.ok(filtered.side === "B" && filtered.sent < selections(session, "A")[0].at);
});

test("both symmetric: only the relay connects them", { skip }, () => {
  const session = played("both-symmetric");
  assert.equal(isRelayed(session, connected(session)), true);
  const without = played("both-symmetric", { turnA: false, turnB: false }, 20_000);
  assert.deepEqual(agents(without).map((it) => it.nominatedPair), [null, null]);
});

test("a bad wire: packets are lost, and both select a path", { skip }, () => {
  const session = played("bad-wire");
  connected(session);
  assert.ok(session.tracks.filter((it) => it.end?.why === "lost").length >= 5);
});

test("the path dies: both leave it for the relay within seconds", { skip }, () => {
  const session = played("path-dies"), [first, second] = selections(session, "A");
  assert.equal(isRelayed(session, first.event), false);
  assert.equal(isRelayed(session, second.event), true);
  assert.ok(second.at > 2000 && second.at < 2000 + 10_000, String(second.at)); // consent would end after 29.6 s
  assert.equal(isRelayed(session, connected(session)), true);
});

test("media goes on all through an ICE restart, and a path that is mended is heard again", { skip }, () => {
  const acts = [{ at: 2000, do: "restart" }, ...[2000, 2001, 2050, 2100, 2200].map((at) => ({ at, do: "say" }))];
  const session = new Session({ ...DEFAULTS, ...story("two-homes").settings }, acts, ice);
  session.runTo(4000);
  assert.equal(session.events.filter((it) => it.what === "media" && it.side === "B").length, 5);
  for (const [cut, after] of [[1, 8000], [0, 4000]]) {
    for (const name of ["cutAB", "cutBA"]) session.act(name, cut);
    session.runTo(session.now + after);
  }
  const told = session.events.filter((it) => it.side === "A" && ["silent", "heard"].includes(it.what)).map((it) => it.what);
  assert.deepEqual(told, ["silent", "heard"]);
});

test("wifi to mobile: after the restart both are on the mobile path", { skip }, () => {
  const session = played("change-of-network");
  assert.equal(connected(session).source.address, "10.64.0.10");
  assert.ok(session.tracks.some((it) => it.sent > 2050 && it.message?.class === "success"));
});

test("a role conflict: one 487 (RFC 8445, section 7.3.1.1), and the lesser tie-breaker gives way", { skip }, () => {
  const session = played("role-conflict"), { A, B } = session.endpoints;
  connected(session);
  assert.ok(session.tracks.some((it) => it.message?.error?.code === 487));
  assert.deepEqual([A.agent.controlling, B.agent.controlling], [A.tieBreaker > B.tieBreaker, B.tieBreaker > A.tieBreaker]);
});

test("ten interfaces: a hundred pairs at most, one path, within a third of a second", { skip }, () => {
  const session = played("ten-interfaces");
  connected(session);
  assert.ok(Math.max(...["A", "B"].map((side) => selections(session, side)[0].at)) < 334);
  for (const agent of agents(session)) assert.ok(agent.pairs.length > 60 && agent.pairs.length <= 100);
});

test("a flood: no forged packet changes anything, what is learned is bounded, and the path stays", { skip }, () => {
  const session = played("flood", {}, 4000), path = connected(session);
  const refused = session.events.filter((it) => it.what === "refused");
  assert.ok(refused.length > 25 && refused.every((it) => it.unchanged !== false));
  assert.ok(new Set(session.tracks.filter((it) => it.isHostile === "replay").map((it) => it.source.address + it.source.port)).size > 40);
  assert.equal(session.endpoints.B.agent.remoteFields().filter((it) => it.kind === "prflx").length, 32); // set_max_discovered
  assert.deepEqual([path.source.address, path.destination.address], ["192.168.1.10", "203.0.113.2"]);
  assert.equal(selections(session, "A").length, 1);
});

test("a forged check changes nothing; a replayed one is answered", { skip }, () => {
  const session = played("two-homes");
  for (const name of ["forge", "replay"]) session.act(name);
  session.runTo(1000);
  const [forged, replayed] = session.tracks.filter((it) => it.isHostile);
  assert.deepEqual([forged.taken.accepted, replayed.taken.accepted], [false, true]);
  assert.equal(session.events.find((it) => it.what === "refused").unchanged, true);
});

test("a session repeats to the packet, and another seed gives another one", { skip }, () => {
  for (const { id } of STORIES) assert.deepEqual(packets(played(id)), packets(played(id)), id);
  assert.notDeepEqual(packets(played("two-homes")), packets(played("two-homes", { seed: 2 })));
});

test("a link repeats what the viewer did, to the packet", { skip }, () => {
  const session = played("two-homes", { turnA: true }, 300);
  const deeds = [["delay", 70, 300], ["say", undefined, 350], ["cutAB", 1, 410], ["forge", undefined, 412], ["restart", undefined, 500]];
  for (const [name, value, at] of deeds) {
    session.runTo(at);
    session.act(name, value);
  }
  session.runTo(3000);
  const link = toFragment({ story: story("two-homes"), settings: { ...DEFAULTS, turnA: true }, actions: session.allActions });
  const { settings, actions } = fromFragment(link, STORIES), again = new Session(settings, actions, ice);
  again.runTo(3000);
  assert.deepEqual(packets(again), packets(session));
});

test("sessions give back their memory", { skip }, () => {
  const before = ice.heapUsed();
  for (let n = 0; n < 20; n++) played("two-homes", { seed: n + 1 }).close();
  assert.ok(ice.heapUsed() <= before);
});

const ADDRESS = "[\\d.]+:\\d+", ARRIVAL = `<\\d+@\\d+;from=${ADDRESS};to=${ADDRESS} = [AB] (true|false)`;
const WORD = new RegExp(`^[AB](@\\d+|\\?|>|${ARRIVAL}|\\.[a-z]+\\d*(=[\\w.:/]+)?)( : selects ${ADDRESS} to ${ADDRESS})?$`);

test("a session is saved as a story of docs/SCRIPTS.md", { skip }, () => {
  const text = new StoryText("Two homes", ice), session = new Session(DEFAULTS, [], ice, text);
  session.runTo(420);
  const [head, begin, asserts, ...lines] = text.text.split("\n\n")[1].trim().split("\n");
  assert.deepEqual([head, asserts], ["story two homes", "asserts selects"]);
  assert.match(begin, /^world \d+ controlling \d+ controlled$/);
  for (const word of lines.flatMap((line) => (line.includes(" = ") || line.includes(" : ") ? [line] : line.split(" ")))) assert.match(word, WORD);
  assert.equal(lines.filter((it) => it.includes("selects")).length, 2);
});

test("a story that says less than the session says so", { skip }, () => {
  const text = new StoryText("Two homes", ice), session = new Session(DEFAULTS, [], ice, text);
  session.runTo(4000);
  assert.match(text.text, /^# It is cut: what happens after 2800 ms is left out/m);
});
