// One agent, and two: calls, events, errors.
import assert from "node:assert/strict";
import { test } from "node:test";
import { firstRole, IceAgent, IceError, modernSettings, newCreds, originalSettings } from "is-ice";
import { timeToMs, toMs, toNs } from "../src/numbers.js";
import { closed, host, meet, pair, run } from "./support.js";

const at = (port) => ({ address: "10.0.0.9", port });
const fails = (code) => (error) => error instanceof IceError && error.code === code;

test("two agents find a path, and say so", () => {
  const agents = pair(), [events] = run(agents, 0, 1000);
  assert.deepEqual(events.map((it) => it.type),
    ["iceRestart", "iceConnectionStateChange", "nominatedSend", "iceConnectionStateChange", "discoveredRecv"]);
  assert.deepEqual(events[0].creds, agents[0].localCredentials);
  const path = { protocol: "udp", source: { address: "10.0.0.1", port: 5000 }, destination: { address: "10.0.0.2", port: 5001 } };
  assert.deepEqual(events[2], { type: "nominatedSend", ...path });
  assert.deepEqual(events[4], { type: "discoveredRecv", protocol: "udp", source: path.destination });
  assert.equal(agents[0].state, "completed");
  assert.deepEqual([agents[0].pathForMedia(1000), agents[0].mediaPath, agents[0].validPath], [path, path, path]);
  assert.ok(agents[0].takesMediaFrom(1000, path.destination) && !agents[0].takesMediaFrom(1000, at(1)));
  const { totalRtt, responses, rtt, ...selected } = agents[0].nominatedPair;
  assert.deepEqual(selected, path);
  assert.ok(responses > 0 && rtt >= 0 && totalRtt >= rtt);
  const [only] = agents[0].pairs;
  assert.deepEqual([only.local, only.remote, only.state, only.nominated, only.selected], [0, 0, "succeeded", true, true]);
  assert.ok(only.due > 1000 && only.lastRequest !== null && typeof only.priority === "bigint");
  assert.ok(agents[0].hasViableRemoteCandidate(path.destination) && !agents[0].hasViableRemoteCandidate(at(1)));
  assert.deepEqual(agents[0].findPairForEquivalentRemoteCandidate(agents[1].localCandidates()[0]), only);
  assert.equal(agents[0].findPairForEquivalentRemoteCandidate("candidate:1 1 udp 1 10.9.9.9 1 typ host"), null);
  const { stats } = agents[0];
  assert.ok(stats.bindRequestSent >= stats.bindSuccessRecv && stats.bindSuccessRecv > 0 && stats.nominationSendCount === 1);
  closed(agents);
});

test("a path that no packet takes is left, with the reason", () => {
  const agents = pair();
  run(agents, 0, 1000);
  run(agents, 1000, 40000, () => false);
  const [agent] = agents, removed = agent.removedPairs().at(-1);
  assert.equal(agent.nominatedPair, null);
  assert.equal(agent.pathForMedia(40000), null);
  assert.equal(agent.state, "disconnected");
  assert.equal(removed.reason, "consent-lost");
  assert.match(String(removed), /^10\.0\.0\.1:5000 -> 10\.0\.0\.2:5001 succeeded, \d+ checks sent, \d+ answered: consent lost$/);
  assert.deepEqual(agent.removedPairs(agent.removedPairs().length), []);
  closed(agents);
});

test("a wrong password is named after the first packet", () => {
  const agents = pair(), [agent, peer] = agents;
  agent.setRemoteCredentials({ ...peer.localCredentials, pass: "a".repeat(22) });
  agent.handleTimeout(0);
  const { source, destination, contents } = agent.pollTransmit();
  const why = peer.rejection(source, destination, contents);
  assert.deepEqual(why, { reason: "local-password", text: "request signed with another password than the agent's" });
  assert.equal(peer.handlePacket(0, source, destination, contents), false);
  assert.equal(agent.rejection(source, destination, contents).reason, "local-ufrag");
  assert.equal(peer.rejection(source, destination, contents.slice(1)).reason, "unparsed");
  peer.setLocalCredentials(agent.remoteCredentials);
  assert.equal(peer.rejection(source, destination, contents), null);
  closed(agents);
});

test("a request without a response has a reason", () => {
  const agents = pair(), [agent, peer] = agents;
  agent.handleTimeout(0);
  const { source, destination, contents } = agent.pollTransmit();
  assert.equal(peer.unserved(source, destination, contents), null);
  const why = peer.unserved(source, { ...destination, port: destination.port + 1 }, contents);
  assert.deepEqual(why, { reason: "destination", text: "request to an address that no local candidate has" });
  peer.setMaxDiscovered(0);
  assert.equal(peer.unserved({ ...source, port: 1 }, destination, contents).reason, "limit");
  assert.equal(agent.unserved(source, destination, contents), null, "it is rejected");
  closed(agents);
});

test("an agent has the lines of a log", () => {
  const agents = pair(), [agent, peer] = agents, { ufrag } = peer.localCredentials;
  const [source, destination] = [{ address: "10.0.0.1", port: 5000 }, { address: "10.0.0.2", port: 5001 }];
  assert.equal(peer.eventLine({ type: "iceRestart" }), `${ufrag}: session begins`);
  assert.equal(peer.eventLine({ type: "iceConnectionStateChange", state: "connected" }), `${ufrag}: state Connected`);
  assert.equal(peer.eventLine({ type: "discoveredRecv", protocol: "udp", source }), `${ufrag}: discovered 10.0.0.1:5000`);
  assert.equal(peer.eventLine({ type: "nominatedSend", protocol: "udp", source, destination }),
    `${ufrag}: selected 10.0.0.1:5000 -> 10.0.0.2:5001`);
  for (const [type, words] of [["silent", "silent"], ["heard", "heard again"]]) {
    assert.equal(peer.eventLine({ type, protocol: "udp", source, destination }), `${ufrag}: ${words} 10.0.0.1:5000 -> 10.0.0.2:5001`);
  }
  assert.equal(peer.removedLine(0), null);
  agent.handleTimeout(0);
  const check = agent.pollTransmit(), why = "request to another username fragment than the agent's";
  assert.equal(agent.packetKind(source, destination, check.contents), `Binding request (${why})`);
  assert.equal(agent.packetLine(source, destination, check.contents),
    `${agent.localCredentials.ufrag}: discarded Binding request (${why}) from 10.0.0.1:5000 at 10.0.0.2:5001`);
  closed(agents);
});

test("an ICE restart", () => {
  const agents = pair();
  run(agents, 0, 1000);
  for (const agent of agents) agent.iceRestart(newCreds(), true);
  assert.equal(agents[0].remoteCredentials, null);
  meet(agents);
  agents.forEach((agent, i) => agents[1 - i].localCandidates().forEach((line) => agent.addRemoteCandidate(line)));
  const events = run(agents, 1000, 2000);
  assert.ok(events[1].some((it) => it.type === "nominatedSend"));
  agents[0].iceRestart(undefined, false);
  assert.deepEqual(agents[0].localCandidates(), []);
  closed(agents);
});

test("a restart keeps the path for media until another one is selected", () => {
  const agents = pair(), [agent, peer] = agents;
  assert.equal(agent.pathForMedia(0), null);
  run(agents, 0, 1000);
  const path = agent.pathForMedia(1000);
  agent.iceRestart(newCreds(), true);
  assert.equal(agent.nominatedPair, null);
  assert.deepEqual(agent.pathForMedia(1000), path);
  assert.ok(agent.takesMediaFrom(1000, path.destination) && peer.takesMediaFrom(1000, path.source));
  peer.iceRestart(newCreds(), true);
  meet(agents);
  agents.forEach((it, i) => agents[1 - i].localCandidates().forEach((line) => it.addRemoteCandidate(line)));
  for (let now = 1000; now < 2000; now += 50) {
    run(agents, now, now + 50);
    assert.deepEqual(agent.pathForMedia(now), path);
  }
  assert.ok(agent.nominatedPair);
  agent.iceRestart(newCreds(), true);
  assert.equal(agent.pathForMedia(60000), null); // consent ended
  closed(agents);
});

test("a silent path is reported, and that it is heard again", () => {
  const agents = pair(), [agent] = agents;
  const of = (events) => events[0].filter(({ type }) => ["silent", "heard"].includes(type));
  run(agents, 0, 1000);
  const silent = of(run(agents, 1000, 10000, () => false));
  assert.deepEqual(silent, [{ type: "silent", ...agent.pathForMedia(10000) }]);
  assert.ok(agent.silentSince < 5000);
  assert.deepEqual(of(run(agents, 10000, 14000)), [{ type: "heard", ...agent.pathForMedia(14000) }]);
  agent.setSilence(Infinity);
  assert.deepEqual(of(run(agents, 14000, 30000, () => false)), []);
  agent.setSilence(1000);
  assert.equal(of(run(agents, 30000, 31000, () => false)).length, 1);
  closed(agents);
});

test("sends that fail are listed", () => {
  const agents = pair(), [agent] = agents;
  assert.deepEqual(agent.failedSends, []);
  for (let i = 0; i < 3; i++) agent.sendFailed(at(1), at(2), 101);
  agent.sendFailed(at(1), at(2), 1, "tcp");
  const path = { protocol: "udp", source: at(1), destination: at(2) };
  assert.deepEqual(agent.failedSends, [{ path, reason: 101, times: 3 }, { path: { ...path, protocol: "tcp" }, reason: 1, times: 1 }]);
  assert.throws(() => agent.sendFailed(at(1), at(2), -1), RangeError);
  closed(agents);
});

test("errors have the names of the codes, and say why", () => {
  const agent = new IceAgent(), long = "x".repeat(60000);
  const why = (text) => ({ name: "IceError", code: "BadCandidate", message: text });
  assert.throws(() => agent.addRemoteCandidate("candidate:1 1 udp 1 nonsense 1 typ host"), why(/^bad candidate: .*nonsense/));
  assert.throws(() => agent.addLocalCandidate(host("0.0.0.0")), why(/^bad candidate: ./));
  assert.throws(() => agent.handlePacket(0, at(1), at(2), new Uint8Array(9)), fails("Unparsed"));
  assert.throws(() => agent.acceptsMessage(new Uint8Array(200000)), fails("Unparsed"));
  assert.throws(() => agent.handleTimeout(0, new Uint8Array(3)), fails("TooFewRandomBytes"));
  assert.throws(() => agent.setRemoteCredentials({ ufrag: long, pass: long }), fails("CredentialsTooLong"));
  assert.throws(() => agent.setRemoteCredentials({ ufrag: "\ud800", pass: "p" }), fails("NotUtf8"));
  assert.throws(() => agent.setMtu(500, 500), fails("MtuTooSmall"));
  assert.throws(() => agent.setMaxStunRetransmits(0), fails("BadLimit"));
  agent.setMaxCandidates(0);
  assert.throws(() => agent.addLocalCandidate(host("10.0.0.1")), fails("TooManyCandidates"));
  agent.close();
  agent.close();
  assert.ok(agent.closed);
  for (const call of [() => agent.state, () => agent.pollEvent(), () => agent.localCandidates()]) assert.throws(call, fails("NoAgent"));
});

test("numbers and words that no call takes", () => {
  const agent = new IceAgent();
  for (const now of [-1, NaN, Infinity, "1", 1n, 2 ** 60]) assert.throws(() => agent.handleTimeout(now), RangeError, String(now));
  for (const count of [-1, 1.5, NaN, "3", null]) assert.throws(() => agent.setMaxDiscovered(count), RangeError, String(count));
  for (const port of [-1, 65536, 1.5, "80", null]) assert.throws(() => agent.addLocalCandidate(host("10.0.0.1", port)), RangeError);
  assert.throws(() => agent.setLocalPreference(65536), RangeError);
  assert.throws(() => agent.setSettings({ consent: 5 }), TypeError);
  assert.throws(() => agent.handlePacket(0, at(1), at(2), "text"), TypeError);
  assert.throws(() => agent.handlePacket(0, at(1), at(2), new Uint8Array(20), "sctp"), TypeError);
  assert.throws(() => agent.addRemoteCandidate(undefined), TypeError);
  assert.throws(() => new IceAgent({ ufrag: "a b", pass: "x".repeat(22) }), RangeError);
  assert.throws(() => new IceAgent(newCreds(), 1n << 64n), RangeError);
  assert.throws(() => agent.iceRestart({ ufrag: "abcd", pass: "short" }), RangeError);
  agent.close();
});

test("settings", () => {
  const agent = new IceAgent(newCreds(), 7n);
  assert.deepEqual([agent.mtu, agent.mtuWarn, agent.controlling, agent.iceLite], [1150, 1280, false, false]);
  assert.equal(agent.maxCandidates, modernSettings().maxCandidates);
  agent.setMtu(600, 700);
  agent.setMaxCandidates(Infinity);
  agent.setMaxDiscovered(Infinity);
  agent.setMaxCandidatePairs(10);
  agent.setControlTieBreaker((1n << 64n) - 1n);
  agent.setTimingAdvance(20);
  agent.setInitialStunRto(100);
  agent.setMaxStunRto(1000);
  agent.setMaxStunRetransmits(3);
  agent.setLiteTimeout(30000);
  agent.setRenomination(true);
  agent.setLocalPreference(1);
  agent.setLocalPreference(null);
  agent.setIceLite(true);
  assert.throws(() => agent.setControlling(true), fails("LiteStaysControlled"));
  assert.deepEqual([agent.mtu, agent.mtuWarn, agent.maxCandidates, agent.iceLite], [600, 700, Infinity, true]);
  assert.ok(agent.iceTimeout > 0);
  const creds = newCreds();
  agent.setLocalCredentials(creds);
  assert.deepEqual(agent.localCredentials, creds);
  agent.close();
});

test("settings are those of the header, and one is changed by its name", () => {
  const agent = new IceAgent(), modern = modernSettings(), original = originalSettings();
  assert.deepEqual(agent.settings, modern);
  const { maxRto, maxRetransmits } = original;
  assert.deepEqual(original, { ...modern, modern: false, maxRto, maxRetransmits, maxDiscovered: Infinity, maxCandidates: Infinity });
  const setters = {
    timingAdvance: "setTimingAdvance", initialRto: "setInitialStunRto", maxRto: "setMaxStunRto", maxRetransmits: "setMaxStunRetransmits",
    liteTimeout: "setLiteTimeout", maxPairs: "setMaxCandidatePairs", maxDiscovered: "setMaxDiscovered", maxCandidates: "setMaxCandidates",
  };
  for (const [index, [field, setter]] of Object.entries(setters).entries()) {
    const changed = new IceAgent();
    changed[setter](index + 1);
    assert.deepEqual(changed.settings, { ...modern, [field]: index + 1 });
    changed.close();
  }
  agent.setSettings({ consentTimeout: 5000.5, strictConsent: true });
  assert.deepEqual(agent.settings, { ...modern, consentTimeout: 5000.5, strictConsent: true });
  agent.setSettings(original);
  assert.deepEqual(agent.settings, original);
  assert.throws(() => agent.setSettings({ maxRetransmits: 0 }), fails("BadLimit"));
  agent.close();
});

test("preferences by a table", () => {
  const agent = new IceAgent(), kinds = { host: 10, peerReflexive: 20, serverReflexive: 30, relayed: 40 };
  agent.setPreferenceTable(kinds, { ...kinds, host: 50 });
  agent.addLocalCandidate(host("10.0.0.1"));
  agent.addLocalCandidate(host("2001:db8::1"));
  // RFC 8445, section 5.1.2.1: 2^24 x 126 + 2^8 x preference + 255
  assert.deepEqual(agent.localFields().map(({ priority }) => (priority >> 8) & 0xffff), [10, 50]);
  assert.throws(() => agent.setPreferenceTable({ ...kinds, host: 65536 }, kinds), RangeError);
  agent.close();
});

test("early requests wait for the peer's credentials", () => {
  const agents = pair();
  agents[1].iceRestart(agents[1].localCredentials, true);
  run(agents, 0, 200);
  assert.ok(agents[1].earlyRequests > 0);
  meet(agents);
  run(agents, 200, 1000);
  assert.equal(agents[1].earlyRequests, 0);
  closed(agents);
});

test("what an agent would accept, and times", () => {
  const agents = pair(), [alice, bob] = agents;
  assert.equal(alice.pollTimeout(), null);
  alice.handleTimeout(1000.25);
  bob.handleTimeout(1000.25);
  const time = alice.pollTimeout(), { source, destination, contents } = alice.pollTransmit();
  assert.ok(time > 1000.25 && alice.pollTimeout() === time);
  assert.ok(bob.acceptsMessage(contents) && bob.acceptsPacket(source, destination, contents) && !alice.acceptsMessage(contents));
  const view = new DataView(contents.buffer.slice(0));
  assert.ok(bob.acceptsMessage(view) && bob.acceptsMessage(view.buffer));
  contents[contents.length - 1 - 8] ^= 1; // of the MAC
  assert.equal(bob.handlePacket(1001, source, destination, contents), false);
  closed(agents);
});

test("a time that was polled is not before itself", () => {
  for (const origin of [0, 3e9, 1.7e12]) { // a page's start, 35 days, Date.now()
    const agents = pair();
    for (let now = origin + 0.1, i = 0; i < 40; i++) {
      agents[0].handleTimeout(now);
      const next = agents[0].pollTimeout();
      assert.ok(next > now);
      while (agents[0].pollTransmit());
      now = next;
    }
    closed(agents);
  }
});

test("nanoseconds are kept for 26 days, and later times are rounded up", () => {
  for (let bits = 1; bits < 64; bits++) {
    for (let i = 0; i < 200; i++) {
      const ns = (1n << BigInt(bits)) | BigInt(Math.floor(Math.random() * 2 ** Math.min(bits, 52)));
      if (ns < 1n << 51n) assert.equal(toNs(toMs(ns)), ns);
      assert.ok(toNs(timeToMs(ns)) >= ns && timeToMs(ns) <= toMs(ns) * (1 + 3 * Number.EPSILON), String(ns));
    }
  }
});

test("candidates that go, and pairs that are formed again", () => {
  const agents = pair(), [agent] = agents, [line] = agent.localCandidates();
  agent.recreateCandidatePairs();
  assert.equal(agent.pairs.length, 1);
  assert.equal(agent.addLocalCandidate(host("10.0.0.1")), null);
  assert.equal(agent.addRemoteCandidate(agents[1].localCandidates()[0]), "known");
  assert.equal(agent.addRemoteCandidate(line.replace(" 1 udp", " 2 udp")), "other-component");
  assert.equal(agent.addRemoteCandidate(line.replace(/ufrag .*/, "ufrag other")), "other-ufrag");
  assert.equal(agent.alikeLocal(host("10.0.0.7")), 1);
  assert.equal(agent.invalidateCandidate(host("10.0.0.1")), true);
  assert.equal(agent.invalidateCandidate(host("10.0.0.1")), false);
  assert.equal(agent.alikeLocal(host("10.0.0.7")), 1);
  assert.equal(agent.removedPairs().at(-1).reason, "invalidated");
  assert.equal(agent.remoteFields()[0].kind, "host");
  assert.equal(agent.invalidateCandidate(agent.remoteCandidates()[0]), true);
  closed(agents);
});

test("pair numbers end", () => {
  const agent = new IceAgent();
  agent.skipPairIds((1n << 64n) - 1n);
  agent.setRemoteCredentials(newCreds());
  agent.addLocalCandidate(host("10.0.0.1"));
  assert.throws(() => agent.addRemoteCandidate("candidate:1 1 udp 1 10.0.0.2 1 typ host"), fails("PairIdsExhausted"));
  agent.close();
});

test("roles at first (RFC 8445, section 6.1.1)", () => {
  assert.deepEqual([[true, false, false], [false, false, false], [false, false, true], [true, true, false]].map((it) => firstRole(...it)),
    [true, false, true, false]);
});
