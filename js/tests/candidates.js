// Candidates as texts and JSON, addresses, times of retransmissions.
import assert from "node:assert/strict";
import { test } from "node:test";
import * as ice from "is-ice";
import { host } from "./support.js";

const { Candidate, IceAgent } = ice;
const LINE = "candidate:1 1 udp 2130706431 10.0.0.1 5000 typ host";
const NAMED = LINE.replace("10.0.0.1", "c0ffee.local");
const isBad = (text) => (error) => error.code === "BadCandidate" && error.message.includes(text);

test("the fields of a text", () => {
  const line = "candidate:4234997325 1 udp 2043278322 192.0.2.172 44323 typ srflx raddr 10.0.0.5 rport 4000 ufrag abcd"; // as in RFC 8839
  const fields = ice.lineFields(line);
  assert.deepEqual(fields, {
    text: line, foundation: "4234997325", component: 1, protocol: "udp", priority: 2043278322, kind: "srflx", tcptype: null, ufrag: "abcd",
    address: { address: "192.0.2.172", port: 44323 }, related: { address: "10.0.0.5", port: 4000 }, local: { address: "0.0.0.0", port: 0 },
  });
  assert.equal(ice.fieldsLine(fields).text, line.replace(" ufrag abcd", ""));
  assert.equal(ice.lineRefusal(line), null);
  assert.match(ice.lineRefusal("nonsense"), /nonsense/);
  assert.throws(() => ice.lineFields("nonsense"), isBad("nonsense"));
  const tcp = ice.lineFields("candidate:1 1 tcp 1 2001:db8::1 9 typ host tcptype active");
  assert.deepEqual([tcp.protocol, tcp.tcptype, tcp.address.address, tcp.related, tcp.ufrag], ["tcp", "active", "2001:db8::1", null, null]);
});

test("candidates that a program gathered", () => {
  const base = { address: "10.0.0.1", port: 5000 }, mapped = { address: "192.0.2.1", port: 6000 };
  assert.ok(ice.candidateLine(host("10.0.0.1")).endsWith(" 10.0.0.1 5000 typ host"));
  const { kind, address, local } = ice.candidateFields(Candidate.serverReflexive(mapped, base));
  assert.deepEqual({ kind, address, local }, { kind: "srflx", address: mapped, local: base });
  assert.match(ice.candidateLine(Candidate.relayed(mapped, base)), / 192\.0\.2\.1 6000 typ relay /);
  assert.equal(ice.candidateFields(Candidate.host(base, "tcp", "passive")).tcptype, "passive");
  assert.equal(ice.candidateRefusal(host("10.0.0.1")), null);
  assert.match(ice.candidateRefusal(host("224.0.0.1")), /./);
  assert.throws(() => ice.candidateLine(host("224.0.0.1")), isBad(ice.candidateRefusal(host("224.0.0.1"))));
  assert.throws(() => ice.candidateFields(host("224.0.0.1")), isBad(""));
  assert.throws(() => ice.candidateLine({ ...host("10.0.0.1"), kind: "prflx" }), { code: "BadAddress" });
  assert.throws(() => ice.candidateLine({ ...host("10.0.0.1"), kind: "local" }), TypeError);
  const agent = new IceAgent();
  const relayed = Candidate.relayed({ address: "192.0.2.9", port: 7 }, base);
  for (const candidate of [host("10.0.0.1"), Candidate.serverReflexive(mapped, base), relayed]) {
    assert.ok(agent.addLocalCandidate(candidate));
  }
  assert.deepEqual(agent.localFields().map((it) => it.kind), ["host", "srflx", "relay"]);
  agent.close();
});

test("names, addresses and username fragments in a text", () => {
  assert.equal(ice.lineName(NAMED), "c0ffee.local");
  assert.equal(ice.lineName(LINE), null);
  assert.equal(ice.lineWithAddress(NAMED, "10.0.0.1"), LINE);
  assert.equal(ice.lineFieldsWithAddress(NAMED, "2001:db8::2").address.address, "2001:db8::2");
  assert.throws(() => ice.lineWithAddress(NAMED.replace("udp", "u"), "10.0.0.1"), isBad("not a candidate with an address either"));
  assert.throws(() => ice.lineWithAddress("nonsense", "10.0.0.1"), isBad("nonsense"));
  assert.equal(ice.lineWithUfrag(LINE, "abcd"), `${LINE} ufrag abcd`);
  assert.equal(ice.lineFieldsWithUfrag(LINE, "abcd").ufrag, "abcd");
  assert.throws(() => ice.lineWithUfrag(LINE, "a b"), isBad("not one word"));
  assert.throws(() => ice.lineFieldsWithUfrag("nonsense", "abcd"), isBad("nonsense"));
});

test("JSON of browsers", () => {
  const json = ice.lineToJson(`${LINE} ufrag abcd`);
  assert.deepEqual(JSON.parse(json), { candidate: `${LINE} ufrag abcd`, sdpMLineIndex: 0, sdpMid: null, usernameFragment: "abcd" });
  assert.equal(ice.lineFromJson(json), `${LINE} ufrag abcd`);
  assert.equal(ice.jsonFields(json).ufrag, "abcd");
  assert.equal(ice.jsonRefusal(json), null);
  for (const wrong of ["", "{", "[]", '{"candidate":""}']) {
    assert.ok(ice.jsonRefusal(wrong));
    assert.throws(() => ice.lineFromJson(wrong), isBad(ice.jsonRefusal(wrong)));
    assert.throws(() => ice.jsonFields(wrong), isBad(""));
  }
  assert.throws(() => ice.lineToJson("nonsense"), isBad("nonsense"));
});

test("addresses are read and written, as in RFC 5952", () => {
  const agent = new IceAgent();
  for (const [given, written] of [["10.0.0.1", "10.0.0.1"], ["2001:db8::1", "2001:db8::1"], ["2001:0DB8:0:0:1:0:0:1", "2001:db8::1:0:0:1"],
    ["2001:db8:0:1:1:1:1:1", "2001:db8:0:1:1:1:1:1"], ["64:ff9b::192.0.2.33", "64:ff9b::c000:221"],
    ["fd00:1:2:3:4:5:6::", "fd00:1:2:3:4:5:6:0"]]) {
    assert.ok(agent.addLocalCandidate(host(given)), given);
    assert.equal(agent.localFields().at(-1).address.address, written);
  }
  for (const wrong of ["1::2::3", "12345::", "::1:2:3:4:5:6:7:8", "fe80", "1.2.3", "01.2.3.4", "10.0.0.256", "10.0.0.1 1", "", "localhost",
    undefined, 7]) {
    assert.throws(() => agent.addLocalCandidate(host(wrong)), TypeError, String(wrong));
  }
  assert.equal(ice.addressText({ address: "2001:db8::1", port: 80 }), "[2001:db8::1]:80");
  agent.close();
});

test("a scope and flow information are kept", () => {
  const agent = new IceAgent(), address = { address: "fe80::1", port: 5000, flow: 9, scope: 3 };
  agent.addLocalCandidate(Candidate.host(address));
  assert.deepEqual(agent.localFields()[0].local, address);
  const zoned = Candidate.host({ address: "fe80::1%eth0", port: 5000 });
  assert.deepEqual(ice.candidateFields(zoned).address, { address: "fe80::1", port: 5000 });
  agent.close();
});

test("texts of signaling, host addresses, times and preferences without an agent", () => {
  assert.ok(ice.isInGrammar("ufrag", "abcd") && !ice.isInGrammar("ufrag", "a b"));
  assert.ok(ice.isInGrammar("foundation", "1") && !ice.isInGrammar("pass", "short"));
  assert.throws(() => ice.isInGrammar("word", "a"), TypeError);
  assert.ok(ice.isHostAddress("10.0.0.1") && !ice.isHostAddress("127.0.0.1") && !ice.isHostAddress("fe80::1"));
  const timing = { initialRto: 250, maxRto: 2900, maxRetransmits: 11 }, agent = new IceAgent();
  assert.equal(ice.retransmitTimeout(ice.modernSettings()), agent.iceTimeout);
  assert.deepEqual([0, 1, 2, 3, 9].map((sent) => ice.retransmitDelay(timing, sent)), [0, 250, 500, 1000, 2900]);
  assert.throws(() => ice.retransmitTimeout({ ...timing, maxRetransmits: 0 }), { code: "BadLimit" });
  agent.addLocalCandidate(host("10.0.0.1"));
  const used = (agent.localFields()[0].priority >> 8) & 0xffff;
  assert.equal(ice.defaultLocalPreference(host("10.0.0.1"), 0), used);
  assert.equal(ice.defaultLocalPreference(LINE, 0), used);
  assert.ok(ice.defaultLocalPreference(LINE, 3) < used);
  assert.throws(() => ice.defaultLocalPreference("nonsense", 0), isBad("nonsense"));
  agent.close();
});

test("credentials", () => {
  const { ufrag, pass } = ice.newCreds();
  assert.ok(ice.isInGrammar("ufrag", ufrag) && ice.isInGrammar("pass", pass) && ufrag.length === 16 && pass.length === 22);
  assert.deepEqual(ice.newCreds(new Uint8Array(38)), ice.newCreds(new Uint8Array(38)));
  assert.throws(() => ice.newCreds(new Uint8Array(37)), { code: "TooFewRandomBytes" });
});

test("a local candidate by its text keeps its priority and foundation", () => {
  const agent = new IceAgent(), line = "candidate:7 1 udp 7 192.0.2.3 9 typ prflx raddr 10.0.0.1 rport 9";
  const added = agent.addLocalCandidate(line);
  assert.equal(added, `${line} ufrag ${agent.localCredentials.ufrag}`);
  assert.deepEqual(agent.localCandidates(), [added]);
  assert.throws(() => agent.addLocalCandidate("candidate:7"), { code: "BadCandidate" });
  agent.close();
});
