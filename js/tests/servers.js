// Clients of STUN and TURN servers, and gatherers, without sockets: URLs, frames, calls, two agents that only a server connects, ends.
import assert from "node:assert/strict";
import { test } from "node:test";
import {
  Candidate, frameLength, Frames, heapUsed, IceAgent, IceError, IceGatherer, readMessage, serverEventLine, Servers, serverUrl, verifyMessage,
} from "is-ice";
import { closed, hex, meet } from "./support.js";
import { keyOf, TurnServer, USER } from "./turn_server.js";

const fails = (code) => (error) => error instanceof IceError && error.code === code;
const at = (address, port) => ({ address, port });
const SERVER = at("192.0.2.1", 3478), PEER = at("198.51.100.9", 7000), RELAYED = at("192.0.2.1", 50000);

// ---- URLs (RFC 7064 and RFC 7065, section 3.1) and frames (RFC 8656, section 12.5)

test("URLs say what the RFCs say", () => {
  const rows = [
    ["stun:example.org", "stun", "udp", "example.org", 3478],
    ["turn:example.org:8000", "turn", "udp", "example.org", 8000],
    ["turn:example.org?transport=tcp", "turn", "tcp", "example.org", 3478],
    ["turns:example.org", "turn", "tls", "example.org", 5349],
    ["turn:[2001:db8::1]:80?transport=udp", "turn", "udp", "2001:db8::1", 80],
  ];
  for (const [text, scheme, protocol, host, port] of rows) assert.deepEqual(serverUrl(text), { scheme, protocol, host, port });
  for (const text of ["", "example.org", "turn:", "turn:example.org:65536", "turns:example.org?transport=udp"]) {
    assert.throws(() => serverUrl(text), fails("BadUrl"), text);
  }
  assert.throws(() => serverUrl(7), TypeError);
  assert.throws(() => new IceGatherer(null, [{ urls: "http://example.org" }]), fails("BadUrl"));
});

test("a stream is cut into frames", () => {
  const request = hex("000100002112a442070707070707070707070707"), data = hex("400000050102030405000000"), empty = hex("4fff0000");
  const stream = Uint8Array.of(...request, ...data, ...empty);
  for (let chunk = 1; chunk < 40; chunk++) {
    const frames = new Frames(), found = [];
    for (let i = 0; i < stream.length; i += chunk) found.push(...frames.take(stream.subarray(i, i + chunk)));
    assert.deepEqual(found, [request, data, empty]);
  }
  assert.deepEqual([frameLength(stream), frameLength(data), frameLength(data.subarray(0, 3))], [20, 12, null]);
  assert.throws(() => frameLength(hex("80000000")), fails("Unparsed"));
});

// ---- clients

/** Clients with an allocation at a server, whose peer is permitted. */
function allocated(protocol = "udp") {
  const servers = new Servers(), local = at("10.0.0.1", 5000), client = { protocol, address: at("203.0.113.1", 61000) };
  const server = new TurnServer("192.0.2.1", (_, bytes) => servers.receive(0, SERVER, local, bytes, protocol));
  servers.addTurn(0, local, SERVER, { username: "user", password: "pass", protocol });
  const events = exchange(servers, server, client, 0);
  assert.deepEqual(events.map(({ type, relayed, mapped }) => [type, relayed, mapped]),
    [["serverAllocated", RELAYED, protocol === "udp" ? client.address : null]]);
  servers.permit(1000, PEER);
  assert.deepEqual(exchange(servers, server, client, 1000), []);
  return { servers, server, local, client };
}

/** Plays half a second. */
function exchange(servers, server, client, from) {
  const events = [];
  for (let now = from; now < from + 500; now += 10) {
    servers.handleTimeout(now);
    for (let it; (it = servers.pollTransmit()); ) server.take(client, it.contents);
    for (let it; (it = servers.pollEvent()); ) events.push(it);
  }
  return events;
}

test("a STUN client reports where the server sees the socket, and keeps the mapping", () => {
  const servers = new Servers(), local = at("10.0.0.1", 5000), mapped = at("203.0.113.1", 61000);
  const server = new TurnServer("192.0.2.1", (_, bytes) => assert.equal(servers.receive(5, SERVER, local, bytes), null));
  assert.deepEqual([servers.pollTimeout(), servers.pollTransmit(), servers.pollEvent(), servers.isGathering], [null, null, null, false]);
  servers.addStun(0, local, SERVER);
  assert.deepEqual([servers.pollTimeout(), servers.isGathering], [0, true]);
  servers.handleTimeout(0);
  const { contents, ...path } = servers.pollTransmit();
  assert.deepEqual(path, { protocol: "udp", source: local, destination: SERVER });
  server.take({ protocol: "udp", address: mapped }, contents);
  const event = servers.pollEvent();
  assert.deepEqual(event, { type: "serverMapped", protocol: "udp", local, server: SERVER, mapped });
  assert.equal(serverEventLine(event), "server 192.0.2.1:3478 udp 10.0.0.1:5000: mapped 203.0.113.1:61000");
  assert.equal(servers.isGathering, false);
  assert.ok(servers.pollTimeout() > 5); // NATs forget a mapping otherwise
  const media = hex("8001"), datagram = { source: PEER, destination: local, contents: media };
  assert.deepEqual(servers.receive(5, PEER, local, media), datagram);
  assert.deepEqual(servers.outgoing(5, local, PEER, media), { protocol: "udp", source: local, destination: PEER, contents: media });
  servers.free();
});

test("data goes both ways through a server", () => {
  for (const protocol of ["udp", "tcp"]) {
    const { servers, server, local, client } = allocated(protocol), got = [];
    server.toClient = (_, bytes) => got.push(servers.receive(2000, SERVER, local, bytes, protocol));
    server.takeAt(server.allocations[0], PEER, hex("80aabb"));
    assert.deepEqual(got.map((it) => ({ ...it, contents: [...it.contents] })), [{ source: PEER, destination: RELAYED, contents: [0x80, 0xaa, 0xbb] }]);
    const sent = servers.outgoing(2000, RELAYED, PEER, hex("80cc"));
    assert.deepEqual([sent.protocol, sent.source, sent.destination], [protocol, local, SERVER]);
    server.take(client, sent.contents);
    assert.equal(server.dropped, 0);
    servers.free();
  }
});

test("requests are signed with the key of RFC 5389, section 15.4", () => {
  assert.deepEqual(Uint8Array.from(keyOf("user", "realm", "pass")), hex("8493fbc53ba582fb4c044c456bdc40eb"));
  const { servers, server, client } = allocated();
  servers.probe(2000);
  servers.handleTimeout(2000);
  const { contents } = servers.pollTransmit();
  assert.equal(readMessage(contents).method, "refresh");
  assert.ok(verifyMessage(contents, hex("8493fbc53ba582fb4c044c456bdc40eb")));
  server.allocations = [];
  server.take(client, contents);
  const [event] = exchange(servers, server, client, 2010);
  assert.deepEqual([event.type, event.why, event.code, event.unverified], ["serverEnded", "lost", 437, null]);
  assert.equal(servers.outgoing(3000, RELAYED, PEER, hex("80")), null);
  servers.free();
});

test("a server may bar a peer", () => {
  const { servers, server, client } = allocated();
  server.denied = "198.51.100.8";
  servers.permit(2000, at(server.denied, 1));
  const [event] = exchange(servers, server, client, 2000);
  assert.deepEqual([event.type, event.peer, event.code], ["serverNotPermitted", server.denied, 403]);
  assert.match(serverEventLine(event), /198\.51\.100\.8/);
  servers.free();
});

test("clients end by close, and with their socket", () => {
  const { servers, server, client } = allocated();
  servers.close(2000);
  const [event] = exchange(servers, server, client, 2000);
  assert.deepEqual([event.why, server.allocations.length, servers.pollTimeout()], ["closed", 0, null]);
  servers.free();
  const other = allocated("tcp");
  other.servers.lose(other.local); // it has none over UDP
  assert.equal(other.servers.pollEvent(), null);
  other.servers.lose(other.local, "tcp");
  assert.equal(other.servers.pollEvent().why, "lost");
  other.servers.free();
});

test("errors", () => {
  const servers = new Servers(), local = at("10.0.0.1", 5000), add = (options) => () => servers.addTurn(0, local, SERVER, options);
  assert.throws(add({ username: "x".repeat(509), password: "" }), fails("CredentialsTooLong"));
  assert.throws(add({ username: "user", password: "x".repeat(764) }), fails("CredentialsTooLong"));
  assert.throws(add({ family: 5 }), fails("BadAddress"));
  assert.throws(add({ protocol: "quic" }), TypeError);
  assert.throws(add({ places: -1 }), RangeError);
  assert.throws(() => servers.handleTimeout(0, new Uint8Array(11)), fails("TooFewRandomBytes"));
  assert.throws(() => servers.addStun(0, local, at("example.org", 1)), TypeError);
  servers.free();
  servers.free();
  assert.ok(servers.freed);
  assert.throws(() => servers.pollTimeout(), fails("NoServers"));
});

test("what clients had in memory comes back", () => {
  allocated().servers.free();
  const before = heapUsed();
  for (let i = 0; i < 100; i++) allocated().servers.free();
  assert.equal(heapUsed(), before);
});

// ---- gatherers

const TURN = { urls: ["turn:192.0.2.1"], ...USER };

/** Two gatherers, each behind a NAT that lets packets pass to and from the server only; the first one is controlling. */
class World {
  now = 0;
  flights = [];

  constructor(iceServers) {
    this.server = new TurnServer("192.0.2.1", (client, bytes) => this.flights.push({ when: this.now + 20, client, bytes }));
    this.sides = [0, 1].map((i) => this.#side(i, iceServers));
    this.sides[0].agent.setControlling(true);
  }

  #side(i, iceServers) {
    const agent = new IceAgent(), gatherer = new IceGatherer(agent, iceServers), local = at(`10.0.${i + 1}.1`, 5000);
    const side = { agent, gatherer, local, connection: null, mapped: at(`203.0.113.${i + 1}`, 61000), frames: new Frames(), events: [], heard: [] };
    gatherer.addSocket(0, local);
    for (const server of gatherer.toReach) {
      side.connection = at(local.address, 40000);
      gatherer.addConnection(0, server, side.connection, SERVER);
      gatherer.reached(server);
    }
    return side;
  }

  /** Signals what the agents have. */
  meet() {
    meet(this.sides.map(({ agent }) => agent));
    this.sides.forEach(({ agent }, i) => {
      for (const line of agent.localCandidates()) this.sides[1 - i].gatherer.addRemoteCandidate(this.now, line);
    });
  }

  run(time) {
    for (const end = this.now + time; this.now < end; this.now += 5) {
      for (const side of this.sides) this.#turn(side);
      const landed = this.flights.filter(({ when }) => when <= this.now);
      this.flights = this.flights.filter(({ when }) => when > this.now);
      for (const { client, bytes } of landed) this.#land(this.sides.find(({ mapped }) => mapped === client.address), client, bytes);
    }
  }

  #turn(side) {
    const { gatherer } = side, due = gatherer.pollTimeout();
    if (due === null || due <= this.now) gatherer.handleTimeout(this.now);
    for (let it; (it = gatherer.pollTransmit(this.now)); ) this.#send(side, it);
    for (let it; (it = gatherer.pollEvent()); ) side.events.push(it);
  }

  /** What does not go to the server is lost. */
  #send({ mapped, local, connection }, { protocol, source, destination, contents }) {
    if (destination.address !== SERVER.address || destination.port !== SERVER.port) return;
    assert.deepEqual(source, protocol === "udp" ? local : connection);
    this.server.take({ protocol, address: mapped }, contents);
  }

  #land({ gatherer, local, connection, frames, heard }, { protocol }, bytes) {
    const all = protocol === "udp" ? [bytes] : [frames.take(bytes.subarray(0, 5)), frames.take(bytes.subarray(5))].flat();
    for (const frame of all) {
      const media = gatherer.handlePacket(this.now, SERVER, protocol === "udp" ? local : connection, frame, protocol);
      if (media) heard.push(String(Buffer.from(media.contents)));
    }
  }

  say(i, text) {
    const side = this.sides[i], { source, destination } = side.agent.pathForMedia(this.now);
    this.#send(side, side.gatherer.outgoing(this.now, source, destination, Buffer.from(text)));
  }

  end() {
    for (const { gatherer } of this.sides) gatherer.clients?.free();
    closed(this.sides.map(({ agent }) => agent));
  }
}

const typesOf = ({ events }) => events.map(({ type }) => type);
const kindsOf = ({ agent }) => agent.localFields().map(({ kind }) => kind);

test("servers bring candidates, as browsers' iceServers name them", () => {
  const world = new World([{ urls: "stun:192.0.2.1" }, TURN]);
  world.run(500);
  const [side] = world.sides, types = typesOf(side).filter((type) => type !== "iceConnectionStateChange" && type !== "iceRestart");
  assert.deepEqual(types, ["serverAllocated", "localCandidate", "localCandidate", "gatheringComplete"]); // the TURN server suffices
  assert.deepEqual(kindsOf(side), ["host", "relay", "srflx"]);
  world.end();
  const stun = new World([{ urls: ["stun:192.0.2.1"] }]);
  stun.run(500);
  assert.deepEqual(kindsOf(stun.sides[0]), ["host", "srflx"]);
  stun.end();
});

test("two agents connect through a server only, over UDP and TCP", () => {
  for (const urls of ["turn:192.0.2.1", "turn:192.0.2.1?transport=tcp"]) {
    const world = new World([{ urls, ...USER }]);
    world.run(300);
    world.meet();
    world.run(2000);
    const { dropped } = world.server;
    for (let i = 0; i < 20; i++) {
      world.say(0, `\x80${i}`);
      world.say(1, `\x80${i}`);
      world.run(100);
    }
    assert.deepEqual([world.sides.map(({ heard }) => heard.length), world.server.dropped], [[20, 20], dropped]);
    for (const { gatherer } of world.sides) gatherer.close(world.now);
    world.run(500);
    assert.deepEqual([world.server.allocations.length, world.sides.every(({ gatherer }) => gatherer.isOver)], [0, true]);
    world.end();
  }
});

test("a wrong password is reported", () => {
  const world = new World([{ urls: "turn:192.0.2.1", username: "user", credential: "wrong" }]);
  world.run(3000);
  const ended = world.sides[0].events.find(({ type }) => type === "serverEnded");
  assert.deepEqual([ended.why, ended.code, ended.unverified], ["failed", null, 401]);
  assert.ok(typesOf(world.sides[0]).includes("gatheringComplete"));
  world.end();
});

test("candidates end with their connection or socket", () => {
  const world = new World([{ urls: ["turn:192.0.2.1?transport=tcp", "turn:192.0.2.1"], ...USER }]);
  world.run(500);
  const [side] = world.sides, relays = () => kindsOf(side).filter((kind) => kind === "relay").length;
  assert.equal(relays(), 2);
  side.gatherer.loseConnection(world.now, side.connection);
  assert.equal(relays(), 1);
  side.gatherer.removeSocket(world.now, side.local);
  assert.deepEqual(kindsOf(side), []);
  world.end();
});

test("names and connections are the program's", () => {
  const agent = new IceAgent(), urls = ["turn:turn.example.org", "turns:turn.example.org", "stuns:192.0.2.1"];
  const gatherer = new IceGatherer(agent, [{ urls, ...USER }]), [udp, tls] = gatherer.toReach;
  assert.deepEqual([udp.protocol, udp.host, tls.protocol, tls.port, gatherer.toReach.length], ["udp", "turn.example.org", "tls", 5349, 2]);
  gatherer.addSocket(0, at("10.0.0.1", 5000));
  gatherer.handleTimeout(0);
  assert.deepEqual([gatherer.pollTransmit(0), gatherer.isGathering], [null, true]);
  gatherer.addServer(0, udp, "192.0.2.7");
  gatherer.reached(udp);
  gatherer.handleTimeout(0);
  assert.deepEqual(gatherer.pollTransmit(0).destination, at("192.0.2.7", 3478));
  gatherer.reached(tls);
  assert.deepEqual([gatherer.toReach, gatherer.isGathering, gatherer.agent], [[], true, agent]);
  gatherer.clients.free();
  agent.close();
});

test("without servers a gatherer passes on what the agent says", () => {
  const agents = [new IceAgent(), new IceAgent()], [one, other] = agents.map((agent) => new IceGatherer(agent));
  agents[0].setControlling(true);
  meet(agents);
  const local = [at("10.0.0.1", 5000), at("10.0.0.2", 5000)];
  const lines = [one, other].map((gatherer, i) => gatherer.addSocket(0, local[i]));
  [other, one].forEach((gatherer, i) => assert.equal(gatherer.addRemoteCandidate(0, lines[i]), "added"));
  assert.deepEqual(one.pollEvent(), { type: "gatheringComplete" });
  for (let now = 0; now < 500; now += 50) {
    for (const [gatherer, peer] of [[one, other], [other, one]]) {
      gatherer.handleTimeout(now);
      for (let it; (it = gatherer.pollTransmit(now)); ) assert.equal(peer.handlePacket(now, it.source, it.destination, it.contents), null);
    }
  }
  assert.equal(agents[0].state, "completed");
  const media = { source: local[1], destination: local[0], contents: hex("80") };
  assert.deepEqual(one.handlePacket(500, media.source, media.destination, media.contents), media);
  one.removeSocket(500, local[0]);
  assert.deepEqual([agents[0].localCandidates(), one.isOver, one.clients], [[], true, null]);
  assert.deepEqual(agents[1].addLocalCandidate(Candidate.host(local[1])), null);
  closed(agents);
});
