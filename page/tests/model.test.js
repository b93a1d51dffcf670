// The network, without agents: what RFC 4787 says of NATs, routing, links and simulated time.
import assert from "node:assert/strict";
import { test } from "node:test";
import { Clock } from "../src/clock.js";
import { Nat, NATS } from "../src/nat.js";
import { Gateway, Interface, Link, Network, Track } from "../src/network.js";
import { Random } from "../src/random.js";

const OUTSIDE = "203.0.113.1";
const at = (address, port) => ({ address, port });
const [INSIDE, PEER, OTHER_PORT, OTHER] = [at("10.0.0.1", 5000), at("192.0.2.1", 6000), at("192.0.2.1", 6001), at("192.0.2.2", 6000)];
const nat = (kind) => new Nat({ ...NATS[kind], outside: OUTSIDE }, new Random("a NAT"));

test("a random source repeats with its seed, and with no other one", () => {
  const [one, same, other] = ["7 network", "7 network", "8 network"].map((seed) => [...new Random(seed).bytes(32)]);
  assert.deepEqual(one, same);
  assert.notDeepEqual(one, other);
});

test("calls come in the order of their times, and those of one time in the order of their scheduling", () => {
  const clock = new Clock(), made = [];
  for (const [time, name] of [[20, "c"], [10, "a"], [10, "b"], [30, "d"]]) clock.at(time, () => made.push(name));
  clock.cancel(clock.at(15, () => made.push("cancelled")));
  clock.runTo(20);
  assert.deepEqual([made.join(""), clock.now, clock.next], ["abc", 20, 30]);
});

// RFC 4787, sections 4.1 and 5: whether a packet of the peer, from another port of it, and from another host comes in.
const PASSES = {
  cone: [true, true, true], restricted: [true, true, false], port: [true, false, false], symmetric: [true, false, false],
};
for (const [kind, passes] of Object.entries(PASSES)) {
  test(`a NAT that is ${kind} lets in who it should`, () => {
    const it = nat(kind), outside = it.outgoing(0, INSIDE, PEER);
    assert.equal(outside.address, OUTSIDE);
    assert.deepEqual([PEER, OTHER_PORT, OTHER].map((from) => it.incoming(1, from, outside) !== null), passes);
  });
}

test("only a symmetric NAT maps by destination", () => {
  for (const kind of ["cone", "restricted", "port", "symmetric"]) {
    const it = nat(kind), [one, two] = [PEER, OTHER].map((to) => it.outgoing(0, INSIDE, to).port);
    assert.equal(one === two, kind !== "symmetric");
  }
});

test("a mapping ends 2 minutes after the last packet from inside", () => {
  const it = nat("cone"), outside = it.outgoing(0, INSIDE, PEER);
  assert.notEqual(it.incoming(120_000, PEER, outside), null);
  assert.equal(it.incoming(120_001, PEER, outside), null);
});

test("a link loses its share, and keeps packets in order", () => {
  const link = new Link({ delay: 5, jitter: 30, loss: 0.2 }, new Random("a link"));
  const arrivals = Array.from({ length: 10_000 }, (_, n) => link.carry(n)), kept = arrivals.filter((it) => it !== null);
  assert.ok(Math.abs(1 - kept.length / 10_000 - 0.2) < 0.02);
  assert.deepEqual(kept, [...kept].sort((a, b) => a - b));
});

test("a link loses the packets that it is told to lose", () => {
  const link = new Link({ delay: 5, jitter: 0, loss: 0, drops: [1] }, new Random("a link"));
  assert.deepEqual([0, 1, 2].map((now) => link.carry(now)), [5, null, 7]);
});

/** An interface behind a port-restricted NAT, one without a NAT, and what they hear. */
function world() {
  const clock = new Clock(), internet = new Network(clock, 20), home = new Network(clock), heard = [];
  const link = () => new Link({ delay: 4, jitter: 0, loss: 0 }, new Random("a link"));
  const made = (name, side, ip, network, edge) => new Interface({ name, side, ip, network, edge, up: link(), down: link() });
  new Gateway("router A", 0.2, { ...NATS.port, outside: OUTSIDE }, home, internet, new Random("a NAT"));
  const here = made("wifi", "A", "10.0.0.1", home, 0.2), there = made("eth0", "B", "192.0.2.1", internet, 0.8);
  for (const it of [here, there]) it.take = (_, packet) => heard.push([clock.now, it.side, packet.source]);
  const send = (from, source, destination) => {
    const track = new Track("check", from.side, clock.now, from.home, { goal: 1 - from.home });
    from.send({ source, destination, payload: null, track });
    clock.runTo(clock.now + 100);
    return track;
  };
  return { here, there, heard, send, internet };
}

test("a gateway translates both ways, and filters", () => {
  const { here, there, heard, send } = world();
  const out = send(here, INSIDE, PEER);
  assert.deepEqual(heard[0], [28, "B", at(OUTSIDE, 5000)]); // 4 ms up, 20 between, 4 down
  assert.deepEqual(out.stops.map((it) => it.at), [0, 4, 24, 28]);
  send(there, PEER, at(OUTSIDE, 5000));
  assert.deepEqual(heard[1], [128, "A", PEER]);
  assert.equal(send(there, OTHER_PORT, at(OUTSIDE, 5000)).end.why, "filtered by router A");
});

test("a private address of another home has no route", () => {
  const { here, send } = world();
  assert.equal(send(here, INSIDE, at("10.99.0.1", 1)).end.why, "no route");
});

test("a cut path carries nothing, and an interface that is off sends nothing", () => {
  const { here, send, internet } = world();
  internet.refuses = () => "cut";
  assert.equal(send(here, INSIDE, PEER).end.why, "cut");
  here.isOn = false;
  assert.equal(send(here, INSIDE, PEER).end.why, "wifi is off");
});
