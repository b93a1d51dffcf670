// The agent over UDP sockets: two loops over loopback.
import assert from "node:assert/strict";
import { on, once } from "node:events";
import { test } from "node:test";
import { IceAgent, bindingRequest, newTransaction } from "is-ice";
import { hostAddresses, IceLoop } from "is-ice/node";

/** Two loops, whose signaling is done. */
async function loops() {
  const both = [0, 1].map(() => new IceLoop(new IceAgent()));
  both[0].agent.setControlling(true);
  const lines = await Promise.all(both.map((loop) => loop.bind("127.0.0.1")));
  both.forEach((loop, i) => {
    loop.agent.setRemoteCredentials(both[1 - i].agent.localCredentials);
    loop.agent.addRemoteCandidate(lines[1 - i]);
  });
  return both;
}

function close(both) {
  for (const loop of both) {
    loop.close();
    loop.agent.close();
  }
}

const soon = { signal: AbortSignal.timeout(10000) };

test("two loops find a path, and send media", async () => {
  const both = await loops(), paths = both.map((loop) => once(loop, "nominatedSend", soon));
  assert.equal(both[0].send("too soon"), false);
  both.forEach((loop) => loop.begin());
  const [[{ source, destination }]] = await Promise.all(paths);
  assert.deepEqual(both[0].agent.pathForMedia(both[0].now()), { protocol: "udp", source, destination });
  const heard = once(both[1], "media", soon);
  assert.ok(both[0].send("hello"));
  const [data, from, local] = await heard;
  assert.deepEqual([String(data), from, local], ["hello", source, destination]);
  close(both);
});

test("a datagram that the system does not send is reported", async () => {
  const both = await loops(), [loop] = both, [{ address: source }] = loop.agent.localFields();
  const failed = once(loop, "sendFailed", soon);
  loop.sendFrom(source, { address: "127.0.0.1", port: 9 }, new Uint8Array(70000)); // too long
  const [error, from, to] = await failed;
  assert.deepEqual([error.code, from, to], ["EMSGSIZE", source, { address: "127.0.0.1", port: 9 }]);
  assert.deepEqual(loop.agent.failedSends.map(({ reason, times }) => [reason, times]), [[Math.abs(error.errno), 1]]);
  close(both);
});

test("its events are an async iterator", async () => {
  const both = await loops(), heard = on(both[1], "media", soon), texts = [];
  both[0].once("nominatedSend", () => ["one", "two", "three"].forEach((text) => both[0].send(text)));
  both.forEach((loop) => loop.begin());
  for await (const [data] of heard) {
    texts.push(String(data));
    if (texts.length === 3) break;
  }
  assert.deepEqual(texts.sort(), ["one", "three", "two"]);
  close(both);
});

test("messages that are not for the agent are passed on", async () => {
  const both = await loops(), [one, other] = both, heard = once(other, "stun", soon), id = newTransaction();
  const [{ address: source }, { address: destination }] = both.map((loop) => loop.agent.localFields()[0]);
  one.sendFrom(source, destination, bindingRequest(id));
  const [data] = await heard;
  assert.equal(data.length, 28);
  close(both);
});

test("handlers may close the loop and the agent, and a closed loop does nothing", async () => {
  const both = await loops();
  const closing = new Promise((done) => {
    both[0].on("iceConnectionStateChange", () => {
      close([both[0]]);
      done();
    });
  });
  both.forEach((loop) => loop.begin());
  await closing;
  both[0].begin();
  both[0].wake();
  assert.equal(both[0].send("x"), false);
  both[1].agent.close(); // before the loop
  both[1].wake();
  await new Promise((done) => setTimeout(done, 30));
  close(both);
});

test("addresses for host candidates", () => {
  assert.ok(hostAddresses().every((address) => !/^(127|169\.254)\.|^fe80|^::1$/.test(address)));
});

test("a port that is in use is an error", async () => {
  const [loop, other] = await loops(), [{ address }] = loop.agent.localFields();
  await assert.rejects(other.open(address.address, address.port), { code: "EADDRINUSE" });
  close([loop, other]);
});
