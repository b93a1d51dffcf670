// The loop of Node with a TURN server over real sockets, at loopback: over UDP, TCP and TLS.
import assert from "node:assert/strict";
import { execFileSync } from "node:child_process";
import dgram from "node:dgram";
import { once } from "node:events";
import { mkdtempSync, readFileSync, rmSync } from "node:fs";
import net from "node:net";
import os from "node:os";
import path from "node:path";
import { test } from "node:test";
import tls from "node:tls";
import { Frames, IceAgent } from "is-ice";
import { IceLoop } from "is-ice/node";
import { TurnServer, USER } from "./turn_server.js";

const soon = { signal: AbortSignal.timeout(20000) };
const PROTOCOLS = { udp: "turn", tcp: "turn", tls: "turns" };

/** A certificate for localhost and 127.0.0.1, or null if there is no openssl. */
function certificate() {
  const folder = mkdtempSync(path.join(os.tmpdir(), "is-ice-")), [key, cert] = ["key", "cert"].map((name) => path.join(folder, name));
  const made = ["req", "-x509", "-newkey", "ec", "-pkeyopt", "ec_paramgen_curve:prime256v1", "-nodes", "-days", "2", "-subj", "/CN=localhost"];
  try {
    const names = ["-addext", "subjectAltName=DNS:localhost,IP:127.0.0.1"];
    execFileSync("openssl", [...made, ...names, "-keyout", key, "-out", cert], { stdio: "ignore" });
    return { key: readFileSync(key), cert: readFileSync(cert) };
  } catch {
    return null;
  } finally {
    rmSync(folder, { recursive: true });
  }
}

/** A server over sockets. Its relayed addresses are not those of sockets: it passes data on by itself. */
class Over {
  streams = new Set();

  constructor(protocol, pem) {
    const server = new TurnServer("192.0.2.1", (client, bytes) => client.reply(bytes));
    Object.assign(this, { server, protocol, name: protocol === "udp" ? "udp" : "tcp" });
    const accept = (stream) => this.#accept(stream);
    if (protocol === "udp") this.socket = dgram.createSocket("udp4").on("message", (bytes, from) => this.#received(bytes, from));
    else this.socket = protocol === "tls" ? tls.createServer(pem, accept) : net.createServer(accept);
  }

  #received(bytes, { address, port }) {
    this.server.take({ protocol: "udp", address: { address, port }, reply: (reply) => this.socket.send(reply, port, address) }, bytes);
  }

  #accept(stream) {
    const address = { address: stream.remoteAddress, port: stream.remotePort }, frames = new Frames();
    this.streams.add(stream.on("error", () => {}));
    stream.on("data", (chunk) => {
      for (const frame of frames.take(chunk)) this.server.take({ protocol: "tcp", address, reply: (reply) => stream.write(reply) }, frame);
    });
  }

  async begin() {
    if (this.protocol === "udp") this.socket.bind(0, "127.0.0.1");
    else this.socket.listen(0, "127.0.0.1");
    await once(this.socket, "listening", soon);
    const query = this.protocol === "tls" ? "" : `?transport=${this.protocol}`;
    return { urls: `${PROTOCOLS[this.protocol]}:localhost:${this.socket.address().port}${query}`, ...USER };
  }

  end() {
    for (const stream of this.streams) stream.destroy();
    this.socket.close();
  }
}

/** Two loops, which know of each other only their relayed candidates. */
async function relayed(iceServer, pem) {
  const both = [0, 1].map(() => new IceLoop(new IceAgent(), { iceServers: [iceServer], tls: { ca: pem?.cert } }));
  both[0].agent.setControlling(true);
  const gathered = both.map((loop) => once(loop, "gatheringComplete", soon));
  const lines = both.map((loop) => once(loop, "localCandidate", soon));
  for (const loop of both) await loop.bind("127.0.0.1");
  await Promise.all(gathered);
  const relays = await Promise.all(lines.map(async (line) => (await line)[0].line));
  both.forEach((loop, i) => {
    loop.agent.setRemoteCredentials(both[1 - i].agent.localCredentials);
    assert.match(relays[i], / typ relay /);
    assert.equal(loop.addRemoteCandidate(relays[1 - i]), "added");
  });
  return both;
}

for (const protocol of Object.keys(PROTOCOLS)) {
  const pem = protocol === "tls" ? certificate() : undefined;
  test(`two loops talk through a TURN server over ${protocol}`, { skip: pem === null && "needs openssl" }, async () => {
    const over = new Over(protocol, pem), both = await relayed(await over.begin(), pem);
    const paths = both.map((loop) => once(loop, "nominatedSend", soon));
    for (const loop of both) loop.begin();
    await Promise.all(paths);
    const heard = once(both[1], "media", soon);
    assert.ok(both[0].send("hello"));
    const [data, from] = await heard;
    assert.equal(String(data), "hello");
    assert.ok(both[1].agent.takesMediaFrom(both[1].now(), from));
    assert.equal(over.server.allocations.length, 2);
    await Promise.all(both.map((loop) => loop.leave()));
    assert.equal(over.server.allocations.length, 0);
    for (const loop of both) loop.agent.close();
    over.end();
  });
}

test("a connection that the server closes ends its candidate", async () => {
  const over = new Over("tcp"), both = await relayed(await over.begin()), ended = once(both[0], "serverEnded", soon);
  for (const stream of over.streams) stream.destroy();
  const [{ why, protocol }] = await ended;
  assert.deepEqual([why, protocol], ["lost", "tcp"]);
  assert.deepEqual(both[0].agent.localFields().map(({ kind }) => kind), ["host"]);
  over.end();
  for (const loop of both) {
    loop.close();
    loop.agent.close();
  }
});

test("a server that is not reached is reported, and gathering ends", async () => {
  const iceServers = [{ urls: "turn:127.0.0.1:9?transport=tcp", ...USER }], loop = new IceLoop(new IceAgent(), { iceServers });
  const unreached = [], complete = once(loop, "gatheringComplete", soon);
  loop.on("serverUnreached", (error, { url }) => unreached.push([url, error instanceof Error]));
  await loop.bind("127.0.0.1");
  await complete;
  assert.deepEqual(unreached, [["turn:127.0.0.1:9?transport=tcp", true]]);
  loop.unbind("127.0.0.1");
  assert.deepEqual(loop.agent.localCandidates(), []);
  loop.close();
  loop.agent.close();
});
