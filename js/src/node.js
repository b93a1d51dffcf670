// The agent over sockets of Node: its sockets, its connections to servers, its timers, and its events as those of an EventEmitter.
import dgram from "node:dgram";
import { EventEmitter } from "node:events";
import os from "node:os";
import { addressText } from "./address.js";
import { IceError } from "./errors.js";
import { IceGatherer } from "./gatherer.js";
import { addressesOf, connected, localOf, remoteOf, serverName } from "./reaching.js";
import { Frames } from "./servers.js";
import { isStun } from "./stun.js";
import { isHostAddress } from "./timing.js";

const IDLE = 1000; // milliseconds until the agent is asked again, if it names no time
const AGAIN = 50; // milliseconds until handleTimeout is called again if it failed
const RECONNECT = 2000; // milliseconds until a connection that was closed is opened again, once
const FAREWELL = 1000; // milliseconds in which relayed addresses are freed at the end

/** The IP addresses of this machine's interfaces that host candidates should have. */
export function hostAddresses() {
  const all = Object.values(os.networkInterfaces()).flat();
  return all.filter((it) => !it.internal && isHostAddress(it.address)).map((it) => it.address);
}

/** Binds a UDP socket. */
function bound(address, port) {
  const socket = dgram.createSocket(address.includes(":") ? { type: "udp6", ipv6Only: true } : "udp4");
  return new Promise((resolve, reject) => {
    socket.once("error", reject);
    socket.bind(port, address, () => {
      socket.off("error", reject);
      socket.on("error", () => {}); // a datagram that was not sent is lost, as in the network
      resolve(socket);
    });
  });
}

/**
 * An agent, its sockets and its timers. With `iceServers` as browsers have them, candidates of STUN and TURN servers, too.
 *
 * Emits the agent's events by their type: "iceRestart", "iceConnectionStateChange", "discoveredRecv", "nominatedSend", "silent" and
 * "heard", each with the event. Those of gathering likewise: "localCandidate", "gatheringComplete", "serverMapped" and so on. And "media"
 * (data, source, local) for datagrams that are not STUN messages; "stun" (data, source, local) for STUN messages that are not for the
 * agent; "sendFailed" (error, source, destination) for each datagram that the system did not send; "serverUnreached" (error, server) for a
 * name that is not resolved, or a connection that is not opened; and "error" if the module stopped, which ends the loop.
 */
export class IceLoop extends EventEmitter {
  #agent;
  #gatherer;
  #tls; // options of tls.connect
  #sockets = new Map();
  #streams = new Map(); // the connections to servers, with the addresses that their clients know them by
  #reaching = new Set();
  #start = performance.now();
  #timer = null;
  #clientsTimer = null;
  #due = null; // what the timer is set to
  #began = false;
  #closed = false;

  constructor(agent, { iceServers = [], tls = {} } = {}) {
    super();
    this.#agent = agent;
    this.#gatherer = new IceGatherer(agent, iceServers);
    this.#tls = tls;
  }

  get agent() {
    return this.#agent;
  }

  /** What gathers candidates from servers. */
  get gatherer() {
    return this.#gatherer;
  }

  /** The current time for the agent, in milliseconds. */
  now() {
    return performance.now() - this.#start;
  }

  /** Binds a socket at a local address and returns that address, with the port. No candidate is added. */
  async open(address, port = 0) {
    const socket = await bound(address, port), local = { address, port: socket.address().port };
    if (this.#closed) {
      socket.close();
      return local;
    }
    this.#sockets.set(addressText(local), socket);
    socket.on("message", (data, { address: from, port: of }) => this.receive({ address: from, port: of }, local, data));
    return local;
  }

  /** Binds a socket, adds its address as a host candidate, and returns that for signaling. Its clients at servers start. */
  async bind(address, port = 0) {
    return this.addSocket(await this.open(address, port));
  }

  /** Adds the local address of an open socket as a host candidate, and returns that for signaling. Its clients at servers start. */
  addSocket(local) {
    const line = this.#gatherer.addSocket(this.now(), local);
    this.#reach();
    setImmediate(() => this.#turn()); // after those that are added at the same time
    return line;
  }

  /** Closes the sockets at a local IP address, with their candidates and clients, and the connections from it. */
  unbind(address) {
    for (const [name, socket] of [...this.#sockets]) {
      const local = { address, port: socket.address().port };
      if (name !== addressText(local)) continue;
      this.#made(() => this.#gatherer.removeSocket(this.now(), local));
      this.#sockets.delete(name);
      socket.close();
    }
    for (const { stream, local } of [...this.#streams.values()].filter((it) => it.local.address === address)) {
      this.#lose(local);
      stream.destroy();
    }
    this.#turn();
  }

  /** Adds a candidate of the peer, and has the TURN servers let in its packets. */
  addRemoteCandidate(line) {
    const result = this.#gatherer.addRemoteCandidate(this.now(), line);
    this.#turn();
    return result;
  }

  /** Starts the session: calls handleTimeout now, and whenever the agent says. */
  begin() {
    [this.#began, this.#due] = [!this.#closed, null];
    this.#timedOut();
  }

  /** Sends packets, emits events and sets the timer. Call it after each call of yours that changes the agent. */
  wake() {
    this.#turn();
  }

  /** Sends media to the peer. Returns false if there is no path yet. */
  send(data) {
    const path = this.#agent.closed ? null : this.#agent.pathForMedia(this.now());
    return path !== null && this.sendFrom(path.source, path.destination, data);
  }

  /** Sends a datagram from the socket at a local address, or from a relayed address. Returns false if there is neither. */
  sendFrom(source, destination, data) {
    const bytes = typeof data === "string" ? Buffer.from(data) : data;
    const packet = this.#made(() => this.#gatherer.outgoing(this.now(), source, destination, bytes));
    return packet ? this.#transmit(packet) : false;
  }

  /** Sends a packet as it goes out: a datagram, or into the connection that it comes from. */
  #transmit({ protocol, source, destination, contents }) {
    if (protocol !== "udp") return this.#write(source, destination, contents);
    const socket = this.#sockets.get(addressText(source));
    socket?.send(contents, destination.port, destination.address, (error) => error && this.#failed(error, source, destination));
    return socket !== undefined;
  }

  /**
   * Puts a packet into its connection. If it is for another server, the client was redirected (RFC 8489, section 10), and goes on over a
   * connection to that one.
   */
  #write(local, destination, contents) {
    const one = this.#streams.get(addressText(local));
    if (!one) return false;
    if (addressText(remoteOf(one.stream)) === addressText(destination)) one.stream.write(contents);
    else this.#follow(one, destination, contents);
    return true;
  }

  /** The system did not send a datagram: it is lost, as in the network, and the agent lists it. */
  #failed(error, source, destination) {
    if (this.#closed) return;
    this.#made(() => this.#agent.sendFailed(source, destination, Math.abs(error.errno ?? 0)));
    this.emit("sendFailed", error, source, destination);
  }

  /** Takes a datagram that arrived at a local address. The loop's own sockets call it themselves. */
  receive(source, local, data) {
    this.#receive(source, local, data, "udp");
  }

  /** Takes a datagram, or a frame of a connection. */
  #receive(from, to, bytes, protocol) {
    if (this.#closed) return;
    const told = this.#made(() => this.#gatherer.receive(this.now(), from, to, bytes, protocol));
    if (!told) return this.#turn(); // it was a client's
    const { source, destination, contents } = told;
    if (!isStun(contents)) this.emit("media", contents, source, destination);
    else if (this.#made(() => this.#agent.handlePacket(this.now(), source, destination, contents))) this.#turn();
    else if (!this.#closed) this.emit("stun", contents, source, destination);
  }

  // ---- servers

  /** Resolves the names of servers, and opens connections. */
  #reach() {
    for (const server of this.#gatherer.toReach) {
      if (this.#reaching.has(server)) continue;
      this.#reaching.add(server);
      this.#reached(server).catch((error) => !this.#closed && this.emit("serverUnreached", error, server)).finally(() => {
        this.#reaching.delete(server);
        if (this.#closed) return;
        this.#gatherer.reached(server);
        this.#turn();
      });
    }
  }

  async #reached(server) {
    if (server.protocol !== "udp") {
      const stream = await connected(server, this.#tls), local = localOf(stream);
      if (this.#connected(server, stream, local)) this.#gatherer.addConnection(this.now(), server, local, remoteOf(stream));
      return;
    }
    const all = await addressesOf(server.host);
    for (const ip of this.#closed ? [] : all) this.#gatherer.addServer(this.now(), server, ip);
  }

  /** Reads from a connection, which its client knows by the address `local`. Returns false if the loop was closed meanwhile. */
  #connected(server, stream, local) {
    const remote = remoteOf(stream), frames = new Frames();
    stream.on("error", () => {}); // "close" follows
    if (this.#closed) return stream.destroy(), false;
    this.#streams.set(addressText(local), { stream, server, local });
    stream.on("data", (chunk) => {
      const found = this.#made(() => frames.take(chunk));
      if (found === false) stream.destroy(); // these are no frames
      else for (const frame of found) this.#receive(remote, local, Buffer.from(frame.buffer), "tcp");
    });
    stream.on("close", () => {
      if (this.#closed || this.#streams.get(addressText(local))?.stream !== stream) return;
      this.#lose(local);
      this.#turn();
      setTimeout(() => !this.#closed && this.#reach(), RECONNECT).unref();
    });
    return true;
  }

  /** Connects to the server that another one named, over TLS with the certificate of the first one's host. Without it the client ends. */
  #follow({ stream: before, server, local }, { address: host, port }, contents) {
    this.#streams.delete(addressText(local));
    before.destroy();
    connected({ ...server, host, port }, { ...serverName(server.host), ...this.#tls }).then(
      (stream) => this.#connected(server, stream, local) && stream.write(contents),
      (error) => {
        if (this.#closed) return;
        this.emit("serverUnreached", error, server);
        this.#lose(local);
        this.#turn();
      },
    );
  }

  #lose(local) {
    this.#streams.delete(addressText(local));
    this.#made(() => this.#gatherer.loseConnection(this.now(), local));
  }

  // ---- the end

  /** Frees relayed addresses, which takes a round trip, and closes the loop. */
  async leave() {
    const end = this.now() + FAREWELL;
    if (!this.#closed) this.#made(() => this.#gatherer.close(this.now()));
    while (!this.#closed && this.now() < end && !this.#made(() => this.#gatherer.isOver)) {
      this.#turn();
      await new Promise((done) => setTimeout(done, 10));
    }
    this.close();
  }

  /** Closes the sockets and stops the timers. The agent stays. */
  close() {
    [this.#began, this.#closed] = [false, true];
    clearTimeout(this.#timer);
    clearTimeout(this.#clientsTimer);
    for (const socket of this.#sockets.values()) socket.close();
    for (const { stream } of this.#streams.values()) stream.end();
    this.#sockets.clear();
    this.#streams.clear();
    this.#gatherer.clients?.free();
  }

  // ---- time

  #timedOut() {
    const due = this.#due;
    this.#due = null;
    if (!this.#began) return;
    if (due !== null && this.now() < due) return this.#setTimer(due); // a timer may be early, and a call too early would only add its delay
    const served = this.#made(() => this.#serves());
    if (served === false) return this.#began && this.#setTimer(this.now() + AGAIN);
    this.#turn();
    if (served.early && this.#began && this.#due === null) this.#setTimer(this.now()); // with Original there is no time yet
  }

  /** Calls handleTimeout. Returns whether it served an early request. */
  #serves() {
    const before = this.#agent.earlyRequests;
    this.#agent.handleTimeout(this.now());
    return { early: this.#agent.earlyRequests < before };
  }

  /** Makes a call on the agent. One that fails left the agent as it was, as if the datagram had been lost. */
  #made(call) {
    try {
      return call();
    } catch (error) {
      if (!(error instanceof IceError)) throw error;
      if (error.code === "NoAgent" || error.code === "Trapped") this.close();
      if (error.code === "Trapped") this.emit("error", error);
      return false;
    }
  }

  #turn() {
    const agent = this.#agent, polled = (call) => !this.#closed && this.#made(call); // a handler may close the loop, and the agent
    if (this.#began) this.#setTimer(polled(() => agent.pollTimeout())); // with Original the time is sooner before packets are polled
    for (let it; (it = polled(() => this.#gatherer.pollTransmit(this.now()))); ) this.#transmit(it);
    for (let it; (it = polled(() => this.#gatherer.pollGatheringEvent())); ) this.emit(it.type, it);
    for (let it; this.#began && (it = polled(() => agent.pollEvent())); ) this.emit(it.type, it);
    if (this.#began) this.#setTimer(polled(() => agent.pollTimeout()));
    if (this.#gatherer.clients) this.#setClientsTimer(polled(() => this.#gatherer.clients.pollTimeout()));
  }

  /** Sets the timer of the clients, which have times of their own. */
  #setClientsTimer(due) {
    clearTimeout(this.#clientsTimer);
    if (typeof due !== "number") return;
    this.#clientsTimer = setTimeout(() => {
      const served = this.#made(() => (this.#gatherer.handleClientsTimeout(this.now()), true));
      if (served) this.#turn();
      else if (!this.#closed) this.#setClientsTimer(this.now() + AGAIN);
    }, Math.max(0, Math.ceil(due - this.now())));
  }

  /**
   * Sets the timer to a time, unless it is set to an earlier one. null: nothing is due until a call changes the agent, which `wake`
   * reports; it is asked again anyway. Then a time that is set stays: that of a call that failed.
   */
  #setTimer(due) {
    const hasDue = typeof due === "number";
    if (this.#due !== null && (!hasDue || this.#due <= due)) return;
    this.#due = hasDue ? due : null;
    clearTimeout(this.#timer);
    this.#timer = setTimeout(() => (hasDue ? this.#timedOut() : this.#turn()), hasDue ? Math.max(0, Math.ceil(due - this.now())) : IDLE);
  }
}
