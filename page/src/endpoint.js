import { Track } from "./network.js";
import { keyOf } from "./nat.js";

// How often a request to a server is sent (Rc), and its first RTO in ms, which doubles (RFC 8489, section 6.2.1).
const REQUESTS = 7, FIRST_RTO = 500;

export const text = ({ address, port }) => (address.includes(":") ? `[${address}]:${port}` : `${address}:${port}`);

/** One side of a session: its sockets, gathering, signaling, and README's loop. No rule of ICE is here. */
export class Endpoint {
  sockets = new Map(); // by address: { address, interface }
  relays = new Map(); // by relayed address: { socket, server }
  generation = 0;
  #pending = new Map(); // requests to servers without a response: when they are sent again
  #unsignaled = [];
  #peers = new Set();
  #timeout = null;
  #began = false;

  /**
   * @param world { clock, server, random, record, note, ice, watch }; `record` gets each track, `note` each event
   * @param signal sends a message to the peer
   */
  constructor(side, settings, interfaces, world, signal) {
    Object.assign(this, { side, settings, interfaces, world, signal, goal: side === "A" ? 1 : 0, home: side === "A" ? 0 : 1 });
    const { ice, random } = world;
    this.random = random(`side ${side}`);
    this.tieBreaker = settings.tieBreaker ?? this.random.bits64();
    this.agent = new ice.IceAgent(this.#creds(), this.tieBreaker);
    this.agent.setControlling(settings.controlling);
    this.agent.setRenomination(settings.renomination);
    this.agent.setSettings({ modern: settings.modern });
  }

  #creds() {
    return this.world.ice.newCreds(this.random.bytes(38));
  }

  #note(what, details = {}) {
    this.world.note({ side: this.side, what, ...details });
  }

  /** Gathers candidates, signals them, and starts the session. */
  begin() {
    this.#began = true;
    this.#signal({ creds: this.agent.localCredentials });
    for (const it of this.interfaces) if (it.isOn) this.#bind(it);
    this.#signalCandidates();
    this.#handleTimeout();
  }

  /** Makes an ICE restart, and signals it. */
  restart() {
    this.generation += 1;
    this.#renew();
  }

  #renew() {
    this.agent.iceRestart(this.#creds(), true);
    this.world.watch.call(this.side, "restart");
    this.#unsignaled = [];
    this.#signal({ creds: this.agent.localCredentials, lines: this.agent.localCandidates() });
    this.turn();
  }

  turnOn(it) {
    it.isOn = true;
    this.#bind(it);
    this.#signalCandidates();
    this.turn();
  }

  turnOff(it) {
    it.isOn = false;
    for (const [key, socket] of [...this.sockets]) {
      if (socket.interface !== it) continue;
      for (const candidate of socket.candidates) this.agent.invalidateCandidate(candidate);
      this.world.watch.call(this.side, "invalidate");
      this.sockets.delete(key);
    }
    this.turn();
  }

  // ---- gathering

  #bind(it) {
    const address = { address: it.ip, port: this.settings.port + this.interfaces.indexOf(it) };
    const socket = { address, interface: it, candidates: [] };
    it.take = (_, packet) => this.#take(packet);
    this.sockets.set(keyOf(address), socket);
    this.#add(socket, this.world.ice.Candidate.host(address));
    if (this.settings.stun) this.#request(socket, "binding", REQUESTS);
    if (this.settings.turn) this.#request(socket, "allocate", REQUESTS);
  }

  #request(socket, type, left) {
    const key = `${keyOf(socket.address)} ${type}`, { clock } = this.world;
    this.#pending.delete(key);
    if (left === 0 || this.sockets.get(keyOf(socket.address)) !== socket) return;
    this.#toServer(socket, { type });
    const again = () => this.#request(socket, type, left - 1);
    this.#pending.set(key, clock.at(clock.now + FIRST_RTO * 2 ** (REQUESTS - left), again));
  }

  #toServer(socket, payload) {
    const { clock, server, record } = this.world;
    const track = new Track("server", this.side, clock.now, this.home, { goal: this.goal, label: payload.type });
    record(track);
    socket.interface.send({ source: socket.address, destination: server.address, payload, track });
  }

  #takeAnswer(socket, { address, isRelay }) {
    const key = `${keyOf(socket.address)} ${isRelay ? "allocate" : "binding"}`, { Candidate } = this.world.ice;
    if (!this.#pending.has(key)) return;
    this.world.clock.cancel(this.#pending.get(key));
    this.#pending.delete(key);
    if (isRelay) {
      this.relays.set(keyOf(address), { socket, relay: address });
      this.#add(socket, Candidate.relayed(address, socket.address));
      for (const ip of this.#peers) this.#permit(socket, address, ip);
    } else this.#add(socket, Candidate.serverReflexive(address, socket.address));
    this.#signalCandidates();
    this.turn();
  }

  #add(socket, candidate) {
    socket.candidates.push(candidate);
    const line = this.agent.addLocalCandidate(candidate);
    if (!line) return;
    this.world.watch.call(this.side, "local", candidate);
    this.#unsignaled.push(line);
    this.#note("gathered", { kind: candidate.kind, address: candidate.address });
  }

  #permit(socket, relay, ip) {
    this.#toServer(socket, { type: "permit", relay, peer: { address: ip, port: 0 } });
  }

  // ---- signaling

  #signal(message) {
    this.signal({ generation: this.generation, creds: null, lines: [], ...message });
  }

  #signalCandidates() {
    if (!this.#unsignaled.length) return;
    this.#signal({ lines: this.#unsignaled });
    this.#unsignaled = [];
  }

  /** Takes a message of the peer. */
  takeSignal({ generation, creds, lines }) {
    if (generation < this.generation) return; // from before the restart
    if (generation > this.generation) {
      this.generation = generation;
      this.#renew();
    }
    if (creds) {
      this.agent.setRemoteCredentials(creds);
      this.world.watch.call(this.side, "remote");
    }
    for (const line of lines) this.#takeCandidate(line);
    this.turn();
  }

  #takeCandidate(line) {
    const result = this.agent.addRemoteCandidate(line), { address: ip } = this.world.ice.lineFields(line).address;
    this.world.watch.call(this.side, "candidate", line, result);
    if (this.#peers.has(ip)) return;
    this.#peers.add(ip);
    for (const { socket, relay } of this.relays.values()) this.#permit(socket, relay, ip);
  }

  // ---- the loop

  /** After each call: the next time, then packets, then events. */
  turn() {
    if (!this.#began) return;
    const next = this.agent.pollTimeout();
    this.world.watch.call(this.side, "poll");
    for (let it; (it = this.agent.pollTransmit()); ) this.#send(it);
    for (let it; (it = this.agent.pollEvent()); ) this.#told(it);
    if (next === null) return;
    const { clock } = this.world, due = Math.max(Math.ceil(next), clock.now); // whole milliseconds, and never early
    const isLater = this.#timeout && this.#timeout.due <= due;
    if (isLater && (!this.settings.waitsLast || this.#timeout.due === due)) return; // the earliest time since the last timeout counts
    clock.cancel(this.#timeout);
    this.#timeout = clock.at(due, () => this.#handleTimeout());
  }

  #handleTimeout() {
    this.#timeout = null;
    this.agent.handleTimeout(this.world.clock.now, this.random.bytes(12));
    this.world.watch.call(this.side, "timeout");
    this.turn();
  }

  #told(event) {
    if (event.type === "nominatedSend") this.world.watch.selected(event);
    this.#note(event.type, { event });
  }

  /** Sends a datagram of the agent, or media. */
  #send({ source, destination, contents }) {
    const { clock } = this.world;
    const track = this.world.trackOf(this.side, contents, { at: clock.now, x: this.home, goal: this.goal, source, destination });
    const relay = this.relays.get(keyOf(source)), socket = relay?.socket ?? this.sockets.get(keyOf(source));
    this.world.watch.sent(this.side, track);
    const datagram = { type: "datagram", contents };
    if (!socket || this.sockets.get(keyOf(socket.address)) !== socket) return track.lose(clock.now, this.home, "the socket is closed");
    if (!relay) return socket.interface.send({ source, destination, payload: datagram, track });
    const word = { type: "relayed", relay: source, peer: destination, datagram };
    socket.interface.send({ source: socket.address, destination: this.world.server.address, payload: word, track });
  }

  /** Sends media on the path that the agent names. Returns whether there is one. */
  say(contents) {
    const path = this.agent.pathForMedia(this.world.clock.now);
    if (path) this.#send({ source: path.source, destination: path.destination, contents });
    return Boolean(path);
  }

  #take(packet) {
    const { payload, track } = packet, socket = this.sockets.get(keyOf(packet.destination));
    if (!socket) return;
    if (payload.type === "answer") this.#takeAnswer(socket, payload);
    else if (payload.type === "relayed") this.#takeDatagram(payload.datagram.contents, payload.peer, payload.relay, track);
    else this.#takeDatagram(payload.contents, packet.source, packet.destination, track);
  }

  #takeDatagram(contents, source, local, track) {
    const { ice, clock, watch } = this.world;
    if (!ice.isStun(contents)) return this.#takeMedia(contents, source, local, track);
    const before = track.isHostile ? watch.snapshot(this.agent) : null;
    const accepted = this.#passed(source, local, contents, ice);
    track.taken = { at: clock.now, source, local, accepted };
    watch.took(this.side, track);
    if (!accepted) this.#note("refused", { track, source, unchanged: before === null ? null : watch.snapshot(this.agent) === before });
    this.turn();
  }

  #takeMedia(contents, source, local, track) {
    track.taken = { at: this.world.clock.now, source, local, accepted: !track.isHostile };
    if (track.isHostile) this.#note("rubbish", { source, length: contents.length });
    else this.#note("media", { text: new TextDecoder().decode(contents), source });
  }

  #passed(source, local, contents) {
    try {
      return this.agent.handlePacket(this.world.clock.now, source, local, contents);
    } catch (error) {
      if (error.code !== "Unparsed") throw error;
      return false; // no STUN message for an agent: nothing changed
    }
  }
}
