// The clients of STUN and TURN servers (RFC 8489, RFC 8656), without sockets and clocks. The module has all of their rules.
import { NUMBERS } from "./abi.js";
import { putAddress } from "./address.js";
import { protocolNumber } from "./candidate.js";
import { random } from "./credentials.js";
import { CODE, done } from "./errors.js";
import { packetFrom } from "./events.js";
import { CALL, FREE, FREED, Held, MEMORY, SLOT } from "./handle.js";
import { bytesOf, textOf, utf8 } from "./memory.js";
import { library } from "./module.js";
import { small, timeToMs, toNs, whole } from "./numbers.js";
import { readStruct, writeStruct } from "./structs.js";
import { ENDINGS, numberOf, PROTOCOLS, SCHEMES, SERVER_EVENTS } from "./words.js";

// ---- URLs and frames

/** Reads the URL of a server (RFC 7064, RFC 7065). IceError "BadUrl" if it is none. */
export function serverUrl(text) {
  const memory = library(), bytes = utf8(text), { result } = memory;
  done(memory.call("is_ice_server_url_of", ...memory.put(bytes), result.arg));
  const { hostStart, hostLength, port, scheme, protocol } = readStruct(memory, "ServerUrl");
  const host = textOf(bytes.subarray(hostStart, hostStart + hostLength));
  return { scheme: SCHEMES[scheme], protocol: PROTOCOLS[protocol], host, port };
}

/** Returns how long the frame is with which a stream begins, or null if fewer than four bytes are there. "Unparsed" if it is none. */
export function frameLength(start) {
  const memory = library(), { length } = memory;
  const isKnown = done(memory.call("is_ice_frame_length", ...memory.put(bytesOf(start).subarray(0, 4)), length.arg));
  return isKnown ? Number(memory.word(length.at)) : null;
}

/** The frames of one stream, however it was cut into chunks. */
export class Frames {
  #kept = new Uint8Array(); // what arrived, from the first byte of a frame on

  /** Takes what arrived next, and returns the frames that are whole now. IceError "Unparsed": close the connection. */
  take(chunk) {
    const bytes = bytesOf(chunk), all = new Uint8Array(this.#kept.length + bytes.length), frames = [];
    all.set(this.#kept);
    all.set(bytes, this.#kept.length);
    let start = 0;
    for (let length; (length = frameLength(all.subarray(start))) !== null && start + length <= all.length; start += length) {
      frames.push(all.slice(start, start + length));
    }
    this.#kept = all.slice(start);
    return frames;
  }
}

// ---- events

/** Reads the event that a call has just written. */
function eventFrom(memory) {
  const { kind, why, code, unverified, protocol, hasMapped, local, server, relayed, mapped, peer } = readStruct(memory, "ServerEvent");
  const of = { type: SERVER_EVENTS[kind], protocol: PROTOCOLS[protocol], local, server };
  switch (kind) {
    case NUMBERS.SERVER_MAPPED: return { ...of, mapped };
    case NUMBERS.SERVER_ALLOCATED: return { ...of, relayed, mapped: hasMapped ? mapped : null };
    case NUMBERS.SERVER_NOT_PERMITTED: return { ...of, peer: peer.address, code: code || null };
    default: return { ...of, why: ENDINGS[why], code: code || null, unverified: unverified || null };
  }
}

/** The line of an event for a log. */
export function serverEventLine({ type, protocol, local, server, relayed, mapped, peer, why, code, unverified }) {
  const memory = library(), { at, arg } = memory.first;
  writeStruct(memory, "ServerEvent", at, {
    kind: numberOf(SERVER_EVENTS, type, "type of event"), protocol: protocolNumber(protocol), local, server, relayed, mapped,
    peer: peer && { address: peer, port: 0 }, why: why && numberOf(ENDINGS, why, "end"), code, unverified,
    hasMapped: type === "serverAllocated" && mapped !== null,
  });
  return memory.textFrom("is_ice_servers_event_line", [arg]);
}

// ---- clients

/** All clients of a program. They are freed by free(), at the end of their `using` block, or some time after nothing refers to them. */
export class Servers extends Held {
  constructor() {
    super("Servers", (made) => made[CALL]("is_ice_servers_new"), "is_ice_servers_free", "NoServers");
  }

  /** Frees the clients. The servers do not notice: see close(). Every later call throws "NoServers", except for another free(). */
  free() {
    this[FREE]();
  }

  /** Whether free() was called. */
  get freed() {
    return this[FREED];
  }

  #addresses(...addresses) {
    const memory = this[MEMORY], places = [memory.first, memory.second];
    return addresses.map((address, i) => (putAddress(memory, places[i].at, address), places[i].arg));
  }

  /** Adds the client of a UDP socket at a STUN server. */
  addStun(now, local, server) {
    this[CALL]("is_ice_servers_add_stun", toNs(now), ...this.#addresses(local, server));
  }

  /** Adds the client of a socket or connection at a TURN server. */
  addTurn(now, local, server, options = {}) {
    const { username = "", password = "", protocol = "udp", family = 0, places = NUMBERS.SERVERS_PLACES } = options;
    const memory = this[MEMORY], most = whole(places, "a number of places");
    const addresses = this.#addresses(local, server), credentials = memory.putText(username, password);
    const asked = [small(family, "an IP version", 8), most, ...credentials];
    this[CALL]("is_ice_servers_add_turn", toNs(now), protocolNumber(protocol), ...addresses, ...asked);
  }

  /** Takes any datagram of a socket, or frame of a connection. Returns what is for the agent, or media, or null: it was a client's. */
  receive(now, source, destination, contents, protocol = "udp") {
    const memory = this[MEMORY], bytes = bytesOf(contents), addresses = this.#addresses(source, destination);
    const given = [toNs(now), protocolNumber(protocol), ...addresses, ...memory.put(bytes)];
    if (!this[CALL]("is_ice_servers_receive", ...given, memory.cleared(memory.result))) return null;
    const { offset, length, ...path } = readStruct(memory, "Datagram");
    return { ...path, contents: bytes.subarray(offset, offset + length) };
  }

  /** Returns how a packet of the agent, or media, goes out, or null: drop it. */
  outgoing(now, source, destination, contents, seed = random(NUMBERS.SERVERS_RANDOM)) {
    const memory = this[MEMORY], bytes = bytesOf(contents), addresses = this.#addresses(source, destination);
    const given = [toNs(now), ...addresses, ...memory.put(bytes, bytesOf(seed))];
    const buffer = memory.buffer(bytes.length + NUMBERS.WRAPPING_LENGTH);
    const code = memory.call("is_ice_servers_outgoing", this[SLOT], ...given, ...buffer, memory.cleared(memory.result));
    if (done(code)) return packetFrom(memory);
    return code === CODE.NoRelay ? null : { protocol: "udp", source, destination, contents: bytes };
  }

  /** Asks each TURN server to let in packets of this peer. */
  permit(now, peer) {
    this[CALL]("is_ice_servers_permit", toNs(now), ...this.#addresses(peer));
  }

  /** Has each TURN client ask its server whether it still has the allocation. */
  probe(now) {
    this[CALL]("is_ice_servers_probe", toNs(now));
  }

  /** Frees all allocations: go on until pollTimeout() returns null. */
  close(now) {
    this[CALL]("is_ice_servers_close", toNs(now));
  }

  /** A socket or connection is gone: its clients end at once. */
  lose(local, protocol = "udp") {
    this[CALL]("is_ice_servers_lose", protocolNumber(protocol), ...this.#addresses(local));
  }

  /** Passes the current time to the client whose time comes first. `seed`: 12 new bytes, by default the system's. */
  handleTimeout(now, seed = random(NUMBERS.SERVERS_RANDOM)) {
    this[CALL]("is_ice_servers_handle_timeout", toNs(now), ...this[MEMORY].put(bytesOf(seed)));
  }

  /** Returns when to call handleTimeout next, or null. It changes nothing. */
  pollTimeout() {
    const memory = this[MEMORY], { result } = memory;
    return this[CALL]("is_ice_servers_poll_timeout", result.arg) ? timeToMs(memory.word(result.at)) : null;
  }

  /** Returns the next packet to send, or null. */
  pollTransmit() {
    const memory = this[MEMORY], buffer = memory.buffer(NUMBERS.SERVERS_PACKET_LENGTH);
    return this[CALL]("is_ice_servers_poll_transmit", ...buffer, memory.cleared(memory.result)) ? packetFrom(memory) : null;
  }

  /** Returns the next event, or null. */
  pollEvent() {
    const memory = this[MEMORY];
    return this[CALL]("is_ice_servers_poll_event", memory.cleared(memory.result)) ? eventFrom(memory) : null;
  }

  /** Whether a client waits for its first answer. */
  get isGathering() {
    return this[CALL]("is_ice_servers_gathering");
  }
}

if (Symbol.dispose) Servers.prototype[Symbol.dispose] = Servers.prototype.free;
