// A strict STUN and TURN server (RFC 8489, RFC 8656), without sockets: it drops what no client may send, and what is not permitted.
import { createHash } from "node:crypto";
import { addressText, newTransaction, readMessage, verifyMessage, writeMessage } from "is-ice";

export const USER = { username: "user", credential: "pass" };
const REALM = "realm", NONCE = "first";

/** The long-term key (RFC 8489, section 9.2.2). */
export const keyOf = (username, realm, password) => createHash("md5").update(`${username}:${realm}:${password}`).digest();
const KEY = keyOf("user", REALM, "pass");

const same = (one, other) => addressText(one) === addressText(other);

/** A frame of ChannelData: over TCP with padding (RFC 8656, section 12.5). */
function channelData(number, data, protocol) {
  const padding = protocol === "tcp" ? -data.length & 3 : 0, frame = Buffer.alloc(4 + data.length + padding);
  frame.writeUInt16BE(number, 0);
  frame.writeUInt16BE(data.length, 2);
  frame.set(data, 4);
  return frame;
}

export class TurnServer {
  /** `ip` is that of relayed addresses. What is not dropped is passed on by `toClient(client, bytes)`; a client is { protocol, address, .. }. */
  constructor(ip, toClient) {
    Object.assign(this, { ip, toClient, allocations: [], nextPort: 50000, dropped: 0, denied: null });
  }

  #of({ protocol, address }) {
    return this.allocations.find((it) => it.client.protocol === protocol && same(it.client.address, address));
  }

  /** Takes a datagram, or a frame. */
  take(client, bytes) {
    const taken = bytes[0] >> 4 === 4 ? this.#takeChannelData(client, bytes) : this.#takeMessage(client, bytes);
    if (!taken) this.dropped++;
  }

  #takeChannelData(client, bytes) {
    const it = this.#of(client), view = Buffer.from(bytes), number = view.readUInt16BE(0), length = view.readUInt16BE(2);
    const padded = client.protocol === "tcp" ? (length + 3) & ~3 : length, peer = it?.channels.get(number);
    if (bytes.length !== 4 + padded || !peer) return false;
    return this.#toPeer(it, peer, bytes.subarray(4, 4 + length));
  }

  #takeMessage(client, bytes) {
    const it = readMessage(bytes), own = this.#of(client);
    if (it.method === "binding") {
      if (it.class === "request") this.#answer(client, it, { class: "success", mappedAddress: client.address }, null);
      return true;
    }
    if (it.method === "send") return own !== undefined && this.#toPeer(own, it.peerAddress, it.data);
    const isSigned = it.hasIntegrity && it.username === "user" && it.realm === REALM && it.nonce === NONCE && verifyMessage(bytes, KEY);
    if (isSigned) this.#answer(client, it, this.#serve(client, it, own), KEY);
    else this.#answer(client, it, { class: "failure", error: { code: 401, reason: "challenge" }, realm: REALM, nonce: NONCE }, null);
    return true;
  }

  #answer(client, { method, transaction }, message, key) {
    this.toClient(client, writeMessage({ method, transaction, ...message }, key));
  }

  /** Serves a request that is signed. */
  #serve(client, { method, lifetime, requestedTransport, peerAddress: peer, channelNumber }, own) {
    const failure = (code) => ({ class: "failure", error: { code, reason: "failure" } });
    if (method === "allocate") {
      if (own || requestedTransport !== 17) return failure(own ? 437 : 442);
      const relayed = { address: this.ip, port: this.nextPort++ };
      this.allocations.push({ client, relayed, permitted: new Set(), channels: new Map() });
      return { class: "success", lifetime: 600, relayedAddress: relayed, mappedAddress: client.address };
    }
    if (!own) return failure(437);
    if (method === "refresh") {
      if (lifetime === 0) this.allocations = this.allocations.filter((it) => it !== own);
      return { class: "success", lifetime: lifetime === 0 ? 0 : 600 };
    }
    if (peer.address === this.denied) return failure(403);
    own.permitted.add(peer.address);
    if (method === "channel-bind") own.channels.set(channelNumber, peer);
    return { class: "success" };
  }

  #toPeer(it, peer, data) {
    if (!it.permitted.has(peer.address)) return false;
    const other = this.allocations.find(({ relayed }) => same(relayed, peer));
    return other === undefined || this.takeAt(other, it.relayed, data); // who is at no relayed address is not reached
  }

  /** Takes a datagram of a peer at the relayed address of an allocation. */
  takeAt(it, peer, data) {
    if (!it.permitted.has(peer.address)) return false;
    const [number] = [...it.channels].find(([, bound]) => same(bound, peer)) ?? [];
    const { protocol } = it.client, told = { method: "data", class: "indication", transaction: newTransaction(), peerAddress: peer, data };
    this.toClient(it.client, number ? channelData(number, data, protocol) : writeMessage(told));
    return true;
  }
}
