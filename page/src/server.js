import { Track } from "./network.js";
import { keyOf } from "./nat.js";

export const SERVER_LANE = "STUN and TURN";

/** A STUN and TURN server: it returns mapped addresses, and lends relayed ones (RFC 8656). Its messages are objects, not bytes. */
export class Server {
  edge = 0.5;
  lane = SERVER_LANE;
  #network;
  #record;
  #clients = new Map(); // by the port of the relayed address
  #ports = new Map();
  #permitted = new Set();

  /** @param record is called with the track of each message that the server sends itself */
  constructor(ip, network, record) {
    this.address = { address: ip, port: 3478 };
    this.#network = network;
    this.#record = record;
    network.attach(ip, this);
  }

  arrive(packet) {
    const { payload, source } = packet;
    if (packet.destination.port !== this.address.port) return this.#toClient(packet);
    if (payload.type === "binding") return this.#answer(packet, { address: source, isRelay: false });
    if (payload.type === "allocate") return this.#answer(packet, { address: this.#lend(source), isRelay: true });
    const client = payload.relay && this.#clients.get(payload.relay.port);
    if (!client || keyOf(client) !== keyOf(source)) return packet.track.lose(this.#network.clock.now, this.edge, "no such relay");
    this.#permitted.add(`${payload.relay.port} ${payload.peer.address}`);
    if (payload.type === "relayed") this.#toPeer(payload, packet.track);
  }

  #lend(client) {
    const key = keyOf(client);
    if (!this.#ports.has(key)) this.#ports.set(key, 50_000 + this.#ports.size);
    const port = this.#ports.get(key);
    this.#clients.set(port, client);
    return { address: this.address.address, port };
  }

  #answer({ source, payload, track }, told) {
    const back = new Track("server", track.side, this.#network.clock.now, this.edge, { goal: 1 - track.goal, label: payload.type, isAnswer: true });
    back.stops[0].lane = this.lane;
    this.#record(back);
    this.#network.route({ source: this.address, destination: source, payload: { type: "answer", server: this.address, ...told }, track: back });
  }

  #toPeer({ relay, peer, datagram }, track) {
    track.wire = { source: relay, destination: peer };
    this.#network.route({ source: relay, destination: peer, payload: datagram, track });
  }

  #toClient({ source, destination, payload, track }) {
    const client = this.#clients.get(destination.port);
    if (!client || !this.#permitted.has(`${destination.port} ${source.address}`)) {
      return track.lose(this.#network.clock.now, this.edge, "not permitted at the relay");
    }
    const word = { type: "relayed", relay: destination, peer: source, datagram: payload };
    this.#network.route({ source: this.address, destination: client, payload: word, track });
  }
}
