import { Nat } from "./nat.js";

/**
 * What a viewer sees of a packet: where it was when. `stops` has points { at, x, lane }, of which the last may be in the future: `x` is from 0,
 * agent A, to 1, agent B. `end` says when, where and why it went no further; `taken` when an agent got it, and whether it accepted it. `wire` is
 * from where to where it goes on its last part, as an attacker sees it.
 */
export class Track {
  stops = [];
  end = null;
  taken = null;

  constructor(kind, side, at, x, details = {}) {
    Object.assign(this, { kind, side, sent: at, ...details });
    this.stops.push({ at, x, lane: side });
  }

  go(at, x, lane = null) {
    this.stops.push({ at, x, lane });
  }

  lose(at, x, why) {
    this.stops.push({ at, x, lane: null });
    this.end = { at, x, why };
  }
}

/** One direction of a link: it delays and loses packets, and keeps their order. Its settings may change at any time. */
export class Link {
  #random;
  #last = 0;
  #count = 0;

  /** @param {{delay: number, jitter: number, loss: number, drops?: number[]}} settings times in whole ms; `drops`: these packets are lost */
  constructor(settings, random) {
    this.settings = settings;
    this.#random = random;
  }

  /** When a packet arrives, or null if it is lost. */
  carry(now) {
    const { delay, jitter, loss, drops } = this.settings;
    const isLost = loss > 0 && this.#random.next() < loss;
    const late = jitter ? this.#random.below(jitter + 1) : 0;
    if (drops?.includes(this.#count++) || isLost) return null;
    return (this.#last = Math.max(this.#last, now + delay + late));
  }
}

/** Nodes that reach each other, and perhaps a gateway to an outer network. */
export class Network {
  nodes = new Map();
  gateway = null;
  /** Why a packet is not carried, or null: for cuts. */
  refuses = () => null;

  constructor(clock, delay = 0) {
    Object.assign(this, { clock, delay });
  }

  attach(ip, node) {
    this.nodes.set(ip, node);
  }

  route(packet) {
    const { now } = this.clock, node = this.nodes.get(packet.destination.address);
    const place = packet.track.stops.at(-1).x;
    const why = this.refuses(packet);
    if (why) packet.track.lose(now + this.delay / 2, (place + (packet.track.goal ?? 0.5)) / 2, why);
    else if (node) {
      if (node.edge !== place || this.delay) packet.track.go(now + this.delay, node.edge, node.lane);
      this.clock.at(now + this.delay, () => node.arrive(packet));
    } else if (this.gateway) this.gateway.leave(packet);
    else packet.track.lose(now, place, "no route");
  }
}

/** A NAT between an inner network and an outer one. */
export class Gateway {
  constructor(lane, edge, settings, inner, outer, random) {
    Object.assign(this, { lane, edge, inner, outer, nat: new Nat(settings, random) });
    inner.gateway = this;
    outer.attach(settings.outside, this);
  }

  leave(packet) {
    const { now } = this.inner.clock;
    packet.track.stops.at(-1).lane = this.lane;
    packet.source = this.nat.outgoing(now, packet.source, packet.destination);
    if (packet.payload?.type === "datagram") packet.track.wire = { source: packet.source, destination: packet.destination };
    if (packet.destination.address === this.nat.settings.outside) this.arrive(packet); // hairpinning
    else this.outer.route(packet);
  }

  arrive(packet) {
    const { now } = this.inner.clock;
    const inside = this.nat.incoming(now, packet.source, packet.destination);
    if (!inside) return packet.track.lose(now, this.edge, `filtered by ${this.lane}`);
    packet.destination = inside;
    this.inner.route(packet);
  }
}

/** A network interface of a side: a link to its network and one back. */
export class Interface {
  isOn = true;
  take = () => {};

  constructor({ name, side, ip, network, edge, up, down }) {
    Object.assign(this, { name, side, ip, network, edge, up, down, lane: null, home: side === "A" ? 0 : 1 });
    network.attach(ip, this);
  }

  send(packet) {
    const { now } = this.network.clock;
    if (packet.payload?.type === "datagram") packet.track.wire = { source: packet.source, destination: packet.destination };
    if (!this.isOn) return packet.track.lose(now, this.home, `${this.name} is off`);
    this.#carry(this.up, packet, this.home, this.edge, null, () => this.network.route(packet));
  }

  arrive(packet) {
    this.#carry(this.down, packet, this.edge, this.home, this.side, () => {
      if (this.isOn) this.take(this, packet);
      else packet.track.lose(this.network.clock.now, this.home, `${this.name} is off`);
    });
  }

  #carry(link, packet, from, to, lane, then) {
    const { clock } = this.network, at = link.carry(clock.now);
    if (at === null) return packet.track.lose(clock.now + Math.round(link.settings.delay / 2), from + (to - from) * 0.55, "lost");
    packet.track.go(at, to, lane);
    clock.at(at, then);
  }
}
