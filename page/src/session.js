import { Clock } from "./clock.js";
import { Endpoint } from "./endpoint.js";
import { NATS } from "./nat.js";
import { Gateway, Interface, Link, Network, Track } from "./network.js";
import { Random } from "./random.js";
import { Server } from "./server.js";
import { Wire } from "./wire.js";
import { Attacker } from "./attacker.js";

const SERVER_IP = "198.51.100.10";
const HOMES = {
  A: { ip: "192.168.1.10", open: "203.0.113.1", outside: "203.0.113.1", edge: 0.2, port: 5000 },
  B: { ip: "10.0.7.20", open: "203.0.113.2", outside: "203.0.113.2", edge: 0.8, port: 6000 },
};
const MOBILE = { ip: "10.64.0.10", outside: "203.0.113.3", edge: 0.32, delay: 25 };
/** The lanes of the routers. */
export const LANES = { A: "router A", B: "router B", mobile: "mobile carrier" };
const NOTHING = { call() {}, sent() {}, took() {}, selected() {} };

/** What stays the same if a packet changes nothing: all that the agent's getters tell, but for counters of time. */
export function snapshot(agent) {
  const told = [agent.state, agent.controlling, agent.pairs, agent.nominatedPair, agent.localCandidates(), agent.remoteCandidates(), agent.stats];
  return JSON.stringify(told, (_, value) => (typeof value === "bigint" ? String(value) : value));
}

/** Two agents, the network between them, and all that happened. It repeats with its settings and actions, to the packet. */
export class Session {
  tracks = [];
  events = [];
  actions = [];
  #planned;

  /**
   * @param settings as DEFAULTS of settings.js; for tests also `drops`, which packets of A's and B's wifi are lost, `ties`, the tie-breakers, and
   *   `waitsLast`: the endpoints wait until the last time that pollTimeout returned, as those of the simulator lab do
   * @param actions what the viewer does: { at, do, value }, in the order of their times
   * @param ice the library
   * @param watch observes calls and packets, as StoryText does
   */
  constructor(settings, actions, ice, watch = NOTHING) {
    this.settings = { ...settings };
    this.#planned = actions.map((it) => ({ ...it }));
    this.ice = ice;
    this.clock = new Clock();
    this.cuts = { cutAB: 0, cutBA: 0, cutRelay: 0 };
    this.watch = { ...NOTHING, snapshot, ...bound(watch) };
    this.#build();
    this.attacker = new Attacker(this);
    for (const side of ["A", "B"]) watch.starts?.(side, this.endpoints[side]);
    this.#begin();
  }

  get now() {
    return this.clock.now;
  }

  /** When something happens next, or Infinity. */
  get next() {
    return Math.min(this.clock.next, this.#planned[0]?.at ?? Infinity);
  }

  /** What is planned but not done yet counts too: so a link made early has all of it. */
  get allActions() {
    return [...this.actions, ...this.#planned];
  }

  random(name) {
    return new Random(`${this.settings.seed} ${name}`);
  }

  /** Lets all happen up to a time, this time included: first what the network does then, and then the viewer. */
  runTo(end) {
    while (this.#planned.length && this.#planned[0].at <= end) {
      this.clock.runTo(Math.max(this.now, this.#planned[0].at));
      this.#act(this.#planned.shift());
    }
    this.clock.runTo(Math.max(end, this.now));
  }

  /** Does something now. What was planned for later stays planned. */
  act(name, value) {
    this.#act({ at: this.now, do: name, ...(value === undefined ? {} : { value }) });
  }

  close() {
    for (const it of Object.values(this.endpoints)) it.agent.close();
  }

  // ---- building

  #build() {
    const { clock, settings } = this;
    this.internet = new Network(clock);
    this.internet.refuses = (packet) => this.#cutOf(packet);
    this.server = new Server(SERVER_IP, this.internet, (track) => this.tracks.push(track));
    this.wire = new Wire(this.ice);
    this.interfaces = { A: [], B: [] };
    for (const side of ["A", "B"]) {
      this.#addDead(side);
      this.#addHome(side);
    }
    if (settings.mobileA) this.#addMobile();
    this.endpoints = { A: this.#endpoint("A"), B: this.#endpoint("B") };
    this.#tune();
  }

  #addHome(side) {
    const { ip, open, outside, edge } = HOMES[side], kind = this.settings[`nat${side}`];
    const network = kind === "none" ? this.internet : new Network(this.clock);
    if (kind !== "none") new Gateway(LANES[side], edge, { ...NATS[kind], outside }, network, this.internet, this.random(`NAT ${side}`));
    const drops = this.settings.drops?.[side] ?? {};
    const made = this.#interface("wifi", side, kind === "none" ? open : ip, network, edge, drops);
    this.interfaces[side].push(made);
  }

  #interface(name, side, ip, network, edge, drops = {}) {
    const link = (way) => new Link({ delay: 0, jitter: 0, loss: 0, drops: drops[way] }, this.random(`${side} ${name} ${way}`));
    return new Interface({ name, side, ip, network, edge, up: link("up"), down: link("down") });
  }

  #addDead(side) {
    for (let n = 0; n < this.settings[`dead${side}`]; n++) {
      const ip = `10.${side === "A" ? 1 : 2}.${n}.1`;
      this.interfaces[side].push(this.#interface(`eth${n}`, side, ip, new Network(this.clock), HOMES[side].edge));
    }
  }

  #addMobile() {
    const network = new Network(this.clock);
    new Gateway(LANES.mobile, MOBILE.edge, { ...NATS.port, outside: MOBILE.outside }, network, this.internet, this.random("NAT mobile"));
    this.interfaces.A.push(this.#interface("mobile", "A", MOBILE.ip, network, MOBILE.edge));
  }

  #endpoint(side) {
    const { settings, ice } = this;
    const own = {
      controlling: settings[`role${side}`] === "controlling", renomination: settings.renomination,
      modern: settings.profile === "modern",
      stun: true, turn: settings[`turn${side}`], port: HOMES[side].port, waitsLast: settings.waitsLast, tieBreaker: settings.ties?.[side],
    };
    const world = {
      clock: this.clock, server: this.server, ice, watch: this.watch, random: (name) => this.random(name),
      record: (track) => this.tracks.push(track), note: (event) => this.note(event),
      trackOf: (from, contents, more) => this.#record(this.wire.track(from, contents, more)),
    };
    return new Endpoint(side, own, this.interfaces[side], world, (message) => this.#signal(side, message));
  }

  #record(track) {
    track.number = this.tracks.push(track) - 1;
    return track;
  }

  /** Sets the links by the settings: a fifth of the delay is on each side's link, and loss and jitter are shared by both. */
  #tune() {
    const { delay, jitter, loss } = this.settings, near = Math.round(delay / 5);
    this.internet.delay = delay - 2 * near;
    for (const it of [...this.interfaces.A, ...this.interfaces.B]) {
      const far = it.name === "mobile" ? MOBILE.delay : 0;
      const shared = { delay: near + far, loss: 1 - Math.sqrt(1 - loss / 100) };
      Object.assign(it.up.settings, shared, { jitter: Math.ceil(jitter / 2) });
      Object.assign(it.down.settings, shared, { jitter: Math.floor(jitter / 2) });
    }
  }

  #cutOf({ source, destination, track }) {
    if ([source.address, destination.address].includes(SERVER_IP)) return this.cuts.cutRelay ? "cut" : null;
    if ([source.address, destination.address].includes(MOBILE.outside)) return null;
    return this.cuts[track.side === "A" ? "cutAB" : "cutBA"] ? "cut" : null;
  }

  // ---- running

  #begin() {
    this.endpoints.A.begin();
  }

  #signal(side, message) {
    const to = side === "A" ? "B" : "A", arrival = this.now + this.settings.signaling;
    const words = [message.creds && "credentials", ...message.lines.map((line) => this.ice.lineFields(line).kind)].filter(Boolean);
    const label = words.length > 3 ? `${words.length} candidates` : words.join(", ");
    const track = new Track("signal", side, this.now, side === "A" ? 0 : 1, { label });
    track.go(arrival, side === "A" ? 1 : 0, to);
    this.tracks.push(track);
    this.clock.at(arrival, () => {
      if (to === "B" && !this.began) {
        this.began = true;
        this.endpoints.B.begin();
      }
      this.endpoints[to].takeSignal(message);
    });
  }

  note(event) {
    this.events.push({ at: this.now, ...event });
  }

  #act(action) {
    this.actions.push({ ...action, at: this.now });
    const { do: name, value } = action;
    if (name in this.cuts) this.cuts[name] = value;
    else if (name === "wifi") this.#setWifi(value);
    else if (["delay", "jitter", "loss"].includes(name)) {
      this.settings[name] = value;
      this.#tune();
    } else if (name === "restart") this.endpoints.A.restart();
    else if (name === "say") this.endpoints.A.say(new TextEncoder().encode("hello"));
    else this.attacker[name]();
    this.note({ side: "", what: "action", action });
  }

  #setWifi(isOn) {
    const wifi = this.interfaces.A.find((it) => it.name === "wifi"), { A } = this.endpoints;
    if (Boolean(isOn) === wifi.isOn) return;
    if (isOn) A.turnOn(wifi);
    else A.turnOff(wifi);
  }
}

function bound(watch) {
  return Object.fromEntries(["call", "sent", "took", "selected"].filter((name) => watch[name]).map((name) => [name, watch[name].bind(watch)]));
}
