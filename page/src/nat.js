/** The part of a remote address that a behavior depends on (RFC 4787, sections 4.1 and 5). */
const KEYS = {
  "endpoint-independent": () => "",
  "address-dependent": (remote) => remote.address,
  "address-and-port-dependent": (remote) => `${remote.address} ${remote.port}`,
};

/** The NATs that a viewer chooses from. */
export const NATS = {
  none: { label: "none: public", short: "no NAT" },
  cone: { label: "full cone", short: "full cone", mapping: "endpoint-independent", filtering: "endpoint-independent", preservesPorts: true },
  restricted: {
    label: "address-restricted", short: "address-restricted", mapping: "endpoint-independent", filtering: "address-dependent", preservesPorts: true,
  },
  port: {
    label: "port-restricted", short: "port-restricted", mapping: "endpoint-independent",
    filtering: "address-and-port-dependent", preservesPorts: true,
  },
  symmetric: {
    label: "symmetric", short: "symmetric", mapping: "address-and-port-dependent", filtering: "address-and-port-dependent",
    preservesPorts: false,
  },
};

export const keyOf = ({ address, port }) => `${address} ${port}`;

/** A NAT (RFC 4787): it translates the source of outgoing packets and the destination of incoming ones. */
export class Nat {
  #random;
  #mappings = new Map();
  #ports = new Map();

  /** @param {{outside: string, mapping: string, filtering: string, preservesPorts: boolean, timeout?: number}} settings timeout in ms */
  constructor(settings, random) {
    this.settings = { timeout: 120_000, ...settings };
    this.#random = random;
  }

  /** The outside source of an outgoing packet. */
  outgoing(now, source, destination) {
    const { mapping, filtering, outside } = this.settings;
    const key = `${keyOf(source)} ${KEYS[mapping](destination)}`;
    let found = this.#mappings.get(key);
    if (!found || now - found.used > this.settings.timeout) found = this.#add(now, key, source);
    found.used = now;
    found.remotes.set(KEYS[filtering](destination), now);
    return { address: outside, port: found.port };
  }

  /** The inside destination of an incoming packet, or null if there is no mapping or the packet is filtered. */
  incoming(now, source, destination) {
    const { filtering, timeout } = this.settings;
    const found = this.#ports.get(destination.port);
    if (!found || now - found.used > timeout) return null;
    const since = found.remotes.get(KEYS[filtering](source));
    return since === undefined || now - since > timeout ? null : found.inside;
  }

  #add(now, key, source) {
    const old = this.#mappings.get(key);
    if (old) this.#ports.delete(old.port);
    let { port } = source;
    while (!this.settings.preservesPorts || !this.#isFree(now, port)) {
      port = 1024 + this.#random.below(64512);
      if (this.#isFree(now, port)) break;
    }
    const made = { inside: source, port, used: now, remotes: new Map() };
    this.#mappings.set(key, made);
    this.#ports.set(port, made);
    return made;
  }

  #isFree(now, port) {
    const held = this.#ports.get(port);
    return !held || now - held.used > this.settings.timeout;
  }
}
