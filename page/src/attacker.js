const FLOOD_PACKETS = 120, APART = 8; // ms

/** An attacker on the path: it sees each datagram, and can send any bytes from any address to where a check went. It knows no password. */
export class Attacker {
  #random;
  #session;
  /** The number of the track that `forge` and `replay` take, or null: the last check that arrived. */
  chosen = null;

  constructor(session) {
    this.#session = session;
    this.#random = session.random("attacker");
  }

  #seen() {
    const { tracks, now } = this.#session, own = tracks[this.chosen ?? -1];
    const isCheck = (it) => (it.kind === "check" || it.kind === "nomination") && it.wire && !it.isHostile && it.sent <= now;
    return own && isCheck(own) ? own : tracks.findLast((it) => isCheck(it) && it.taken?.accepted) ?? null;
  }

  #send(contents, old, source, isHostile) {
    const copyOf = contents === old.contents ? old : undefined;
    const { clock, internet, wire, tracks } = this.#session;
    const track = wire.track(old.side, contents, { at: clock.now, x: 0.5, goal: old.goal, isHostile, copyOf, ...old.wire, source });
    track.stops[0].lane = null;
    track.number = tracks.push(track) - 1;
    internet.route({ source, destination: old.wire.destination, payload: { type: "datagram", contents }, track });
  }

  /** Sends a check again, with one bit of its MESSAGE-INTEGRITY changed, as if from the same address. */
  forge() {
    const old = this.#seen();
    if (!old) return this.#none();
    const contents = old.contents.slice();
    contents[contents.length - 12] ^= 1; // FINGERPRINT is the last 8 bytes, and the MAC is before it
    this.#send(contents, old, old.wire.source, "forged check");
  }

  /** Sends a check again, byte for byte. */
  replay() {
    const old = this.#seen();
    if (old) this.#send(old.contents, old, old.wire.source, "replayed check");
    else this.#none();
  }

  /** For a second: forged checks, checks again from other addresses, and rubbish. */
  flood() {
    const { clock } = this.#session, old = this.#seen();
    if (!old) return this.#none();
    for (let n = 0; n < FLOOD_PACKETS; n++) clock.at(clock.now + n * APART, () => this.#one(n, old));
  }

  #one(n, old) {
    const elsewhere = { address: `192.0.2.${1 + this.#random.below(250)}`, port: 1024 + this.#random.below(60000) };
    if (n % 2 === 0) return this.#send(old.contents, old, elsewhere, "replay");
    if (n % 4 === 1) return this.#send(Uint8Array.of(0, 1, ...this.#random.bytes(98)), old, old.wire.source, "rubbish");
    const contents = old.contents.slice();
    contents[20 + this.#random.below(contents.length - 28)] ^= 1 << this.#random.below(8);
    return this.#send(contents, old, old.wire.source, "forged");
  }

  #none() {
    this.#session.note({ side: "", what: "nothing to send: no check has arrived" });
  }
}
