/** A random source that repeats with its seed (sfc32). It is for simulation: whoever knows the seed knows every password. */
export class Random {
  #state;

  /** @param {string} seed any text; different texts give independent sources */
  constructor(seed) {
    // xmur3 makes four words of a text
    let h = 1779033703 ^ seed.length;
    for (let i = 0; i < seed.length; i++) {
      h = Math.imul(h ^ seed.charCodeAt(i), 3432918353);
      h = (h << 13) | (h >>> 19);
    }
    this.#state = Uint32Array.from({ length: 4 }, () => {
      h = Math.imul(h ^ (h >>> 16), 2246822507);
      h = Math.imul(h ^ (h >>> 13), 3266489909);
      return (h ^= h >>> 16) >>> 0;
    });
    for (let i = 0; i < 16; i++) this.#word();
  }

  #word() {
    const s = this.#state;
    const word = (s[0] + s[1] + s[3]) >>> 0;
    s[3] += 1;
    s[0] = s[1] ^ (s[1] >>> 9);
    s[1] = s[2] + (s[2] << 3);
    s[2] = ((s[2] << 21) | (s[2] >>> 11)) + word;
    return word;
  }

  /** A number from 0 to 1, and not 1. */
  next() {
    return this.#word() / 2 ** 32;
  }

  /** A whole number from 0 to n - 1. */
  below(n) {
    return Math.floor(this.next() * n);
  }

  /** So many bytes. */
  bytes(length) {
    return Uint8Array.from({ length }, () => this.#word() >>> 24);
  }

  /** A BigInt of 64 bits. */
  bits64() {
    return (BigInt(this.#word()) << 32n) | BigInt(this.#word());
  }
}
