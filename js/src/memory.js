// One instance of the module: its calls, its memory, and places in it for what calls read and write.
import { STRUCTS } from "./abi.js";
import { CODE, done, IceError } from "./errors.js";

const encoder = new TextEncoder();
const decoder = new TextDecoder("utf-8", { ignoreBOM: true });
const LONGEST = Math.max(256, ...Object.values(STRUCTS).map(([size]) => size));

/** Converts a text for the module. IceError "NotUtf8" for a lone surrogate. */
export function utf8(text) {
  if (typeof text !== "string") throw new TypeError(`a text is a string, not ${typeof text}`);
  if (/\p{Surrogate}/u.test(text)) throw new IceError("NotUtf8");
  return encoder.encode(text);
}

export const textOf = (bytes) => decoder.decode(bytes);

/** The bytes of an ArrayBuffer or of a view of one, as a Uint8Array over the same memory. */
export function bytesOf(data) {
  if (data instanceof Uint8Array) return data;
  if (ArrayBuffer.isView(data)) return new Uint8Array(data.buffer, data.byteOffset, data.byteLength);
  if (data instanceof ArrayBuffer) return new Uint8Array(data);
  throw new TypeError("bytes are a Uint8Array, another view, or an ArrayBuffer");
}

export class Memory {
  /** Why no call is made any more. */
  trap = null;
  #given = { at: 0, arg: 0n, size: 0 }; // the bytes that a call reads
  #taken = { at: 0, arg: 0n, size: 0 }; // the bytes that a call writes

  constructor(exports) {
    this.exports = exports;
    this.refresh();
    // for structs: two that a call reads, and one that it writes; for a length; and for address.js, which calls in the midst of others
    [this.first, this.second, this.result, this.length] = Array.from({ length: 4 }, () => this.place(LONGEST));
    this.ip = Object.fromEntries(["text", "line", "given", "read", "length"].map((name) => [name, this.place(LONGEST)]));
    for (const room of [this.#given, this.#taken]) this.#grow(room, 4096);
  }

  /** The views break when the memory grows. */
  refresh() {
    this.view = new DataView(this.exports.memory.buffer);
    this.bytes = new Uint8Array(this.exports.memory.buffer);
  }

  /** Makes a call and returns what it returns. After a trap the memory may be half written, so no further call is made. */
  call(name, ...values) {
    if (this.trap) throw new IceError("Trapped", "", { cause: this.trap });
    let code;
    try {
      code = this.exports[name](...values);
    } catch (error) {
      if (error instanceof TypeError || error instanceof SyntaxError) throw error; // a value that was not passed on
      this.trap = error;
      throw new IceError("Trapped", "", { cause: error });
    }
    if (this.bytes.buffer !== this.exports.memory.buffer) this.refresh();
    return code;
  }

  /** Allocates, and returns where: as a Number for the views, and as a BigInt for calls. */
  place(size) {
    const arg = this.call("malloc", BigInt(size));
    if (arg === 0n) throw new IceError("OutOfMemory");
    const at = Number(arg);
    this.bytes.fill(0, at, at + size);
    return { at, arg, size };
  }

  /** Zeroes a place, and returns the argument for it: a call may leave parts of a struct as they were. */
  cleared({ at, arg, size }) {
    this.bytes.fill(0, at, at + size);
    return arg;
  }

  free(arg) {
    this.call("free", arg);
  }

  #grow(room, size) {
    const place = this.place(size);
    if (room.arg) this.free(room.arg);
    Object.assign(room, place);
  }

  /** Copies bytes into the memory, one after another, and returns the arguments for them: where each begins, and its length. */
  put(...parts) {
    let length = 0;
    for (const part of parts) length += part.length;
    if (length > this.#given.size) this.#grow(this.#given, length * 2);
    let { at } = this.#given;
    const values = [];
    for (const part of parts) {
      this.bytes.set(part, at);
      values.push(BigInt(at), BigInt(part.length));
      at += part.length;
    }
    return values;
  }

  putText(...texts) {
    return this.put(...texts.map(utf8));
  }

  /** The arguments for a buffer of at least this size. */
  buffer(size = 0) {
    if (size > this.#taken.size) this.#grow(this.#taken, size);
    return [this.#taken.arg, BigInt(this.#taken.size)];
  }

  /** Copies the first bytes out of the buffer. */
  take(length) {
    return this.bytes.slice(this.#taken.at, this.#taken.at + length);
  }

  word(at) {
    return this.view.getBigUint64(at, true);
  }

  /** Returns the bytes that a call writes, between these arguments, or null if there are none. */
  bytesFrom(name, before, after = []) {
    for (;;) {
      const code = this.call(name, ...before, ...this.buffer(), this.length.arg, ...after);
      if (code !== CODE.BufferTooShort) return done(code) ? this.take(Number(this.word(this.length.at))) : null;
      this.buffer(Number(this.word(this.length.at)));
    }
  }

  textFrom(name, before, after = []) {
    const found = this.bytesFrom(name, before, after);
    return found && textOf(found);
  }
}
