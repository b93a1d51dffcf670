// What is on the heap of the module, an agent or the clients of servers: made, called, and freed once.
import { STRUCTS } from "./abi.js";
import { checkedCreds, newCreds, random } from "./credentials.js";
import { done, IceError } from "./errors.js";
import { library } from "./module.js";
import { whole } from "./numbers.js";

/** What agents, their settings and clients use of a handle: the memory, the struct in it that refers to them, a call, a call with
 *  credentials, the end, and whether that came. */
export const MEMORY = Symbol("memory"), SLOT = Symbol("slot"), CALL = Symbol("call"), WITH_CREDS = Symbol("with credentials");
export const FREE = Symbol("free"), FREED = Symbol("freed");

function release({ memory, slot, free }) {
  if (memory.trap) return; // the memory is lost as a whole
  memory.call(free, slot);
  memory.free(slot);
}

const registry = new FinalizationRegistry((held) => {
  try {
    release(held);
  } catch {
    // a trap: the memory keeps it, and each later call throws it
  }
});

export class Held {
  #held = null; // the memory, where the struct is in it, and the call that frees what it refers to
  #none; // the error of each call after that

  /** `make` calls what fills the struct of this kind. */
  constructor(kind, make, free, none) {
    const memory = library(), held = { memory, slot: memory.place(STRUCTS[kind][0]).arg, free };
    this.#held = held;
    this.#none = none;
    try {
      make(this);
    } catch (error) {
      this.#held = null;
      release(held);
      throw error;
    }
    registry.register(this, held, this);
  }

  [FREE]() {
    const held = this.#held;
    if (!held) return;
    this.#held = null;
    registry.unregister(this);
    release(held);
  }

  get [FREED]() {
    return this.#held === null;
  }

  get [MEMORY]() {
    if (!this.#held) throw new IceError(this.#none);
    return this.#held.memory;
  }

  get [SLOT]() {
    if (!this.#held) throw new IceError(this.#none);
    return this.#held.slot;
  }

  /** Makes a call. Returns true for OK, and false for another code that is no error. */
  [CALL](name, ...values) {
    return done(this[MEMORY].call(name, this[SLOT], ...values));
  }
}

export class Handle extends Held {
  constructor(creds = newCreds(), tieBreaker = new DataView(random(8).buffer).getBigUint64(0)) {
    const tie = whole(tieBreaker, "a tie-breaker"), checked = checkedCreds(creds);
    super("Agent", (made) => made[WITH_CREDS]("is_ice_agent_new", checked, tie), "is_ice_agent_free", "NoAgent");
  }

  /** Frees the agent. Every later call throws "NoAgent", except for another close(). */
  close() {
    this[FREE]();
  }

  /** Whether close() was called. */
  get closed() {
    return this[FREED];
  }

  [WITH_CREDS](name, { ufrag, pass }, ...more) {
    return this[CALL](name, ...this[MEMORY].putText(ufrag, pass), ...more);
  }
}
