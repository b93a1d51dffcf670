import { Track } from "./network.js";

/** Makes the tracks of datagrams, and numbers their transactions in the order of their requests. The library reads the messages. */
export class Wire {
  #numbers = new Map();
  #ice;

  constructor(ice) {
    this.#ice = ice;
  }

  #read(contents) {
    try {
      return this.#ice.isStun(contents) ? this.#ice.readMessage(contents) : null;
    } catch {
      return null; // rubbish
    }
  }

  /** The track of a datagram, with what its message is. */
  track(side, contents, { at, x, ...details }) {
    const message = this.#read(contents);
    const made = new Track(message ? kindOf(message) : "media", side, at, x, { contents, message, ...details });
    if (message) {
      const key = message.transaction.join();
      if (!this.#numbers.has(key)) this.#numbers.set(key, this.#numbers.size + 1);
      made.transaction = this.#numbers.get(key);
    }
    return made;
  }
}

function kindOf(message) {
  if (message.class === "request") return message.useCandidate ? "nomination" : "check";
  return message.class === "success" ? "response" : "failure";
}

/** The words on an arrow. */
export function labelOf({ kind, transaction, message, isHostile, label, isAnswer }) {
  if (kind === "server") return isAnswer ? `${label === "allocate" ? "relayed" : "mapped"} address` : label === "permit" ? "permission" : label;
  if (kind === "signal") return label;
  if (isHostile) return isHostile;
  if (kind === "check") return `check ${transaction}`;
  if (kind === "nomination") return `check ${transaction}, nominates`;
  if (kind === "response") return `response ${transaction}`;
  if (kind === "failure") return `${message.error?.code ?? "error"} to ${transaction}`;
  return "media";
}
