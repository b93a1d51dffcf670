// What goes wrong in a call: its code in is_ice.h as an exception.
import { CODES } from "./abi.js";

const TEXTS = new Map(Object.values(CODES));
/** The number of each code, by its name. */
export const CODE = Object.fromEntries(Object.entries(CODES).map(([number, [name]]) => [name, Number(number)]));
TEXTS.set("Trapped", "the module stopped in this call or an earlier one, and its agents are lost");

/** A call failed. `code` is the name of its code, as "BadCandidate". Except for "Trapped", the agent is as it was. */
export class IceError extends Error {
  constructor(code, detail = "", options = undefined) {
    const text = TEXTS.get(code) ?? "unknown code";
    super(detail ? `${text}: ${detail}` : text, options);
    this.name = "IceError";
    this.code = code;
  }
}

/** Returns true for OK and false for another code that is no error; throws the exception of an error. */
export function done(code) {
  if (code < 0) throw new IceError(CODES[code]?.[0] ?? `Code${code}`);
  return code === 0;
}

/** Whether a datagram is rejected for a reason: so says a code of is_ice_rejection that is neither OK nor an error of the call. */
export const isRejected = (code) => code > 0 || code === CODE.Unparsed;

const PREFIX = /^(rejected|unserved)-/;

/** The reason of a code with its text: its word is the name of the code, as "local-password". */
export function reasonOf(code) {
  const [name, text] = CODES[code];
  const word = [...name].map((letter) => (letter < "a" ? `-${letter.toLowerCase()}` : letter)).join("").slice(1);
  return { reason: word.replace(PREFIX, ""), text };
}

/** Returns what `make` returns. If it throws "BadCandidate", the exception has the explanation that `detail` returns. */
export function explained(make, detail) {
  try {
    return make();
  } catch (error) {
    throw error.code === "BadCandidate" ? new IceError("BadCandidate", detail() ?? "") : error;
  }
}
