// Credentials, and random numbers for them.
import { NUMBERS } from "./abi.js";
import { done } from "./errors.js";
import { textOf } from "./memory.js";
import { library } from "./module.js";
import { GRAMMARS, numberOf } from "./words.js";

/** Bytes from the random source of the system. */
export const random = (length) => crypto.getRandomValues(new Uint8Array(length));

/** Creates credentials from 38 random bytes, by default those of the system. Who predicts them knows the password. */
export function newCreds(seed = random(NUMBERS.CREDENTIALS_RANDOM)) {
  const memory = library(), { first, second } = memory;
  const lengths = [NUMBERS.UFRAG_LENGTH, NUMBERS.PASS_LENGTH];
  done(memory.call("is_ice_make_credentials", ...memory.put(seed), first.arg, BigInt(lengths[0]), second.arg, BigInt(lengths[1])));
  const [ufrag, pass] = [first, second].map(({ at }, i) => textOf(memory.bytes.subarray(at, at + lengths[i])));
  return { ufrag, pass };
}

/** Returns whether a text is in the grammar of signaling (RFC 8839, sections 5.1 and 5.4): as a "ufrag", "pass" or "foundation". */
export function isInGrammar(kind, text) {
  const memory = library();
  return done(memory.call("is_ice_check_text", numberOf(GRAMMARS, kind, "kind of text"), ...memory.putText(text)));
}

/** Returns whether an agent is controlling at first (RFC 8445, section 6.1.1), for `setControlling`. */
export const firstRole = (madeOffer, lite, otherIsLite) => done(library().call("is_ice_role", +madeOffer, +lite, +otherIsLite));

/** Returns the credentials. RangeError if they are not in the grammar. */
export function checkedCreds(creds) {
  for (const [kind, what] of [["ufrag", "username fragment"], ["pass", "password"]]) {
    if (!isInGrammar(kind, creds[kind])) throw new RangeError(`the ${what} is not in the grammar of RFC 8839, section 5.4`);
  }
  return creds;
}
