// Times of retransmissions, and which addresses are gathered: without an agent.
import { putAddress } from "./address.js";
import { done } from "./errors.js";
import { library } from "./module.js";
import { toMs, toNs, whole } from "./numbers.js";

const settings = ({ initialRto, maxRto, maxRetransmits }) =>
  [toNs(initialRto, "initialRto"), toNs(maxRto, "maxRto"), whole(maxRetransmits, "maxRetransmits")];

/** Returns how long a whole series of checks without a response takes: `iceTimeout` of an agent with these settings. */
export function retransmitTimeout(timing) {
  const memory = library(), { result } = memory;
  done(memory.call("is_ice_retransmit_timeout", ...settings(timing), result.arg));
  return toMs(memory.word(result.at));
}

/** Returns how long an agent with these settings waits after the last of `sent` checks of a pair before the next one. */
export function retransmitDelay(timing, sent) {
  const memory = library(), { result } = memory;
  done(memory.call("is_ice_retransmit_delay", ...settings(timing), whole(sent, "a number of checks"), result.arg));
  return toMs(memory.word(result.at));
}

/** Returns whether a host candidate of an interface should have this IP address (RFC 8445, section 5.1.1.1). */
export function isHostAddress(address) {
  const memory = library(), { first } = memory;
  putAddress(memory, first.at, { address, port: 0 });
  return done(memory.call("is_ice_is_host_address", first.arg));
}
