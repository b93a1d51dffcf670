// What an agent returns, as objects: packets, events and pairs.
import { NUMBERS } from "./abi.js";
import { addressText } from "./address.js";
import { readStruct, writeStruct } from "./structs.js";
import { CHECK_STATES, EVENTS, numberOf, PROTOCOLS, REMOVALS, STATES } from "./words.js";

/** A path: from where to where, and over which protocol. */
export const pathOf = ({ source, destination, protocol }) => ({ protocol: PROTOCOLS[protocol], source, destination });

/** Reads the packet that a call has just written, with its contents. */
export function packetFrom(memory) {
  const { length, ...path } = readStruct(memory, "Packet");
  return { ...pathOf(path), contents: memory.take(length) };
}

/** Reads the event that a call has just written. `creds` returns the local credentials. */
export function eventFrom(memory, creds) {
  const { kind, state, ...path } = readStruct(memory, "Event");
  const { protocol, source, destination } = pathOf(path);
  switch (kind) {
    case NUMBERS.RESTARTED: return { type: "iceRestart", creds: creds() };
    case NUMBERS.STATE_CHANGED: return { type: "iceConnectionStateChange", state: STATES[state] };
    case NUMBERS.DISCOVERED_RECV: return { type: "discoveredRecv", protocol, source };
    default: return { type: EVENTS[kind], protocol, source, destination };
  }
}

/** Writes an event for a call that reads it, and returns the argument. */
export function putEvent(memory, { type, state, protocol, source, destination }) {
  const { at, arg } = memory.first;
  writeStruct(memory, "Event", at, {
    kind: numberOf(EVENTS, type, "type of event"), state: state && numberOf(STATES, state, "state"),
    protocol: protocol && numberOf(PROTOCOLS, protocol, "protocol"), source, destination,
  });
  return arg;
}

/** Reads the pair that a call has just written. */
export function pairFrom(memory) {
  const { hasRtt, hasRequest, hasDue, state, ...pair } = readStruct(memory, "Pair");
  return {
    ...pair, state: CHECK_STATES[state], rtt: hasRtt ? pair.rtt : null, lastRequest: hasRequest ? pair.lastRequest : null,
    due: hasDue ? pair.due : null,
  };
}

/** Reads the removed pair that a call has just written. It has a text for people. */
export function removedFrom(memory) {
  const { hasPath, path, state, reason, error, ...pair } = readStruct(memory, "RemovedPair");
  const found = {
    ...pair, path: hasPath ? pathOf(path) : null, state: CHECK_STATES[state], reason: REMOVALS[reason], error: error || null,
  };
  Object.defineProperty(found, "toString", { value: () => removedText(found) });
  return found;
}

/** Reads the failed sends that a call has just written. */
export function failedFrom(memory) {
  const { reason, times, ...path } = readStruct(memory, "FailedSend");
  return { path: pathOf(path), reason, times };
}

/** Reads the selected pair that a call has just written. */
export function nominatedFrom(memory) {
  const { hasRtt, rtt, totalRtt, responses, ...path } = readStruct(memory, "NominatedPair");
  return { ...pathOf(path), totalRtt, responses, rtt: hasRtt ? rtt : null };
}

function removedText({ path, state, checksSent, responses, error, reason }) {
  const where = path ? `${addressText(path.source)} -> ${addressText(path.destination)}` : "unknown path";
  const failed = error === null ? "" : `, error response ${error}`;
  return `${where} ${state.replace("-", " ")}, ${checksSent} checks sent, ${responses} answered${failed}: ${reason.replace("-", " ")}`;
}
