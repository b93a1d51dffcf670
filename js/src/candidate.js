// Candidates: those that a program gathered, and the fields of those that the module read or lists.
import { NUMBERS } from "./abi.js";
import { textOf } from "./memory.js";
import { readStruct, writeStruct } from "./structs.js";
import { KINDS, numberOf, PROTOCOLS, TCP_TYPES } from "./words.js";

const gathered = (kind, address, base, protocol = "udp", tcptype = null) => ({ kind, address, base, protocol, tcptype });

/** Creates candidates that the program gathered. The agent discovers peer-reflexive ones: nobody gathers them. */
export const Candidate = Object.freeze({
  host: (address, protocol, tcptype) => gathered("host", address, address, protocol, tcptype),
  serverReflexive: (address, base, protocol, tcptype) => gathered("srflx", address, base, protocol, tcptype),
  relayed: (address, local, protocol, tcptype) => gathered("relay", address, local, protocol, tcptype),
});

const numbered = ({ kind, protocol = "udp", tcptype = null }) => ({
  kind: numberOf(KINDS, kind, "kind of candidate"), protocol: protocolNumber(protocol), tcptype: numberOf(TCP_TYPES, tcptype, "TCP type"),
});

export const protocolNumber = (protocol) => numberOf(PROTOCOLS, protocol, "protocol");

/** Writes a candidate, and returns the argument for it. */
export function putCandidate(memory, candidate) {
  const { address, base = address } = candidate;
  writeStruct(memory, "Candidate", memory.first.at, { address, base, ...numbered(candidate) });
  return memory.first.arg;
}

/** Writes the fields of a candidate as a peer signals it, and returns the argument for them. */
export function putFields(memory, { address, related, priority, component = 1, ...rest }) {
  writeStruct(memory, "Fields", memory.first.at, { address, related, priority, component, ...numbered(rest) });
  return memory.first.arg;
}

/** Returns the fields that a call writes next to the candidate's text, or null if there is no candidate. */
export function fieldsFrom(memory, name, before) {
  const text = memory.bytesFrom(name, before, [memory.result.arg]);
  if (text === null) return null;
  const { foundationLength, ufragLength, kind, protocol, tcptype, ...rest } = readStruct(memory, "Fields");
  const start = NUMBERS.FOUNDATION_START;
  return {
    text: textOf(text),
    ...rest,
    foundation: textOf(text.subarray(start, start + foundationLength)),
    kind: KINDS[kind], protocol: PROTOCOLS[protocol], tcptype: TCP_TYPES[tcptype],
    ufrag: textOf(text.subarray(text.length - ufragLength)) || null,
  };
}
