// The words of states and kinds, in the order of their numbers in is_ice.h. Those that WebRTC has are WebRTC's. "": there is none.

export const STATES = ["new", "checking", "connected", "completed", "disconnected"];
export const KINDS = ["host", "srflx", "relay", "prflx"];
export const PROTOCOLS = ["udp", "tcp", "ssltcp", "tls"];
export const TCP_TYPES = [null, "active", "passive", "so"];
export const CHECK_STATES = ["waiting", "in-progress", "succeeded"];
export const REMOVALS = ["", "no-response", "consent-lost", "peer-silent", "evicted", "replaced", "invalidated"];
export const ADDED = ["added", "known", "other-component", "other-ufrag"];
export const GRAMMARS = ["ufrag", "pass", "foundation"];
export const CLASSES = ["request", "indication", "success", "failure"];
export const METHODS = ["other", "binding", "", "allocate", "refresh", "", "send", "data", "create-permission", "channel-bind"];

export const SCHEMES = ["stun", "turn"];
export const ENDINGS = ["failed", "lost", "closed"];
export const SERVER_EVENTS = ["", "serverMapped", "serverAllocated", "serverNotPermitted", "serverEnded"];

/** The types of events, which are JavaScript's own words. */
export const EVENTS = ["", "iceRestart", "iceConnectionStateChange", "discoveredRecv", "nominatedSend", "silent", "heard"];

/** The number of a word. TypeError if it is none of them. */
export function numberOf(words, word, what) {
  const found = word === "" ? -1 : words.indexOf(word);
  if (found < 0) throw new TypeError(`no ${what}: ${String(word)}`);
  return found;
}
