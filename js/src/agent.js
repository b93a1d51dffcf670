// The agent. Each method makes a call of the module; no rule of ICE is here.
import { NUMBERS } from "./abi.js";
import { putAddress } from "./address.js";
import { fieldsFrom, protocolNumber, putCandidate } from "./candidate.js";
import { checkedCreds, newCreds, random } from "./credentials.js";
import { done, explained, isRejected, reasonOf } from "./errors.js";
import { eventFrom, failedFrom, nominatedFrom, packetFrom, pairFrom, pathOf, putEvent, removedFrom } from "./events.js";
import { CALL, MEMORY, SLOT, WITH_CREDS } from "./handle.js";
import { candidateRefusal, lineRefusal } from "./lines.js";
import { bytesOf } from "./memory.js";
import { small, timeToMs, toNs, whole } from "./numbers.js";
import { Settings, STATUS } from "./settings.js";
import { readStruct } from "./structs.js";
import { ADDED, STATES } from "./words.js";

/** The items of a list whose length is not known: until `one` returns null. */
function listed(one) {
  const found = [];
  for (let it; (it = one(BigInt(found.length))) !== null; ) found.push(it);
  return found;
}

/** One side of a session. It is freed by close(), at the end of its `using` block, or some time after nothing refers to it. */
export class IceAgent extends Settings {
  // ---- candidates

  /** Returns the candidate's text for signaling, or null if it is redundant. */
  addLocalCandidate(candidate) {
    const memory = this[MEMORY], { length } = memory, isText = typeof candidate === "string";
    const add = () => isText
      ? this[CALL]("is_ice_add_local_line", ...memory.putText(candidate), length.arg)
      : this[CALL]("is_ice_add_local", putCandidate(memory, candidate), length.arg);
    if (!explained(add, () => isText ? lineRefusal(candidate) : candidateRefusal(candidate))) return null;
    return memory.textFrom("is_ice_local_candidate", [this[SLOT], memory.word(length.at)]);
  }

  /** Returns "added", "known", or why it was ignored. */
  addRemoteCandidate(line) {
    const memory = this[MEMORY];
    return explained(() => {
      const code = memory.call("is_ice_add_remote", this[SLOT], ...memory.putText(line), memory.length.arg);
      done(code);
      return ADDED[code];
    }, () => lineRefusal(line));
  }

  /** Returns false if there is no such candidate: a gathered one, or a text. */
  invalidateCandidate(candidate) {
    const memory = this[MEMORY];
    if (typeof candidate === "string") {
      return explained(() => this[CALL]("is_ice_invalidate", ...memory.putText(candidate)), () => lineRefusal(candidate));
    }
    return explained(() => this[CALL]("is_ice_invalidate_local", putCandidate(memory, candidate)), () => candidateRefusal(candidate));
  }

  localCandidates() {
    return listed((index) => this[MEMORY].textFrom("is_ice_local_candidate", [this[SLOT], index]));
  }

  remoteCandidates() {
    return listed((index) => this[MEMORY].textFrom("is_ice_remote_candidate", [this[SLOT], index]));
  }

  localFields() {
    return listed((index) => fieldsFrom(this[MEMORY], "is_ice_local_fields", [this[SLOT], index]));
  }

  remoteFields() {
    return listed((index) => fieldsFrom(this[MEMORY], "is_ice_remote_fields", [this[SLOT], index]));
  }

  /** How many local candidates are of the kind and IP version of this one, including those that were removed. */
  alikeLocal(candidate) {
    const memory = this[MEMORY], { length } = memory;
    explained(() => this[CALL]("is_ice_alike_local", putCandidate(memory, candidate), length.arg), () => candidateRefusal(candidate));
    return Number(memory.word(length.at));
  }

  // ---- packets, events and timeouts

  /** Returns false if the datagram is not for this agent, which is then unchanged. */
  handlePacket(now, source, destination, contents, protocol = "udp") {
    return this[CALL]("is_ice_handle_packet", toNs(now), ...this.#packet(source, destination, contents, protocol));
  }

  acceptsPacket(source, destination, contents, protocol = "udp") {
    return this[CALL]("is_ice_accepts_packet", ...this.#packet(source, destination, contents, protocol));
  }

  /** Why handlePacket would not accept it, or null if it would. */
  rejection(source, destination, contents, protocol = "udp") {
    const code = this[MEMORY].call("is_ice_rejection", this[SLOT], ...this.#packet(source, destination, contents, protocol));
    return isRejected(code) ? reasonOf(code) : (done(code), null);
  }

  /** Why handlePacket would accept it, a request, and send no response, or null. */
  unserved(source, destination, contents, protocol = "udp") {
    const code = this[MEMORY].call("is_ice_unserved", this[SLOT], ...this.#packet(source, destination, contents, protocol));
    return done(code) ? null : reasonOf(code);
  }

  #packet(source, destination, contents, protocol) {
    const memory = this[MEMORY], { first, second } = memory;
    putAddress(memory, first.at, source);
    putAddress(memory, second.at, destination);
    return [protocolNumber(protocol), first.arg, second.arg, ...memory.put(bytesOf(contents))];
  }

  acceptsMessage(contents) {
    return this[CALL]("is_ice_accepts_message", ...this[MEMORY].put(bytesOf(contents)));
  }

  /** Passes the current time; the first call starts the session. `seed`: 12 new bytes, by default the system's. */
  handleTimeout(now, seed = random(NUMBERS.TIMEOUT_RANDOM)) {
    this[CALL]("is_ice_handle_timeout", toNs(now), ...this[MEMORY].put(bytesOf(seed)));
  }

  /** Returns when to call handleTimeout next: null before the session, and until the peer's credentials are set. It changes nothing. */
  pollTimeout() {
    return this.#time("is_ice_poll_timeout");
  }

  #time(name) {
    const { result } = this[MEMORY];
    return this[CALL](name, result.arg) ? timeToMs(this[MEMORY].word(result.at)) : null;
  }

  /** Returns the next packet to send and removes it from the agent, or null. */
  pollTransmit() {
    const memory = this[MEMORY];
    return this[CALL]("is_ice_poll_transmit", ...memory.buffer(), memory.result.arg) ? packetFrom(memory) : null;
  }

  /** Returns the next event and removes it from the agent, or null. */
  pollEvent() {
    const memory = this[MEMORY];
    return this[CALL]("is_ice_poll_event", memory.cleared(memory.result)) ? eventFrom(memory, () => this.localCredentials) : null;
  }

  /** Makes an ICE restart with new local credentials. */
  iceRestart(creds = newCreds(), keepLocalCandidates = true) {
    this[WITH_CREDS]("is_ice_restart", checkedCreds(creds), +!!keepLocalCandidates);
  }

  recreateCandidatePairs() {
    this[CALL]("is_ice_recreate_pairs");
  }

  // ---- queries: they change nothing

  get state() {
    return STATES[this[STATUS].state];
  }

  get stats() {
    return this.#read("is_ice_stats", (memory) => readStruct(memory, "AgentStats"));
  }

  get earlyRequests() {
    return this.#count("is_ice_early_count");
  }

  get nominatedPair() {
    return this.#read("is_ice_nominated", nominatedFrom);
  }

  get validPath() {
    return this.#read("is_ice_valid_path", (memory) => pathOf(readStruct(memory, "MediaPath")));
  }

  /** The path for media: that of the selected pair, else of a valid one, or null. */
  get mediaPath() {
    const { protocol, source, destination } = this.nominatedPair ?? this.validPath ?? {};
    return source ? { protocol, source, destination } : null;
  }

  /** The path for media now, also during an ICE restart, or null. */
  pathForMedia(now) {
    return this.#read("is_ice_path_for_media", (memory) => pathOf(readStruct(memory, "MediaPath")), toNs(now));
  }

  /** Whether media may come from this address now. */
  takesMediaFrom(now, source) {
    const memory = this[MEMORY], { first } = memory;
    putAddress(memory, first.at, source);
    return this[CALL]("is_ice_takes_media_from", toNs(now), first.arg);
  }

  /** When the last authentic packet came on the selected path, or null if none is selected. */
  get silentSince() {
    return this.#time("is_ice_silent_since");
  }

  // ---- datagrams that the system did not send

  /** Reports one, with the system's number of the error. */
  sendFailed(source, destination, reason, protocol = "udp") {
    const memory = this[MEMORY], { first, second } = memory;
    putAddress(memory, first.at, source);
    putAddress(memory, second.at, destination);
    this[CALL]("is_ice_send_failed", protocolNumber(protocol), first.arg, second.arg, small(reason, "the number of an error", 32));
  }

  /** The last sends that failed since the last restart, each path and reason once, the oldest first: 16 at most. */
  get failedSends() {
    const length = this.#count("is_ice_failed_send_count");
    return Array.from({ length }, (_, i) => this.#read("is_ice_failed_send_at", failedFrom, BigInt(i)));
  }

  get pairs() {
    return Array.from({ length: this.#count("is_ice_pair_count") }, (_, i) => this.#read("is_ice_pair_at", pairFrom, BigInt(i)));
  }

  /** The pairs that were removed since the last restart, from the index `first` on: the oldest first, 32 at most. */
  removedPairs(first = 0) {
    const length = Math.max(0, this.#count("is_ice_removed_count") - Number(whole(first, "an index")));
    return Array.from({ length }, (_, i) => this.#read("is_ice_removed_at", removedFrom, BigInt(first + i)));
  }

  /** The line of an event: the local username fragment, a colon and what happened. */
  eventLine(event) {
    const memory = this[MEMORY];
    return memory.textFrom("is_ice_event_line", [this[SLOT], putEvent(memory, event)]);
  }

  /** The line of a pair of removedPairs, or null. */
  removedLine(index) {
    return this[MEMORY].textFrom("is_ice_removed_line", [this[SLOT], whole(index, "an index")]);
  }

  /** The line of a datagram that the agent does not accept, or to which it sends no response. */
  packetLine(source, destination, contents, protocol = "udp") {
    return this[MEMORY].textFrom("is_ice_packet_line", [this[SLOT], ...this.#packet(source, destination, contents, protocol)]);
  }

  /** The kind of message and the reason of that line: under this text a program counts datagrams. */
  packetKind(source, destination, contents, protocol = "udp") {
    return this[MEMORY].textFrom("is_ice_packet_kind", [this[SLOT], ...this.#packet(source, destination, contents, protocol)]);
  }

  /** Returns a pair whose remote candidate equals that of this text, or null. */
  findPairForEquivalentRemoteCandidate(line) {
    const find = () => this.#read("is_ice_find_pair", pairFrom, ...this[MEMORY].putText(line));
    return explained(find, () => lineRefusal(line));
  }

  /** Returns whether there is a valid pair whose remote candidate has this address. */
  hasViableRemoteCandidate(address) {
    const memory = this[MEMORY], { first } = memory;
    putAddress(memory, first.at, address);
    return this[CALL]("is_ice_has_viable_remote", first.arg);
  }

  get localCredentials() {
    return this.#creds("is_ice_local_ufrag", "is_ice_local_pass");
  }

  get remoteCredentials() {
    return this.#creds("is_ice_remote_ufrag", "is_ice_remote_pass");
  }

  #creds(ufragOf, passOf) {
    const ufrag = this[MEMORY].textFrom(ufragOf, [this[SLOT]]), pass = this[MEMORY].textFrom(passOf, [this[SLOT]]);
    return ufrag === null || pass === null ? null : { ufrag, pass };
  }

  #count(name) {
    const { result } = this[MEMORY];
    this[CALL](name, result.arg);
    return Number(this[MEMORY].word(result.at));
  }

  /** Returns what `from` reads of the struct that a call writes, or null if it writes none. */
  #read(name, from, ...before) {
    const memory = this[MEMORY];
    return this[CALL](name, ...before, memory.cleared(memory.result)) ? from(memory) : null;
  }
}

if (Symbol.dispose) IceAgent.prototype[Symbol.dispose] = IceAgent.prototype.close;
