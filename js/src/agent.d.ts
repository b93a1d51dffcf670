import type { Bytes, Protocol, SocketAddress } from "./address.js";
import type { Candidate, CandidateFields } from "./candidate.js";
import type { IceCreds } from "./credentials.js";
import type {
  AddResult, CandidatePair, FailedSend, IceAgentEvent, IceAgentStats, IceConnectionState, MediaPath, NominatedPair, Rejection,
  RemovedPair, Transmit, Unserved,
} from "./events.js";
import { Settings } from "./settings.js";

declare global {
  interface SymbolConstructor {
    /** It is declared again for versions of TypeScript before 5.2. */
    readonly dispose: unique symbol;
  }
}

/** One side of a session. It is freed by `close()`, at the end of its `using` block, or some time after nothing refers to it. */
export class IceAgent extends Settings {
  /**
   * Creates a controlled agent. By default credentials and tie-breaker come from the system's random source. RangeError for credentials
   * that RFC 8839 does not allow: see `setLocalCredentials`.
   */
  constructor(creds?: IceCreds, tieBreaker?: bigint | number);
  /** Frees the agent. Every later call throws `NoAgent`, except for another `close()`. */
  close(): void;
  [Symbol.dispose](): void;
  /** Whether `close()` was called. */
  readonly closed: boolean;

  // ---- candidates

  /**
   * Adds a candidate that was gathered, and returns its text for signaling, or null if it is redundant, or if the agent is lite and the
   * candidate no host. A text ("candidate:..") is added with its own priority and foundation, and its address as its base.
   * `TooManyCandidates`: there are as many as `setMaxCandidates` allows.
   */
  addLocalCandidate(candidate: Candidate | string): string | null;
  /**
   * Adds a candidate of the peer, by its text ("candidate:.."), and returns what became of it. `BadCandidate` says what is wrong with
   * it. One with an mDNS name is a `BadCandidate` too: see `lineName`.
   */
  addRemoteCandidate(line: string): AddResult;
  /** Removes a candidate and its pairs, as when an interface is gone. Returns false if there is no such candidate. */
  invalidateCandidate(candidate: Candidate | string): boolean;
  /** Returns the local candidates for signaling, with the peer-reflexive ones that were discovered from responses. */
  localCandidates(): string[];
  /** Returns the remote candidates, with the peer-reflexive ones that were discovered from requests. */
  remoteCandidates(): string[];
  localFields(): CandidateFields[];
  remoteFields(): CandidateFields[];
  /** Returns how many local candidates are of the kind and IP version of this one, including those that were removed. */
  alikeLocal(candidate: Candidate): number;

  /**
   * Passes a datagram to the agent that arrived at the local address `destination`. Returns false if it is not for this agent, which is
   * then unchanged. `Unparsed`: it is not a STUN message, as media, or one without MESSAGE-INTEGRITY, as a STUN server's response.
   */
  handlePacket(now: number, source: SocketAddress, destination: SocketAddress, contents: Bytes, protocol?: Protocol): boolean;
  /** Returns whether `handlePacket` would accept it, and changes nothing. */
  acceptsPacket(source: SocketAddress, destination: SocketAddress, contents: Bytes, protocol?: Protocol): boolean;
  /**
   * Returns why `handlePacket` would not accept it, or null if it would, and changes nothing. So a program says after the first packet
   * that the peer has a wrong password. Anybody can send a datagram that is rejected: show the reason, and end no session for it.
   */
  rejection(source: SocketAddress, destination: SocketAddress, contents: Bytes, protocol?: Protocol): Rejection | null;
  /**
   * Returns why `handlePacket` would accept it, a request, and send no response to it, and changes nothing. null if it would send one, and
   * for a response or a datagram that it would not accept: see `rejection`. Ask before `handlePacket`.
   */
  unserved(source: SocketAddress, destination: SocketAddress, contents: Bytes, protocol?: Protocol): Unserved | null;
  /** Returns whether it is a message for this agent, from any source, and changes nothing. */
  acceptsMessage(contents: Bytes): boolean;
  /**
   * Passes the current time to the agent; the first call starts the session. `seed`: 12 new bytes, by default of the system's random
   * source.
   */
  handleTimeout(now: number, seed?: Bytes): void;
  /**
   * Returns the time at which to call `handleTimeout` next: null before the session, and until the peer's credentials are set. Ask it at
   * any place, as often as you like: it changes nothing. (With the profile `original` call it before packets are polled.)
   */
  pollTimeout(): number | null;
  /** Returns the next packet to send and removes it from the agent, or null if there is none. */
  pollTransmit(): Transmit | null;
  /** Returns the next event and removes it from the agent, or null if there is none. */
  pollEvent(): IceAgentEvent | null;
  /** Makes an ICE restart with new local credentials. Then set the peer's new credentials and candidates. */
  iceRestart(creds?: IceCreds, keepLocalCandidates?: boolean): void;
  /** Removes all pairs, and forms pairs of all candidates again. */
  recreateCandidatePairs(): void;

  readonly state: IceConnectionState;
  readonly stats: IceAgentStats;
  /** How many requests wait that came before the peer's credentials, at most 100. Then each `handleTimeout` serves one. */
  readonly earlyRequests: number;
  /** null if no pair was selected, or it was removed. */
  readonly nominatedPair: NominatedPair | null;
  /** The path of a valid pair, one of the greatest priority. Media may go there before a path is selected (RFC 8445, section 12.1). */
  readonly validPath: MediaPath | null;
  /** The path for media outside of an ICE restart: that of `nominatedPair`, else of `validPath`. */
  readonly mediaPath: MediaPath | null;
  /**
   * Returns the path for media now: the selected one; after an ICE restart the one before, until the new session has selected one, or
   * consent for it ends (RFC 8445, section 9); else that of a valid pair (section 12.1).
   */
  pathForMedia(now: number): MediaPath | null;
  /** Returns whether media may come from this address now: there is a valid pair to it, or media went there before an ICE restart. */
  takesMediaFrom(now: number, source: SocketAddress): boolean;
  /** When the last authentic packet came on the selected path, or when it was selected, if none came since. null: none is selected. */
  readonly silentSince: number | null;
  /** Reports that the system did not send a datagram on this path, with the system's number of the error. */
  sendFailed(source: SocketAddress, destination: SocketAddress, reason: number, protocol?: Protocol): void;
  /** The last sends that failed since the last restart, each path and reason once, the oldest first: 16 at most. */
  readonly failedSends: FailedSend[];
  /** The candidate pairs, in the order in which they were formed. */
  readonly pairs: CandidatePair[];
  /** Returns the pairs that were removed since the last restart, the oldest first: the last 32, from the index `first` on. */
  removedPairs(first?: number): RemovedPair[];
  /** Returns the line of a log for an event: the local username fragment, a colon and what happened, as `evtj: state Connected`. */
  eventLine(event: IceAgentEvent): string;
  /** Returns the line for a pair of `removedPairs`, or null if there are not so many. */
  removedLine(index: number): string | null;
  /**
   * Returns the line for a datagram that the agent does not accept, or to which it sends no response: the kind of message, the reason of
   * `rejection` or `unserved` if there is one, and both addresses.
   */
  packetLine(source: SocketAddress, destination: SocketAddress, contents: Bytes, protocol?: Protocol): string;
  /** Returns the kind of message and the reason of that line: under this text a program counts datagrams. */
  packetKind(source: SocketAddress, destination: SocketAddress, contents: Bytes, protocol?: Protocol): string;
  /** Returns a pair whose remote candidate equals this one in address, base, protocol, kind and related address. */
  findPairForEquivalentRemoteCandidate(line: string): CandidatePair | null;
  /** Returns whether there is a valid pair whose remote candidate has this address. */
  hasViableRemoteCandidate(address: SocketAddress): boolean;
  readonly localCredentials: IceCreds;
  readonly remoteCredentials: IceCreds | null;
}
