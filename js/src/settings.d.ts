import type { AgentSettings } from "./abi.js";
import type { IceCreds } from "./credentials.js";

/** Local preferences by kind, for one IP version: numbers up to 65535 (RFC 8445, section 5.1.2.1). */
export interface KindPreferences {
  host: number;
  peerReflexive: number;
  serverReflexive: number;
  relayed: number;
}

/** The settings of an `IceAgent`: each can be set at any time. What those of `AgentSettings` are at first is in the table "Settings" of
 *  docs/API.md, and `modernSettings` returns it. */
export class Settings {
  /** Makes the agent controlling, as on the side that made the offer, or controlled.
   *  `LiteStaysControlled`: a lite agent with `modern` is to be controlling; it stays as it is. */
  setControlling(controlling: boolean): void;
  /**
   * Makes the agent a lite agent, which takes only host candidates and sends no checks, or a full one (RFC 8445, section 2.5). It has to
   * be controlled, and its peer a full agent: make it lite while it is controlled.
   */
  setIceLite(enabled: boolean): void;
  /** Lets each nomination replace the ones before, so that both agents select the same path. Set it at both agents or at none. */
  setRenomination(enabled: boolean): void;
  /** Sets those that are named, and leaves the others as they are. TypeError for a name that is no setting. `BadLimit`: `maxRetransmits`
   *  is 0; nothing is changed. */
  setSettings(settings: Partial<AgentSettings>): void;
  /** Sets the number that decides role conflicts: the agent with the greater one keeps its role. A lite agent with `modern` keeps its role
   *  whatever the numbers are. */
  setControlTieBreaker(tieBreaker: bigint | number): void;
  /** Limits the number of pairs, when pairs are next formed. */
  setMaxCandidatePairs(count: number): void;
  /** Limits how many peer-reflexive candidates packets bring of each side. `Infinity`: no limit. */
  setMaxDiscovered(count: number): void;
  /** Limits how many candidates of each side there are when one is added. `Infinity`: no limit. */
  setMaxCandidates(count: number): void;
  /** Sets the pacing interval Ta: the least time between two timeouts. With `modern` it is shorter until the agent has a path. */
  setTimingAdvance(ms: number): void;
  /** Sets the time from a pair's first check until the second one is due; it doubles with each further check. */
  setInitialStunRto(ms: number): void;
  /** Sets the longest time from one check of a pair until the next one is due. */
  setMaxStunRto(ms: number): void;
  /** Sets after how many checks in a row without a response a pair is removed. `BadLimit` for 0. */
  setMaxStunRetransmits(count: number): void;
  /** Sets how long a lite agent keeps a pair after the peer's last check on it. */
  setLiteTimeout(ms: number): void;
  /** Sets after what time without an authentic packet the selected path is silent. `Infinity`: it never is. Default: 5000. */
  setSilence(ms: number): void;
  /** Stores how long a packet may be, and the length to warn about. `MtuTooSmall` below 588. Default: 1150 and 1280. */
  setMtu(mtu: number, warn: number): void;
  /** Sets the local preference of candidates that are added after this call. null: the default one again. */
  setLocalPreference(preference: number | null): void;
  /** Sets the local preference of candidates that are added after this call, by kind and IP version, less one for each earlier one. */
  setPreferenceTable(v4: KindPreferences, v6: KindPreferences): void;
  /**
   * Sets the local credentials without an ICE restart: for use before they are signaled. A username fragment has 4 to 256 letters,
   * digits, `+` and `/`, and a password 22 to 256 of them (RFC 8839, section 5.4). RangeError for others.
   */
  setLocalCredentials(creds: IceCreds): void;
  /** Sets the peer's credentials, from signaling. Before this call no check is sent. */
  setRemoteCredentials(creds: IceCreds): void;
  /** Gives no further pair a number below this one: for tests of `PairIdsExhausted`. */
  skipPairIds(number: bigint | number): void;

  readonly controlling: boolean;
  readonly iceLite: boolean;
  readonly mtu: number;
  readonly mtuWarn: number;
  /** How long a whole series of checks without a response takes. */
  readonly iceTimeout: number;
  /** `Infinity`: there is no limit. */
  readonly maxCandidates: number;
  /** All that a program may choose. */
  readonly settings: AgentSettings;
}
