/** What an agent returns. */
import type { Protocol, SocketAddress } from "./address.js";
import type { IceCreds } from "./credentials.js";

/**
 * States of the connection. None is final. `connected`: a pair is selected, and another one may yet be found. `completed`: and no other
 * one may. `disconnected`: none is selected, and none may be; new candidates or checks of the peer may change that.
 */
export type IceConnectionState = "new" | "checking" | "connected" | "completed" | "disconnected";
/** What became of a remote candidate: `other-component` and `other-ufrag` say why it was ignored. */
export type AddResult = "added" | "known" | "other-component" | "other-ufrag";
/** States of a pair's checks (RFC 8445, section 6.1.2.6). `in-progress`: none had a response. `succeeded`: the pair is valid. */
export type CheckState = "waiting" | "in-progress" | "succeeded";
/** Why a pair was removed. */
export type Removal = "no-response" | "consent-lost" | "peer-silent" | "evicted" | "replaced" | "invalidated";
/**
 * Why a datagram is rejected: the first reason that applies, and a text for people. `unparsed`: no STUN message, or one without what ICE
 * requires. `local-ufrag`, `remote-ufrag`: a request to another username fragment than the agent's, or from another one than the peer's.
 * `local-password`: a request that is not signed with the agent's password: the peer has a wrong one. `no-check`: a response to no pending
 * transaction. `path`: one that was not received on the reverse of its check's path. `remote-password`: one that is not signed with the
 * peer's password.
 */
export interface Rejection {
  reason:
    | "unparsed" | "method" | "class" | "local-ufrag" | "remote-ufrag" | "local-password" | "no-check" | "path" | "remote-password";
  text: string;
}

/**
 * Why an accepted request gets no response: the first reason that applies, and a text for people. `early`: the peer's credentials are not
 * set yet, and the request waits for them. `destination`: the address at which it arrived is that of no local candidate. `use-candidate`:
 * it has USE-CANDIDATE, and the agent is controlling. `sender`: only remote candidates that were invalidated have its source. `limit`: no
 * remote candidate has its source, and there is no place for another one: see `setMaxDiscovered`. `local`: the local candidate was
 * invalidated, and has no pair with the sender.
 */
export interface Unserved {
  reason: "early" | "destination" | "use-candidate" | "sender" | "limit" | "local";
  text: string;
}

/** A path for media, from `source`, a local address, to `destination`. */
export interface MediaPath {
  protocol: Protocol;
  source: SocketAddress;
  destination: SocketAddress;
}
/** A packet to send from `source`, which is the address of a local socket or a relayed address. */
export interface Transmit extends MediaPath {
  contents: Uint8Array;
}
export type IceAgentEvent =
  /** A session starts or restarts with these local credentials. */
  | { type: "iceRestart"; creds: IceCreds }
  | { type: "iceConnectionStateChange"; state: IceConnectionState }
  /** The first authentic packet from `source` over `protocol` since the last restart. */
  | { type: "discoveredRecv"; protocol: Protocol; source: SocketAddress }
  /** Send media on this path, until the next such event. */
  | ({ type: "nominatedSend" } & MediaPath)
  /** No authentic packet came on the selected path for as long as `setSilence` says. */
  | ({ type: "silent" } & MediaPath)
  /** One came again. */
  | ({ type: "heard" } & MediaPath);

/** A candidate pair. `rtt`, `lastRequest` and `due` are null if there is none. */
export interface CandidatePair {
  /** The index of its candidate in `localCandidates()`. */
  local: number;
  /** The index of its candidate in `remoteCandidates()`. */
  remote: number;
  /** RFC 8445, section 6.1.2.3: it has 64 bits. */
  priority: bigint;
  state: CheckState;
  nominated: boolean;
  /** It is the pair of the last `nominatedSend`. */
  selected: boolean;
  checksSent: number;
  requestsReceived: number;
  responses: number;
  /** The sum of the round-trip times of its checks. */
  totalRtt: number;
  /** The last round-trip time. */
  rtt: number | null;
  /** When the peer's last check on it arrived. */
  lastRequest: number | null;
  /** When its next check is due. */
  due: number | null;
}
/**
 * A pair that was removed, as it was then. As a text: `10.0.0.1:1000 -> 10.0.0.2:2000 in progress, 15 checks sent, 0 answered: no
 * response`.
 */
export interface RemovedPair {
  /** null if the agent no longer lists its candidates. */
  path: MediaPath | null;
  priority: bigint;
  state: CheckState;
  checksSent: number;
  responses: number;
  /** The code of the last error response. */
  error: number | null;
  reason: Removal;
  toString(): string;
}
/** Datagrams on one path that the system did not send for one reason, the number of its error; and how many there were. */
export interface FailedSend {
  path: MediaPath;
  reason: number;
  times: number;
}
/** The selected pair: the path of its `nominatedSend`, and figures. */
export interface NominatedPair extends MediaPath {
  totalRtt: number;
  responses: number;
  rtt: number | null;
}
/** Counters since the last restart. */
export interface IceAgentStats {
  /** Connectivity checks sent. */
  bindRequestSent: number;
  /** Success responses received. */
  bindSuccessRecv: number;
  /** Requests of the peer that were served. */
  bindRequestRecv: number;
  discoveredRecvCount: number;
  nominationSendCount: number;
}
