/** Candidates as texts (RFC 8839) and as JSON. `BadCandidate` says what is wrong. */
import type { Protocol, SocketAddress } from "./address.js";
import type { Candidate, CandidateFields, CandidateKind, TcpType } from "./candidate.js";

/** Reads a candidate as `addRemoteCandidate` does, and returns what the agent would use. */
export function lineFields(line: string): CandidateFields;
/** Returns why a text is not a candidate, or null if it is one. */
export function lineRefusal(line: string): string | null;
/** Returns the candidate that a peer signals with these fields: its text, and the fields that `lineFields` reads from that. */
export function fieldsLine(fields: {
  foundation: string; priority: number; address: SocketAddress; kind: CandidateKind; component?: number; protocol?: Protocol;
  related?: SocketAddress | null; tcptype?: TcpType | null;
}): CandidateFields;
/**
 * Returns the text of a gathered candidate that no agent has: with the priority of the first one of its kind, without a username
 * fragment.
 */
export function candidateLine(candidate: Candidate): string;
/** Returns the fields of that candidate. */
export function candidateFields(candidate: Candidate): CandidateFields;
/** Returns why `addLocalCandidate` fails with `BadCandidate` for a gathered candidate, or null if it does not. */
export function candidateRefusal(candidate: Candidate): string | null;
/**
 * Returns the mDNS name that a candidate has in place of an address, as `3f2b8c1e.local`, to hide it, or null if it has none.
 *
 * `addRemoteCandidate` throws `BadCandidate` for it. Resolve the name by mDNS and put the address in its place by `lineWithAddress`, or
 * leave the candidate out: the agent discovers it as a peer-reflexive candidate, from the peer's checks.
 */
export function lineName(line: string): string | null;
/** Returns the text of a candidate with this IP address in place of its own, or of its mDNS name. Unknown extensions are left out. */
export function lineWithAddress(line: string, address: string): string;
/** Returns the fields of that candidate. */
export function lineFieldsWithAddress(line: string, address: string): CandidateFields;
/** Returns the text of a candidate with this username fragment in place of its own. */
export function lineWithUfrag(line: string, ufrag: string): string;
/** Returns the fields of that candidate. */
export function lineFieldsWithUfrag(line: string, ufrag: string): CandidateFields;
/** Returns the JSON in which browsers signal a candidate, the `RTCIceCandidateInit` of WebRTC. `sdpMid` is null and `sdpMLineIndex` 0. */
export function lineToJson(line: string): string;
/**
 * Returns the text of the candidate in such JSON, for `addRemoteCandidate`. A `usernameFragment` that is a string replaces that of the
 * candidate; other members are not read. The end of candidates, which has an empty `candidate`, is `BadCandidate`.
 */
export function lineFromJson(json: string): string;
/** Returns the fields of the candidate in such JSON. */
export function jsonFields(json: string): CandidateFields;
/** Returns why JSON is not a candidate, or null if it is one. */
export function jsonRefusal(json: string): string | null;
/**
 * Returns the default local preference of a candidate, gathered or a text, that comes after `sameKind` local ones of its kind and IP
 * version.
 */
export function defaultLocalPreference(candidate: Candidate | string, sameKind: number): number;
