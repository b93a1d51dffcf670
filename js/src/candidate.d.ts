import type { Protocol, SocketAddress } from "./address.js";

/** The kinds of candidates (RFC 8445, section 5.1.1), as `RTCIceCandidateType` has them. */
export type CandidateKind = "host" | "srflx" | "relay" | "prflx";
/** Which side opens the connection of a TCP candidate (RFC 6544, section 4.5). */
export type TcpType = "active" | "passive" | "so";

/** A candidate that the program gathered. Only a protocol over TCP has a `tcptype`. */
export interface Candidate {
  kind: "host" | "srflx" | "relay";
  address: SocketAddress;
  /** The local socket of a server-reflexive candidate, the local address of a relayed one. A host candidate has none. */
  base?: SocketAddress;
  protocol?: Protocol;
  tcptype?: TcpType | null;
}
export const Candidate: {
  /** Creates a host candidate: the address of a local socket. */
  host(address: SocketAddress, protocol?: Protocol, tcptype?: TcpType | null): Candidate;
  /** Creates a server-reflexive candidate: the address at which a STUN server saw the socket `base`. */
  serverReflexive(address: SocketAddress, base: SocketAddress, protocol?: Protocol, tcptype?: TcpType | null): Candidate;
  /** Creates a relayed candidate: the address that a TURN server allocated for the socket `local`. */
  relayed(address: SocketAddress, local: SocketAddress, protocol?: Protocol, tcptype?: TcpType | null): Candidate;
};

/** A candidate as the library reads it from a text, or lists it. */
export interface CandidateFields {
  /** The candidate attribute as the library prints it. */
  text: string;
  foundation: string;
  component: number;
  protocol: Protocol;
  priority: number;
  address: SocketAddress;
  kind: CandidateKind;
  /** Of the local socket: 0.0.0.0, port 0, if the candidate was signaled and is no host. */
  local: SocketAddress;
  /** The related address (raddr and rport). */
  related: SocketAddress | null;
  tcptype: TcpType | null;
  /** The username fragment. */
  ufrag: string | null;
}
