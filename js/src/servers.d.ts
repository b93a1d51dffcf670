import type { Bytes, Protocol, SocketAddress } from "./address.js";
import type { Transmit } from "./events.js";

/** What the URL of a server says. The host is a name, or an IP address without brackets. */
export interface ServerUrl {
  scheme: "stun" | "turn";
  protocol: "udp" | "tcp" | "tls";
  host: string;
  /** 3478, or with TLS 5349, if the URL has none. */
  port: number;
}
/**
 * Reads the URL of a server (RFC 7064, RFC 7065), as `turn:turn.example.org?transport=tcp`. `BadUrl` if it is none, or one of a server
 * over DTLS.
 */
export function serverUrl(text: string): ServerUrl;

/**
 * Returns how long the frame is with which a stream from a TURN server begins (RFC 8656, section 12.5), with its padding; null if fewer
 * than four bytes are there. `Unparsed`: it is neither a STUN message nor ChannelData. Close the connection.
 */
export function frameLength(start: Bytes): number | null;
/** The frames of one stream, however it was cut into chunks. */
export class Frames {
  /** Takes what arrived next, and returns the frames that are whole now. `Unparsed`: close the connection. */
  take(chunk: Bytes): Uint8Array[];
}

/** A datagram that arrived: at a socket, or at a relayed address, from the peer. */
export interface Datagram {
  source: SocketAddress;
  destination: SocketAddress;
  contents: Uint8Array;
}

interface OfServer {
  /** Over what the client reaches its server. TLS is `tcp`. */
  protocol: "udp" | "tcp";
  /** The client's socket or connection. */
  local: SocketAddress;
  /** Another one after a redirection. */
  server: SocketAddress;
}
/** What happened to a client. Codes are those of error responses. */
export type ServerEvent =
  /** A STUN server sees the socket at `mapped`: the address of a server-reflexive candidate. */
  | OfServer & { type: "serverMapped"; mapped: SocketAddress }
  /** A TURN server allocated `relayed`. `mapped` is where it sees a socket: of a connection it is null. */
  | OfServer & { type: "serverAllocated"; relayed: SocketAddress; mapped: SocketAddress | null }
  /** The server lets in no packets of this IP address. null: there was no response. */
  | OfServer & { type: "serverNotPermitted"; peer: string; code: number | null }
  /** The last event of a client. `unverified` is the code of a response that nobody signed, a hint for a log. 200: a success response. */
  | OfServer & { type: "serverEnded"; why: "failed" | "lost" | "closed"; code: number | null; unverified: number | null };
/** Returns the line of an event for a log. */
export function serverEventLine(event: ServerEvent): string;

/** What a TURN client requests. */
export interface TurnOptions {
  /** Without a USERNAME the client has no credentials. */
  username?: string;
  password?: string;
  /** Over what, by default `udp`. TLS is `tcp`. */
  protocol?: "udp" | "tcp";
  /** The IP version of the relayed address. By default it is not requested, and the server allocates one of IPv4. */
  family?: 0 | 4 | 6;
  /** How many permissions and channels there may be, together; by default 64. */
  places?: number;
}

/**
 * The clients of STUN and TURN servers of a program, without sockets and clocks. Pass each datagram of a socket, and each frame of a
 * connection, to `receive`, and each packet of the agent to `outgoing`. An `IceGatherer` does both.
 */
export class Servers {
  constructor();
  /** Frees the clients. The servers do not notice: see `close`. Every later call throws `NoServers`, except for another `free()`. */
  free(): void;
  [Symbol.dispose](): void;
  /** Whether `free()` was called. */
  readonly freed: boolean;
  /** Adds the client of a UDP socket at a STUN server. It requests the socket's server-reflexive address, and keeps the mapping. */
  addStun(now: number, local: SocketAddress, server: SocketAddress): void;
  /** Adds the client of a socket or connection at a TURN server, which requests an allocation. `CredentialsTooLong`. */
  addTurn(now: number, local: SocketAddress, server: SocketAddress, options?: TurnOptions): void;
  /** Takes any datagram of a socket, or frame of a connection (`tcp`). Returns what is for the agent, or media: as it is, or unwrapped. */
  receive(now: number, source: SocketAddress, destination: SocketAddress, contents: Bytes, protocol?: Protocol): Datagram | null;
  /** Returns how a packet of the agent, or media, goes out: as it is, or through a server. null: drop it. `seed`: 12 new bytes. */
  outgoing(now: number, source: SocketAddress, destination: SocketAddress, contents: Bytes, seed?: Bytes): Transmit | null;
  /** Asks each TURN server to let in packets of this peer. Call it for each remote candidate, and for all after `serverAllocated`. */
  permit(now: number, peer: SocketAddress): void;
  /** Has each TURN client ask its server whether it still has the allocation: after sleep, or if a path is lost. */
  probe(now: number): void;
  /** Frees all allocations, and ends each client. Go on until `pollTimeout` returns null. */
  close(now: number): void;
  /** A socket or connection is gone: its clients end at once. */
  lose(local: SocketAddress, protocol?: Protocol): void;
  /** Passes the current time to the client whose time comes first: one packet at most. `seed`: 12 new bytes, by default the system's. */
  handleTimeout(now: number, seed?: Bytes): void;
  /** Returns when to call `handleTimeout` next, or null. It changes nothing. */
  pollTimeout(): number | null;
  /**
   * Returns the next packet for a server, or null. One over `tcp` goes into the stream of the connection that is its source. If its
   * destination is another server, the client was redirected (RFC 8489, section 10): open a connection to that one for it, and close the
   * other. In all calls and events the address of the first one stands for it.
   */
  pollTransmit(): Transmit | null;
  /** Returns the next event, or null. */
  pollEvent(): ServerEvent | null;
  /** Whether a client waits for its first answer. */
  readonly isGathering: boolean;
}
