import type { Bytes, Protocol, SocketAddress } from "./address.js";
import type { IceAgent } from "./agent.js";
import type { AddResult, IceAgentEvent, Transmit } from "./events.js";
import type { Datagram, ServerEvent, Servers, ServerUrl } from "./servers.js";

/** One of the `iceServers` of browsers: an `RTCIceServer`. */
export interface IceServer {
  urls: string | string[];
  username?: string;
  credential?: string;
}

/** One URL of an `IceServer`, with its credentials. */
export interface Server extends Readonly<ServerUrl> {
  readonly url: string;
  readonly username: string;
  readonly credential: string;
}

/** What happens while candidates are gathered. */
export type GatheringEvent =
  | ServerEvent
  /** A candidate that a server brought was added: signal it to the peer. */
  | { type: "localCandidate"; line: string }
  /** No server is waited for any more. Another one follows if sockets or servers are added. */
  | { type: "gatheringComplete" };

/**
 * An agent that gathers candidates from STUN and TURN servers, and reaches its peer through the latter, in the agent's own calls; `agent`
 * is there for all others. It has no sockets and clocks: `IceLoop` of `is-ice/node` has both.
 *
 * The program opens sockets and adds them by `addSocket`. A client of each socket starts at each server over UDP whose host is an IP
 * address. `toReach` has the other servers: the program resolves the name of one over UDP and calls `addServer`, connects to one over TCP
 * or TLS and calls `addConnection`, and then calls `reached`. Its agent has the profile `modern`.
 */
export class IceGatherer {
  /** `BadUrl` for a URL that is not one of a server. */
  constructor(agent: IceAgent, iceServers?: IceServer[]);
  readonly agent: IceAgent;
  /** The clients, or null if there are no servers. */
  readonly clients: Servers | null;

  /** Adds a UDP socket, and starts its clients. Returns its host candidate for signaling, or null if that is redundant. */
  addSocket(now: number, local: SocketAddress): string | null;
  /** Removes a socket with its candidates and clients: call it before the socket is closed. */
  removeSocket(now: number, local: SocketAddress): void;
  /** The servers that the program is to resolve, over `udp`, or to connect to, over `tcp` and `tls`. */
  readonly toReach: Server[];
  /** Adds an address of a server over UDP, to which its name resolves. */
  addServer(now: number, server: Server, ip: string): void;
  /** Adds a connection to a server over TCP or TLS, by its addresses at both ends. What arrives goes to `handlePacket` by `Frames`. */
  addConnection(now: number, server: Server, local: SocketAddress, remote: SocketAddress): void;
  /** Says that no more addresses and connections of this server come. */
  reached(server: Server): void;
  /** Says that a connection broke: its client ends, and its candidate is invalidated. Its server is in `toReach` again. */
  loseConnection(now: number, local: SocketAddress): void;

  /** Adds a candidate of the peer, as `IceAgent.addRemoteCandidate`, and has the TURN servers let in its packets. */
  addRemoteCandidate(now: number, line: string): AddResult;
  /**
   * Takes a datagram of a socket, or a frame of a connection (`tcp`). Returns it if it is media: with the peer as its source, and the
   * socket or the relayed address as its destination. null: it was a client's or the agent's, or is for nobody.
   */
  handlePacket(now: number, source: SocketAddress, destination: SocketAddress, contents: Uint8Array, protocol?: Protocol): Datagram | null;
  /** The first half of `handlePacket`: returns what is for the agent, or media. null: it was a client's. */
  receive(now: number, source: SocketAddress, destination: SocketAddress, contents: Uint8Array, protocol?: Protocol): Datagram | null;
  /** Returns how media goes out from a socket or a relayed address, or null: drop it. One over `tcp` goes into the stream of its source. */
  outgoing(now: number, source: SocketAddress, destination: SocketAddress, contents: Uint8Array): Transmit | null;
  /** Passes the current time to the agent, if its time has come, and to the clients. The first call starts the session. */
  handleTimeout(now: number, seed?: Bytes): void;
  /** Passes the current time to each client whose time has come, for a loop that keeps the agent's time itself. */
  handleClientsTimeout(now: number): void;
  /** Returns when to call `handleTimeout` next, or null. It changes nothing. */
  pollTimeout(): number | null;
  /** Returns the next packet to send, of the agent or of a client, or null. */
  pollTransmit(now: number): Transmit | null;
  /** Returns the next event, of gathering or of the agent, or null. */
  pollEvent(): IceAgentEvent | GatheringEvent | null;
  /** Returns the next event of gathering, or null, for a loop that polls the agent's events itself. */
  pollGatheringEvent(): GatheringEvent | null;
  /** Whether a server is waited for. */
  readonly isGathering: boolean;
  /** Has each client ask its server whether it still has the allocation: after sleep, or if a path is lost. */
  probe(now: number): void;
  /** Has each client free its allocation. Go on with the loop until `isOver`, for a second at most. */
  close(now: number): void;
  /** Whether each client has ended. */
  readonly isOver: boolean;
}
