/** The agent over sockets of Node. */
import type { EventEmitter } from "node:events";
import type {
  AddResult, GatheringEvent, IceAgent, IceAgentEvent, IceError, IceGatherer, IceServer, Server, SocketAddress,
} from "./index.js";

/** Returns the IP addresses of this machine's interfaces that host candidates should have. */
export function hostAddresses(): string[];

type EventOf<Type> = Extract<IceAgentEvent | GatheringEvent, { type: Type }>;
/** The events of a loop, with the arguments of their handlers. */
export interface IceLoopEvents {
  iceRestart: [event: EventOf<"iceRestart">];
  iceConnectionStateChange: [event: EventOf<"iceConnectionStateChange">];
  discoveredRecv: [event: EventOf<"discoveredRecv">];
  nominatedSend: [event: EventOf<"nominatedSend">];
  silent: [event: EventOf<"silent">];
  heard: [event: EventOf<"heard">];
  /** A candidate that a server brought: signal it to the peer. */
  localCandidate: [event: EventOf<"localCandidate">];
  /** No server is waited for any more. */
  gatheringComplete: [event: EventOf<"gatheringComplete">];
  serverMapped: [event: EventOf<"serverMapped">];
  serverAllocated: [event: EventOf<"serverAllocated">];
  serverNotPermitted: [event: EventOf<"serverNotPermitted">];
  serverEnded: [event: EventOf<"serverEnded">];
  /** The name of a server was not resolved, or no connection to it was opened. */
  serverUnreached: [error: Error, server: Server];
  /** A datagram that is not a STUN message. Anybody may have sent it: authenticate it, as DTLS does. */
  media: [data: Uint8Array, source: SocketAddress, local: SocketAddress];
  /** A STUN message that is not for the agent, as the response of a STUN server. */
  stun: [data: Uint8Array, source: SocketAddress, local: SocketAddress];
  /** The system did not send a datagram. It is lost, as in the network. */
  sendFailed: [error: Error, source: SocketAddress, destination: SocketAddress];
  /** The module stopped: the loop is closed, and the agent lost. */
  error: [error: IceError];
}

type Handlers = { [Name in keyof IceLoopEvents]: (...values: IceLoopEvents[Name]) => void };

/** What a loop may be given. */
export interface IceLoopOptions {
  /** STUN and TURN servers, as browsers have them. */
  iceServers?: IceServer[];
  /** Options of `tls.connect` of Node, for servers over TLS: as `ca`. */
  tls?: object;
}

/** An agent, its UDP sockets, its connections to TURN servers and its timers. It emits the agent's events, as an EventEmitter does. */
export class IceLoop extends EventEmitter {
  constructor(agent: IceAgent, options?: IceLoopOptions);
  readonly agent: IceAgent;
  readonly gatherer: IceGatherer;
  /** Returns the current time for the agent. */
  now(): number;
  /** Binds a socket at a local address and returns that address, with the port. No candidate is added. */
  open(address: string, port?: number): Promise<SocketAddress>;
  /** Binds a socket, adds its address as a host candidate, and returns that for signaling, or null if it is redundant. */
  bind(address: string, port?: number): Promise<string | null>;
  /** Adds the local address of an open socket as a host candidate, and returns that for signaling, or null if it is redundant. */
  addSocket(local: SocketAddress): string | null;
  /** Closes the sockets at a local IP address, with their candidates, and the connections from it. */
  unbind(address: string): void;
  /** Adds a candidate of the peer, as `IceAgent.addRemoteCandidate`, and has the TURN servers let in its packets. */
  addRemoteCandidate(line: string): AddResult;
  /** Starts the session: calls `handleTimeout` now, and whenever the agent says. */
  begin(): void;
  /** Sends packets, emits events and sets the timer. Call it after each call of yours that changes the agent. */
  wake(): void;
  /** Sends media to the peer. Returns false if there is no path yet. */
  send(data: Uint8Array | string): boolean;
  /** Sends a datagram from the socket at a local address, or from a relayed address. Returns false if there is neither. */
  sendFrom(source: SocketAddress, destination: SocketAddress, data: Uint8Array | string): boolean;
  /** Takes a datagram that arrived at a local address. The loop's own sockets call it themselves. */
  receive(source: SocketAddress, local: SocketAddress, data: Uint8Array): void;
  /** Frees relayed addresses, which takes a round trip, and closes the loop. */
  leave(): Promise<void>;
  /** Closes the sockets and stops the timers. The agent stays. */
  close(): void;
  on<Name extends keyof IceLoopEvents>(name: Name, handler: Handlers[Name]): this;
  once<Name extends keyof IceLoopEvents>(name: Name, handler: Handlers[Name]): this;
  off<Name extends keyof IceLoopEvents>(name: Name, handler: Handlers[Name]): this;
}
