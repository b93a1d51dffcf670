// An agent with the clients of its sockets at STUN and TURN servers, without sockets and clocks.
import { addressText } from "./address.js";
import { Candidate } from "./candidate.js";
import { IceError } from "./errors.js";
import { lineFields } from "./lines.js";
import { serverUrl, Servers } from "./servers.js";
import { isStun } from "./stun.js";

const IP = /^[\d.]+$|:/; // a host that is an address: a name has no colon, and its last label is no number

/** The servers of `iceServers`, one for each URL. TURN servers come first: such a client reports a mapping, too. STUN over TLS is left out:
 *  it maps a connection, and no socket of the agent. */
function serversOf(iceServers) {
  const all = iceServers.flatMap(({ urls, username = "", credential = "" }) =>
    [urls].flat().map((url) => Object.freeze({ url, ...serverUrl(url), username, credential })));
  const used = all.filter(({ scheme, protocol }) => scheme === "turn" || protocol === "udp");
  return [...used.filter(({ scheme }) => scheme === "turn"), ...used.filter(({ scheme }) => scheme === "stun")];
}

const isV6 = ({ address }) => address.includes(":");
const clientOf = ({ protocol, local, server }) => `${protocol} ${addressText(local)} ${addressText(server)}`;
const isAlike = (one, other) => one.kind === other.kind && addressText(one.address) === addressText(other.address)
  && addressText(one.base) === addressText(other.base);

/**
 * An agent that gathers candidates from STUN and TURN servers, and reaches its peer through the latter, in the agent's own calls.
 *
 * The program opens sockets and adds them by addSocket. A client of each socket starts at each server over UDP whose host is an IP address;
 * `toReach` has the other servers. What servers bring is added to the agent, and is an event of pollEvent: "localCandidate".
 */
export class IceGatherer {
  #agent;
  #clients = null; // made with the first server
  #sockets = [];
  #atUdp = []; // the servers over UDP whose address is known: { server, address }
  #toReach = [];
  #connections = new Map(); // the servers of connections
  #started = new Set(); // clients and their schemes
  #found = []; // the candidates that servers brought: { client, candidate }
  #events = [];
  #hasBegun = false;
  #hasTold = true;
  #isClosing = false;

  constructor(agent, iceServers = []) {
    this.#agent = agent;
    const servers = serversOf(iceServers);
    if (servers.length) this.#clients = new Servers();
    for (const server of servers) {
      if (server.protocol !== "udp" || !IP.test(server.host)) this.#toReach.push(server);
      else this.#atUdp.push({ server, address: { address: server.host, port: server.port } });
    }
  }

  get agent() {
    return this.#agent;
  }

  /** The clients, or null if there are no servers. */
  get clients() {
    return this.#clients;
  }

  // ---- sockets and servers

  /** Adds a UDP socket, and starts its clients. Returns its host candidate for signaling, or null if that is redundant. */
  addSocket(now, local) {
    const line = this.#agent.addLocalCandidate(Candidate.host(local));
    if (!this.#sockets.some((socket) => addressText(socket) === addressText(local))) this.#sockets.push(local);
    for (const { server, address } of this.#atUdp) this.#start(now, server, local, address);
    this.#hasTold = false;
    return line;
  }

  /** Removes a socket with its candidates and clients: before it is closed. */
  removeSocket(now, local) {
    this.#sockets = this.#sockets.filter((socket) => addressText(socket) !== addressText(local));
    this.#clients?.lose(local);
    this.#takeEvents(now);
    this.#agent.invalidateCandidate(Candidate.host(local));
  }

  /** The servers that the program is to resolve (udp), or to connect to (tcp, tls). */
  get toReach() {
    return [...this.#toReach];
  }

  /** Adds an address of a server over UDP, to which its name resolves. */
  addServer(now, server, ip) {
    const address = { address: ip, port: server.port };
    this.#atUdp.push({ server, address });
    for (const local of this.#sockets) this.#start(now, server, local, address);
    this.#hasTold = false;
  }

  /** Adds a connection to a server over TCP or TLS, by its addresses at both ends. */
  addConnection(now, server, local, remote) {
    this.#start(now, server, local, remote);
    this.#connections.set(addressText(local), server);
    this.#hasTold = false;
  }

  /** No more addresses and connections of this server come. */
  reached(server) {
    this.#toReach = this.#toReach.filter((other) => other !== server);
  }

  /** A connection broke: its client ends, and its candidate is invalidated. Its server is to be reached again. */
  loseConnection(now, local) {
    const name = addressText(local), server = this.#connections.get(name);
    this.#clients.lose(local, "tcp");
    if (this.#connections.delete(name)) this.#toReach.push(server);
    this.#hasTold = false;
    this.#takeEvents(now);
  }

  /** Starts a client, unless it runs, or is of another IP version. A TURN server says where it sees a socket, too. */
  #start(now, { scheme, protocol, username, credential: password }, local, address) {
    const over = protocol === "udp" ? "udp" : "tcp", client = clientOf({ protocol: over, local, server: address });
    const runs = (scheme) => this.#started.has(`${scheme} ${client}`);
    if (isV6(local) !== isV6(address) || runs(scheme) || runs("turn")) return;
    const family = isV6(local) ? 6 : 0; // without one a server allocates an IPv4 address
    if (scheme === "stun") this.#clients.addStun(now, local, address);
    else this.#clients.addTurn(now, local, address, { username, password, protocol: over, family });
    this.#started.add(`${scheme} ${client}`);
  }

  // ---- the calls of the agent

  /** Adds a candidate of the peer, and has the TURN servers let in its packets. */
  addRemoteCandidate(now, line) {
    const result = this.#agent.addRemoteCandidate(line);
    if (result === "added" || result === "known") this.#clients?.permit(now, lineFields(line).address);
    return result;
  }

  /** Takes a datagram of a socket, or a frame of a connection (tcp). Returns it if it is media, unwrapped; else null. */
  handlePacket(now, source, destination, contents, protocol = "udp") {
    const told = this.receive(now, source, destination, contents, protocol);
    if (told === null || !isStun(told.contents)) return told;
    try {
      this.#agent.handlePacket(now, told.source, told.destination, told.contents);
    } catch (error) {
      if (!(error instanceof IceError && error.code === "Unparsed")) throw error;
    }
    return null;
  }

  /** The first half of handlePacket: returns what is for the agent, or media. null: it was a client's. */
  receive(now, source, destination, contents, protocol = "udp") {
    if (!this.#clients) return { source, destination, contents };
    const told = this.#clients.receive(now, source, destination, contents, protocol);
    if (told === null) this.#takeEvents(now);
    const isForNobody = told !== null && protocol !== "udp" && addressText(told.destination) === addressText(destination);
    return isForNobody ? null : told; // a connection has no other frames than its client's
  }

  /** Returns how media goes out from a socket or a relayed address, or null: drop it. */
  outgoing(now, source, destination, contents) {
    return this.#clients ? this.#clients.outgoing(now, source, destination, contents) : { protocol: "udp", source, destination, contents };
  }

  /** Passes the current time to the agent, if its time has come, and to the clients. The first call starts the session. */
  handleTimeout(now, seed = undefined) {
    const due = this.#agent.pollTimeout();
    if (!this.#hasBegun || (due !== null && due <= now)) {
      this.#agent.handleTimeout(now, seed);
      this.#hasBegun = true;
    }
    this.handleClientsTimeout(now);
  }

  /** Passes the current time to each client whose time has come, for a loop that keeps the agent's time itself. */
  handleClientsTimeout(now) {
    for (let left = this.#started.size; left > 0; left--) { // a call serves one client
      const due = this.#clients.pollTimeout();
      if (due === null || due > now) break;
      this.#clients.handleTimeout(now);
    }
    this.#takeEvents(now);
  }

  /** Returns when to call handleTimeout next, or null. It changes nothing. */
  pollTimeout() {
    const dues = [this.#agent.pollTimeout(), this.#clients?.pollTimeout() ?? null].filter((due) => due !== null);
    return dues.length ? Math.min(...dues) : null;
  }

  /** Returns the next packet to send, of the agent or of a client, or null. */
  pollTransmit(now) {
    for (let it; (it = this.#agent.pollTransmit()); ) {
      const sent = this.outgoing(now, it.source, it.destination, it.contents);
      if (sent) return sent;
    }
    return this.#clients?.pollTransmit() ?? null;
  }

  /** Returns the next event, of gathering or of the agent, or null. */
  pollEvent() {
    return this.pollGatheringEvent() ?? this.#agent.pollEvent();
  }

  /** Returns the next event of gathering, or null, for a loop that polls the agent's events itself. */
  pollGatheringEvent() {
    if (this.#events.length) return this.#events.shift();
    if (this.#hasTold || this.isGathering) return null;
    this.#hasTold = true;
    return { type: "gatheringComplete" };
  }

  /** Whether a server is waited for. */
  get isGathering() {
    return this.#toReach.length > 0 || (this.#clients?.isGathering ?? false);
  }

  // ---- the end

  /** Has each client ask its server whether it still has the allocation. */
  probe(now) {
    this.#clients?.probe(now);
  }

  /** Has each client free its allocation. Go on with the loop until isOver, for a second at most. */
  close(now) {
    this.#isClosing = true;
    this.#clients?.close(now);
    this.#takeEvents(now);
  }

  /** Whether each client has ended. */
  get isOver() {
    return !this.#clients || this.#clients.pollTimeout() === null;
  }

  // ---- events of clients

  #takeEvents(now) {
    for (let event; (event = this.#clients?.pollEvent() ?? null); ) {
      const client = clientOf(event);
      this.#events.push(event);
      if (event.type === "serverMapped") this.#discard(client); // another address than before
      if (event.relayed) this.#add(client, Candidate.relayed(event.relayed, event.local));
      if (event.mapped) this.#add(client, Candidate.serverReflexive(event.mapped, event.local));
      if (event.type === "serverAllocated") this.#permitAll(now);
      if (event.type === "serverEnded") this.#end(client);
    }
  }

  /** Adds what a server brought. A candidate that the agent does not take is left out: a server may say anything. */
  #add(client, candidate) {
    if (this.#isClosing) return;
    try {
      const line = this.#agent.addLocalCandidate(candidate);
      this.#found.push({ client, candidate });
      if (line !== null) this.#events.push({ type: "localCandidate", line });
    } catch (error) {
      if (!(error instanceof IceError) || error.code === "Trapped") throw error;
    }
  }

  #permitAll(now) {
    if (this.#agent.closed) return;
    for (const { address } of this.#agent.remoteFields()) this.#clients.permit(now, address);
  }

  #end(client) {
    for (const scheme of ["stun", "turn"]) this.#started.delete(`${scheme} ${client}`);
    this.#discard(client);
  }

  /** Invalidates what a client found, unless another one found it too. */
  #discard(client) {
    const gone = this.#found.filter((found) => found.client === client);
    this.#found = this.#found.filter((found) => found.client !== client);
    for (const { candidate } of this.#agent.closed ? [] : gone) {
      if (!this.#found.some((other) => isAlike(other.candidate, candidate))) this.#agent.invalidateCandidate(candidate);
    }
  }
}
