// Compiles under `tsc --strict`: the types fit a caller's program.
import {
  addressText, bindingRequest, bindingResponse, Candidate, Frames, IceAgent, IceError, IceGatherer, init, lineFields, modernSettings,
  newTransaction, readMessage, serverEventLine, Servers, serverUrl, writeMessage,
  type AgentSettings, type CandidatePair, type Datagram, type FailedSend, type GatheringEvent, type IceAgentEvent,
  type IceConnectionState, type IceServer, type MediaPath, type Server, type ServerEvent, type SocketAddress, type Transmit,
} from "is-ice";
import { IceLoop } from "is-ice/node";

await init(new URL("https://example.org/is_ice.wasm"));
const agent = new IceAgent(undefined, 7n);
const settings: AgentSettings = modernSettings();
agent.setSettings({ ...settings, consentTimeout: 5000 });
agent.setSettings({ strictConsent: true });
// @ts-expect-error: no such setting
agent.setSettings({ strict: true });
const line: string | null = agent.addLocalCandidate(Candidate.host({ address: "2001:db8::1", port: 1 }));
agent.handleTimeout(performance.now());
const at: number | null = agent.pollTimeout();
for (let it: Transmit | null; (it = agent.pollTransmit()); ) console.log(it.contents.length, it.destination.port);
for (let it: IceAgentEvent | null; (it = agent.pollEvent()); ) {
  if (it.type === "nominatedSend") console.log(addressText(it.source));
  // @ts-expect-error: only some events have a source
  else console.log(it.source);
}
const pair: CandidatePair | undefined = agent.pairs[0];
const priority: bigint | undefined = pair?.priority, state: IceConnectionState = agent.state;
try {
  agent.handlePacket(0, { address: "10.0.0.1", port: 1 }, { address: "10.0.0.2", port: 1 }, new Uint8Array(20), "udp");
} catch (error) {
  if (error instanceof IceError && error.code === "Unparsed") console.log("media");
}
const id = newTransaction(), response = bindingResponse(id, bindingRequest(id));
const mapped: SocketAddress | undefined = response?.mapped;
const message = readMessage(writeMessage({ method: "binding", class: "request", transaction: id, username: "a:b" }, "password"));
console.log(line, at, priority, state, mapped, message.username?.length, lineFields("candidate:..").related?.port);
agent.removedPairs().map(String);
agent[Symbol.dispose]();

const loop = new IceLoop(agent);
loop.on("silent", ({ destination }) => console.log(destination.port, loop.agent.silentSince?.toFixed()));
loop.on("sendFailed", (error, source, destination) => console.log(error.message, source.port, destination.port));
const path: MediaPath | null = agent.pathForMedia(loop.now()), taken: boolean = agent.takesMediaFrom(0, { address: "10.0.0.1", port: 1 });
console.log(path?.source.port, taken, agent.failedSends.map(({ reason }: FailedSend) => reason));
loop.on("nominatedSend", ({ source }) => console.log(source.port)).on("media", (data) => console.log(data.length));
const bound: string | null = await loop.bind("127.0.0.1");
console.log(bound, loop.send("hello"));

const iceServers: IceServer[] = [{ urls: ["turn:turn.example.org", "turns:turn.example.org"], username: "user", credential: "pass" }];
const gatherer = new IceGatherer(agent, iceServers), at0: SocketAddress = { address: "10.0.0.1", port: 5000 };
const fromBrowser: RTCIceServer[] = [{ urls: "stun:stun.example.org" }]; // those of browsers fit
new IceLoop(agent, { iceServers: fromBrowser, tls: { ca: "" } }).on("localCandidate", ({ line }) => console.log(line));
console.log(gatherer.addSocket(0, at0), gatherer.toReach.map(({ host, protocol }: Server) => `${host} ${protocol}`));
for (let it: IceAgentEvent | GatheringEvent | null; (it = gatherer.pollEvent()); ) {
  if (it.type === "serverAllocated") console.log(addressText(it.relayed), it.mapped?.port, serverEventLine(it));
  if (it.type === "serverEnded") console.log(it.why, it.code?.toFixed());
}
const media: Datagram | null = gatherer.handlePacket(0, at0, at0, new Frames().take(new Uint8Array(20))[0] ?? new Uint8Array(), "tcp");
const clients = new Servers(), told: ServerEvent | null = clients.pollEvent();
clients.addTurn(0, at0, { address: "192.0.2.1", port: serverUrl("turn:192.0.2.1").port }, { username: "user", family: 6 });
console.log(media?.contents.length, told?.local.port, clients.isGathering, clients.outgoing(0, at0, at0, new Uint8Array())?.protocol);
clients[Symbol.dispose]();
