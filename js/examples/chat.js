// A chat over UDP. Run it on two machines, paste the line `signal ..` of each into the other, and type.
//
// If the peer is lost, and it says why, if the network changes, and at /restart it makes an ICE restart: paste the new lines then.
// /quit ends it.
//
// usage: node chat.js controlling|controlled [-l] [-s URL].. [-t URL].. [-u USER] [-w PASSWORD]
//   -l   at 127.0.0.1 only
//   -s   a STUN server, as stun:stun.example.org
//   -t   a TURN server, as turn:turn.example.org or turns:turn.example.org:443, with this username and password
import readline from "node:readline";
import { addressText, IceAgent, init, newCreds, serverEventLine } from "is-ice";
import { hostAddresses, IceLoop } from "is-ice/node";

const SILENCE = 2; // seconds without a packet of the peer after which it says so
const PATIENCE = 5000; // how long servers are waited for, in milliseconds
const [role, ...options] = process.argv.slice(2);
if (!["controlling", "controlled"].includes(role)) {
  console.error("usage: node chat.js controlling|controlled [-l] [-s URL].. [-t URL].. [-u USER] [-w PASSWORD]");
  process.exit(2);
}
const isLocal = options.includes("-l"), valuesOf = (option) => options.filter((_, i) => options[i - 1] === option);
const urls = [...valuesOf("-t"), ...valuesOf("-s")], [username] = valuesOf("-u"), [credential] = valuesOf("-w");
await init();
const agent = new IceAgent(), loop = new IceLoop(agent, { iceServers: [{ urls, username, credential }] });
agent.setControlling(role === "controlling");
agent.setSettings({ consentTimeout: 5000, strictConsent: true }); // notice a loss after 5 s, not 30:
agent.setMaxStunRto(1000); // the path is checked each second
agent.setSilence(SILENCE * 1000);
let hosts = []; // the IP addresses of sockets
let waiting = null; // the timer after which servers are waited for no longer

/** Prints credentials and candidates, for the peer: of the sockets, and what servers brought. */
function announce() {
  clearTimeout(waiting);
  waiting = null;
  const { ufrag, pass } = agent.localCredentials;
  const lines = agent.localFields().filter(({ kind }) => kind !== "prflx").map(({ text }) => text);
  console.log("signal", ufrag, pass, lines.join(","));
}

/** Announces the session once the servers have answered, or after PATIENCE. */
function announceSoon() {
  clearTimeout(waiting);
  waiting = setTimeout(announce, PATIENCE);
}

/** Begins a session with new credentials. Relayed addresses stay. */
function restart() {
  agent.iceRestart(newCreds(), true);
  if (loop.gatherer.isGathering) announceSoon();
  else announce();
}

/** Takes the peer's signal, /restart or chat. */
function take(line) {
  if (line.startsWith("signal ")) {
    const [, ufrag, pass, lines] = /^signal (\S+) (\S+) (\S.*)$/.exec(line) ?? [];
    if (!lines) throw new Error("a part of that line is missing");
    const known = agent.remoteCredentials;
    if (known && known.ufrag !== ufrag) restart(); // the peer did
    agent.setRemoteCredentials({ ufrag, pass });
    for (const candidate of lines.split(",")) loop.addRemoteCandidate(candidate);
  } else if (line === "/restart") {
    restart();
  } else if (!loop.send(line)) {
    throw new Error("there is no path");
  }
  loop.wake();
}

loop.on("media", (data, source) => {
  if (agent.takesMediaFrom(loop.now(), source)) console.log("heard", String(data).replace(/[\0-\x1f]/g, "?"));
});
loop.on("nominatedSend", ({ source, destination }) => console.log("path", addressText(source), "->", addressText(destination)));
loop.on("silent", () => console.log(`silent no packet for ${SILENCE} s`));
loop.on("heard", () => console.log("again a packet came"));
loop.on("gatheringComplete", () => waiting && announce());
for (const name of ["serverMapped", "serverAllocated", "serverNotPermitted", "serverEnded"]) {
  loop.on(name, (event) => console.log(serverEventLine(event)));
}
loop.on("serverUnreached", (error, { url }) => console.log(`error ${url}: ${error.message}`));
loop.on("sendFailed", (error, source, destination) => {
  const failed = agent.failedSends.find(({ path }) => addressText(path.destination) === addressText(destination));
  if (failed?.times === 1) console.log(`error not sent to ${addressText(destination)}: ${error.message}`);
});
loop.on("iceConnectionStateChange", ({ state }) => {
  const { bindSuccessRecv, bindRequestSent, nominationSendCount } = agent.stats;
  console.log(`state ${state[0].toUpperCase()}${state.slice(1)}: ${bindSuccessRecv} of ${bindRequestSent} checks answered`);
  if (state !== "disconnected") return;
  for (const pair of agent.removedPairs()) console.log("removed", String(pair)); // those since the last restart
  loop.gatherer.probe(loop.now()); // do the servers still have the relayed addresses?
  if (nominationSendCount > 0) restart(); // before the first path the peer may not have this side's line yet
});

/** Looks at the machine's addresses, and opens sockets if there are others. */
async function watch() {
  const ips = isLocal ? ["127.0.0.1"] : hostAddresses();
  if (ips.length === 0 || String(ips) === String(hosts)) return;
  agent.iceRestart(newCreds(), true); // without the sockets that go, the old session would be lost
  for (const ip of hosts) loop.unbind(ip);
  hosts = ips;
  announceSoon();
  for (const local of await Promise.all(ips.map((ip) => loop.open(ip)))) loop.addSocket(local); // "gatheringComplete" follows
  loop.begin();
}

await watch();
const watching = setInterval(() => watch().catch((why) => console.log("error", why.message)), 2000);
for await (const line of readline.createInterface({ input: process.stdin })) {
  if (line === "/quit") break;
  try {
    take(line);
  } catch (why) {
    console.log("error", why.message); // the agent is as it was
  }
}
clearInterval(watching);
clearTimeout(waiting);
await loop.leave();
agent.close();
process.stdin.destroy();
