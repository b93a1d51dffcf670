// Plays the sessions of targets/tests/transcript.c with the module, and prints a hash of what that program prints of each: of every packet,
// event, timeout and verdict, and of what both agents say of themselves at the end.
//
// usage: node js/tests/transcript.js SESSIONS      IS_ICE_WASM names another module than js/src/is_ice.wasm
import { createHash } from "node:crypto";
import { readFileSync } from "node:fs";
import { Candidate, IceAgent, init } from "is-ice";
import { ADDED, CHECK_STATES, EVENTS, PROTOCOLS, REMOVALS, STATES } from "../src/words.js";

const LETTERS = "ABCDEFGHIJKLMNOPQRSTUVWXYZabcdefghijklmnopqrstuvwxyz0123456789+/";
const TURNS = 120;
let seed = 1;

/** The next pseudorandom number below n. */
function draw(n) {
  seed = Number((BigInt(seed) * 1103515245n + 12345n) & 0x7fffffffn);
  return (seed >> 8) % n;
}

const word = (n) => Array.from({ length: n }, () => LETTERS[draw(64)]).join("");
const hex = (bytes) => Buffer.from(bytes).toString("hex");
const ns = (ms) => (ms === null ? "none" : BigInt(Math.round(ms * 1e6)));
const flag = (value) => (value ? 1 : 0);
// An address as the program in C prints it.
const text = ({ address, port }) => `${address}:${port}`;
const path = ({ source, destination }) => `${text(source)} ${text(destination)}`;

function eventText(it) {
  switch (it.type) {
    case "iceRestart": return `1 ${it.creds.ufrag} ${it.creds.pass}`;
    case "iceConnectionStateChange": return `2 ${STATES.indexOf(it.state)}`;
    case "discoveredRecv": return `3 ${PROTOCOLS.indexOf(it.protocol)} ${text(it.source)}`;
    default: return `${EVENTS.indexOf(it.type)} ${PROTOCOLS.indexOf(it.protocol)} ${path(it)}`;
  }
}

/** Both agents with credentials, roles and candidates. */
function begin(say) {
  const agents = [0, 1].map(() => new IceAgent({ ufrag: word(8), pass: word(24) }, draw(1 << 20)));
  agents[0].setControlling(draw(5) > 0);
  agents[1].setControlling(draw(5) === 0);
  agents.forEach((agent, i) => {
    agent.setRemoteCredentials(agents[1 - i].localCredentials);
    const count = 1 + draw(3);
    for (let k = 0; k < count; k++) {
      const address = draw(2) ? `10.0.${i}.${k + 1}` : `2001:db8::${i + 1}:${k + 1}`;
      const line = agent.addLocalCandidate(Candidate.host({ address, port: 5000 + draw(3) }));
      say(line ?? "none");
      if (line) say(ADDED.indexOf(agents[1 - i].addRemoteCandidate(line)));
    }
  });
  return agents;
}

/** What an agent sends is lost, delayed, or also delivered with one bit changed. */
function sent(agent, i, now, loss, flying, say) {
  for (let it; (it = agent.pollTransmit()); ) {
    say(`${i} ${path(it)} ${hex(it.contents)}`);
    if (draw(100) < loss) continue;
    flying.push([now + draw(150), i, it, it.contents]);
    if (draw(20)) continue;
    const changed = it.contents.slice(), where = draw(changed.length);
    changed[where] ^= 1 << draw(8);
    flying.push([now + draw(150), i, it, changed]);
  }
}

function received(agents, now, flying, say) {
  for (const [, i, it, contents] of flying.filter(([at]) => at <= now)) {
    try {
      say(agents[1 - i].handlePacket(now, it.source, it.destination, contents));
    } catch (error) {
      say(error.code);
    }
  }
  return flying.filter(([at]) => at > now);
}

/** What an agent says of itself at the end. */
function end(agent, say) {
  const { state, pairs, nominatedPair: selected, stats, earlyRequests } = agent;
  say([STATES.indexOf(state), ...Object.values(stats), earlyRequests].join(" "));
  for (const line of [...agent.localCandidates(), ...agent.remoteCandidates()]) say(line);
  for (const it of pairs) {
    say([it.local, it.remote, CHECK_STATES.indexOf(it.state), flag(it.nominated), flag(it.selected), it.priority, it.checksSent,
      it.requestsReceived, it.responses, ns(it.totalRtt), ns(it.rtt), ns(it.lastRequest), ns(it.due)].join(" "));
  }
  for (const it of agent.removedPairs()) {
    const known = it.path ? [path(it.path)] : [];
    const words = [CHECK_STATES.indexOf(it.state), REMOVALS.indexOf(it.reason), it.error ?? 0];
    say([...known, ...words, it.priority, it.checksSent, it.responses].join(" "));
  }
  if (selected) say([path(selected), selected.responses, ns(selected.totalRtt), ns(selected.rtt)].join(" "));
  agent.close();
}

function session(say) {
  const agents = begin(say), loss = draw(60);
  let flying = [], now = 0;
  for (let turn = 0; turn < TURNS; turn++) {
    now += 5 + draw(60);
    if (draw(40) === 0) now += 3000;
    agents.forEach((agent, i) => {
      agent.handleTimeout(now, Uint8Array.from({ length: 12 }, () => draw(256)));
      say(` ${ns(agent.pollTimeout())}`);
      sent(agent, i, now, loss, flying, say);
      for (let it; (it = agent.pollEvent()); ) say(`${i} ${eventText(it)}`);
    });
    flying = received(agents, now, flying, say);
    for (const agent of agents) say(` ${ns(agent.pollTimeout())}`);
  }
  for (const agent of agents) end(agent, say);
}

const module = process.env.IS_ICE_WASM;
await init(module ? readFileSync(module) : undefined);
for (let number = 0; number < Number(process.argv[2]); number++) {
  const told = createHash("sha256");
  session((line) => told.update(`${line}\n`));
  console.log(number, told.digest("hex").slice(0, 32));
}
