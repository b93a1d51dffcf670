// What the tests share: two agents, and packets that are handed over.
import { Candidate, IceAgent } from "is-ice";

export const host = (address, port = 5000) => Candidate.host({ address, port });
export const hex = (text) => Uint8Array.from(text.match(/../g), (byte) => parseInt(byte, 16));

/** Two agents that know each other's credentials and candidates; the first one is controlling. */
export function pair(...addresses) {
  const agents = [new IceAgent(), new IceAgent()];
  agents[0].setControlling(true);
  meet(agents);
  agents.forEach((agent, i) => {
    for (const address of addresses.length ? addresses : [`10.0.0.${i + 1}`]) {
      agents[1 - i].addRemoteCandidate(agent.addLocalCandidate(host(address, 5000 + i)));
    }
  });
  return agents;
}

export function meet(agents) {
  agents.forEach((agent, i) => agent.setRemoteCredentials(agents[1 - i].localCredentials));
}

/** Plays the time from one to the other, in steps of 50 ms. Returns the events of each agent. */
export function run(agents, from, until, passes = () => true) {
  const events = [[], []];
  for (let now = from; now < until; now += 50) {
    agents.forEach((agent, i) => {
      agent.handleTimeout(now);
      for (let it; (it = agent.pollTransmit()); ) {
        if (passes(i, it)) agents[1 - i].handlePacket(now, it.source, it.destination, it.contents);
      }
      for (let it; (it = agent.pollEvent()); ) events[i].push(it);
    });
  }
  return events;
}

export const closed = (agents) => agents.forEach((agent) => agent.close());
