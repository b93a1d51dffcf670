// Two ICE agents in one process find a path. No sockets: packets are handed over.
import { addressText, Candidate, IceAgent, init } from "is-ice";

await init();                                              // loads the module, once
const alice = new IceAgent(), bob = new IceAgent();
alice.setControlling(true);                                // the side that made the offer
alice.setRemoteCredentials(bob.localCredentials);          // signaling: credentials first
bob.setRemoteCredentials(alice.localCredentials);
for (const [agent, other, address] of [[alice, bob, "10.0.0.1"], [bob, alice, "10.0.0.2"]]) {
  const line = agent.addLocalCandidate(Candidate.host({ address, port: 5000 }));
  other.addRemoteCandidate(line);                          // signaling: then each candidate
}

const paths = new Map();
for (let now = 0; paths.size < 2; now += 50) {             // times are milliseconds
  for (const [agent, other] of [[alice, bob], [bob, alice]]) {
    agent.handleTimeout(now);
    for (let it; (it = agent.pollTransmit()); ) other.handlePacket(now, it.source, it.destination, it.contents);
    for (let it; (it = agent.pollEvent()); ) {
      if (it.type === "nominatedSend") paths.set(agent, `${addressText(it.source)} -> ${addressText(it.destination)}`);
    }
  }
}
console.log(paths.get(alice), "|", paths.get(bob));
