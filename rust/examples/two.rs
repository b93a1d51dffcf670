//! Two ICE agents in one process find a path. No sockets: packets are handed over.

use is::stun::{StunMessage, StunPacket};
use is::{Candidate, IceAgent, IceAgentEvent, IceCreds};
use std::time::{Duration, Instant};

fn main() -> Result<(), Box<dyn std::error::Error>> {
    let creds = [IceCreds::new(), IceCreds::new()];
    let mut agents = creds.clone().map(IceAgent::new);
    agents[0].set_controlling(true); // the side that made the offer
    for (agent, peer) in agents.iter_mut().zip(creds.into_iter().rev()) {
        agent.set_remote_credentials(peer); // signaling: credentials first
    }
    for (i, address) in ["10.0.0.1:5000", "10.0.0.2:5000"].into_iter().enumerate() {
        let host = Candidate::host(address.parse()?, "udp")?;
        let line = agents[i].add_local_candidate(host).expect("a new candidate").to_sdp_string();
        agents[1 - i].add_remote_candidate(Candidate::from_sdp_string(&line)?); // signaling: then each candidate
    }

    let mut paths = [None, None];
    let mut now = Instant::now();
    while paths.contains(&None) {
        for i in [0, 1] {
            agents[i].handle_timeout(now);
            while let Some(sent) = agents[i].poll_transmit() {
                let message = StunMessage::parse(&sent.contents)?;
                let packet = StunPacket { proto: sent.proto, source: sent.source, destination: sent.destination, message };
                agents[1 - i].handle_packet(now, packet);
            }
            while let Some(event) = agents[i].poll_event() {
                if let IceAgentEvent::NominatedSend { source, destination, .. } = event {
                    paths[i] = Some((source, destination));
                }
            }
        }
        now += Duration::from_millis(50);
    }
    for (source, destination) in paths.into_iter().flatten() {
        println!("{source} -> {destination}");
    }
    Ok(())
}
