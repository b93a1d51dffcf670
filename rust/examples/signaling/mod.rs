//! Signaling for two people, who paste one line each into the other's program; and the address of this machine.

use is::servers::IceGatherer;
use is::{Candidate, CandidateKind, IceCreds};
use std::net::{IpAddr, UdpSocket};
use std::sync::mpsc::{Receiver, channel};
use std::time::Instant;

pub type Result<T> = std::result::Result<T, Box<dyn std::error::Error>>;

/// The local address of the route to a host. Over UDP `connect` sends nothing.
pub fn address(host: &str) -> Result<IpAddr> {
    let probe = UdpSocket::bind("0.0.0.0:0")?;
    probe.connect((host, 9))?;
    Ok(probe.local_addr()?.ip())
}

/// The lines of standard input. The last one is /quit.
pub fn typed() -> Receiver<String> {
    let (sender, lines) = channel();
    let all = || std::io::stdin().lines().map_while(|line| line.ok()).chain(["/quit".into()]);
    std::thread::spawn(move || all().try_for_each(|line| sender.send(line)));
    lines
}

/// Prints credentials and candidates, for the peer: of the socket, and what servers brought.
pub fn announce(gatherer: &mut IceGatherer) -> Result<()> {
    let mut candidates = gatherer.agent().try_local_candidates()?;
    candidates.retain(|candidate| candidate.kind() != CandidateKind::PeerReflexive);
    let lines: Vec<String> = candidates.iter().map(Candidate::to_sdp_string).collect();
    let creds = gatherer.agent().local_credentials();
    println!("signal {} {} {}", creds.ufrag, creds.pass, lines.join(","));
    Ok(())
}

/// Makes an ICE restart, with new credentials. Relayed addresses stay. If servers are waited for, `GatheringComplete` announces it.
pub fn restart(gatherer: &mut IceGatherer) -> Result<()> {
    gatherer.agent_mut().try_ice_restart(IceCreds::new(), true)?;
    if gatherer.is_gathering() { Ok(()) } else { announce(gatherer) }
}

/// Takes the peer's credentials and candidates. Other credentials than before: the peer made an ICE restart, and so does this side.
pub fn take(gatherer: &mut IceGatherer, signal: &str) -> Result<()> {
    let [ufrag, pass, lines] = signal.splitn(3, ' ').collect::<Vec<_>>()[..] else {
        return Err("not a signal: it has credentials and candidates".into());
    };
    if gatherer.agent().remote_credentials().is_some_and(|known| known.ufrag != ufrag) {
        restart(gatherer)?;
    }
    gatherer.agent_mut().try_set_remote_credentials(IceCreds { ufrag: ufrag.into(), pass: pass.into() })?;
    for line in lines.split(',') {
        gatherer.add_remote_candidate(Instant::now(), Candidate::from_sdp_string(line)?)?;
    }
    Ok(())
}
