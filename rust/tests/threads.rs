//! Agents that move between threads.

use is::stun::{StunMessage, StunPacket};
use is::{Candidate, IceAgent, IceAgentEvent, IceConnectionState, IceCreds};
use std::sync::mpsc::{Receiver, Sender, channel};
use std::sync::{Arc, Mutex};
use std::thread;
use std::time::{Duration, Instant};

/// The pacing interval Ta.
const PACE: Duration = Duration::from_millis(50);

/// Two agents that know each other's credentials and candidates; the first one is controlling.
fn pair() -> [IceAgent; 2] {
    let creds = [IceCreds::new(), IceCreds::new()];
    let mut agents = creds.clone().map(IceAgent::new);
    agents[0].set_controlling(true);
    for (agent, peer) in agents.iter_mut().zip(creds.into_iter().rev()) {
        agent.set_remote_credentials(peer);
    }
    for (i, address) in ["10.0.0.1:5000", "10.0.0.2:5000"].into_iter().enumerate() {
        let host = Candidate::host(address.parse().unwrap(), "udp").unwrap();
        let line = agents[i].add_local_candidate(host).unwrap().to_sdp_string();
        agents[1 - i].add_remote_candidate(Candidate::from_sdp_string(&line).unwrap());
    }
    agents
}

/// Delivers what the first agent sends to the second one. Returns whether the first one selected a path.
fn carry(from: &mut IceAgent, to: &mut IceAgent, now: Instant) -> bool {
    while let Some(sent) = from.poll_transmit() {
        let message = StunMessage::parse(&sent.contents).unwrap();
        to.handle_packet(now, StunPacket { proto: sent.proto, source: sent.source, destination: sent.destination, message });
    }
    std::iter::from_fn(|| from.poll_event()).any(|event| matches!(event, IceAgentEvent::NominatedSend { .. }))
}

#[test]
fn each_step_of_a_session_is_on_another_thread() {
    let mut agents = pair();
    let mut connected = [false; 2];
    let mut now = Instant::now();
    for _ in 0..20 {
        for side in [0, 1] {
            let step = move || {
                let [left, right] = &mut agents;
                let (from, to) = if side == 0 { (left, right) } else { (right, left) };
                from.handle_timeout(now);
                let selected = carry(from, to, now);
                (agents, selected)
            };
            let selected;
            (agents, selected) = thread::spawn(step).join().unwrap();
            connected[side] |= selected;
        }
        now += PACE;
    }
    assert_eq!(connected, [true; 2]);
}

/// Uses the agent whenever it arrives, and passes it on; the agents visit each thread in turn.
fn pass(agents: Receiver<(IceAgent, usize)>, next: Sender<(IceAgent, usize)>) {
    for (mut agent, visits) in agents {
        agent.handle_timeout(Instant::now());
        let _ = (agent.poll_timeout(), agent.poll_transmit(), agent.poll_event());
        if visits == 0 || next.send((agent, visits - 1)).is_err() {
            return;
        }
    }
}

#[test]
fn agents_go_round_a_ring_of_threads() {
    let (ends, starts): (Vec<_>, Vec<_>) = (0..4).map(|_| channel()).unzip();
    let nexts: Vec<_> = ends.iter().cycle().skip(1).take(4).cloned().collect();
    for (agent, end) in [pair(), pair()].into_iter().flatten().zip(&ends) {
        end.send((agent, 100)).unwrap();
    }
    drop(ends);
    let threads: Vec<_> = starts.into_iter().zip(nexts).map(|(start, next)| thread::spawn(move || pass(start, next))).collect();
    for thread in threads {
        thread.join().unwrap();
    }
}

#[test]
fn threads_share_an_agent_in_a_mutex() {
    let [left, _] = pair();
    let shared = Arc::new(Mutex::new(left));
    let began = Instant::now();
    let threads = [0, 1, 2, 3].map(|_| {
        let shared = Arc::clone(&shared);
        thread::spawn(move || (0..50).for_each(|turn| shared.lock().unwrap().handle_timeout(began + turn * PACE)))
    });
    for thread in threads {
        thread.join().unwrap();
    }
    assert_eq!(shared.lock().unwrap().state(), IceConnectionState::Checking);
}
