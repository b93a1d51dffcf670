//! Many sessions on a few threads, as in a runtime with a thread pool: a session goes to whichever worker is free, so its agents move
//! between threads. No sockets: packets are handed over.

use is::stun::{StunMessage, StunPacket};
use is::{Candidate, IceAgent, IceAgentEvent, IceCreds};
use std::sync::Mutex;
use std::sync::mpsc::{Receiver, Sender, channel};
use std::thread;
use std::time::{Duration, Instant};

const SESSIONS: usize = 16;
const WORKERS: usize = 4;

/// Two agents, and whether each has a path.
struct Session {
    agents: [IceAgent; 2],
    connected: [bool; 2],
    now: Instant,
}

impl Session {
    fn new() -> Session {
        let creds = [IceCreds::new(), IceCreds::new()];
        let mut agents = creds.clone().map(IceAgent::new);
        agents[0].set_controlling(true);
        for (agent, peer) in agents.iter_mut().zip(creds.into_iter().rev()) {
            agent.set_remote_credentials(peer);
        }
        for (i, address) in ["10.0.0.1:5000", "10.0.0.2:5000"].into_iter().enumerate() {
            let host = Candidate::host(address.parse().expect("an address"), "udp").expect("a host candidate");
            let line = agents[i].add_local_candidate(host).expect("a new candidate").to_sdp_string();
            agents[1 - i].add_remote_candidate(Candidate::from_sdp_string(&line).expect("a candidate"));
        }
        Session { agents, connected: [false; 2], now: Instant::now() }
    }

    /// Runs the timers of both agents, and delivers what they send.
    fn turn(&mut self) {
        for i in [0, 1] {
            self.agents[i].handle_timeout(self.now);
            while let Some(sent) = self.agents[i].poll_transmit() {
                let message = StunMessage::parse(&sent.contents).expect("a message");
                let packet = StunPacket { proto: sent.proto, source: sent.source, destination: sent.destination, message };
                self.agents[1 - i].handle_packet(self.now, packet);
            }
            while let Some(event) = self.agents[i].poll_event() {
                self.connected[i] |= matches!(event, IceAgentEvent::NominatedSend { .. });
            }
        }
        self.now += Duration::from_millis(50);
    }
}

/// Takes one session after another, and passes each on after a turn: to whichever worker is free, or as finished. None ends it.
fn work(queue: &Mutex<Receiver<Option<Session>>>, next: &Sender<Option<Session>>, finished: &Sender<Session>) {
    loop {
        let taken = queue.lock().expect("the queue").recv().expect("a sender");
        let Some(mut session) = taken else { return };
        session.turn();
        if session.connected == [true; 2] {
            finished.send(session).expect("a receiver");
        } else {
            next.send(Some(session)).expect("the queue");
        }
    }
}

fn main() {
    let (next, queue) = channel();
    let (finished, connected) = channel();
    let queue = Mutex::new(queue);
    for _ in 0..SESSIONS {
        next.send(Some(Session::new())).expect("the queue");
    }
    let connected: Vec<Session> = thread::scope(|scope| {
        for _ in 0..WORKERS {
            scope.spawn(|| work(&queue, &next, &finished));
        }
        let sessions = connected.iter().take(SESSIONS).collect();
        for _ in 0..WORKERS {
            next.send(None).expect("the queue");
        }
        sessions
    });
    println!("{} sessions connected on {WORKERS} threads", connected.len());
}
