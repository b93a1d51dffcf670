//! Many agents in one process, over the Rust API: what measure/scale.c measures of the C calls. `measure/run scale` builds it with the
//! crate in rust/ and with the original, whose names are the same.

use is::stun::{StunMessage, StunPacket};
use is::{Candidate, IceAgent, IceAgentEvent, IceCreds};
use std::net::{Ipv4Addr, SocketAddr};
use std::time::{Duration, Instant};

const CONNECT: Duration = Duration::from_secs(8);
const PORT: u16 = 5000;

// ---- what it costs

/// What glibc's `mallinfo2` returns.
#[repr(C)]
struct Info {
    arena: usize,
    ordblks: usize,
    smblks: usize,
    hblks: usize,
    hblkhd: usize,
    usmblks: usize,
    fsmblks: usize,
    uordblks: usize,
    fordblks: usize,
    keepcost: usize,
}

unsafe extern "C" {
    safe fn mallinfo2() -> Info;
    safe fn clock() -> i64;
}

fn heap_bytes() -> f64 {
    let info = mallinfo2();
    (info.uordblks + info.hblkhd) as f64
}

/// A random number (xorshift).
fn number(state: &mut u64) -> u64 {
    *state ^= *state << 13;
    *state ^= *state >> 7;
    *state ^= *state << 17;
    *state
}

// ---- a heap of timeouts

struct Heap {
    order: Vec<usize>,
    place: Vec<usize>,
    due: Vec<Instant>,
}

impl Heap {
    fn is_before(&self, i: usize, j: usize) -> bool {
        self.due[self.order[i]] < self.due[self.order[j]]
    }

    fn swap(&mut self, i: usize, j: usize) {
        self.order.swap(i, j);
        self.place[self.order[i]] = i;
        self.place[self.order[j]] = j;
    }

    fn rise(&mut self, mut i: usize) {
        while i > 0 && self.is_before(i, (i - 1) / 2) {
            self.swap(i, (i - 1) / 2);
            i = (i - 1) / 2;
        }
    }

    fn sink(&mut self, mut i: usize) {
        loop {
            let children = [2 * i + 1, 2 * i + 2];
            let least = children.into_iter().filter(|c| *c < self.order.len()).fold(i, |m, c| if self.is_before(c, m) { c } else { m });
            if least == i {
                return;
            }
            self.swap(i, least);
            i = least;
        }
    }

    fn set(&mut self, agent: usize, at: Instant) {
        let is_earlier = at < self.due[agent];
        self.due[agent] = at;
        if is_earlier { self.rise(self.place[agent]) } else { self.sink(self.place[agent]) }
    }
}

// ---- sessions

struct World {
    agents: Vec<IceAgent>,
    hosts: u16,
    heap: Heap,
    now: Instant,
    packets: u64,
    selected: usize,
}

fn creds_of(agent: usize) -> IceCreds {
    IceCreds { ufrag: format!("u{agent:06x}"), pass: format!("passpasspasspass{agent:06x}") }
}

fn made(number: usize, hosts: u16) -> IceAgent {
    let mut agent = IceAgent::new(creds_of(number));
    agent.set_controlling(number % 2 == 1);
    for host in 0..hosts {
        let address = SocketAddr::from((Ipv4Addr::from(0x0a00_0000 + number as u32), PORT + host));
        agent.add_local_candidate(Candidate::host(address, "udp").unwrap()).unwrap();
    }
    agent
}

impl World {
    fn introduce(&mut self, agent: usize) {
        let lines: Vec<String> = self.agents[agent ^ 1].local_candidates().map(|host| host.to_sdp_string()).collect();
        self.agents[agent].set_remote_credentials(creds_of(agent ^ 1));
        for line in lines {
            self.agents[agent].add_remote_candidate(Candidate::from_sdp_string(&line).unwrap());
        }
    }

    /// What the agent sends arrives at once, if it is from its last host to that of the other.
    fn poll(&mut self, agent: usize) {
        let last = PORT + self.hosts - 1;
        if let Some(at) = self.agents[agent].poll_timeout() {
            let later = self.now + Duration::from_millis(1);
            self.heap.set(agent, if at > self.now { at } else { later });
        }
        while let Some(event) = self.agents[agent].poll_event() {
            self.selected += usize::from(matches!(event, IceAgentEvent::NominatedSend { .. }));
        }
        while let Some(sent) = self.agents[agent].poll_transmit() {
            self.packets += 1;
            if sent.source.port() != last || sent.destination.port() != last {
                continue;
            }
            let message = StunMessage::parse(&sent.contents).unwrap();
            let packet = StunPacket { proto: sent.proto, source: sent.source, destination: sent.destination, message };
            assert!(self.agents[agent ^ 1].handle_packet(self.now, packet));
            self.poll(agent ^ 1);
        }
    }

    fn run_until(&mut self, end: Instant) {
        while self.heap.due[self.heap.order[0]] <= end {
            let agent = self.heap.order[0];
            self.now = self.heap.due[agent];
            self.agents[agent].handle_timeout(self.now);
            self.poll(agent);
        }
        self.now = end;
    }
}

fn main() {
    let words: Vec<usize> = std::env::args().skip(1).map(|word| word.parse().unwrap()).collect();
    let (count, seconds, hosts) = (words[0] / 2 * 2, words[1], words.get(2).map_or(1, |hosts| *hosts as u16));
    let (now, mut state) = (Instant::now() + Duration::from_secs(60), 88_172_645_463_325_252);
    let heap = Heap { order: (0..count).collect(), place: (0..count).collect(), due: vec![now; count] };
    let begun = heap_bytes();
    let agents = (0..count).map(|number| made(number, hosts)).collect();
    let mut world = World { agents, hosts, heap, now, packets: 0, selected: 0 };
    let mut bytes = [heap_bytes() - begun, 0.0, 0.0, 0.0];
    for agent in 0..count {
        world.introduce(agent);
        world.heap.due[agent] = now + Duration::from_millis(number(&mut state) % 3000);
    }
    (0..count / 2).rev().for_each(|i| world.heap.sink(i));
    bytes[1] = heap_bytes() - begun;
    let mut times = [clock(), 0, 0];
    world.run_until(now + CONNECT);
    (times[1], bytes[2]) = (clock(), heap_bytes() - begun);
    assert!(world.selected >= count, "only {} paths", world.selected);
    let before = world.packets;
    world.run_until(now + CONNECT + Duration::from_secs(seconds as u64));
    (times[2], bytes[3]) = (clock(), heap_bytes() - begun);
    let (n, s) = (count as f64, seconds as f64);
    let costs = [(times[1] - times[0]) as f64 / n, (times[2] - times[1]) as f64 / n / s, (world.packets - before) as f64 / n / s];
    println!("{:.1} {:.3} {:.2} {}", costs[0], costs[1], costs[2], bytes.map(|b| format!("{:.0}", b / n)).join(" "));
}
