//! A chat over UDP and IPv4. Run it on two machines, paste the line `signal ..` of each into the other, and type. If the peer is lost,
//! and it says why, if the network changes, and at /restart it makes an ICE restart: paste the new lines then. /quit ends it.
//! signaling/mod.rs has the signaling, net/mod.rs the sockets.
//!
//! usage: chat controlling|controlled [-l] [-s URL].. [-t URL].. [-u USER] [-w PASSWORD]
//!   -l   at 127.0.0.1, not that of the default route
//!   -s   a STUN server, as stun:stun.example.org
//!   -t   a TURN server, as turn:turn.example.org or turn:192.0.2.1:3478?transport=tcp, with this username and password

mod net;
mod signaling;

use is::servers::{GatherEvent, IceGatherer, IceServer};
use is::{Consent, IceAgent, IceAgentEvent, IceCreds, SilenceEvent};
use net::Net;
use signaling::{Result, address, announce, restart, take, typed};
use std::net::UdpSocket;
use std::time::{Duration, Instant};

/// After so long without a packet of the peer it says so.
const SILENCE: Duration = Duration::from_secs(2);

/// How long it goes on at the end, at most, to free relayed addresses.
const FAREWELL: Duration = Duration::from_secs(1);

fn report(gatherer: &mut IceGatherer, event: IceAgentEvent) -> Result<()> {
    if let IceAgentEvent::NominatedSend { source, destination, .. } = event {
        println!("path {source} -> {destination}");
    } else if let IceAgentEvent::IceConnectionStateChange(state) = event {
        let (agent, stats) = (gatherer.agent(), gatherer.agent().stats());
        println!("state {state:?}: {} of {} checks answered", stats.bind_success_recv, stats.bind_request_sent);
        let lost = agent.removed_pairs().filter(|_| state.is_disconnected());
        lost.for_each(|pair| println!("removed {pair}")); // those since the last restart
        // Before the first path the peer may not have this side's line yet.
        if state.is_disconnected() && stats.nomination_send_count > 0 {
            gatherer.probe(Instant::now()); // do the servers still have the relayed addresses?
            restart(gatherer)?;
        }
    }
    Ok(())
}

/// Sends what is to be sent, and reports what happened.
fn poll(gatherer: &mut IceGatherer, net: &mut Net) -> Result<()> {
    while let Some(packet) = gatherer.poll_transmit(Instant::now())? {
        net.send(gatherer, &packet)?;
    }
    while let Some(event) = gatherer.poll_event() {
        match event {
            GatherEvent::Agent(event) => report(gatherer, event)?,
            GatherEvent::Server(event) => println!("{event}"),
            GatherEvent::LocalCandidate(_) => {} // announced with all others
            GatherEvent::GatheringComplete => announce(gatherer)?,
        }
    }
    Ok(())
}

/// Opens a socket at another address, if the network changed, and reaches servers.
fn look(gatherer: &mut IceGatherer, net: &mut Net, host: &str) -> Result<()> {
    let local = net.socket.local_addr()?;
    if let Some(ip) = address(host).ok().filter(|ip| *ip != local.ip()) {
        let socket = UdpSocket::bind((ip, 0))?;
        gatherer.agent_mut().try_ice_restart(IceCreds::new(), true)?;
        net.moved(gatherer, socket)?; // GatheringComplete follows
    }
    net.reach(gatherer)
}

/// One iteration of the loop. It ends ten times a second, for lines to be read.
fn turn(gatherer: &mut IceGatherer, net: &mut Net) -> Result<()> {
    if gatherer.poll_timeout().is_some_and(|at| at <= Instant::now()) {
        gatherer.handle_timeout(Instant::now())?;
    }
    poll(gatherer, net)?;
    match gatherer.agent_mut().poll_silence() {
        Some(SilenceEvent::Silent(_)) => println!("silent no packet for {} s", SILENCE.as_secs()),
        Some(SilenceEvent::Heard(_)) => println!("again a packet came"),
        None => {}
    }
    let wait = gatherer.poll_timeout().map_or(Duration::MAX, |at| at.saturating_duration_since(Instant::now()));
    net.receive(gatherer, wait, |said| println!("heard {}", String::from_utf8_lossy(said).escape_debug()))
}

/// Sends a line to the peer.
fn say(gatherer: &mut IceGatherer, net: &mut Net, said: &str) -> Result<()> {
    let now = Instant::now();
    let path = gatherer.agent().media_path(now).ok_or("there is no path")?;
    match gatherer.outgoing(now, path.source, path.destination, said.as_bytes())? {
        Some(packet) => net.send(gatherer, &packet),
        None => Err("the relayed address is gone".into()),
    }
}

/// Frees relayed addresses.
fn leave(gatherer: &mut IceGatherer, net: &mut Net) -> Result<()> {
    let end = Instant::now() + FAREWELL;
    gatherer.close(Instant::now())?;
    while !gatherer.is_over() && Instant::now() < end {
        turn(gatherer, net)?;
    }
    Ok(())
}

fn agent(role: &str) -> IceAgent {
    let mut agent = IceAgent::new(IceCreds::new());
    agent.set_controlling(role == "controlling");
    // A lost peer is noticed after 5 s, and not after 30 s, as the path is checked each second.
    let mut settings = agent.settings();
    settings.consent = Consent { timeout: Some(Duration::from_secs(5)), strict: true };
    settings.max_rto = Duration::from_secs(1);
    agent.set_settings(settings);
    agent.set_silence(Some(SILENCE));
    agent
}

/// The servers of the command line.
fn servers(words: &[String]) -> IceServer {
    let values = |option| words.windows(2).filter(move |pair| pair[0] == option).map(|pair| pair[1].clone());
    let last = |option| values(option).next_back().unwrap_or_default();
    IceServer { urls: values("-t").chain(values("-s")).collect(), username: last("-u"), credential: last("-w") }
}

fn main() -> Result<()> {
    let words: Vec<String> = std::env::args().collect();
    let role = words.get(1).ok_or("usage: chat controlling|controlled [-l] [-s URL].. [-t URL].. [-u USER] [-w PASSWORD]")?;
    let host = if words.iter().any(|word| word == "-l") { "127.0.0.1" } else { "192.0.2.1" };
    let mut gatherer = IceGatherer::new(agent(role), &[servers(&words)])?;
    let (mut net, lines) = (Net::new(UdpSocket::bind("0.0.0.0:0")?), typed());
    gatherer.handle_timeout(Instant::now())?; // the session begins
    look(&mut gatherer, &mut net, host)?;
    turn(&mut gatherer, &mut net)?; // before a line is read: a signal that waits is for this session
    loop {
        let line = lines.try_recv().unwrap_or_default();
        let done = match (line.strip_prefix("signal "), line.as_str()) {
            (Some(signal), _) => take(&mut gatherer, signal),
            (_, "/quit") => return leave(&mut gatherer, &mut net),
            (_, "/restart") => restart(&mut gatherer),
            (_, "") => look(&mut gatherer, &mut net, host).and_then(|()| turn(&mut gatherer, &mut net)),
            (_, said) => say(&mut gatherer, &mut net, said),
        };
        if let Err(why) = done {
            println!("error {why}"); // the agent is as it was, and the chat goes on
            std::thread::sleep(Duration::from_millis(50));
        }
    }
}
