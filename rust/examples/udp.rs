//! Two ICE agents over UDP sockets find a path, and one says hello on it. Each side runs its own loop.

use is::stun::{StunMessage, StunPacket};
use is::{Candidate, IceAgent, IceAgentEvent, IceCreds, Protocol};
use std::error::Error;
use std::net::{SocketAddr, UdpSocket};
use std::time::{Duration, Instant};

struct Side {
    agent: IceAgent,
    socket: UdpSocket,
    local: SocketAddr,
    /// The destination of media, once a path is selected.
    peer: Option<SocketAddr>,
}

impl Side {
    fn new(controlling: bool, creds: IceCreds, peer: IceCreds) -> Result<Side, Box<dyn Error>> {
        let socket = UdpSocket::bind("127.0.0.1:0")?; // one socket for each local address
        socket.set_nonblocking(true)?;
        let local = socket.local_addr()?;
        let mut agent = IceAgent::new(creds);
        agent.set_controlling(controlling);
        agent.try_set_remote_credentials(peer)?; // the peer's texts may be anything
        Ok(Side { agent, socket, local, peer: None })
    }

    /// Adds the socket as a host candidate. Returns the line for signaling.
    fn gather(&mut self) -> Result<String, Box<dyn Error>> {
        let host = Candidate::host(self.local, Protocol::Udp)?;
        Ok(self.agent.add_local_candidate(host).ok_or("redundant candidate")?.to_sdp_string())
    }

    /// Sends a datagram. One that the system does not send is lost like one on the network, and does not end the loop: as the
    /// response to a request that somebody replays from port 0. The agent lists it.
    fn send(&mut self, bytes: &[u8], destination: SocketAddr) {
        if let Err(why) = self.socket.send_to(bytes, destination) {
            self.agent.send_failed(Protocol::Udp, self.local, destination, why.raw_os_error().map_or(0, i32::unsigned_abs));
        }
    }

    /// One iteration of the loop. Returns media that arrived.
    fn turn(&mut self, now: Instant) -> Result<Option<Vec<u8>>, Box<dyn Error>> {
        let (mut buffer, mut media) = ([0; 1500], None);
        // 1. A datagram arrived. If not, the error is "would block", or that of an earlier datagram.
        if let Ok((length, source)) = self.socket.recv_from(&mut buffer) {
            if let Ok(message) = StunMessage::parse(&buffer[..length]) {
                let packet = StunPacket { proto: Protocol::Udp, source, destination: self.local, message };
                self.agent.try_handle_packet(now, packet)?;
            } else if self.agent.takes_media_from(now, source) {
                media = Some(buffer[..length].to_vec());
            }
        }
        // 2. The timeout expired. The first one starts the session.
        if self.agent.poll_timeout().is_none_or(|at| at <= now) {
            self.agent.try_handle_timeout(now)?;
        }
        // 3. Packets. This side has only one socket, so packet.source is its address.
        while let Some(packet) = self.agent.poll_transmit() {
            self.send(&packet.contents, packet.destination);
        }
        // 4. Events.
        while let Some(event) = self.agent.poll_event() {
            if let IceAgentEvent::NominatedSend { destination, .. } = event {
                self.peer = Some(destination);
            }
        }
        Ok(media)
    }
}

/// Two sides that know each other's credentials and candidates, which signaling carries.
fn introduced() -> Result<(Side, Side), Box<dyn Error>> {
    let (a_creds, b_creds) = (IceCreds::new(), IceCreds::new());
    let mut a = Side::new(true, a_creds.clone(), b_creds.clone())?;
    let mut b = Side::new(false, b_creds, a_creds)?;
    b.agent.add_remote_candidate(Candidate::from_sdp_string(&a.gather()?)?);
    a.agent.add_remote_candidate(Candidate::from_sdp_string(&b.gather()?)?);
    Ok((a, b))
}

fn main() -> Result<(), Box<dyn Error>> {
    let (mut a, mut b) = introduced()?;
    let begun = Instant::now();
    while begun.elapsed() < Duration::from_secs(10) {
        a.turn(Instant::now())?;
        if let Some(media) = b.turn(Instant::now())? {
            println!("heard {}", String::from_utf8_lossy(&media));
            return Ok(());
        }
        if let (Some(peer), Some(_)) = (a.peer, b.peer) {
            a.send(b"hello", peer);
        }
        std::thread::sleep(Duration::from_millis(1));
    }
    Err("no path".into())
}

#[cfg(test)]
mod tests {
    use super::*;

    /// A check of the peer is replayed from port 0, to which no socket sends: the loop goes on, and both sides connect.
    #[test]
    fn a_check_from_port_0() -> Result<(), Box<dyn Error>> {
        let (mut a, mut b) = introduced()?;
        let begun = Instant::now();
        a.agent.handle_timeout(begun);
        let check = a.agent.poll_transmit().ok_or("no check")?;
        let source = SocketAddr::new(a.local.ip(), 0);
        let message = StunMessage::parse(&check.contents)?;
        assert!(b.agent.handle_packet(begun, StunPacket { proto: Protocol::Udp, source, destination: b.local, message }));
        while a.peer.is_none() || b.peer.is_none() {
            assert!(begun.elapsed() < Duration::from_secs(10));
            a.turn(Instant::now())?;
            b.turn(Instant::now())?;
            std::thread::sleep(Duration::from_millis(1));
        }
        Ok(())
    }

    /// How long the controlled side takes from its first check until it selects its path. It is nominated in the first milliseconds, since
    /// the clock of the other side runs ahead. Media of a stranger arrives all the time.
    fn time_among_media() -> Result<Duration, Box<dyn Error>> {
        let (mut a, mut b) = introduced()?;
        let stranger = UdpSocket::bind("127.0.0.1:0")?;
        let begun = Instant::now();
        let mut ahead = begun;
        while b.peer.is_none() {
            assert!(begun.elapsed() < Duration::from_secs(10));
            stranger.send_to(b"media", b.local)?;
            for _ in 0..3 {
                assert_eq!(b.turn(Instant::now())?, None);
            }
            if a.peer.is_none() {
                a.turn(ahead)?;
                ahead += Duration::from_millis(50);
            }
            std::thread::sleep(Duration::from_millis(1));
        }
        Ok(begun.elapsed())
    }

    /// The path is selected as soon as it can be, and not only when a check is sent again.
    #[test]
    fn media_delays_no_timeout() -> Result<(), Box<dyn Error>> {
        let mut took = Duration::MAX;
        for _ in 0..8 {
            took = took.min(time_among_media()?); // the machine may be busy
        }
        assert!(took < Duration::from_millis(150), "{took:?}");
        Ok(())
    }
}
