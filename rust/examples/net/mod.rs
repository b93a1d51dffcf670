//! The sockets of a chat: one for UDP, and a connection to each TURN server over TCP.

use is::servers::{Frames, IceGatherer, Received, Server, Transport};
use is::{Protocol, SessionLog, Transmit};
use std::error::Error;
use std::io::{self, Read, Write};
use std::net::{SocketAddr, TcpStream, ToSocketAddrs, UdpSocket};
use std::time::{Duration, Instant};

type Result<T> = std::result::Result<T, Box<dyn Error>>;

/// How long the opening of a connection may take, and the sending of one packet.
const PATIENCE: Duration = Duration::from_secs(3);

/// A connection to a TURN server. Its client knows it by the address `local`, also after a redirection.
struct Connection {
    stream: TcpStream,
    frames: Frames,
    local: SocketAddr,
    server: SocketAddr,
}

fn opened(server: SocketAddr) -> io::Result<TcpStream> {
    let stream = TcpStream::connect_timeout(&server, PATIENCE)?;
    stream.set_nodelay(true)?;
    stream.set_write_timeout(Some(PATIENCE))?;
    Ok(stream)
}

pub struct Net {
    pub socket: UdpSocket,
    connections: Vec<Connection>,
}

impl Net {
    pub fn new(socket: UdpSocket) -> Net {
        Net { socket, connections: Vec::new() }
    }

    /// Resolves the names of servers, and opens connections. It waits for both; a program with more to do uses another thread.
    pub fn reach(&mut self, gatherer: &mut IceGatherer) -> Result<()> {
        for server in gatherer.to_reach().to_vec() {
            gatherer.reached(&server);
            let addresses = (server.host.as_str(), server.port).to_socket_addrs()?;
            match addresses.into_iter().find(SocketAddr::is_ipv4) {
                Some(address) if server.transport == Transport::Udp => gatherer.add_server(Instant::now(), &server, address.ip())?,
                Some(address) => self.connect(gatherer, &server, address)?,
                None => return Err(format!("{} has no IPv4 address", server.host).into()),
            }
        }
        Ok(())
    }

    fn connect(&mut self, gatherer: &mut IceGatherer, server: &Server, address: SocketAddr) -> Result<()> {
        if server.is_secure {
            return Err("std has no TLS: use a crate that has".into());
        }
        let stream = opened(address)?;
        let local = stream.local_addr()?;
        gatherer.add_connection(Instant::now(), server, local, address)?;
        self.connections.push(Connection { stream, frames: Frames::new(), local, server: address });
        Ok(())
    }

    /// Another socket takes the place of the one before. The connections from its address are gone, too.
    pub fn moved(&mut self, gatherer: &mut IceGatherer, socket: UdpSocket) -> Result<()> {
        let (now, old) = (Instant::now(), self.socket.local_addr()?);
        gatherer.remove_socket(now, old)?;
        for connection in self.connections.drain(..) {
            gatherer.lose_connection(now, connection.local)?;
        }
        gatherer.add_socket(now, socket.local_addr()?)?;
        self.socket = socket;
        Ok(())
    }

    /// Sends a packet. A datagram that the system does not send is lost, as on the network. The agent lists it, and the first one is an error.
    pub fn send(&mut self, gatherer: &mut IceGatherer, packet: &Transmit) -> Result<()> {
        let connection = self.connections.iter_mut().find(|it| packet.proto == Protocol::Tcp && it.local == packet.source);
        let sent = match connection {
            Some(connection) => connection.write(packet),
            None => self.socket.send_to(&packet.contents, packet.destination).map(drop),
        };
        let Err(why) = sent else { return Ok(()) };
        let reason = why.raw_os_error().map_or(0, i32::unsigned_abs);
        let Transmit { proto, source, destination, .. } = *packet;
        gatherer.agent_mut().try_send_failed(proto, source, destination, reason)?;
        match SessionLog::new().failed_send(gatherer.agent(), proto, source, destination, reason) {
            Some(line) => Err(line.into()),
            None => Ok(()),
        }
    }

    /// Waits for a datagram, and passes on what came: to the gatherer, and media to `hear`.
    pub fn receive(&mut self, gatherer: &mut IceGatherer, wait: Duration, hear: impl Fn(&[u8])) -> Result<()> {
        let longest = if self.connections.is_empty() { 100 } else { 10 }; // streams are read afterwards
        let wait = wait.clamp(Duration::from_millis(1), Duration::from_millis(longest));
        self.socket.set_read_timeout(Some(wait))?;
        let mut buffer = [0; 2000];
        if let Ok((length, source)) = self.socket.recv_from(&mut buffer) {
            let now = Instant::now();
            let received = gatherer.handle_packet(now, source, self.socket.local_addr()?, &buffer[..length])?;
            heard(gatherer, now, received, &hear);
        }
        for place in (0..self.connections.len()).rev() {
            if let Err(why) = self.connections[place].read(gatherer, &hear) {
                let connection = self.connections.remove(place);
                gatherer.lose_connection(Instant::now(), connection.local)?;
                return Err(format!("connection to {} is gone: {why}", connection.server).into());
            }
        }
        Ok(())
    }
}

/// Passes on media that is the peer's.
fn heard(gatherer: &IceGatherer, now: Instant, received: Received<'_>, hear: impl Fn(&[u8])) {
    if let Received::Media(datagram) = received {
        if gatherer.agent().takes_media_from(now, datagram.source) {
            hear(datagram.contents);
        }
    }
}

impl Connection {
    /// Writes a packet of its client. If it is for another server, the client was redirected (RFC 8489, section 10), and goes on over a
    /// connection to that one.
    fn write(&mut self, packet: &Transmit) -> io::Result<()> {
        if self.server != packet.destination {
            self.stream = opened(packet.destination)?;
            self.frames = Frames::new();
            self.server = packet.destination;
        }
        self.stream.write_all(&packet.contents)
    }

    /// Passes on what has arrived.
    fn read(&mut self, gatherer: &mut IceGatherer, hear: impl Fn(&[u8])) -> Result<()> {
        let mut buffer = [0; 16384];
        self.stream.set_nonblocking(true)?;
        let read = self.stream.read(&mut buffer);
        self.stream.set_nonblocking(false)?;
        let length = match read {
            Ok(0) => return Err("the server closed it".into()),
            Err(why) if why.kind() == io::ErrorKind::WouldBlock => return Ok(()),
            other => other?,
        };
        for frame in self.frames.take(&buffer[..length])? {
            let now = Instant::now();
            let received = gatherer.handle_frame(now, self.server, self.local, &frame)?;
            heard(gatherer, now, received, &hear);
        }
        Ok(())
    }
}
