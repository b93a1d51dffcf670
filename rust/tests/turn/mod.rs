//! A strict STUN and TURN server (RFC 8489, RFC 8656), without sockets: it drops what no client may send, and what is not permitted.
#![allow(dead_code)]

use is::servers::Transport;
use is::stun::{AddressFamily, Class, Method, StunMessage, StunMessageBuilder, TransId};
use std::net::{IpAddr, SocketAddr};
use std::time::Duration;

/// The long-term key of `user`, `realm` and `pass`: the MD5 digest that RFC 5389, section 15.4, has as its example.
pub const KEY: [u8; 16] = [0x84, 0x93, 0xfb, 0xc5, 0x3b, 0xa5, 0x82, 0xfb, 0x4c, 0x04, 0x4c, 0x45, 0x6b, 0xdc, 0x40, 0xeb];
pub const USERNAME: &str = "user";
pub const PASSWORD: &str = "pass";
const REALM: &str = "realm";

/// RFC 8656, sections 3.2, 9 and 12.
const ALLOCATION: Duration = Duration::from_secs(600);
const PERMISSION: Duration = Duration::from_secs(300);
const CHANNEL: Duration = Duration::from_secs(600);

/// How a client is reached: over what, and its address as the server sees it.
pub type At = (Transport, SocketAddr);

/// What leaves the server.
#[derive(Debug)]
pub enum Sent {
    ToClient(At, Vec<u8>),
    /// From a relayed address.
    ToPeer(SocketAddr, SocketAddr, Vec<u8>),
}

/// What a request is answered with.
enum Reply {
    /// Unsigned, with the nonce.
    Challenge(u16),
    Failure(u16),
    Done,
    Lifetime(u32),
    Allocated(SocketAddr, SocketAddr),
}

struct Allocation {
    client: At,
    relayed: SocketAddr,
    ends: Duration,
    permitted: Vec<(IpAddr, Duration)>,
    channels: Vec<(u16, SocketAddr, Duration)>,
}

pub struct Server {
    pub address: SocketAddr,
    /// No permission is given for it: 403.
    pub denied: Option<IpAddr>,
    /// A response to a request with another nonce is 438.
    pub nonce: String,
    allocations: Vec<Allocation>,
    next_port: u16,
    /// Messages and data that it dropped.
    pub dropped: usize,
}

fn written(message: &StunMessage<'_>, key: Option<&[u8]>) -> Vec<u8> {
    let mut bytes = vec![0; 2000];
    let length = message.write(key, &mut bytes).expect("a message");
    bytes.truncate(length);
    bytes
}

impl Server {
    pub fn new(address: &str) -> Server {
        let address = address.parse().expect("an address");
        Server { address, denied: None, nonce: "first".to_owned(), allocations: Vec::new(), next_port: 50000, dropped: 0 }
    }

    pub fn allocations(&self) -> usize {
        self.allocations.len()
    }

    pub fn channels(&self) -> usize {
        self.allocations.iter().map(|it| it.channels.len()).sum()
    }

    pub fn has_relayed(&self, address: SocketAddr) -> bool {
        self.allocations.iter().any(|it| it.relayed == address)
    }

    /// What a restart forgets.
    pub fn restart(&mut self) {
        self.allocations.clear();
        self.nonce.push('+');
    }

    fn place(&self, client: At) -> Option<usize> {
        self.allocations.iter().position(|it| it.client == client)
    }

    fn expire(&mut self, now: Duration) {
        self.allocations.retain(|it| it.ends > now);
        for it in &mut self.allocations {
            it.permitted.retain(|permitted| permitted.1 > now);
            it.channels.retain(|channel| channel.2 > now);
        }
    }

    // ---- from clients

    /// Takes a datagram, or a frame.
    pub fn take(&mut self, now: Duration, client: At, bytes: &[u8]) -> Vec<Sent> {
        self.expire(now);
        let sent = match bytes.first() {
            Some(0x40..=0x4f) => self.take_channel_data(client, bytes),
            _ => self.take_message(now, client, bytes),
        };
        self.dropped += usize::from(sent.is_none());
        sent.unwrap_or_default()
    }

    fn take_channel_data(&mut self, client: At, bytes: &[u8]) -> Option<Vec<Sent>> {
        let it = &self.allocations[self.place(client)?];
        let (number, length) = (u16::from_be_bytes([bytes[0], bytes[1]]), usize::from(u16::from_be_bytes([bytes[2], bytes[3]])));
        let padded = if client.0 == Transport::Tcp { length.next_multiple_of(4) } else { length };
        assert_eq!(bytes.len(), 4 + padded, "the padding of RFC 8656, section 12.5");
        let peer = it.channels.iter().find(|channel| channel.0 == number)?.1;
        it.permitted.iter().find(|permitted| permitted.0 == peer.ip())?;
        Some(vec![Sent::ToPeer(it.relayed, peer, bytes[4..4 + length].to_vec())])
    }

    fn take_message(&mut self, now: Duration, client: At, bytes: &[u8]) -> Option<Vec<Sent>> {
        let message = StunMessage::parse_any(bytes).ok()?;
        let to_client = |bytes: Vec<u8>| vec![Sent::ToClient(client, bytes)];
        match message.method() {
            Method::Binding if message.class() == Class::Request => {
                let reply = StunMessageBuilder::new().binding().success().xor_mapped_address(client.1).build(message.trans_id());
                Some(to_client(written(&reply, None)))
            }
            Method::Binding => Some(Vec::new()), // an indication keeps a mapping
            Method::Send => self.take_data(client, &message),
            _ => {
                let reply = match self.challenge(&message) {
                    Some(code) => Reply::Challenge(code),
                    None => self.serve(now, client, &message),
                };
                Some(to_client(self.respond(&message, reply)))
            }
        }
    }

    fn take_data(&mut self, client: At, message: &StunMessage<'_>) -> Option<Vec<Sent>> {
        let it = &self.allocations[self.place(client)?];
        let (peer, data) = (message.xor_peer_address()?, message.data()?);
        it.permitted.iter().find(|permitted| permitted.0 == peer.ip())?;
        Some(vec![Sent::ToPeer(it.relayed, peer, data.to_vec())])
    }

    /// Why a request is not signed as the server wants it (RFC 8489, section 9.2.4).
    fn challenge(&self, message: &StunMessage<'_>) -> Option<u16> {
        let is_users = message.username() == Some(USERNAME) && message.realm() == Some(REALM) && message.is_signed_by(&KEY);
        if !message.has_integrity() {
            Some(401)
        } else if message.nonce() != Some(self.nonce.as_str()) {
            Some(438)
        } else {
            (!is_users).then_some(401)
        }
    }

    /// Serves a request that is signed.
    fn serve(&mut self, now: Duration, client: At, message: &StunMessage<'_>) -> Reply {
        match (message.method(), self.place(client)) {
            (Method::Allocate, None) if message.requested_transport() == Some(17) => self.allocate(now, client, message),
            (Method::Allocate, None) => Reply::Failure(442),
            (Method::Allocate, Some(_)) | (_, None) => Reply::Failure(437),
            (Method::Refresh, Some(place)) if message.lifetime() == Some(0) => {
                self.allocations.remove(place);
                Reply::Lifetime(0)
            }
            (Method::Refresh, Some(place)) => {
                self.allocations[place].ends = now + ALLOCATION;
                Reply::Lifetime(600)
            }
            (_, Some(place)) => self.serve_peer(now, place, message),
        }
    }

    fn allocate(&mut self, now: Duration, client: At, message: &StunMessage<'_>) -> Reply {
        let is_v6 = message.requested_family() == Some(AddressFamily::Ipv6);
        let ip: IpAddr = if is_v6 { "2001:db8::9".parse().unwrap() } else { self.address.ip() };
        let relayed = SocketAddr::new(ip, self.next_port);
        self.next_port += 1;
        self.allocations.push(Allocation { client, relayed, ends: now + ALLOCATION, permitted: Vec::new(), channels: Vec::new() });
        Reply::Allocated(relayed, client.1)
    }

    /// CreatePermission and ChannelBind (RFC 8656, sections 9 and 12).
    fn serve_peer(&mut self, now: Duration, place: usize, message: &StunMessage<'_>) -> Reply {
        let it = &mut self.allocations[place];
        let Some(peer) = message.xor_peer_address() else { return Reply::Failure(400) };
        if self.denied == Some(peer.ip()) {
            return Reply::Failure(403);
        }
        if message.method() == Method::ChannelBind {
            let number = message.channel_number().unwrap_or(0);
            let is_free = it.channels.iter().all(|channel| (channel.0 == number) == (channel.1 == peer));
            if !(0x4000..=0x4fff).contains(&number) || !is_free {
                return Reply::Failure(400);
            }
            it.channels.retain(|channel| channel.0 != number);
            it.channels.push((number, peer, now + CHANNEL));
        }
        it.permitted.retain(|permitted| permitted.0 != peer.ip());
        it.permitted.push((peer.ip(), now + PERMISSION));
        Reply::Done
    }

    /// The response to a request.
    fn respond(&self, message: &StunMessage<'_>, reply: Reply) -> Vec<u8> {
        let (start, id) = (StunMessageBuilder::new(), message.trans_id());
        let start = match message.method() {
            Method::Allocate => start.allocate(),
            Method::Refresh => start.refresh(),
            Method::CreatePermission => start.create_permission(),
            Method::ChannelBind => start.channel_bind(),
            _ => start.binding(),
        };
        match reply {
            Reply::Challenge(code) => {
                let challenge = start.failure().error_code(code, "challenge").realm(REALM).nonce(&self.nonce);
                written(&challenge.build(id), None)
            }
            Reply::Failure(code) => written(&start.failure().error_code(code, "failure").build(id), Some(&KEY)),
            Reply::Done => written(&start.success().build(id), Some(&KEY)),
            Reply::Lifetime(lifetime) => written(&start.success().lifetime(lifetime).build(id), Some(&KEY)),
            Reply::Allocated(relayed, mapped) => {
                let told = start.success().lifetime(600).xor_relayed_address(relayed).xor_mapped_address(mapped);
                written(&told.build(id), Some(&KEY))
            }
        }
    }

    // ---- from peers

    /// Takes a datagram at a relayed address.
    pub fn take_at(&mut self, now: Duration, relayed: SocketAddr, peer: SocketAddr, bytes: &[u8]) -> Vec<Sent> {
        self.expire(now);
        let sent = self.relayed(relayed, peer, bytes);
        self.dropped += usize::from(sent.is_none());
        sent.into_iter().collect()
    }

    fn relayed(&mut self, relayed: SocketAddr, peer: SocketAddr, bytes: &[u8]) -> Option<Sent> {
        let it = self.allocations.iter().find(|it| it.relayed == relayed)?;
        it.permitted.iter().find(|permitted| permitted.0 == peer.ip())?;
        let sent = match it.channels.iter().find(|channel| channel.1 == peer) {
            Some(channel) => channel_data(channel.0, bytes, it.client.0),
            None => {
                let id = TransId::new();
                written(&StunMessageBuilder::new().data().indication().xor_peer_address(peer).data(bytes).build(id), None)
            }
        };
        Some(Sent::ToClient(it.client, sent))
    }
}

/// A frame of ChannelData: over TCP with padding (RFC 8656, section 12.5).
fn channel_data(number: u16, data: &[u8], transport: Transport) -> Vec<u8> {
    let mut frame = [number.to_be_bytes(), (data.len() as u16).to_be_bytes()].concat();
    frame.extend_from_slice(data);
    if transport == Transport::Tcp {
        frame.resize(frame.len().next_multiple_of(4), 0);
    }
    frame
}
