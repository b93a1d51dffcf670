//! Random arguments from a seed: what a program or a peer may pass, odd texts and extreme numbers above all.
#![allow(dead_code)]

pub mod looks;

use is::{IceCreds, Protocol};
use std::net::{IpAddr, Ipv4Addr, Ipv6Addr, SocketAddr, SocketAddrV6};
use std::time::Duration;

/// White space of Unicode, what only some languages take for white space, and what looks like it.
pub const SPACES: [&str; 26] = [
    " ", "  ", "\t", "\n", "\r\n", "\u{b}", "\u{c}", "\u{1c}", "\u{1d}", "\u{1e}", "\u{1f}", "\u{85}", "\u{a0}", "\u{1680}", "\u{2003}",
    "\u{2009}", "\u{200b}", "\u{2028}", "\u{2029}", "\u{202f}", "\u{205f}", "\u{2060}", "\u{3000}", "\u{feff}", "\0", "",
];

/// SplitMix64.
pub struct Random(pub u64);

impl Random {
    pub fn next(&mut self) -> u64 {
        self.0 = self.0.wrapping_add(0x9e3779b97f4a7c15);
        let mut mixed = self.0;
        mixed = (mixed ^ (mixed >> 30)).wrapping_mul(0xbf58476d1ce4e5b9);
        mixed = (mixed ^ (mixed >> 27)).wrapping_mul(0x94d049bb133111eb);
        mixed ^ (mixed >> 31)
    }

    pub fn below(&mut self, limit: usize) -> usize {
        (self.next() % limit as u64) as usize
    }

    /// Whether one of so many cases is the case.
    pub fn once_in(&mut self, cases: usize) -> bool {
        self.below(cases) == 0
    }

    pub fn pick<'a, T>(&mut self, of: &'a [T]) -> &'a T {
        &of[self.below(of.len())]
    }

    pub fn word(&mut self, of: &[&str]) -> String {
        (*self.pick(of)).to_owned()
    }

    pub fn number(&mut self) -> usize {
        let any = self.next() as usize;
        *self.pick(&[0, 1, 2, 3, 32, 100, 65535, usize::MAX - 1, usize::MAX, any])
    }

    pub fn duration(&mut self) -> Duration {
        let any = self.next();
        let some = Duration::from_micros(any % 40_000_000);
        *self.pick(&[Duration::ZERO, Duration::from_nanos(1), Duration::from_nanos(any), some, some, some, Duration::MAX])
    }

    pub fn bytes(&mut self, longest: usize) -> Vec<u8> {
        (0..self.below(longest + 1)).map(|_| self.next() as u8).collect()
    }

    /// Some words, or the letters of any script, with odd spaces.
    pub fn text(&mut self) -> String {
        match self.below(8) {
            0 => String::new(),
            1 => self.word(&SPACES),
            2 => "x".repeat(self.below(1000)),
            3 => (0..self.below(20)).filter_map(|_| char::from_u32((self.next() % 0x110000) as u32)).collect(),
            4 => format!("a{}b", self.word(&SPACES)),
            _ => self.word(&["near", "farr", "EsAw", "a:b", "9uB6", "é", "ufrag"]),
        }
    }

    pub fn creds(&mut self) -> IceCreds {
        IceCreds { ufrag: self.text(), pass: self.text() }
    }

    pub fn ip(&mut self) -> IpAddr {
        let any = self.next() as u32;
        let v4 = *self.pick(&[0x0a000001, 0x0a000002, 0x7f000001, 0, u32::MAX, 0xa9fe0001, 0xe0000001, any]);
        let v6 = *self.pick(&[1, 0, 0x20010db8 << 96 | 7, 0xfe80 << 112 | 9, 0xff02 << 112, u128::MAX, u128::from(any)]);
        if self.once_in(3) { IpAddr::V6(Ipv6Addr::from_bits(v6)) } else { IpAddr::V4(Ipv4Addr::from_bits(v4)) }
    }

    pub fn address(&mut self) -> SocketAddr {
        let port = *self.pick(&[0, 1, 1000, 2000, 5000, 65535]);
        match self.ip() {
            IpAddr::V6(ip) if self.once_in(2) => SocketAddrV6::new(ip, port, self.number() as u32, self.number() as u32).into(),
            ip => SocketAddr::new(ip, port),
        }
    }

    pub fn protocol(&mut self) -> Protocol {
        *self.pick(&[Protocol::Udp, Protocol::Udp, Protocol::Udp, Protocol::Tcp, Protocol::SslTcp, Protocol::Tls])
    }

    /// A candidate attribute, mostly with something odd.
    pub fn line(&mut self) -> String {
        let mut words = self.head();
        while self.once_in(2) {
            let key = self.word(&["raddr", "rport", "tcptype", "ufrag", "ufrag", "generation", "network-cost", "typ", "candidate:"]);
            let value = match key.as_str() {
                "raddr" => self.word(&["0.0.0.0", "10.0.0.9", "::", "x"]),
                "rport" => self.word(&["0", "9", "65536", "x"]),
                "tcptype" => self.word(&["active", "passive", "so", "x"]),
                _ => self.fragment(),
            };
            words.push(key);
            if !self.once_in(20) {
                words.push(value);
            }
        }
        self.joined(&words)
    }

    /// The first eight words, with a foundation that may look like all of them.
    fn head(&mut self) -> Vec<String> {
        let space = self.word(&SPACES);
        let foundation = match self.below(6) {
            0 => String::new(),
            1 => ["1", "1", "udp", "1", "10.0.0.1", "80", "typ", "host"].join(&space),
            2 => format!("{space}1{space}2"),
            3 => "f".repeat(self.below(300)),
            _ => self.word(&["1", "4234997325", "a+/b", "tmp_prflx"]),
        };
        let component = self.word(&["1", "1", "1", "1", "2", "0", "256", "65536", "+1", "-1", "1.0", "٣"]);
        let proto = self.word(&["udp", "udp", "UDP", "Udp", "tcp", "ssltcp", "tls", "sctp", "ＵＤＰ"]);
        let priority = self.word(&["2130706431", "1", "0", "4294967295", "4294967296", "007", "+7", "x"]);
        let ip = match self.below(8) {
            0 => self.word(&[
                "3f2b8c1e.local",
                "10.0.0.1%lo",
                "::1%lo",
                "[::1]",
                "010.0.0.1",
                "10.0.0.256",
                "example.org",
                "::ffff:10.0.0.1",
            ]),
            _ => self.ip().to_string(),
        };
        let port = self.word(&["2000", "2000", "9", "0", "65535", "65536", "+9", "x"]);
        let typ = self.word(&["typ", "typ", "typ", "typ", "typ", "TYP", "x"]);
        let kind = self.word(&["host", "srflx", "prflx", "relay", "host", "HOST", "x"]);
        let mut words = vec![format!("candidate:{foundation}"), component, proto, priority, ip, port, typ, kind];
        if self.once_in(20) {
            let at = self.below(words.len());
            words.remove(at);
        }
        words
    }

    fn fragment(&mut self) -> String {
        match self.below(4) {
            0 => "u".repeat(*self.pick(&[1, 4, 256, 257, 508])),
            1 => self.text(),
            _ => self.word(&["farr", "EsAw", "gone", "host", "é"]),
        }
    }

    fn joined(&mut self, words: &[String]) -> String {
        let usual = if self.once_in(4) { self.word(&SPACES) } else { " ".to_owned() };
        let mut line = String::new();
        for word in words {
            if !line.is_empty() {
                line += &if self.once_in(30) { self.word(&SPACES) } else { usual.clone() };
            }
            line += word;
        }
        if self.once_in(4) { line + &self.word(&SPACES) } else { line }
    }

    /// The JSON of a candidate, mostly.
    pub fn json(&mut self) -> String {
        let line = escaped(&self.line());
        let ufrag = match self.below(6) {
            0 => escaped(""),
            1 => escaped(&self.word(&SPACES)),
            2 => "null".to_owned(),
            3 => self.word(&["7", "[]", "{}", "\"\\ud800\"", "\"\\u00a0\""]),
            _ => escaped(&self.fragment()),
        };
        match self.below(8) {
            0 => self.text(),
            1 => format!("{}{}", "[".repeat(self.below(300)), "]".repeat(self.below(300))),
            2 => format!(r#"{{"candidate":{line},"candidate":{line}}}"#),
            3 => format!(r#"{{"candidate":{line}}}"#),
            _ => format!(r#"{{"candidate":{line},"sdpMid":"0","usernameFragment":{ufrag}}}"#),
        }
    }
}

/// A text in JSON.
pub fn escaped(text: &str) -> String {
    let units: Vec<String> = text.encode_utf16().map(|unit| format!("\\u{unit:04x}")).collect();
    format!("\"{}\"", units.concat())
}
