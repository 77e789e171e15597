//! What becomes of numbers to NACK: RTCP generic NACKs (RFC 4585) to the sender, or a line of text.

use bizhgemu::Receiver;
use bizhgemu::rtcp::Reporter;
use std::hash::{BuildHasher, RandomState};
use std::io;
use std::net::{SocketAddr, ToSocketAddrs, UdpSocket};
use std::time::Duration;

/// Where NACKs go.
#[derive(Clone, Copy, PartialEq)]
pub enum Nacks {
    Untold,
    Printed,
    /// To the address that RTP comes from: RTP and RTCP share a port (RFC 5761).
    ToSource,
    /// To the port after it (RFC 3550, section 11).
    ToNextPort,
    To(SocketAddr),
}

impl Nacks {
    pub fn named(name: &str) -> Option<Nacks> {
        Some(match name {
            "none" => Nacks::Untold,
            "print" => Nacks::Printed,
            "source" => Nacks::ToSource,
            "source+1" => Nacks::ToNextPort,
            address => Nacks::To(address.to_socket_addrs().ok()?.next()?),
        })
    }

    /// The address, where one is known; `source` is where the caller's RTP comes from.
    fn address(self, source: Option<SocketAddr>) -> Option<SocketAddr> {
        match self {
            Nacks::Untold | Nacks::Printed => None,
            Nacks::ToSource => source,
            Nacks::ToNextPort => {
                source.and_then(|source| Some(SocketAddr::new(source.ip(), source.port().checked_add(1)?)))
            }
            Nacks::To(address) => Some(address),
        }
    }
}

/// Sends them.
pub struct Asking<'a> {
    nacks: Nacks,
    socket: &'a UdpSocket,
    reporter: Reporter,
    /// Datagrams sent, and those that the network did not take.
    pub sent: u64,
    pub failed: u64,
}

impl<'a> Asking<'a> {
    pub fn new(nacks: Nacks, own_ssrc: Option<u32>, socket: &'a UdpSocket) -> Asking<'a> {
        // RFC 3550, section 8: an SSRC at random; RFC 7022: a CNAME too
        let random = || RandomState::new().hash_one(0);
        let reporter = Reporter::compound(own_ssrc.unwrap_or(random() as u32), &format!("listen-{:016x}", random()));
        Asking { nacks, socket, reporter, sent: 0, failed: 0 }
    }

    /// Asks for what is due. Called whether NACKs are sent or not: numbers are given up by the count of their NACKs.
    pub fn serve(&mut self, now: Duration, receiver: &mut Receiver, source: Option<SocketAddr>) {
        let Some(address) = self.nacks.address(source) else {
            let numbers = receiver.nacks(now);
            if self.nacks == Nacks::Printed && !numbers.is_empty() {
                eprintln!("{}", numbers.iter().fold("NACK".to_string(), |line, number| format!("{line} {number}")));
            }
            return;
        };
        for datagram in receiver.nack_packets(now, &self.reporter) {
            match self.socket.send_to(&datagram, address) {
                Ok(_) => self.sent += 1,
                // nobody listens there now; the stream is heard all the same
                Err(_) => self.failed += 1,
            }
        }
    }

    /// What is told at the end.
    pub fn told(&self) -> Option<String> {
        let failed = if self.failed > 0 { format!(", {} not sent", self.failed) } else { String::new() };
        (self.sent + self.failed > 0).then(|| format!("{} RTCP datagrams sent{failed}", self.sent))
    }
}

/// Whether an error of the socket is the network's answer to a datagram sent before: nobody listens there.
pub fn unanswered(error: &io::Error) -> bool {
    error.kind() == io::ErrorKind::ConnectionRefused
}
