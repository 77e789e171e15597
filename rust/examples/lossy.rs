//! A path that loses packets, between a sender of RTP and `listen`: it passes datagrams on, loses one in so many, and repairs (RFC 4588)
//! those that `listen` asks for by RTCP generic NACKs (RFC 4585). FROM is the address it listens at, for the sender and for RTCP alike; TO is
//! where `listen` listens.

use bizhgemu::rtcp::{GenericNack, packets};
use bizhgemu::{Header, read_nacks};
use std::collections::VecDeque;
use std::io::{self, ErrorKind};
use std::net::UdpSocket;
use std::time::{Duration, Instant};

/// How many datagrams are kept to be sent again.
const KEPT: usize = 512;
const USAGE: &str = "usage: lossy FROM TO LOSE-ONE-IN ROUND-TRIP-MS RTX-PT RTX-SSRC SECONDS, all numbers decimal";
const TICK: Duration = Duration::from_millis(1);

struct Path {
    lose_one_in: u64,
    round_trip: Duration,
    rtx_pt: u8,
    rtx_ssrc: u32,
    seen: u64,
    rtx_number: u16,
    kept: VecDeque<Vec<u8>>,
    repairs: VecDeque<(Instant, Vec<u8>)>,
}

impl Path {
    /// Keeps a media packet; whether it is passed on.
    fn media(&mut self, datagram: &[u8]) -> bool {
        if self.kept.len() == KEPT {
            self.kept.pop_front();
        }
        self.kept.push_back(datagram.to_vec());
        self.seen += 1;
        !self.seen.is_multiple_of(self.lose_one_in)
    }

    /// Answers the generic NACKs of an RTCP datagram by repairs, a round trip later.
    fn rtcp(&mut self, datagram: &[u8]) {
        let nacks = packets(datagram).into_iter().flatten().filter_map(|packet| GenericNack::read(packet).ok());
        let numbers: Vec<u16> = nacks.filter_map(|nack| read_nacks(nack.entries).ok()).flatten().collect();
        for number in numbers {
            let number = number.to_be_bytes();
            let Some(media) = self.kept.iter().rev().find(|media| media[2..4] == number) else {
                continue;
            };
            let mut repair = media[..12].to_vec();
            repair[1] = media[1] & 0x80 | self.rtx_pt;
            repair[2..4].copy_from_slice(&self.rtx_number.to_be_bytes());
            repair[8..12].copy_from_slice(&self.rtx_ssrc.to_be_bytes());
            repair.extend(number);
            repair.extend(&media[12..]);
            self.rtx_number = self.rtx_number.wrapping_add(1);
            self.repairs.push_back((Instant::now() + self.round_trip, repair));
        }
    }

    fn due(&mut self) -> Option<Vec<u8>> {
        if self.repairs.front()?.0 > Instant::now() {
            return None;
        }
        self.repairs.pop_front().map(|(_, repair)| repair)
    }
}

/// RFC 5761, section 4: how the two are told apart where they share a port.
fn is_rtcp(datagram: &[u8]) -> bool {
    Header::of(datagram).is_some_and(|header| header.may_be_rtcp())
}

fn main() -> io::Result<()> {
    let words: Vec<String> = std::env::args().skip(1).collect();
    let [from, to, numbers @ ..] = words.as_slice() else {
        return Err(io::Error::other(USAGE));
    };
    let numbers: Vec<u32> = numbers.iter().filter_map(|word| word.parse().ok()).collect();
    let [lose_one_in, round_trip, rtx_pt, rtx_ssrc, seconds] = numbers[..] else {
        return Err(io::Error::other(USAGE));
    };
    let path = Path {
        lose_one_in: lose_one_in.into(),
        round_trip: Duration::from_millis(round_trip.into()),
        rtx_pt: rtx_pt as u8 & 0x7f,
        rtx_ssrc,
        seen: 0,
        rtx_number: 0,
        kept: VecDeque::new(),
        repairs: VecDeque::new(),
    };
    run(path, &UdpSocket::bind(from)?, to, Instant::now() + Duration::from_secs(seconds.into()))
}

fn run(mut path: Path, socket: &UdpSocket, to: &str, end: Instant) -> io::Result<()> {
    socket.set_read_timeout(Some(TICK))?;
    let mut bytes = [0; 2048];
    while Instant::now() < end {
        match socket.recv(&mut bytes) {
            Ok(length) if is_rtcp(&bytes[..length]) => path.rtcp(&bytes[..length]),
            Ok(length) if length >= 12 && path.media(&bytes[..length]) => {
                socket.send_to(&bytes[..length], to)?;
            }
            Ok(_) => {}
            Err(error) if matches!(error.kind(), ErrorKind::WouldBlock | ErrorKind::TimedOut) => {}
            Err(error) => return Err(error),
        }
        while let Some(repair) = path.due() {
            socket.send_to(&repair, to)?;
        }
    }
    Ok(())
}
