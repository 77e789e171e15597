//! What the socket has ready: after a tunnel, or while this program did something else, dozens of datagrams.

use crate::nacks;
use std::io::{self, ErrorKind};
use std::net::{SocketAddr, UdpSocket};

/// The most that are taken at a time: packets that are due should not wait for a flood to end.
const MOST: usize = 64;

/// A datagram, and where it came from.
pub type Came<'a> = (&'a [u8], SocketAddr);

pub struct Burst {
    /// Each long enough for every datagram.
    places: Vec<Vec<u8>>,
    came: Vec<(usize, SocketAddr)>,
}

impl Burst {
    pub fn new() -> Burst {
        Burst { places: Vec::new(), came: Vec::new() }
    }

    /// Waits for a datagram, as long as the socket's timeout says, and takes those that are ready behind it. None came: it is empty.
    pub fn receive(&mut self, socket: &UdpSocket) -> io::Result<()> {
        self.came.clear();
        if !self.receive_one(socket)? {
            return Ok(());
        }
        socket.set_nonblocking(true)?;
        while self.came.len() < MOST && self.receive_one(socket)? {}
        socket.set_nonblocking(false)
    }

    fn receive_one(&mut self, socket: &UdpSocket) -> io::Result<bool> {
        let next = self.came.len();
        if self.places.len() == next {
            self.places.push(vec![0; 65_536]);
        }
        match socket.recv_from(&mut self.places[next]) {
            Ok(came) => self.came.push(came),
            Err(error)
                if matches!(error.kind(), ErrorKind::WouldBlock | ErrorKind::TimedOut | ErrorKind::Interrupted) => {}
            Err(error) if nacks::unanswered(&error) => {}
            Err(error) => return Err(error),
        }
        Ok(self.came.len() > next)
    }

    pub fn datagrams(&self) -> Vec<Came<'_>> {
        self.places.iter().zip(&self.came).map(|(place, (length, source))| (&place[..*length], *source)).collect()
    }
}
