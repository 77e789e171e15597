//! The receive queue of a radio link box: it takes the RTP packets of one sender in whatever order the network delivers them,
//! says which are missing so that they can be asked for again, and hands them out, in sorted mode in order.
//!
//! The queue itself is written in Rattle and proved: for every input its answer, its state and every byte of its storage are
//! what the definitions in this repository say, and a call it refuses changes nothing. This crate is the thin safe layer
//! over its exported functions: it owns the memory, turns codes into enums and nanoseconds into [`Duration`](core::time::Duration).
//! It links `target/staticlib/libffi.a`, which `tools/build archive` makes.
//!
//! # Use
//!
//! One [`Queue`] to a stream, that is, to one SSRC and payload type. A host hands datagrams in as they come, and between them sleeps
//! for as long as [`Queue::timeout`] says; then it asks for packets and for numbers to NACK. Instants come from one [`Clock`].
//!
//! ```
//! use bizhgemu::{Config, Media, Queue};
//! use std::time::Duration;
//!
//! let mut queue = Queue::open(&Config::pcmu(1))?;
//!
//! // Numbers 10 and 12 come, 20 ms of speech each; 11 does not.
//! let datagram = |number: u8, timestamp: u16| {
//!     let [high, low] = timestamp.to_be_bytes();
//!     [0x80, 0, 0, number, 0, 0, high, low, 0, 0, 0, 1, 0x2a]
//! };
//! let ms = Duration::from_millis;
//! assert_eq!(queue.push(ms(0), &datagram(10, 0))?, Media::Queued);
//! assert_eq!(queue.push(ms(40), &datagram(12, 320))?, Media::Queued);
//!
//! // After 5 ms 11 is to be asked for again.
//! assert_eq!(queue.timeout(ms(40))?, Some(ms(5)));
//! assert_eq!(queue.poll_nack(ms(45))?, [11]);
//!
//! // 100 ms after it came, 10 is handed out.
//! let packet = queue.poll(ms(100))?.expect("due by now");
//! assert_eq!((packet.sequence_number, packet.payload), (10, &[0x2a][..]));
//! # Ok::<(), bizhgemu::Refusal>(())
//! ```
//!
//! Whatever is wrong with a call comes back as a [`Refusal`], which says what it means and what to do about it; nothing panics, whatever
//! the network sends. [`Receiver`] does what a host must do about some of them, a new session among it, and is what most boxes want.
//! [`Header`] tells which stream a datagram belongs to. `docs/USING.md` in the repository tells how to choose the settings and what
//! real senders do; the example `listen` is a host that shows the signs of trouble.
//!
//! The crate needs `alloc`; feature `std`, on by default, adds [`Clock`] and nothing else.
//!
//! Floats are taken to be rounded to nearest with subnormal numbers kept, as programs usually start.

#![cfg_attr(not(test), no_std)]
#![deny(missing_docs, unsafe_op_in_unsafe_fn)]

extern crate alloc;
#[cfg(all(feature = "std", not(test)))]
extern crate std;

mod answers;
mod config;
mod ffi;
mod header;
mod inspect;
mod line;
mod queue;
mod receiver;
mod refusal;
pub mod rtcp;
mod time;
mod version;

#[cfg(test)]
mod boundary_tests;

pub use answers::{Figures, Media, Packet, Repair, RtxStats};
pub use config::{Config, Dynamic, Mode, Rtx};
pub use header::Header;
pub use inspect::{Gap, LastReceived, Remembered, RoundTrip, Waiting};
pub use line::{LINE_BYTES, LineError};
pub use queue::{Queue, read_nacks, read_nacks_into};
pub use receiver::{Event, Heard, Receiver, Rules, Sender, Taken, Tally, Why};
pub use refusal::Refusal;
#[cfg(feature = "std")]
pub use time::Clock;
pub use time::LATEST;
pub use version::{VERSION, library_version};
