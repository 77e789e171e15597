//! What is measured, each behind the same calls.

use crate::cpu;
use bizhgemu::{Config, Queue, Rtx};
use original::Original;
use std::hint::black_box;
use std::time::Duration;

pub const PT: u8 = 0;
pub const SSRC: u32 = 0x1234_5678;
pub const RTX_PT: u8 = 97;
pub const RTX_SSRC: u32 = 0x8765_4321;

pub struct Settings {
    pub max_entries: usize,
    pub max_gaps: usize,
    /// Packets that wait after each push.
    pub waiting: usize,
}

impl Settings {
    fn delay(&self) -> Duration {
        Duration::from_millis(20) * (self.waiting as u32 - 1)
    }
}

pub trait Subject {
    fn push(&mut self, now: u64, datagram: &[u8]);
    fn push_rtx(&mut self, now: u64, datagram: &[u8]);
    /// Whether a packet was handed out.
    fn poll(&mut self, now: u64) -> bool;
    fn timeout_nack(&mut self, now: u64) -> Option<Duration>;
    fn poll_nack(&mut self, now: u64, numbers: &mut Vec<u16>);
}

/// Ours first, then the original, then the others.
pub const KINDS: &[fn(&Settings) -> Box<dyn Subject>] = &[
    |settings| Box::new(Proved::new(settings)),
    |settings| Box::new(Rust::new(settings)),
    #[cfg(peer)]
    |settings| Box::new(peer::Libre::new(settings)),
];

/// The storage of a session, cleared.
pub struct Floor {
    entries: Vec<u64>,
    payloads: Vec<u8>,
    gaps: Vec<u64>,
    remembered: Vec<u64>,
}

impl Floor {
    pub fn new(settings: &Settings) -> Floor {
        Floor {
            entries: vec![1; 8 * settings.max_entries],
            payloads: vec![1; 640 * settings.max_entries],
            gaps: vec![1; 4 * settings.max_gaps],
            remembered: vec![1; 2048],
        }
    }

    fn clear(&mut self) {
        black_box(&mut self.entries).fill(0);
        black_box(&mut self.payloads).fill(0);
        black_box(&mut self.gaps).fill(0);
        black_box(&mut self.remembered).fill(0);
    }
}

/// Nanoseconds to clear the storage of a session once; the sessions in turn, each twice in a row, as by push and poll.
pub fn clear(floors: &mut [Floor], steps: usize) -> f64 {
    let clears = (2 * steps * floors.len()) as f64;
    let time = cpu::time(|| {
        for _ in 0..steps {
            for floor in floors.iter_mut() {
                floor.clear();
                floor.clear();
            }
        }
    });
    time / clears
}

struct Proved(Queue);

impl Proved {
    fn new(settings: &Settings) -> Proved {
        let mut config = Config::default();
        config.delay = settings.delay();
        (config.max_entries, config.max_gaps) = (settings.max_entries, settings.max_gaps);
        (config.payload_type, config.ssrc) = (PT, SSRC);
        config.rtx = Some(Rtx::new(RTX_PT, RTX_SSRC));
        Proved(Queue::open(&config).expect("settings in range"))
    }
}

impl Subject for Proved {
    fn push(&mut self, now: u64, datagram: &[u8]) {
        self.0.push(Duration::from_nanos(now), datagram).expect("accepted");
    }

    fn push_rtx(&mut self, now: u64, datagram: &[u8]) {
        self.0.push_rtx(Duration::from_nanos(now), datagram).expect("accepted");
    }

    fn poll(&mut self, now: u64) -> bool {
        let packet = self.0.poll(Duration::from_nanos(now)).expect("accepted");
        black_box(packet.map(|packet| packet.payload)).is_some()
    }

    fn timeout_nack(&mut self, now: u64) -> Option<Duration> {
        self.0.timeout_nack(Duration::from_nanos(now)).expect("accepted")
    }

    fn poll_nack(&mut self, now: u64, numbers: &mut Vec<u16>) {
        numbers.extend_from_slice(self.0.poll_nack(Duration::from_nanos(now)).expect("accepted"));
    }
}

struct Rust {
    queue: Original,
    payload: [u8; 320],
}

impl Rust {
    fn new(settings: &Settings) -> Rust {
        Original::set_depth(settings.max_entries);
        let queue = Original::open(settings.delay(), 8_000, PT, SSRC, RTX_PT, RTX_SSRC);
        Rust { queue, payload: [0; 320] }
    }
}

impl Subject for Rust {
    fn push(&mut self, now: u64, datagram: &[u8]) {
        self.queue.push(now, datagram).expect("accepted");
    }

    fn push_rtx(&mut self, now: u64, datagram: &[u8]) {
        self.queue.push_rtx(now, datagram).expect("accepted");
    }

    fn poll(&mut self, now: u64) -> bool {
        let size = self.queue.poll(now, &mut self.payload);
        black_box(size.map(|size| &self.payload[..size])).is_some()
    }

    fn timeout_nack(&mut self, now: u64) -> Option<Duration> {
        self.queue.timeout_nack(now)
    }

    fn poll_nack(&mut self, now: u64, numbers: &mut Vec<u16>) {
        self.queue.poll_nack(now, numbers);
    }
}

#[cfg(peer)]
mod peer {
    use super::{Settings, Subject};
    use std::collections::VecDeque;
    use std::ffi::{c_int, c_void};
    use std::hint::black_box;
    use std::time::Duration;

    unsafe extern "C" {
        fn peer_open(waiting: u32, most: u32) -> *mut c_void;
        fn peer_put(buffer: *mut c_void, datagram: *mut u8, length: usize) -> c_int;
        fn peer_get(buffer: *mut c_void, out: *mut u8) -> c_int;
        fn peer_close(buffer: *mut c_void);
    }

    /// It has no NACKs of its own: a number that is stepped over is named one step later.
    pub struct Libre {
        buffer: *mut c_void,
        datagram: [u8; 1500],
        payload: [u8; 1500],
        last: Option<u16>,
        missing: VecDeque<u16>,
    }

    impl Libre {
        pub fn new(settings: &Settings) -> Libre {
            // SAFETY: two numbers.
            let buffer = unsafe { peer_open(settings.waiting as u32 - 1, 2 * settings.max_entries as u32 + 20) };
            assert!(!buffer.is_null());
            Libre { buffer, datagram: [0; 1500], payload: [0; 1500], last: None, missing: VecDeque::new() }
        }

        fn put(&mut self, datagram: &[u8]) {
            self.datagram[..datagram.len()].copy_from_slice(datagram);
            // SAFETY: a live buffer, and bytes of the length passed.
            let refused = unsafe { peer_put(self.buffer, self.datagram.as_mut_ptr(), datagram.len()) };
            assert_eq!(refused, 0);
        }
    }

    impl Drop for Libre {
        fn drop(&mut self) {
            // SAFETY: a live buffer, closed once.
            unsafe { peer_close(self.buffer) }
        }
    }

    impl Subject for Libre {
        fn push(&mut self, _: u64, datagram: &[u8]) {
            let number = u16::from_be_bytes([datagram[2], datagram[3]]);
            if self.last.is_some_and(|last| last.wrapping_add(1) != number) {
                self.missing.push_back(number.wrapping_sub(1));
            }
            self.last = Some(number);
            self.put(datagram);
        }

        fn push_rtx(&mut self, _: u64, datagram: &[u8]) {
            let mut media = [0; 172];
            media[..12].copy_from_slice(&datagram[..12]);
            media[1] = super::PT;
            media[8..12].copy_from_slice(&super::SSRC.to_be_bytes());
            media[12..].copy_from_slice(&datagram[14..]);
            self.put(&media);
        }

        fn poll(&mut self, _: u64) -> bool {
            // SAFETY: a live buffer, and room for any datagram that was put in.
            let size = unsafe { peer_get(self.buffer, self.payload.as_mut_ptr()) };
            black_box(&self.payload);
            size >= 0
        }

        fn timeout_nack(&mut self, _: u64) -> Option<Duration> {
            (!self.missing.is_empty()).then_some(Duration::ZERO)
        }

        fn poll_nack(&mut self, _: u64, numbers: &mut Vec<u16>) {
            numbers.extend(self.missing.drain(..));
        }
    }
}
