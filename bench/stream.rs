//! A stream of 20 ms packets, and what a host does with it.

use crate::subjects::{PT, RTX_PT, RTX_SSRC, SSRC, Subject};
use std::hint::black_box;
use std::time::Duration;

/// A packet's time, in nanoseconds and in ticks of its clock.
const STEP: u64 = 20_000_000;
const TICKS: u32 = 160;
/// One in so many is lost, where packets are lost.
const LOSS: u64 = 50;

pub struct Stream {
    step: u64,
    lossy: bool,
    media: Vec<u8>,
    repair: Vec<u8>,
    /// NACKed in the step before.
    numbers: Vec<u16>,
    /// Calls made so far.
    pub calls: u64,
    pub handed_out: u64,
}

impl Stream {
    pub fn new(lossy: bool) -> Stream {
        let payload: Vec<u8> = (0..160).collect();
        let media = [&[0x80, PT, 0, 0, 0, 0, 0, 0], &SSRC.to_be_bytes()[..], &payload].concat();
        let repair = [&[0x80, RTX_PT, 0, 0, 0, 0, 0, 0], &RTX_SSRC.to_be_bytes()[..], &[0, 0], &payload].concat();
        Stream { step: 0, lossy, media, repair, numbers: Vec::new(), calls: 0, handed_out: 0 }
    }

    pub fn steps(&self) -> u64 {
        self.step
    }

    /// One packet time: a packet is pushed, or lost; where packets are lost, NACKs and repairs; then `poll`.
    pub fn advance(&mut self, subject: &mut dyn Subject) {
        let now = (self.step + 1) * STEP;
        if !self.lossy || self.step % LOSS != LOSS - 1 {
            write(&mut self.media, self.step as u16, timestamp(self.step as u32));
            subject.push(now, black_box(&self.media));
            self.calls += 1;
        }
        if self.lossy {
            self.repair(subject, now);
            self.nack(subject, now);
        }
        self.handed_out += u64::from(subject.poll(now));
        self.calls += 1;
        self.step += 1;
    }

    /// Repairs come one step after their NACK.
    fn repair(&mut self, subject: &mut dyn Subject, now: u64) {
        for number in std::mem::take(&mut self.numbers) {
            let back = (self.step as u16).wrapping_sub(number);
            write(&mut self.repair, number, timestamp((self.step as u32).wrapping_sub(back.into())));
            self.repair[12..14].copy_from_slice(&number.to_be_bytes());
            subject.push_rtx(now, black_box(&self.repair));
            self.calls += 1;
        }
    }

    fn nack(&mut self, subject: &mut dyn Subject, now: u64) {
        self.calls += 1;
        if subject.timeout_nack(now) == Some(Duration::ZERO) {
            subject.poll_nack(now, &mut self.numbers);
            self.calls += 1;
        }
    }
}

fn timestamp(step: u32) -> u32 {
    step.wrapping_mul(TICKS)
}

fn write(datagram: &mut [u8], number: u16, timestamp: u32) {
    datagram[2..4].copy_from_slice(&number.to_be_bytes());
    datagram[4..8].copy_from_slice(&timestamp.to_be_bytes());
}
