//! The boundary as it is exported: declarations only. include/bizhgemu.h has the same for C, with a comment for each.
//!
//! rust/tests/declarations.rs compares them with the Rattle sources' and the header's, field by field; the assertions below fix their layout, and
//! tests send distinct values through.

use core::mem::{offset_of, size_of};

#[repr(C)]
#[derive(Clone, Copy, Debug, PartialEq)]
pub struct Config {
    pub delay: u64,
    pub initial_nack_delay: u64,
    pub default_nack_resend_delay: u64,
    pub min_delay: u64,
    pub max_delay: u64,
    pub target_recovery: u64,
    pub max_entries: usize,
    pub max_gaps: usize,
    pub clock_rate: u32,
    pub max_nack_attempts: u32,
    pub mode: u32,
    pub has_rtx: u32,
    pub ssrc: u32,
    pub rtx_ssrc: u32,
    pub pt: u8,
    pub rtx_pt: u8,
}

#[repr(C)]
#[derive(Clone, Copy, Debug, PartialEq)]
pub struct Session {
    pub config: Config,
    pub clock: u64,
    pub has_last: u64,
    pub last_instant: u64,
    pub last_timestamp: u64,
    pub last_number: u64,
    pub has_returned: u64,
    pub returned: u64,
    pub has_rtt: u64,
    pub srtt: u64,
    pub variation: u64,
    pub rtx_in_time: u64,
    pub rtx_too_late: u64,
    pub rtx_redundant: u64,
    pub rtx_bytes: u64,
    pub dropped: u64,
    pub received: u64,
    pub bytes: u64,
    pub lost: u64,
    pub jitter_clock_rate_bits: u64,
    pub jitter_bits: u64,
    pub entries: usize,
    pub gaps: usize,
    pub remembered: usize,
    pub loss_bits: u32,
}

#[repr(C)]
pub struct Opened {
    pub refusal: u64,
    pub session: Session,
}

#[repr(C)]
pub struct Pushed {
    pub refusal: u64,
    pub answer: u64,
    pub session: Session,
}

#[repr(C)]
pub struct Packet {
    pub has_received_at: u64,
    pub received_at: u64,
    pub delay: u64,
    pub size: usize,
    pub timestamp: u32,
    pub ssrc: u32,
    pub sequence_number: u16,
    pub pt: u8,
    pub marker: u8,
}

#[repr(C)]
pub struct Polled {
    pub refusal: u64,
    pub has_packet: u64,
    pub packet: Packet,
    pub session: Session,
}

#[repr(C)]
pub struct PushedBurst {
    pub refusal: u64,
    pub answers: usize,
    pub session: Session,
}

#[repr(C)]
pub struct PolledNack {
    pub refusal: u64,
    pub count: usize,
    pub session: Session,
}

#[repr(C)]
pub struct PolledWire {
    pub refusal: u64,
    pub bytes: usize,
    pub session: Session,
}

#[repr(C)]
pub struct ReadNumbers {
    pub refusal: u64,
    pub numbers: usize,
}

#[repr(C)]
pub struct Timeout {
    pub refusal: u64,
    pub has_timeout: u64,
    pub timeout: u64,
}

#[repr(C)]
pub struct RtxStats {
    pub refusal: u64,
    pub has_stats: u64,
    pub packets_received_in_time: u64,
    pub packets_received_too_late: u64,
    pub packets_received_redundant: u64,
    pub bytes_received: u64,
    pub has_rtt: u64,
    pub rtt: u64,
}

#[repr(C)]
pub struct Highest {
    pub refusal: u64,
    pub has_number: u64,
    pub number: u64,
}

#[repr(C)]
pub struct Figures {
    pub refusal: u64,
    pub packets_received: u64,
    pub packets_dropped: u64,
    pub packets_lost: u64,
    pub bytes_received: u64,
    pub jitter: u64,
    pub loss: f32,
}

#[repr(C)]
pub struct Lengths {
    pub refusal: u64,
    pub entries: usize,
    pub payloads: usize,
    pub gaps: usize,
    pub remembered: usize,
}

#[repr(C)]
#[derive(Clone, Copy, Debug, PartialEq)]
pub struct Settings {
    pub delay: u64,
    pub initial_nack_delay: u64,
    pub default_nack_resend_delay: u64,
    pub min_delay: u64,
    pub max_delay: u64,
    pub target_recovery: u64,
    pub max_entries: usize,
    pub max_gaps: usize,
    pub clock_rate: u32,
    pub max_nack_attempts: u32,
    pub mode: u32,
}

#[repr(C)]
pub struct SettingsRead {
    pub refusal: u64,
    pub settings: Settings,
}

#[repr(C)]
pub struct SettingsWritten {
    pub refusal: u64,
    pub bytes: usize,
}

impl Settings {
    /// Those of a session's settings that a line keeps.
    pub fn of(config: &Config) -> Settings {
        Settings {
            delay: config.delay,
            initial_nack_delay: config.initial_nack_delay,
            default_nack_resend_delay: config.default_nack_resend_delay,
            min_delay: config.min_delay,
            max_delay: config.max_delay,
            target_recovery: config.target_recovery,
            max_entries: config.max_entries,
            max_gaps: config.max_gaps,
            clock_rate: config.clock_rate,
            max_nack_attempts: config.max_nack_attempts,
            mode: config.mode,
        }
    }

    /// The settings of a session with the senders of another.
    pub fn with_senders(&self, senders: &Config) -> Config {
        Config {
            delay: self.delay,
            initial_nack_delay: self.initial_nack_delay,
            default_nack_resend_delay: self.default_nack_resend_delay,
            min_delay: self.min_delay,
            max_delay: self.max_delay,
            target_recovery: self.target_recovery,
            max_entries: self.max_entries,
            max_gaps: self.max_gaps,
            clock_rate: self.clock_rate,
            max_nack_attempts: self.max_nack_attempts,
            mode: self.mode,
            ..*senders
        }
    }
}

const _: () = {
    assert!(size_of::<usize>() == 8);
    assert!(size_of::<Settings>() == 80);
    assert!(size_of::<SettingsRead>() == 88);
    assert!(size_of::<SettingsWritten>() == 16);
    assert!(offset_of!(Settings, min_delay) == 24);
    assert!(offset_of!(Settings, max_entries) == 48);
    assert!(offset_of!(Settings, mode) == 72);
    assert!(size_of::<Config>() == 96);
    assert!(size_of::<Session>() == 288);
    assert!(size_of::<Opened>() == 296);
    assert!(size_of::<Pushed>() == 304);
    assert!(size_of::<PushedBurst>() == 304);
    assert!(size_of::<Packet>() == 48);
    assert!(size_of::<Polled>() == 352);
    assert!(size_of::<PolledNack>() == 304);
    assert!(size_of::<PolledWire>() == 304);
    assert!(size_of::<ReadNumbers>() == 16);
    assert!(size_of::<Timeout>() == 24);
    assert!(size_of::<RtxStats>() == 64);
    assert!(size_of::<Highest>() == 24);
    assert!(size_of::<Figures>() == 56);
    assert!(size_of::<Lengths>() == 40);

    assert!(offset_of!(Config, target_recovery) == 40);
    assert!(offset_of!(Config, max_entries) == 48);
    assert!(offset_of!(Config, clock_rate) == 64);
    assert!(offset_of!(Config, rtx_ssrc) == 84);
    assert!(offset_of!(Config, rtx_pt) == 89);
    assert!(offset_of!(Session, clock) == 96);
    assert!(offset_of!(Session, has_rtt) == 152);
    assert!(offset_of!(Session, dropped) == 208);
    assert!(offset_of!(Session, jitter_clock_rate_bits) == 240);
    assert!(offset_of!(Session, entries) == 256);
    assert!(offset_of!(Session, loss_bits) == 280);
    assert!(offset_of!(Packet, size) == 24);
    assert!(offset_of!(Packet, sequence_number) == 40);
    assert!(offset_of!(Packet, marker) == 43);
    assert!(offset_of!(Polled, packet) == 16);
    assert!(offset_of!(Polled, session) == 64);
    assert!(offset_of!(Figures, loss) == 48);
};

/// A call that is lent session and storage: a pointer and a count of elements for each slice, then the call's own parameters.
macro_rules! lent {
    ($($function:ident ( $($parameter:ident : $kind:ty),* ) -> $answer:ty;)*) => {
        unsafe extern "C" {
            $(pub fn $function(
                session: Session,
                entries: *mut u64,
                entries_len: usize,
                payloads: *mut u8,
                payloads_len: usize,
                gaps: *mut u64,
                gaps_len: usize,
                remembered: *mut u64,
                remembered_len: usize,
                $($parameter: $kind),*
            ) -> $answer;)*
        }
    };
}

lent! {
    bizhgemu_push(now: u64, datagram: *const u8, datagram_len: usize) -> Pushed;
    bizhgemu_push_burst(
        now: u64,
        buffer: *const u8,
        buffer_len: usize,
        ends: *const u64,
        ends_len: usize,
        answers: *mut u8,
        answers_len: usize
    ) -> PushedBurst;
    bizhgemu_push_rtx(now: u64, datagram: *const u8, datagram_len: usize) -> Pushed;
    bizhgemu_poll(now: u64, out: *mut u8, out_len: usize) -> Polled;
    bizhgemu_poll_nack(now: u64, out: *mut u16, out_len: usize) -> PolledNack;
    bizhgemu_nack_wire(now: u64, out: *mut u8, out_len: usize) -> PolledWire;
    bizhgemu_timeout_receive(now: u64) -> Timeout;
    bizhgemu_timeout_nack(now: u64) -> Timeout;
    bizhgemu_rtx_stats() -> RtxStats;
    bizhgemu_highest_sequence_number_received() -> Highest;
}

unsafe extern "C" {
    pub fn bizhgemu_open(
        config: Config,
        entries: *mut u64,
        entries_len: usize,
        payloads: *mut u8,
        payloads_len: usize,
        gaps: *mut u64,
        gaps_len: usize,
        remembered: *mut u64,
        remembered_len: usize,
    ) -> Opened;
    pub fn bizhgemu_read_nacks(entries: *const u8, entries_len: usize, out: *mut u16, out_len: usize) -> ReadNumbers;
    pub fn bizhgemu_read_settings(line: *const u8, line_len: usize) -> SettingsRead;
    pub fn bizhgemu_write_settings(settings: Settings, out: *mut u8, out_len: usize) -> SettingsWritten;
    // Safe: these three take numbers alone, or nothing, and refuse what they cannot use.
    pub safe fn bizhgemu_figures(session: Session) -> Figures;
    pub safe fn bizhgemu_lengths(max_entries: usize, max_gaps: usize) -> Lengths;
    pub safe fn bizhgemu_version() -> u64;
}
