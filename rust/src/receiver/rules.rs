use crate::answers::{Figures, Media, Packet};
use crate::refusal::Refusal;
use core::time::Duration;

/// Whose packets a [`Receiver`](crate::Receiver) takes.
#[derive(Clone, Copy, Debug, PartialEq, Eq)]
#[non_exhaustive]
pub enum Sender {
    /// Those of [`Config::ssrc`](crate::Config::ssrc) alone: the rule where signalling names the sender.
    Fixed,
    /// Whoever sends the payload type. The first to come is taken; another takes over once `packets` of it came and the present one
    /// was silent for `silence`. Where the settings have one SSRC for media and repairs, both follow; another SSRC of repairs stays.
    Follow {
        /// Packets of the new sender, 1 to 64. They are kept, and pushed when it takes over.
        packets: usize,
        /// How long nothing came of the present one.
        silence: Duration,
    },
}

impl Sender {
    /// Ten packets, and half a second of silence.
    pub fn follow() -> Sender {
        Sender::Follow { packets: 10, silence: Duration::from_millis(500) }
    }
}

/// When a [`Receiver`](crate::Receiver) opens a new session by itself. After a refusal under 8, 14 or 16 it always does, and in the
/// last hour of a session's 52 days as soon as nothing waits or is missing.
#[derive(Clone, Copy, Debug, PartialEq, Eq)]
#[non_exhaustive]
pub struct Rules {
    /// Whose packets are taken. Default: [`Sender::Fixed`].
    pub sender: Sender,
    /// A restart under the same SSRC: so many media packets with ascending numbers dropped, and none queued between them, 1 to 64.
    /// They are kept, and pushed into the new session. None: never. Default: 10.
    pub restart: Option<usize>,
    /// A restart whose timestamps went back: packets wait, and for [`Config::delay`](crate::Config::delay), or the longest that a dynamic
    /// delay may be, and so much longer none was handed out. None: never. Default: one second.
    pub stall: Option<Duration>,
    /// By how much the clock may go back before that means a new session; until then it stands still. Default: one second.
    pub clock_tolerance: Duration,
    /// Datagrams kept back to be pushed again after a refusal under 12 or 13; the oldest is given up for one more. Default: 64.
    pub held: usize,
}

impl Default for Rules {
    fn default() -> Rules {
        Rules {
            sender: Sender::Fixed,
            restart: Some(10),
            stall: Some(Duration::from_secs(1)),
            clock_tolerance: Duration::from_secs(1),
            held: 64,
        }
    }
}

/// Why a new session was opened.
#[derive(Clone, Copy, Debug, PartialEq, Eq)]
#[non_exhaustive]
pub enum Why {
    /// The sender restarted: its numbers were dropped one after the other ([`Rules::restart`]).
    Restart,
    /// Packets waited and none was handed out ([`Rules::stall`]).
    Stall,
    /// Another sender took over, or was the first ([`Sender::Follow`]).
    Sender,
    /// The session was near its 52 days.
    Age,
    /// The clock went back by more than [`Rules::clock_tolerance`].
    ClockWentBack,
    /// A call was refused, under 8, 14 or 16.
    Refused(Refusal),
    /// The host asked for it ([`Receiver::reopen`](crate::Receiver::reopen)).
    Host,
}

/// What a [`Receiver`](crate::Receiver) did by itself.
#[derive(Clone, Copy, Debug, PartialEq)]
#[non_exhaustive]
pub enum Event {
    /// A new session was opened in place of the old one.
    #[non_exhaustive]
    Reopened {
        /// When, on the host's clock.
        at: Duration,
        /// Why.
        why: Why,
        /// The sender of the new session.
        ssrc: u32,
        /// Packets that waited in the old session; they are handed out first, at once.
        waiting: usize,
        /// Datagrams pushed into the new session that had been kept as a sign of it.
        kept: usize,
        /// The figures of the old session at its end; none where it was damaged.
        figures: Option<Figures>,
    },
    /// A datagram that had been refused under 12 or 13 was pushed again, and taken.
    #[non_exhaustive]
    PushedAgain {
        /// When, on the host's clock.
        at: Duration,
        /// When it came.
        came: Duration,
        /// What it had been refused under.
        refusal: Refusal,
    },
    /// A datagram that had been refused under 12 or 13 was given up.
    #[non_exhaustive]
    GivenUp {
        /// When, on the host's clock.
        at: Duration,
        /// When it came.
        came: Duration,
        /// What it was refused under.
        refusal: Refusal,
    },
}

/// What became of a datagram.
#[derive(Clone, Copy, Debug, PartialEq, Eq)]
#[non_exhaustive]
pub enum Taken {
    /// Media: it waits to be handed out.
    Queued,
    /// Media: its number is not missing.
    Dropped,
    /// A repair: the missing packet waits to be handed out.
    Recovered,
    /// A repair of a number that was not missing.
    Redundant,
    /// A repair of a number already handed out or given up.
    TooLate,
    /// Refused under 12 or 13 and kept, to be pushed again.
    Held,
    /// Kept as a sign of a new sender, which has not yet taken over.
    Strange,
    /// Refused.
    Refused(Refusal),
}

impl From<Media> for Taken {
    fn from(media: Media) -> Taken {
        match media {
            Media::Queued => Taken::Queued,
            Media::Dropped => Taken::Dropped,
        }
    }
}

/// A packet that is handed out.
#[derive(Clone, Copy, Debug, PartialEq, Eq)]
#[non_exhaustive]
pub struct Heard<'a> {
    /// The packet; its instant is on the host's clock.
    pub packet: Packet<'a>,
    /// How many numbers between the packet handed out before it and this one were not handed out: what a decoder has to conceal. In
    /// passthrough they may still come. 0 for the first of a session.
    pub lost_before: u64,
    /// Which session it came through, counted from 1. In another one numbers and timestamps begin anew.
    pub session: u64,
}

/// What a [`Receiver`](crate::Receiver) has counted, over all its sessions.
#[derive(Clone, Copy, Debug, Default, PartialEq, Eq)]
#[non_exhaustive]
pub struct Tally {
    /// Sessions opened.
    pub sessions: u64,
    /// Media packets queued, those pushed again among them.
    pub queued: u64,
    /// Media packets dropped, also those kept as a sign of a restart.
    pub dropped: u64,
    /// Repairs that filled a gap.
    pub recovered: u64,
    /// Repairs that did not.
    pub not_needed: u64,
    /// Packets handed out.
    pub handed_out: u64,
    /// Numbers not handed out between two that were.
    pub lost: u64,
    /// Numbers NACKed.
    pub nacked: u64,
    /// Datagrams pushed again after 12 or 13, and taken.
    pub pushed_again: u64,
    /// Datagrams given up after 12 or 13.
    pub given_up: u64,
    pub(crate) refused: [u64; Refusal::HIGHEST + 1],
}

impl Tally {
    /// How many datagrams were refused so.
    pub fn refused(&self, refusal: Refusal) -> u64 {
        self.refused[usize::from(refusal.number())]
    }
}
