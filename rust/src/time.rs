use core::time::Duration;
#[cfg(feature = "std")]
use std::time::Instant;

/// The latest instant that a queue accepts: 2^52 - 1 nanoseconds, a little over 52 days after the clock's start.
pub const LATEST: Duration = Duration::from_nanos((1 << 52) - 1);

/// A clock: instants as durations since its start, which is what every call of a [`Queue`](crate::Queue) takes.
///
/// One clock may serve any number of queues. It never goes back, as [`Instant`] does not.
#[cfg(feature = "std")]
#[derive(Clone, Copy, Debug)]
pub struct Clock(Instant);

#[cfg(feature = "std")]
impl Clock {
    /// A clock that starts now.
    pub fn start() -> Clock {
        Clock(Instant::now())
    }

    /// The time since the start.
    pub fn now(&self) -> Duration {
        self.0.elapsed()
    }

    /// The instant on this clock; zero for one before the start.
    pub fn at(&self, instant: Instant) -> Duration {
        instant.saturating_duration_since(self.0)
    }
}

/// Whole nanoseconds. What 64 bits do not hold becomes their largest number, which every check refuses.
pub(crate) fn nanoseconds(duration: Duration) -> u64 {
    u64::try_from(duration.as_nanos()).unwrap_or(u64::MAX)
}
