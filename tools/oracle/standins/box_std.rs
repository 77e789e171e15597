//! `std` as the original sees it: the standard library with another `Instant`.
//!
//! An instant is whole nanoseconds since the box started. One minus a duration may go below 0 (01, "Instant").

pub use std::*;

pub mod time {
    use ::std::ops::{Add, Sub};
    pub use ::std::time::Duration;

    #[derive(Debug, Clone, Copy, PartialEq, Eq, PartialOrd, Ord, Hash)]
    pub struct Instant(pub i128);

    fn nanoseconds(duration: Duration) -> i128 {
        duration.as_nanos() as i128
    }

    /// None where it would be negative: a `Duration` has no sign.
    fn duration(nanoseconds: i128) -> Option<Duration> {
        let whole = u128::try_from(nanoseconds).ok()?;
        let seconds = u64::try_from(whole / 1_000_000_000).expect("seconds fit 64 bits");
        Some(Duration::new(seconds, (whole % 1_000_000_000) as u32))
    }

    impl Instant {
        pub fn checked_duration_since(&self, earlier: Instant) -> Option<Duration> {
            duration(self.0 - earlier.0)
        }

        pub fn saturating_duration_since(&self, earlier: Instant) -> Duration {
            self.checked_duration_since(earlier)
                .unwrap_or(Duration::ZERO)
        }
    }

    impl Sub<Instant> for Instant {
        type Output = Duration;

        /// Faults on a negative one: check 8 leaves none, and a zero in its place would hide a fault of the driver.
        fn sub(self, earlier: Instant) -> Duration {
            self.checked_duration_since(earlier)
                .expect("instants ascend")
        }
    }

    impl Sub<Duration> for Instant {
        type Output = Instant;

        fn sub(self, by: Duration) -> Instant {
            Instant(self.0 - nanoseconds(by))
        }
    }

    impl Add<Duration> for Instant {
        type Output = Instant;

        fn add(self, by: Duration) -> Instant {
            Instant(self.0 + nanoseconds(by))
        }
    }
}
