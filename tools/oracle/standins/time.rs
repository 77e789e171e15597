//! `time`'s signed difference of instants: a sign on both parts, seconds as their sum (01, "Instant").

pub struct Duration {
    seconds: i64,
    nanoseconds: i32,
}

impl Duration {
    pub fn as_seconds_f64(self) -> f64 {
        self.seconds as f64 + f64::from(self.nanoseconds) / 1e9
    }
}

pub mod ext {
    use box_std::time::Instant;

    pub trait InstantExt {
        fn signed_duration_since(&self, earlier: Instant) -> crate::Duration;
    }

    impl InstantExt for Instant {
        fn signed_duration_since(&self, earlier: Instant) -> crate::Duration {
            let nanoseconds = self.0 - earlier.0;
            crate::Duration {
                seconds: i64::try_from(nanoseconds / 1_000_000_000).expect("seconds fit 64 bits"),
                nanoseconds: (nanoseconds % 1_000_000_000) as i32,
            }
        }
    }
}
