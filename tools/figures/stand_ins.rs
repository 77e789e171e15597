// Stand-ins for the crates that the Rust's files name, each compiled as a crate of its own by tools/compare-figures.
//=> time
// 01, "Instant": the whole seconds and the remaining nanoseconds, a sign on both parts.
pub mod ext {
    use std::time::Instant;
    pub struct Signed(i64, i64);
    impl Signed {
        pub fn as_seconds_f64(self) -> f64 {
            self.0 as f64 + self.1 as f64 / 1e9
        }
    }
    pub trait InstantExt {
        fn signed_duration_since(&self, other: Instant) -> Signed;
    }
    impl InstantExt for Instant {
        fn signed_duration_since(&self, other: Instant) -> Signed {
            let (sign, d) = match self.checked_duration_since(other) {
                Some(d) => (1, d),
                None => (-1, other.duration_since(*self)),
            };
            Signed(sign * d.as_secs() as i64, sign * d.subsec_nanos() as i64)
        }
    }
}
//=> rtcp_types
#[derive(Default)]
pub struct NackBuilder;
impl NackBuilder {
    pub fn add_rtp_sequence(self, _number: u16) -> NackBuilder {
        self
    }
}
//=> log
#[macro_export]
macro_rules! warn {
    ($($x:tt)*) => {};
}
