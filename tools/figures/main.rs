// The oracle of tools/compare-figures: the Rust's own files, driven by the cases that crates/figures reads, with the same answers
// written. Its header comment says what each letter takes.
mod rtp;
mod rtp_session {
    pub mod inbound {
        pub mod queue;
        pub mod stats;
    }
}

include!("opt_min.rs");

use rtp_session::inbound::queue::probe::*;
use std::io::{BufRead, BufWriter, Write};
use std::time::{Duration, Instant};
use time::ext::InstantExt as _;

const LARGEST: u64 = (1 << 52) - 1;

fn answer(letter: &str, n: &[u64]) -> Vec<Option<u64>> {
    let start = Instant::now();
    let at = |ns: u64| start + Duration::from_nanos(ns);
    let ns = Duration::from_nanos;
    let bits = |x: f64| if x.is_nan() { None } else { Some(x.to_bits()) };
    let bits32 = |x: f32| if x.is_nan() { None } else { Some(x.to_bits() as u64) };
    match letter {
        "a" => vec![bits(ns(n[0]).as_secs_f64())],
        "s" if n[1] > LARGEST => vec![None],
        "s" if n[0] == 1 => vec![bits(at(0).signed_duration_since(at(n[1])).as_seconds_f64())],
        "s" => vec![bits(at(n[1]).signed_duration_since(at(0)).as_seconds_f64())],
        "f" => {
            let x = f64::from_bits(n[0]);
            // the port answers up to 2^26 s
            let d = Duration::try_from_secs_f64(x).ok().filter(|_| x < 67108864.0);
            vec![d.map(|d| d.as_nanos() as u64)]
        }
        "r" => vec![bits32(loss(f32::from_bits(n[0] as u32), None))],
        "l" => vec![bits32(loss(f32::from_bits(n[0] as u32), Some(n[1])))],
        "j" => jitter(n[0] as u32, f64::from_bits(n[1]), [at(n[2]), at(n[4])], [n[3], n[5]]),
        "o" => rtt(None, ns(n[0])),
        "u" => rtt(Some((ns(n[0]), ns(n[1]))), ns(n[2])),
        "d" if n[0] > LARGEST || n[1] > LARGEST => vec![None],
        "d" => vec![Some(resend_delay(ns(n[0]), ns(n[1])))],
        "n" => timings(ns(n[0]), ns(n[1]), (n[2] == 1).then(|| (ns(n[3]), ns(n[4])))),
        "x" => stats([n[0], n[1], n[2], n[3]], n[4] as usize, ns(n[5]), at(0)),
        "m" => vec![limit(at(n[0]), n[1], n[2] as u32, ns(n[3]), at(n[4]))],
        "t" => vec![timeout(at(n[0]), n[1], n[2], n[3] as u32, ns(n[4]), at(n[5]))],
        _ => vec![None],
    }
}

fn main() {
    let mut out = BufWriter::new(std::io::stdout());
    for line in std::io::stdin().lock().lines() {
        let line = line.unwrap();
        let mut words = line.split_whitespace();
        let letter = words.next().unwrap();
        let numbers: Vec<u64> = words.map(|w| w.parse().unwrap()).collect();
        for a in answer(letter, &numbers) {
            match a {
                Some(k) => write!(out, " {k}").unwrap(),
                None => write!(out, " -").unwrap(),
            }
        }
        writeln!(out).unwrap();
    }
}
