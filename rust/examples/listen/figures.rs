//! The figures for other programs: a JSON object to a line, or CSV. `tools/report` draws both.

use crate::options::of_file;
use std::fmt::Write as _;
use std::fs::File;
use std::io::{self, Write};

/// Of the time in the queue: 10 ms to a count, the last for all that was longer.
pub const HELD: usize = 51;
pub const HELD_STEP_MS: f64 = 10.0;

/// The figures of a caller at a second. Those of the session begin anew with each; the others go on.
#[derive(Clone)]
pub struct Figures {
    pub second: u64,
    pub ssrc: u32,
    pub session: u64,
    pub received: u64,
    pub dropped: u64,
    pub lost: u64,
    pub loss: f32,
    pub jitter_ms: f64,
    pub round_trip_ms: Option<f64>,
    /// The delay of the packet handed out last.
    pub delay_ms: Option<f64>,
    pub waiting: usize,
    pub missing: usize,
    pub out: u64,
    pub nacked: u64,
    pub recovered: u64,
    pub not_needed: u64,
    /// The most datagrams taken together since the line before.
    pub most_together: usize,
    /// By number, from 1.
    pub refused: Vec<u64>,
    /// Packets handed out since the line before, by their time in the queue.
    pub held: [u64; HELD],
}

impl Figures {
    /// Name and value; none is empty.
    fn plain(&self) -> Vec<(&'static str, String)> {
        let milliseconds = |ms: Option<f64>| ms.map_or(String::new(), |ms| format!("{ms:.3}"));
        vec![
            ("second", self.second.to_string()),
            ("ssrc", self.ssrc.to_string()),
            ("session", self.session.to_string()),
            ("received", self.received.to_string()),
            ("dropped", self.dropped.to_string()),
            ("lost", self.lost.to_string()),
            ("loss", format!("{:.6}", self.loss)),
            ("jitter_ms", format!("{:.3}", self.jitter_ms)),
            ("round_trip_ms", milliseconds(self.round_trip_ms)),
            ("delay_ms", milliseconds(self.delay_ms)),
            ("waiting", self.waiting.to_string()),
            ("missing", self.missing.to_string()),
            ("out", self.out.to_string()),
            ("nacked", self.nacked.to_string()),
            ("recovered", self.recovered.to_string()),
            ("not_needed", self.not_needed.to_string()),
            ("most_together", self.most_together.to_string()),
        ]
    }

    fn json(&self) -> String {
        let mut line = "{".to_string();
        for (name, value) in self.plain() {
            let value = if value.is_empty() { "null".into() } else { value };
            let _ = write!(line, "\"{name}\": {value}, ");
        }
        let refused = (1..).zip(&self.refused).filter(|(_, count)| **count > 0);
        let refused: Vec<_> = refused.map(|(number, count)| format!("\"{number}\": {count}")).collect();
        let held = self.held.iter().rposition(|count| *count > 0).map_or(0, |last| last + 1);
        let held: Vec<_> = self.held[..held].iter().map(u64::to_string).collect();
        let _ = write!(line, "\"refused\": {{{}}}, \"held_10ms\": [{}]}}", refused.join(", "), held.join(", "));
        line
    }

    fn csv(&self) -> (String, String) {
        let mut fields: Vec<(String, String)> =
            self.plain().into_iter().map(|(name, value)| (name.to_string(), value)).collect();
        fields.extend((1..).zip(&self.refused).map(|(number, count)| (format!("refused_{number}"), count.to_string())));
        let steps = (0..HELD).map(|step| format!("held_{}ms", step as u64 * HELD_STEP_MS as u64));
        fields.extend(steps.zip(self.held.iter().map(u64::to_string)));
        let (names, values): (Vec<_>, Vec<_>) = fields.into_iter().unzip();
        (names.join(","), values.join(","))
    }
}

pub struct Writer {
    file: File,
    csv: bool,
    lines: u64,
}

impl Writer {
    pub fn create(name: &str) -> io::Result<Writer> {
        let file = File::create(name).map_err(|error| of_file(name, error))?;
        Ok(Writer { file, csv: name.ends_with(".csv"), lines: 0 })
    }

    pub fn write(&mut self, figures: &Figures) -> io::Result<()> {
        self.lines += 1;
        if !self.csv {
            return writeln!(self.file, "{}", figures.json());
        }
        let (names, values) = figures.csv();
        if self.lines == 1 {
            writeln!(self.file, "{names}")?;
        }
        writeln!(self.file, "{values}")
    }
}
