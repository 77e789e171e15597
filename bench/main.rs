//! Cost of a packet, push to hand-out: the proved queue through its boundary, the Rust original, libre's jitter buffer, and
//! the floor, which is clearing the storage once in each call. docs/PERFORMANCE.md has what it printed.

mod cpu;
mod stream;
mod subjects;

use stream::Stream;
use subjects::{Floor, Settings, Subject};

const BATCHES: usize = 100;
/// The sizes, D and G, of the first table.
const SIZES: [(usize, usize); 3] = [(16, 999), (100, 999), (1024, 4096)];
/// Sessions in turn, so that storage is not in the nearest caches.
const SESSIONS: usize = 128;

/// What is measured in a row of a table.
struct Case {
    settings: Settings,
    lossy: bool,
    sessions: usize,
}

impl Case {
    fn new(max_entries: usize, max_gaps: usize, waiting: usize) -> Case {
        let settings = Settings { max_entries, max_gaps, waiting };
        Case { settings, lossy: false, sessions: 1 }
    }

    /// Steps of every session to a batch: short, so that some batches run undisturbed; 50 steps have one loss.
    fn steps(&self) -> usize {
        if self.sessions > 1 { 10 } else { 50 }
    }
}

/// Sessions of one kind in turn, each with its own stream, and their best batch so far, in nanoseconds a packet.
struct Run {
    sessions: Vec<(Box<dyn Subject>, Stream)>,
    best: f64,
}

impl Run {
    /// Sessions with as many packets waiting as the case says.
    fn new(case: &Case, open: fn(&Settings) -> Box<dyn Subject>) -> Run {
        let session = || (open(&case.settings), Stream::new(case.lossy));
        let sessions = std::iter::repeat_with(session).take(case.sessions).collect();
        let mut run = Run { sessions, best: f64::INFINITY };
        run.advance(2 * case.settings.waiting + 200);
        run
    }

    fn advance(&mut self, steps: usize) {
        for _ in 0..steps {
            for (subject, stream) in &mut self.sessions {
                stream.advance(subject.as_mut());
            }
        }
    }

    fn batch(&mut self, steps: usize) {
        let packets = (steps * self.sessions.len()) as f64;
        let time = cpu::time(|| self.advance(steps));
        self.best = self.best.min(time / packets);
    }
}

/// Measures all kinds in turn, so that a busy machine slows them alike, and prints a row.
fn row(case: &Case) {
    let mut floors: Vec<Floor> = (0..case.sessions).map(|_| Floor::new(&case.settings)).collect();
    let mut runs: Vec<Run> = subjects::KINDS.iter().map(|open| Run::new(case, *open)).collect();
    let mut clear = f64::INFINITY;
    for _ in 0..BATCHES {
        clear = clear.min(subjects::clear(&mut floors, case.steps()));
        for run in &mut runs {
            run.batch(case.steps());
        }
    }
    let (ours, original) = (&runs[0].sessions[0].1, &runs[1].sessions[0].1);
    assert_eq!(ours.handed_out, original.handed_out, "ours and the original hand out alike");
    print(case, ours.calls as f64 / ours.steps() as f64, clear, &runs);
}

/// The floor is `clear`, one clearing of the storage, for each of the calls; the budget is 1.5 times that and 150 ns a call.
fn print(case: &Case, calls: f64, clear: f64, runs: &[Run]) {
    let Settings { max_entries, max_gaps, waiting } = case.settings;
    let stream = if case.lossy { "2 % lost" } else { "in order" };
    let (ours, original) = (runs[0].best, runs[1].best);
    let peer = runs.get(2).map_or("-".to_string(), |run| format!("{:.0}", run.best));
    let floor = clear * calls;
    let budget = 1.5 * floor + 150.0 * calls;
    let verdict = if ours <= budget { "" } else { " EXCEEDED" };
    println!(
        "| {max_entries}, {max_gaps} | {waiting} | {stream} | {calls:.2} | {floor:.0} | {ours:.0} | {original:.0} | {peer} | \
         {:.2} | {:.0} | {budget:.0}{verdict} |",
        ours / floor,
        ours / original,
    );
}

fn heading(text: &str) {
    println!("\n{text}\n");
    println!("| D, G | waiting | stream | calls | floor | ours | Rust | libre | ours : floor | ours : Rust | budget |");
    println!("|---|---|---|---|---|---|---|---|---|---|---|");
}

fn main() {
    heading("Nanoseconds a packet, one session:");
    for (max_entries, max_gaps) in SIZES {
        for waiting in [10, max_entries] {
            for lossy in [false, true] {
                row(&Case { lossy, ..Case::new(max_entries, max_gaps, waiting) });
            }
        }
    }
    heading("Growth with D and G:");
    for max_entries in [16, 32, 64, 128, 256, 512, 1024] {
        row(&Case::new(max_entries, 999, 10));
    }
    for max_gaps in [2048, 4096] {
        row(&Case::new(16, max_gaps, 10));
    }
    heading(&format!("{SESSIONS} sessions in turn:"));
    for (max_entries, max_gaps) in SIZES {
        row(&Case { sessions: SESSIONS, ..Case::new(max_entries, max_gaps, 10) });
    }
}
