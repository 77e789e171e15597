//! Answers a trace (docs/TRACE.md) by the library through its boundary, as the program `replay` does without it.
//!
//! At the top of the repository `tools/compare rust/target/release/examples/replay` compares it with the original Rust on generated traces.

#[path = "../tests/trace/mod.rs"]
mod trace;

use std::io::{self, BufRead, BufWriter, Write};

fn main() -> io::Result<()> {
    let mut host = trace::Host::default();
    let mut output = BufWriter::new(io::stdout().lock());
    for line in io::stdin().lock().split(b'\n') {
        for answer in host.answer(&line?) {
            writeln!(output, "{answer}")?;
        }
    }
    output.flush()
}
