//! The fixed list of calls, answered by this crate and compared line by line with the oracle's answers, which are the original Rust's.
//! docs/TRACE.md has the format.

mod trace;

use std::fs;
use std::path::Path;
use trace::Host;

fn compare(calls: &str, answers: &str) {
    let top = Path::new(env!("CARGO_MANIFEST_DIR")).join("..");
    let calls = fs::read(top.join(calls)).expect("the calls are in the repository");
    let answers = fs::read_to_string(top.join(answers)).expect("so are the answers");
    let mut expected = answers.lines();
    let mut host = Host::default();
    let lines = calls.strip_suffix(b"\n").unwrap_or(&calls);
    for (place, line) in lines.split(|byte| *byte == b'\n').enumerate() {
        for answer in host.answer(line) {
            let line = String::from_utf8_lossy(line);
            assert_eq!(Some(answer.as_str()), expected.next(), "line {}: {line}", place + 1);
        }
    }
    assert_eq!(expected.next(), None);
}

#[test]
fn fixed_list() {
    compare("crates/replay/stdin", "crates/replay/stdout");
}

#[test]
fn story() {
    compare("examples/story.trace", "examples/story.answers");
}

#[test]
fn voice_and_positions() {
    compare("examples/voice-and-positions.trace", "examples/voice-and-positions.answers");
}

#[test]
fn rows_of_the_scope_document() {
    compare("examples/rows.trace", "examples/rows.answers");
}

#[test]
fn late_joiner() {
    compare("examples/late_joiner.trace", "examples/late_joiner.answers");
}

#[test]
fn storm() {
    compare("examples/storm.trace", "examples/storm.answers");
}

#[test]
fn nacks_on_the_wire() {
    compare("examples/wire.trace", "examples/wire.answers");
}

#[test]
fn a_burst() {
    compare("examples/burst.trace", "examples/burst.answers");
}

#[test]
fn a_dynamic_delay() {
    compare("examples/dynamic.trace", "examples/dynamic.answers");
}

#[test]
fn settings_lines() {
    compare("examples/settings.trace", "examples/settings.answers");
}
