//! The structs of the boundary and the refusals are written three times: in Rattle, in the C header, and in this crate. Structs are the same
//! field by field, refusals by name and number. The functions that `ffi_c` exports are those of `ffi`, with the same arguments and clauses.

use bizhgemu::Refusal;
use std::collections::BTreeMap;
use std::fs;
use std::path::{Path, PathBuf};

/// Fields, each a name and a type, by the struct's name.
type Structs = BTreeMap<String, Vec<(String, String)>>;

fn top() -> PathBuf {
    Path::new(env!("CARGO_MANIFEST_DIR")).join("..")
}

/// The `#[repr(C)]` structs of a Rust or Rattle source. Rattle's `ConfigWords` and `SessionWords` are `Config` and `Session` here.
fn of_rust(text: &str) -> Structs {
    let plain = |name: &str| name.trim_end_matches("Words").to_string();
    let parts = text.split("#[repr(C)]").skip(1);
    let structs = parts.filter_map(|part| part.split_once("pub struct ")?.1.split_once('}'));
    structs
        .filter_map(|(text, _)| text.split_once(" {"))
        .map(|(name, fields)| {
            let fields = fields.lines().filter_map(|line| {
                let (name, kind) = line.trim().strip_prefix("pub ")?.split_once(": ")?;
                Some((name.to_string(), plain(kind.trim_end_matches(','))))
            });
            (plain(name), fields.collect())
        })
        .collect()
}

/// The structs of the header, in Rust's words.
fn of_header(text: &str) -> Structs {
    let parts = text.split("\nstruct bizhgemu_").skip(1);
    let structs = parts.filter_map(|part| part.split_once("\n};")?.0.split_once(" {\n"));
    structs
        .map(|(name, fields)| {
            let lines = fields.lines().filter(|line| !line.trim().starts_with("/*"));
            let fields = lines.filter_map(|line| {
                let (kind, name) = line.split_once(';')?.0.trim().rsplit_once(' ')?;
                Some((name.to_string(), rust_type(kind)))
            });
            (camel_case(name), fields.collect())
        })
        .filter(|(name, _)| name != "Queue")
        .collect()
}

fn rust_type(kind: &str) -> String {
    match kind {
        "uint64_t" => "u64".into(),
        "uint32_t" => "u32".into(),
        "uint16_t" => "u16".into(),
        "uint8_t" => "u8".into(),
        "size_t" => "usize".into(),
        "float" => "f32".into(),
        kind => camel_case(kind.trim_start_matches("struct bizhgemu_")),
    }
}

fn camel_case(name: &str) -> String {
    let words = name.split('_');
    words.map(|word| word[..1].to_uppercase() + &word[1..]).collect()
}

#[test]
fn the_header_has_the_same_structs() {
    let ours = of_rust(include_str!("../src/ffi.rs"));
    assert_eq!(ours.len(), 18);
    assert_eq!(ours["Session"].len(), 25);
    assert_eq!(ours, of_header(include_str!("../../include/bizhgemu.h")));
}

#[test]
fn the_library_has_the_same_structs() {
    let mut library = Structs::new();
    for folder in ["crates/ffi/src", "crates/ffi_c/src", "crates/ffi_words/src", "crates/settings_words/src"] {
        for file in fs::read_dir(top().join(folder)).expect("the crates of the boundary") {
            let text = fs::read_to_string(file.unwrap().path()).unwrap();
            library.extend(of_rust(&text));
        }
    }
    assert_eq!(library, of_rust(include_str!("../src/ffi.rs")));
}

/// The functions of the boundary in a Rattle source, each from its arguments to its body, however it is laid out, by name.
fn functions(text: &str, before: &str) -> BTreeMap<String, String> {
    let start = format!("\n{before}fn ");
    let parts = text.split(&start).skip(1);
    let heads = parts.filter(|part| part.starts_with("bizhgemu_")).filter_map(|part| part.split_once("\n{"));
    let plain = |rest: &str| rest.split_whitespace().collect::<Vec<_>>().join(" ").replace(", )", ")");
    heads.filter_map(|(head, _)| head.split_once('(')).map(|(name, rest)| (name.into(), plain(rest))).collect()
}

#[test]
fn the_archive_exports_each_function_under_its_clauses() {
    let mut proved = functions(include_str!("../../crates/ffi/src/lib.rt"), "pub ");
    proved.extend(functions(include_str!("../../crates/ffi/src/settings.rt"), "pub "));
    assert_eq!(proved.len(), 17);
    let exported = include_str!("../../crates/ffi_c/src/lib.rt");
    assert_eq!(functions(exported, "#[unsafe(no_mangle)]\npub extern \"C\" "), proved);
}

/// A line that gives a name its number, as (name, number), the name in Rust's form: `NO_RTX` is `NoRtx`.
fn numbered(line: &str, before: &str, between: &str) -> Option<(String, u64)> {
    let (name, number) = line.trim().strip_prefix(before)?.split_once(between)?;
    let digits = number.split(|c: char| !c.is_ascii_digit()).next()?;
    Some((camel_case(&name.to_lowercase()), digits.parse().ok()?))
}

#[test]
fn the_refusals_have_the_same_names_and_numbers() {
    let ours: Vec<_> = Refusal::all().map(|refusal| (format!("{refusal:?}"), refusal.number().into())).collect();
    assert_eq!(ours.len(), 19);
    let (_, library) = include_str!("../../crates/refusals/src/lib.rt").split_once("pub enum Refusal {").unwrap();
    let (library, _) = library.split_once("\n}").unwrap();
    let variants = library.lines().filter_map(|line| line.trim().strip_suffix(',')?.split_once(" = "));
    let library: Vec<(String, u64)> =
        variants.filter_map(|(name, number)| Some((name.into(), number.parse().ok()?))).collect();
    assert_eq!(library, ours);
    let (_, header) = include_str!("../../include/bizhgemu.h").split_once("enum bizhgemu_refusal {").unwrap();
    let (header, _) = header.split_once("};").unwrap();
    assert!(header.contains("BIZHGEMU_ACCEPTED = 0,"));
    let header: Vec<_> = header.lines().filter_map(|line| numbered(line, "BIZHGEMU_REFUSED_", " = ")).collect();
    assert_eq!(header, ours);
}

#[test]
fn the_header_says_what_a_refusal_means_in_the_same_words() {
    let said: Vec<_> = include_str!("../../include/bizhgemu.h")
        .lines()
        .filter_map(|line| {
            line.trim().strip_prefix("case BIZHGEMU_REFUSED_")?.strip_suffix("\";")?.split_once(": return \"")
        })
        .map(|(name, text)| (camel_case(&name.to_lowercase()), text))
        .collect();
    let ours: Vec<_> = Refusal::all().map(|refusal| (format!("{refusal:?}"), refusal.meaning())).collect();
    assert_eq!(said, ours);
}

#[test]
fn crate_archive_and_header_are_of_one_version() {
    assert_eq!(bizhgemu::library_version(), bizhgemu::VERSION);
    let parts = ["MAJOR", "MINOR", "PATCH"].map(|part| {
        let before = format!("#define BIZHGEMU_VERSION_{part} ");
        let mut lines = include_str!("../../include/bizhgemu.h").lines();
        lines.find_map(|line| line.strip_prefix(&before)?.parse::<u64>().ok()).expect("the header's version")
    });
    assert_eq!(format!("{}.{}.{}", parts[0], parts[1], parts[2]), env!("CARGO_PKG_VERSION"));
    assert_eq!(bizhgemu::VERSION, 1_000_000 * parts[0] + 1_000 * parts[1] + parts[2]);
    let text = fs::read_to_string(top().join("CHANGELOG.md")).expect("CHANGELOG.md");
    assert!(text.contains(&format!("\n## {}", env!("CARGO_PKG_VERSION"))), "CHANGELOG.md has no entry of this version");
}
