//! Links the proved library, which `tools/build archive` writes to target/staticlib/libffi.a of this repository, and which a release has as
//! lib/libbizhgemu.a. It is linked under the name `bizhgemu`, since a box may have the well-known libffi too.

use std::path::{Path, PathBuf};

/// The variable that names another folder with the library, for a build outside this repository.
const FOLDER: &str = "BIZHGEMU_LIB_DIR";
const NAMES: [&str; 2] = ["libbizhgemu.a", "libffi.a"];

fn main() {
    println!("cargo::rerun-if-env-changed={FOLDER}");
    let top = Path::new(env!("CARGO_MANIFEST_DIR")).join("..");
    let folders = match std::env::var_os(FOLDER) {
        Some(folder) => vec![PathBuf::from(folder)],
        None => vec![top.join("target/staticlib"), top.join("lib")],
    };
    let places: Vec<_> = folders.iter().flat_map(|folder| NAMES.map(|name| folder.join(name))).collect();
    for place in &places {
        println!("cargo::rerun-if-changed={}", place.display());
    }
    let Some(archive) = places.iter().find(|place| place.is_file()) else {
        println!(
            "cargo::error=no {} in {}: run `tools/build archive` at the top of the repository, or name the folder of an installed one in {FOLDER}",
            NAMES.join(" or "),
            folders.iter().map(|folder| folder.display().to_string()).collect::<Vec<_>>().join(" or ")
        );
        return;
    };
    let out = PathBuf::from(std::env::var_os("OUT_DIR").expect("cargo names it"));
    std::fs::copy(archive, out.join("libbizhgemu.a")).expect("the archive can be copied");
    println!("cargo::rustc-link-search=native={}", out.display());
    println!("cargo::rustc-link-lib=static=bizhgemu");
}
