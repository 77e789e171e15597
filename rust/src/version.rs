use crate::ffi;

/// The version of this crate, and of the header and the archive that go with it: 1,000,000 · major + 1,000 · minor + patch.
/// `docs/VERSIONS.md` says what changes it.
pub const VERSION: u64 = 3_000;

/// The version of the linked archive.
pub fn library_version() -> u64 {
    ffi::bizhgemu_version()
}

/// An archive with another interface would read other structs than this crate hands over.
pub(crate) fn check() {
    let library = library_version();
    assert!(
        VERSION / 1_000 == library / 1_000,
        "the archive is of version {library}, the crate of {VERSION}: take both from one commit"
    );
}
