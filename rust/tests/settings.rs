//! The settings files of examples/settings: each is the line of its format's preset, and opens a queue.

use bizhgemu::{Config, Queue};
use std::fs;
use std::path::Path;

#[test]
fn each_settings_file_opens_a_queue() {
    let folder = Path::new(env!("CARGO_MANIFEST_DIR")).join("../examples/settings");
    let presets = [
        ("pcmu", Config::pcmu(1)),
        ("pcma", Config::pcma(2)),
        ("g722", Config::g722(3)),
        ("opus", Config::opus(111, 4)),
    ];
    for (name, preset) in presets {
        let line = fs::read(folder.join(name).with_extension("settings")).expect(name);
        let mut config = Config::from_line(&line).expect(name);
        (config.payload_type, config.ssrc) = (preset.payload_type, preset.ssrc);
        assert_eq!(config, preset);
        assert_eq!(preset.to_line().expect(name)[..], line);
        let queue = Queue::open(&config).expect(name);
        assert_eq!(queue.config(), preset);
    }
    let files = fs::read_dir(&folder).expect("the folder").map(|entry| entry.expect("an entry").path());
    assert_eq!(files.filter(|file| file.extension().is_some_and(|name| name == "settings")).count(), presets.len());
}
