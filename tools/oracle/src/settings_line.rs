//! 02, point 13: settings as a line of fields. An addition: the original has nothing like it, and this is written from the document alone.

/// Mode, clock rate, D, G, fixed delay, initial delay, default resend delay, max attempts, min, max, t.
pub type Settings = [u64; 11];

const COLUMNS: usize = 12;

/// The settings of a line: 21 for its version, then 20 for its form, then 1 for what it says.
pub fn read(line: &[u8]) -> Result<Settings, u8> {
    let (version, count) = match line.get(..COLUMNS) {
        Some(b"           1") => (1, 10),
        Some(b"           2") => (2, 12),
        _ => return Err(21),
    };
    if line.len() != COLUMNS * count + 1 || line.last() != Some(&b'\n') {
        return Err(20);
    }
    let fields: Option<Vec<u64>> = line[..COLUMNS * count].chunks(COLUMNS).map(field).collect();
    let fields = fields.ok_or(20)?;
    let mut settings = [0; 11];
    if version == 1 {
        // the tenth field is `nack_window`, a number that nothing uses
        settings[..8].copy_from_slice(&fields[1..9]);
        if settings[0] == 2 {
            return Err(1);
        }
    } else {
        settings.copy_from_slice(&fields[1..]);
    }
    in_range(settings).then_some(settings).ok_or(1)
}

/// The line of settings: 1, then 15 for an output under 145 bytes.
pub fn write(settings: Settings, places: u64) -> Result<String, u8> {
    if !in_range(settings) {
        return Err(1);
    }
    if places < 145 {
        return Err(15);
    }
    let columns = |line: String, value: &u64| line + &format!("{value:>12}");
    Ok([2].iter().chain(&settings).fold(String::new(), columns) + "\n")
}

/// Blanks, if any, and then at least one digit, none of them a zero before another.
fn field(columns: &[u8]) -> Option<u64> {
    let text = std::str::from_utf8(columns).ok()?.trim_start_matches(' ');
    let digits = !text.is_empty() && text.bytes().all(|byte| byte.is_ascii_digit());
    let leading_zero = text.len() > 1 && text.starts_with('0');
    (digits && !leading_zero).then(|| text.parse().expect("twelve digits fit"))
}

/// The ranges of 01's row 1 and of 02's point 7, and what must be 0 outside its mode.
fn in_range(settings: Settings) -> bool {
    let [
        mode,
        clock_rate,
        depth,
        max_gaps,
        delay,
        initial,
        resend,
        attempts,
        min,
        max,
        target,
    ] = settings;
    let durations = [delay, initial, resend, min, max];
    mode <= 2
        && (1..=1_000_000).contains(&clock_rate)
        && (1..=1_024).contains(&depth)
        && (999..=4_096).contains(&max_gaps)
        && durations.iter().all(|duration| *duration <= 60_000_000_000)
        && (1..=if mode == 2 { 4 } else { 255 }).contains(&attempts)
        && (mode == 1 || delay == 0)
        && (mode == 2 || [min, max, target] == [0; 3])
        && min <= max
        && target <= 9_999
}
