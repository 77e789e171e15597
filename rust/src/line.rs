//! Settings kept as one line of text. The archive reads and writes the line, both proved; by hand is only where a text stops being one.

use crate::{Config, Refusal, ffi};
use core::fmt;
use core::str::FromStr;

/// Bytes of a line: twelve fields of twelve columns and a line feed.
pub const LINE_BYTES: usize = 145;

/// Columns of a field.
const WIDTH: usize = 12;

/// Why a text keeps no settings.
#[derive(Clone, Copy, Debug, PartialEq, Eq)]
#[non_exhaustive]
pub struct LineError {
    /// [`Refusal::LineVersion`], [`Refusal::SettingsLine`] or, of a line that is one, [`Refusal::Settings`].
    pub refusal: Refusal,
    /// The column, from 1, at which the text stops being a line: what stands before could still become one. Where text is missing, the
    /// column after the last. None under [`Refusal::Settings`].
    pub column: Option<usize>,
}

impl fmt::Display for LineError {
    fn fmt(&self, f: &mut fmt::Formatter<'_>) -> fmt::Result {
        match self.column {
            Some(column) => write!(f, "column {column}: {}", self.refusal),
            None => self.refusal.fmt(f),
        }
    }
}

impl core::error::Error for LineError {}

/// Settings as a line of text: twelve numbers in columns of twelve, which a person can read and change, and a program cannot misread. Every
/// line that [`to_line`](Config::to_line) makes reads back to the same settings, and no other text of its version does.
///
/// The fields are version, mode (0 [`Passthrough`](crate::Mode::Passthrough), 1 [`SortedQueue`](crate::Mode::SortedQueue),
/// 2 [`Dynamic`](crate::Mode::Dynamic)), clock rate, `max_entries`, `max_gaps`, `delay`, `initial_nack_delay`, `default_nack_resend_delay`,
/// `max_nack_attempts`, and the three of a dynamic delay; durations are nanoseconds.
///
/// ```
/// use bizhgemu::{Config, Refusal};
///
/// let line = Config::opus(111, 7).to_line()?;
/// let mut config = Config::from_line(&line)?;
/// assert_eq!(config.clock_rate, 48_000);
/// (config.payload_type, config.ssrc) = (111, 7); // the sender's, not kept in the line
/// assert_eq!(config, Config::opus(111, 7));
///
/// let error = Config::from_line(b"           2           1     48 000").unwrap_err();
/// assert_eq!((error.refusal, error.column), (Refusal::SettingsLine, Some(32)));
/// # Ok::<(), Box<dyn std::error::Error>>(())
/// ```
impl Config {
    /// The settings that a line keeps, its line feed included: version 2, or version 1, whose last field has no meaning any more. Payload types
    /// and senders, which a line does not keep, are those of the default.
    pub fn from_line(line: &[u8]) -> Result<Config, LineError> {
        // SAFETY: the slice lives until the call returns, and is read alone.
        let read = unsafe { ffi::bizhgemu_read_settings(line.as_ptr(), line.len()) };
        Refusal::check(read.refusal).map_err(|refusal| LineError { refusal, column: stops_at(line) })?;
        Ok(Config::of_words(&read.settings.with_senders(&Config::default().words())))
    }

    /// The line that keeps these settings. Refused under 1 where the opening would refuse a setting, and where a [`delay`](Config::delay) other
    /// than 0 stands outside [`Mode::SortedQueue`](crate::Mode::SortedQueue), which the opening would not mind.
    pub fn to_line(&self) -> Result<[u8; LINE_BYTES], Refusal> {
        let mut line = [0; LINE_BYTES];
        // SAFETY: the array lives until the call returns, and nothing else is lent with it.
        let written =
            unsafe { ffi::bizhgemu_write_settings(ffi::Settings::of(&self.words()), line.as_mut_ptr(), line.len()) };
        Refusal::check(written.refusal)?;
        Ok(line)
    }
}

/// As [`Config::from_line`].
impl FromStr for Config {
    type Err = LineError;

    fn from_str(line: &str) -> Result<Config, LineError> {
        Config::from_line(line.as_bytes())
    }
}

/// The column, from 1, at which a text stops being a line; none where it is one.
fn stops_at(text: &[u8]) -> Option<usize> {
    let fields = if text.get(WIDTH - 1) == Some(&b'1') { 10 } else { 12 };
    let feed = WIDTH * fields;
    let wrong = (0..=feed).find(|&place| text.get(place).is_none_or(|&byte| !may_stand(byte, &text[..place], feed)));
    wrong.or((text.len() > feed + 1).then_some(feed + 1)).map(|place| place + 1)
}

/// Whether a line can go on with this byte after those before it; `feed` is the place of its line feed.
fn may_stand(byte: u8, before: &[u8], feed: usize) -> bool {
    let (place, column) = (before.len(), before.len() % WIDTH);
    let last = column == WIDTH - 1;
    let in_number = column > 0 && before[place - 1].is_ascii_digit();
    match byte {
        _ if place == feed => byte == b'\n',
        b'1' | b'2' if place < WIDTH => last,
        _ if place < WIDTH => byte == b' ' && !last,
        b' ' => !in_number && !last,
        b'0' => in_number || last,
        _ => byte.is_ascii_digit(),
    }
}

#[cfg(test)]
mod tests {
    use super::*;
    use crate::{Dynamic, Mode};
    use core::time::Duration;

    fn refused(text: &[u8]) -> (u8, Option<usize>) {
        let error = Config::from_line(text).expect_err("not a line");
        (error.refusal.number(), error.column)
    }

    fn line() -> [u8; LINE_BYTES] {
        Config::default().to_line().expect("the default has a line")
    }

    fn with(place: usize, byte: u8) -> [u8; LINE_BYTES] {
        let mut line = line();
        line[place] = byte;
        line
    }

    #[test]
    fn the_fields_stand_in_their_order() {
        let config = Config {
            mode: Mode::Dynamic(Dynamic {
                min: Duration::from_nanos(18),
                max: Duration::from_nanos(19),
                target_recovery: 20,
            }),
            clock_rate: 11_000,
            max_entries: 12,
            max_gaps: 1_013,
            delay: Duration::ZERO,
            initial_nack_delay: Duration::from_nanos(15),
            default_nack_resend_delay: Duration::from_nanos(16),
            max_nack_attempts: 4,
            ..Config::default()
        };
        let fields = [2, 2, 11_000, 12, 1_013, 0, 15, 16, 4, 18, 19, 20];
        let expected: String = fields.iter().map(|field| format!("{field:12}")).chain(["\n".to_string()]).collect();
        assert_eq!(core::str::from_utf8(&config.to_line().unwrap()), Ok(&expected[..]));
        assert_eq!(expected.parse(), Ok(config));
    }

    #[test]
    fn a_line_reads_back_without_its_senders() {
        let mut config = Config::opus(111, 7);
        let line = config.to_line().unwrap();
        (config.payload_type, config.ssrc) = (0, 0);
        assert_eq!(Config::from_line(&line), Ok(config));
    }

    #[test]
    fn version_1_has_another_last_field_and_no_mode_2() {
        let first = |mode: u64, window: &str| {
            let kept: String = [1, mode, 8_000, 100, 999, 0, 5, 6, 3].iter().map(|n| format!("{n:12}")).collect();
            format!("{kept}{window:>12}\n")
        };
        let second: String = [2, 1, 8_000, 100, 999, 0, 5, 6, 3, 0, 0, 0].iter().map(|n| format!("{n:12}")).collect();
        for window in ["0", "999999999999"] {
            let config: Config = first(1, window).parse().unwrap();
            assert_eq!(config.to_line().unwrap(), *(second.clone() + "\n").as_bytes());
        }
        assert_eq!(refused(first(2, "0").as_bytes()), (1, None));
        assert_eq!(refused(first(1, "").as_bytes()), (20, Some(120)));
        assert_eq!(refused(first(1, "x").as_bytes()), (20, Some(120)));
    }

    #[test]
    fn an_error_names_the_column() {
        let line = line();
        assert_eq!(refused(b""), (21, Some(1)));
        assert_eq!(refused(&line[..7]), (21, Some(8)));
        assert_eq!(refused(&with(11, b'3')), (21, Some(12)));
        assert_eq!(refused(&with(10, b'2')), (21, Some(11)));
        assert_eq!(refused(&line[..12]), (20, Some(13)));
        assert_eq!(refused(&line[..144]), (20, Some(145)));
        assert_eq!(refused(&[&line[..], b"\n"].concat()), (20, Some(146)));
        assert_eq!(refused(&with(144, b'\r')), (20, Some(145)));
        assert_eq!(refused(&with(23, b' ')), (20, Some(24)));
        assert_eq!(refused(&with(33, b' ')), (20, Some(34)));
        assert_eq!(refused(&with(31, b'0')), (20, Some(32)));
        assert_eq!(refused(&with(20, b'-')), (20, Some(21)));
        assert_eq!(refused(&with(23, b'3')), (1, None));
        let shown = Config::from_line(&with(33, b' ')).unwrap_err().to_string();
        assert!(shown.starts_with("column 34: refused under 20: "), "{shown}");
    }

    /// What the proved reader refuses under 20 and 21, and nothing else, has a column; the text before it can go on.
    #[test]
    fn columns_are_the_readers() {
        let bytes = *b" 0129\n\0x";
        for version in [&line()[..], format!("{}{:108}\n", "           1", "").as_bytes()] {
            for place in 0..version.len() {
                for byte in bytes {
                    let mut text = version.to_vec();
                    text[place] = byte;
                    let column = stops_at(&text);
                    let refusal = Config::from_line(&text).err().map(|error| error.refusal);
                    let shape = matches!(refusal, Some(Refusal::SettingsLine | Refusal::LineVersion));
                    assert_eq!(column.is_some(), shape, "{:?}", core::str::from_utf8(&text));
                    let head = &text[..column.map_or(0, |column| column - 1)];
                    assert_eq!(stops_at(head), column.map(|column| column.min(head.len() + 1)).or(Some(1)));
                }
            }
        }
    }

    #[test]
    fn what_has_no_line_is_refused() {
        let passthrough = Config { mode: Mode::Passthrough, ..Config::default() };
        assert_eq!(passthrough.to_line(), Err(Refusal::Settings));
        assert!(Config { delay: Duration::ZERO, ..passthrough }.to_line().is_ok());
        assert_eq!(Config { clock_rate: 0, ..Config::default() }.to_line(), Err(Refusal::Settings));
        assert_eq!(
            Config { mode: Mode::Dynamic(Dynamic::default()), ..Config::default() }.to_line(),
            Err(Refusal::Settings)
        );
    }

    #[test]
    fn a_short_output_is_refused_and_kept() {
        let settings = ffi::Settings::of(&Config::default().words());
        let mut out = [7u8; 144];
        // SAFETY: the array lives until the call returns.
        let written = unsafe { ffi::bizhgemu_write_settings(settings, out.as_mut_ptr(), out.len()) };
        assert_eq!((written.refusal, written.bytes, out), (15, 0, [7; 144]));
        let mut out = [7u8; 147];
        // SAFETY: as above.
        let written = unsafe { ffi::bizhgemu_write_settings(settings, out.as_mut_ptr(), out.len()) };
        assert_eq!((written.refusal, written.bytes, &out[144..]), (0, 145, &b"\n\x07\x07"[..]));
        // a mode that is none; what mode 2 alone has
        for wrong in [ffi::Settings { mode: 3, ..settings }, ffi::Settings { target_recovery: 1, ..settings }] {
            // SAFETY: as above.
            let written = unsafe { ffi::bizhgemu_write_settings(wrong, out.as_mut_ptr(), out.len()) };
            assert_eq!((written.refusal, written.bytes), (1, 0));
        }
    }
}
