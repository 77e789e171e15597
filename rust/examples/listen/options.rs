//! The command line.

use crate::nacks::Nacks;
use crate::wav::Format;
use bizhgemu::{Config, Dynamic, Mode, Rtx, Rules, Sender};
use std::fs::File;
use std::io::{self, Write};
use std::time::Duration;

pub const USAGE: &str = "usage: listen [OPTION VALUE ..]

Hears RTP from a UDP port: payloads out in order, a line of figures each second on standard error, and what the figures mean.

  --address HOST:PORT  where RTP comes in                            127.0.0.1:5004
  --settings FILE      settings kept as a line of text (docs/USING.md); options after it change them   none
  --write-settings FILE  writes the settings as such a line and ends; payload types and senders are not kept   none
  --pt N               payload type of the media                     0
  --ssrc N|any         its sender; any: whoever sends this payload type   any
  --callers N          with --ssrc any: how many senders are heard at a time   1
  --clock-rate HZ      clock rate of its timestamps                  8000
  --delay MS           how long packets are kept, or `none`          100
  --dynamic            no fixed delay, but one that follows jitter, loss and round trip; has no value
  --min-delay MS       its shortest                                  10
  --max-delay MS       its longest                                   400
  --target SHARE       of what is lost, how much the NACKs it leaves time for are to recover, below 1   0.99
  --depth D            most packets kept                             100
  --gaps G             most numbers missing at a time                999
  --rtx-pt N           payload type of repairs                       no repairs
  --rtx-ssrc N|media   sender of repairs; media: that of the media   media
  --resend MS          from one NACK to the next while no round trip is measured   20
  --nack WHERE         where RTCP generic NACKs are sent: source, the address RTP comes from; source+1, the port after it;
                       HOST:PORT; print, a line on standard error; none   source with --rtx-pt, else none
  --own-ssrc N         SSRC that they are sent under                 at random
  --restart N|never    packets dropped one after the other that mean a restart     10
  --out FILE           payloads in order, of one caller              standard output, unless --wav is given
  --wav PREFIX         sound of each caller, as PREFIX-SSRC.wav      none
  --format NAME        pcmu, pcma or l16, for --wav                  by payload type: 0, 8, 10 and 11
  --channels N         of l16, for --wav                             1 (2 for payload type 10)
  --figures FILE       the figures as JSON lines; as CSV where FILE ends in .csv   none
  --seconds N          how long to run                               until stopped
  --help               this text
Numbers may be written in hexadecimal, as 0x1f.

For example, 5 s of sound from GStreamer, heard and then played:
  listen --seconds 6 --wav heard &
  gst-launch-1.0 -q audiotestsrc is-live=true num-buffers=250 samplesperbuffer=160 ! audio/x-raw,rate=8000,channels=1 ! mulawenc \\
      ! rtppcmupay max-ptime=20000000 ! udpsink host=127.0.0.1 port=5004
  ffplay -autoexit heard-*.wav
Payloads over 320 bytes are refused under 5. GStreamer's payloaders make them as long as the buffers they get, up to mtu=1400: give
max-ptime. ffmpeg fills packets up to pkt_size=1472: give pkt_size, as rtp://127.0.0.1:5004?pkt_size=172.";

pub struct Options {
    pub address: String,
    pub config: Config,
    pub rules: Rules,
    /// None: whoever sends the payload type.
    pub ssrc: Option<u32>,
    pub callers: usize,
    /// None: as the other options say.
    nacks: Option<Nacks>,
    pub own_ssrc: Option<u32>,
    pub seconds: Option<Duration>,
    pub wav: Option<String>,
    pub figures: Option<String>,
    /// Where the settings are to be written.
    pub write_settings: Option<String>,
    rtx_ssrc: Option<u32>,
    min_delay: Option<Duration>,
    max_delay: Option<Duration>,
    target: Option<u64>,
    format: Option<Format>,
    channels: Option<u16>,
    out: Option<String>,
}

impl Options {
    pub fn read(mut words: impl Iterator<Item = String>) -> Result<Options, String> {
        let mut options = Options {
            address: "127.0.0.1:5004".into(),
            config: Config::default(),
            rules: Rules::default(),
            ssrc: None,
            callers: 1,
            nacks: None,
            own_ssrc: None,
            seconds: None,
            wav: None,
            figures: None,
            write_settings: None,
            rtx_ssrc: None,
            min_delay: None,
            max_delay: None,
            target: None,
            format: None,
            channels: None,
            out: None,
        };
        while let Some(word) = words.next() {
            if word == "--dynamic" {
                options.config.mode = Mode::Dynamic(Dynamic::default());
                options.config.delay = Duration::ZERO;
                continue;
            }
            let value =
                words.next().ok_or_else(|| format!("{word}: an option is followed by its value; see listen --help"))?;
            if word == "--settings" {
                options.take_settings(&value)?;
                continue;
            }
            options
                .set(&word, &value)
                .ok_or_else(|| format!("{word} {value}: not an option and its value; see listen --help"))?;
        }
        options.settle()?;
        Ok(options)
    }

    fn set(&mut self, option: &str, value: &str) -> Option<()> {
        let config = &mut self.config;
        match option {
            "--address" => self.address = value.into(),
            "--pt" => config.payload_type = number(value)?,
            "--ssrc" if value == "any" => self.ssrc = None,
            "--ssrc" => self.ssrc = Some(number(value)?),
            "--callers" => self.callers = number::<usize>(value).filter(|callers| *callers > 0)?,
            "--clock-rate" => config.clock_rate = number(value)?,
            "--delay" if value == "none" => (config.mode, config.delay) = (Mode::Passthrough, Duration::ZERO),
            "--delay" => (config.mode, config.delay) = (Mode::SortedQueue, Duration::from_millis(number(value)?)),
            "--min-delay" => self.min_delay = Some(Duration::from_millis(number(value)?)),
            "--max-delay" => self.max_delay = Some(Duration::from_millis(number(value)?)),
            "--target" => self.target = Some(share(value)?),
            "--depth" => config.max_entries = number(value)?,
            "--gaps" => config.max_gaps = number(value)?,
            "--rtx-pt" => config.rtx = Some(Rtx::new(number(value)?, 0)),
            "--rtx-ssrc" if value == "media" => self.rtx_ssrc = None,
            "--rtx-ssrc" => self.rtx_ssrc = Some(number(value)?),
            "--resend" => config.default_nack_resend_delay = Duration::from_millis(number(value)?),
            "--nack" => self.nacks = Some(Nacks::named(value)?),
            "--own-ssrc" => self.own_ssrc = Some(number(value)?),
            "--restart" if value == "never" => self.rules.restart = None,
            "--restart" => self.rules.restart = Some(number(value)?),
            "--out" => self.out = Some(value.into()),
            "--wav" => self.wav = Some(value.into()),
            "--format" => self.format = Some(Format::named(value)?),
            "--channels" => self.channels = Some(number::<u16>(value).filter(|channels| (1..=8).contains(channels))?),
            "--figures" => self.figures = Some(value.into()),
            "--write-settings" => self.write_settings = Some(value.into()),
            "--seconds" => self.seconds = Some(Duration::from_secs(number(value)?)),
            _ => return None,
        }
        Some(())
    }

    /// The settings of a file, with the senders that other options gave.
    fn take_settings(&mut self, file: &str) -> Result<(), String> {
        let line = std::fs::read(file).map_err(|error| format!("--settings {file}: {error}"))?;
        let read = Config::from_line(&line).map_err(|error| format!("--settings {file}: {error}"))?;
        let senders = (self.config.payload_type, self.config.ssrc, self.config.rtx);
        self.config = read;
        (self.config.payload_type, self.config.ssrc, self.config.rtx) = senders;
        Ok(())
    }

    /// Writes the settings, if that was asked for.
    pub fn write_settings(&self) -> Option<io::Result<()>> {
        let file = self.write_settings.as_ref()?;
        let line = self.config.to_line().map_err(io::Error::other);
        Some(line.and_then(|line| std::fs::write(file, line)).map_err(|error| of_file(file, error)))
    }

    /// What one option says about another.
    fn settle(&mut self) -> Result<(), String> {
        self.config.ssrc = self.ssrc.unwrap_or(0);
        if let Some(rtx) = &mut self.config.rtx {
            rtx.ssrc = self.rtx_ssrc.unwrap_or(self.config.ssrc);
        } else if self.rtx_ssrc.is_some() {
            return Err("--rtx-ssrc: repairs need --rtx-pt too".into());
        }
        self.settle_dynamic()?;
        if self.ssrc.is_none() && self.callers == 1 {
            self.rules.sender = Sender::follow();
        }
        if self.callers > 1 && (self.ssrc.is_some() || self.rtx_ssrc.is_some()) {
            return Err("--callers: several are told apart by --ssrc any, and their repairs by --rtx-ssrc media".into());
        }
        if self.callers > 1 && self.out.is_some() {
            return Err("--out: of several callers; give --wav".into());
        }
        if self.wav.is_some() && self.sound().is_none() {
            return Err(format!("--wav: give --format for payload type {}", self.config.payload_type));
        }
        Ok(())
    }

    /// What is said of a dynamic delay, if it is one.
    fn settle_dynamic(&mut self) -> Result<(), String> {
        if let Mode::Dynamic(dynamic) = &mut self.config.mode {
            dynamic.min = self.min_delay.unwrap_or(dynamic.min);
            dynamic.max = self.max_delay.unwrap_or(dynamic.max);
            dynamic.target_recovery = self.target.unwrap_or(dynamic.target_recovery);
        } else if self.min_delay.is_some() || self.max_delay.is_some() || self.target.is_some() {
            return Err("--min-delay, --max-delay, --target: of a delay that is --dynamic".into());
        }
        Ok(())
    }

    /// Whether it is known from the beginning how far media and repairs are apart: by their SSRCs, or because they have one.
    pub fn senders_known(&self) -> bool {
        self.ssrc.is_some() || self.rtx_ssrc.is_none()
    }

    /// Where NACKs go: where repairs are expected, to whom sends.
    pub fn nacks(&self) -> Nacks {
        let usual = if self.config.rtx.is_some() { Nacks::ToSource } else { Nacks::Untold };
        self.nacks.unwrap_or(usual)
    }

    /// How the payloads are decoded, and how many channels they have.
    pub fn sound(&self) -> Option<(Format, u16)> {
        let usual = match self.config.payload_type {
            0 => Some(Format::Pcmu),
            8 => Some(Format::Pcma),
            10 | 11 => Some(Format::L16),
            _ => None,
        };
        let channels = self.channels.unwrap_or(if self.config.payload_type == 10 { 2 } else { 1 });
        Some((self.format.or(usual)?, channels))
    }

    /// Where payloads go: nowhere where the sound is asked for instead.
    pub fn output(&self) -> io::Result<Box<dyn Write>> {
        Ok(match &self.out {
            Some(file) => Box::new(File::create(file).map_err(|error| of_file(file, error))?),
            None if self.wav.is_some() || self.callers > 1 => Box::new(io::sink()),
            None => Box::new(io::stdout()),
        })
    }
}

/// An error with the name of its file.
pub fn of_file(file: &str, error: io::Error) -> io::Error {
    io::Error::new(error.kind(), format!("{file}: {error}"))
}

fn number<T: TryFrom<u64>>(value: &str) -> Option<T> {
    let number = match value.strip_prefix("0x") {
        Some(digits) => u64::from_str_radix(digits, 16),
        None => value.parse(),
    };
    number.ok()?.try_into().ok()
}

/// Ten thousandths of a share below 1, which has up to four digits after its point.
fn share(value: &str) -> Option<u64> {
    if value == "0" {
        return Some(0);
    }
    let digits = value.strip_prefix("0.").filter(|digits| (1..=4).contains(&digits.len()))?;
    digits.bytes().all(|digit| digit.is_ascii_digit()).then(|| format!("{digits:0<4}").parse().ok())?
}
