//! Sound as a WAV file of 16-bit samples: a RIFF header of 44 bytes, whose lengths are brought up to date each second.

use crate::options::of_file;
use bizhgemu::Heard;
use std::fs::File;
use std::io::{self, BufWriter, Seek, SeekFrom, Write};

#[derive(Clone, Copy, PartialEq)]
pub enum Format {
    Pcmu,
    Pcma,
    L16,
}

impl Format {
    pub fn named(name: &str) -> Option<Format> {
        match name {
            "pcmu" => Some(Format::Pcmu),
            "pcma" => Some(Format::Pcma),
            "l16" => Some(Format::L16),
            _ => None,
        }
    }

    fn samples(self, payload: &[u8]) -> Vec<i16> {
        match self {
            Format::Pcmu => payload.iter().map(|byte| of_mu_law(*byte)).collect(),
            Format::Pcma => payload.iter().map(|byte| of_a_law(*byte)).collect(),
            Format::L16 => payload.chunks_exact(2).map(|pair| i16::from_be_bytes([pair[0], pair[1]])).collect(),
        }
    }
}

/// ITU-T G.711, µ-law: sign, three bits of exponent, four of mantissa, all inverted.
fn of_mu_law(byte: u8) -> i16 {
    let bits = !byte;
    let (exponent, mantissa) = (bits >> 4 & 7, i16::from(bits & 15));
    let magnitude = ((2 * mantissa + 33) << (exponent + 2)) - 132;
    if bits & 0x80 == 0 { magnitude } else { -magnitude }
}

/// ITU-T G.711, A-law: the even bits inverted.
fn of_a_law(byte: u8) -> i16 {
    let bits = byte ^ 0x55;
    let (exponent, mantissa) = (bits >> 4 & 7, i16::from(bits & 15));
    let magnitude = match exponent {
        0 => (2 * mantissa + 1) << 3,
        _ => (2 * mantissa + 33) << (exponent + 2),
    };
    if bits & 0x80 == 0 { -magnitude } else { magnitude }
}

pub struct Wav {
    pub name: String,
    file: BufWriter<File>,
    format: Format,
    channels: u16,
    rate: u32,
    samples: u32,
    /// Session and timestamp at which the next packet would follow without a gap.
    next: Option<(u64, u32)>,
}

impl Wav {
    pub fn create(prefix: &str, ssrc: u32, (format, channels): (Format, u16), rate: u32) -> io::Result<Wav> {
        let name = format!("{prefix}-{ssrc:08x}.wav");
        let file = File::create(&name).map_err(|error| of_file(&name, error))?;
        let mut wav = Wav { name, file: BufWriter::new(file), format, channels, rate, samples: 0, next: None };
        wav.header()?;
        Ok(wav)
    }

    /// The packet's samples, after as much silence as its timestamp says, ten seconds at most.
    pub fn write(&mut self, heard: &Heard<'_>) -> io::Result<()> {
        let samples = self.format.samples(heard.packet.payload);
        let gap = match self.next {
            Some((session, next)) if session == heard.session => heard.packet.timestamp.wrapping_sub(next),
            _ => 0,
        };
        let gap = if gap <= 10 * self.rate { gap * u32::from(self.channels) } else { 0 };
        self.put(std::iter::repeat_n(0, gap as usize))?;
        let frames = samples.len() as u32 / u32::from(self.channels);
        self.put(samples.into_iter())?;
        self.next = Some((heard.session, heard.packet.timestamp.wrapping_add(frames)));
        Ok(())
    }

    fn put(&mut self, samples: impl Iterator<Item = i16>) -> io::Result<()> {
        for sample in samples {
            self.file.write_all(&sample.to_le_bytes())?;
            self.samples += 1;
        }
        Ok(())
    }

    fn header(&mut self) -> io::Result<()> {
        let (size, frame) = (2 * self.samples, 2 * u32::from(self.channels));
        let mut header = b"RIFF".to_vec();
        header.extend((36 + size).to_le_bytes());
        header.extend(b"WAVEfmt ");
        header.extend(16u32.to_le_bytes());
        header.extend([1u16, self.channels].map(u16::to_le_bytes).concat());
        header.extend([self.rate, frame * self.rate].map(u32::to_le_bytes).concat());
        header.extend([frame as u16, 16].map(u16::to_le_bytes).concat());
        header.extend(b"data");
        header.extend(size.to_le_bytes());
        self.file.seek(SeekFrom::Start(0))?;
        self.file.write_all(&header)
    }

    /// Brings the header up to date, so that a program stopped at any time leaves a file that plays.
    pub fn settle(&mut self) -> io::Result<()> {
        self.header()?;
        self.file.seek(SeekFrom::End(0))?;
        self.file.flush()
    }
}
