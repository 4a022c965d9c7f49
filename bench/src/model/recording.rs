//! Recordings: byte strings in the RIFF/WAVE layout, PCM, opened as sources.

use crate::item::{ConverterSample, GainIndex};
use crate::source::{Fault, FaultKind, Next, Source};
use std::fmt;
use std::marker::PhantomData;
use std::ops::Range;

pub const HIGHEST_RATE: u32 = 100_000_000;

/// What is wrong with bytes that do not open.
#[derive(Clone, Copy, Debug, PartialEq, Eq)]
pub enum OpenError {
    Cut,
    Mark,
    Length,
    FormatSize,
    DataSize,
    Tag,
    Channels,
    Rate,
    ByteRate,
    Align,
    Bits,
    DataBeforeFormat,
}

impl OpenError {
    pub fn number(self) -> u8 {
        match self {
            Self::Cut => 8,
            Self::Mark | Self::Length => 9,
            Self::DataBeforeFormat => 11,
            _ => 10,
        }
    }

    fn words(self) -> &'static str {
        match self {
            Self::Cut => "the bytes end too early",
            Self::Mark => "not the mark of a RIFF/WAVE file",
            Self::Length => "the length must be the number of bytes less 8",
            Self::FormatSize => "the format must have 16 bytes",
            Self::DataSize => "the data must be whole items",
            Self::Tag => "the tag must be 1, PCM",
            Self::Channels => "a signal recording has 2 channels, a gain recording 1",
            Self::Rate => "the rate must be 1 to 100000000",
            Self::ByteRate => "the byte rate must be the rate times the bytes of an item",
            Self::Align => "a signal recording has items of 4 bytes, a gain recording of 1",
            Self::Bits => "a signal recording has 12 bits, a gain recording 8",
            Self::DataBeforeFormat => "the data stands before the format",
        }
    }

    fn at(self, place: usize) -> OpenRefusal {
        OpenRefusal { error: self, place }
    }
}

/// The refusal to open, with the byte where what is wrong begins.
#[derive(Clone, Copy, Debug, PartialEq, Eq)]
pub struct OpenRefusal {
    pub error: OpenError,
    pub place: usize,
}

impl fmt::Display for OpenRefusal {
    fn fmt(&self, f: &mut fmt::Formatter) -> fmt::Result {
        write!(f, "refused {} at byte {}: {}", self.error.number(), self.place, self.error.words())
    }
}

/// A kind of recording: what its format says, and how the bytes of an item are read.
pub trait Kind {
    type Item: Copy;
    const NAME: &'static str;
    const CHANNELS: u16;
    const ALIGN: u16;
    const BITS: u16;
    const FAULT: FaultKind;
    /// None if the item is faulty.
    fn item(bytes: &[u8]) -> Option<Self::Item>;
}

/// Converter samples.
pub enum Signal {}

impl Kind for Signal {
    type Item = ConverterSample;
    const NAME: &'static str = "signal";
    const CHANNELS: u16 = 2;
    const ALIGN: u16 = 4;
    const BITS: u16 = 12;
    const FAULT: FaultKind = FaultKind::LowBits;

    #[inline]
    fn item(bytes: &[u8]) -> Option<ConverterSample> {
        let re = i16::from_le_bytes([bytes[0], bytes[1]]);
        let im = i16::from_le_bytes([bytes[2], bytes[3]]);
        ((re | im) & 15 == 0).then(|| ConverterSample::clipped(i64::from(re >> 4), i64::from(im >> 4)))
    }
}

/// Gain indices.
pub enum Gains {}

impl Kind for Gains {
    type Item = GainIndex;
    const NAME: &'static str = "gain";
    const CHANNELS: u16 = 1;
    const ALIGN: u16 = 1;
    const BITS: u16 = 8;
    const FAULT: FaultKind = FaultKind::GainOverRange;

    #[inline]
    fn item(bytes: &[u8]) -> Option<GainIndex> {
        (bytes[0] <= GainIndex::HIGHEST).then(|| GainIndex::nearest(bytes[0].into()))
    }
}

/// An open recording, standing before its first item.
pub struct Recording<'a, K> {
    rate: u32,
    data: &'a [u8],
    /// The byte where the next item begins.
    place: usize,
    input: u8,
    kind: PhantomData<K>,
}

impl<'a, K: Kind> Recording<'a, K> {
    /// Opens `bytes`; faults will name the recording by `input`.
    pub fn open(bytes: &'a [u8], input: u8) -> Result<Self, OpenRefusal> {
        test_head(bytes)?;
        let mut rate = None;
        let mut start = 12;
        loop {
            let chunk = Chunk::read(bytes, start)?;
            match (chunk.name, rate) {
                (b"data", None) => return Err(OpenError::DataBeforeFormat.at(start)),
                (b"data", Some(rate)) => {
                    if chunk.size % usize::from(K::ALIGN) != 0 {
                        return Err(OpenError::DataSize.at(start + 4));
                    }
                    let data = &bytes[chunk.content(bytes)?];
                    return Ok(Self { rate, data, place: 0, input, kind: PhantomData });
                }
                (b"fmt ", None) => {
                    if chunk.size != 16 {
                        return Err(OpenError::FormatSize.at(start + 4));
                    }
                    let content = chunk.content(bytes)?;
                    rate = Some(test_format::<K>(&bytes[content.clone()], content.start)?);
                }
                _ => {}
            }
            start = chunk.end(bytes)?;
        }
    }

    pub fn rate(&self) -> u32 {
        self.rate
    }
}

impl<K: Kind> Source for Recording<'_, K> {
    type Item = K::Item;

    #[inline]
    fn next(&mut self) -> Next<K::Item> {
        let align = usize::from(K::ALIGN);
        let Some(bytes) = self.data.get(self.place..self.place + align) else { return Ok(None) };
        let Some(item) = K::item(bytes) else {
            return Err(Fault { kind: K::FAULT, input: self.input, item: (self.place / align) as u64 });
        };
        self.place += align;
        Ok(Some(item))
    }

    fn rewind(&mut self) {
        self.place = 0;
    }
}

fn u16_at(bytes: &[u8], place: usize) -> u16 {
    u16::from_le_bytes([bytes[place], bytes[place + 1]])
}

fn u32_at(bytes: &[u8], place: usize) -> u32 {
    u32::from(u16_at(bytes, place)) | u32::from(u16_at(bytes, place + 2)) << 16
}

fn test_head(bytes: &[u8]) -> Result<(), OpenRefusal> {
    if bytes.len() < 12 {
        return Err(OpenError::Cut.at(0));
    }
    if &bytes[0..4] != b"RIFF" {
        return Err(OpenError::Mark.at(0));
    }
    if u32_at(bytes, 4) as usize != bytes.len() - 8 {
        return Err(OpenError::Length.at(4));
    }
    if &bytes[8..12] != b"WAVE" {
        return Err(OpenError::Mark.at(8));
    }
    Ok(())
}

/// A chunk whose name and size are there; its content may not be.
struct Chunk<'a> {
    start: usize,
    name: &'a [u8; 4],
    size: usize,
}

impl<'a> Chunk<'a> {
    fn read(bytes: &'a [u8], start: usize) -> Result<Self, OpenRefusal> {
        let head = bytes.get(start..start + 8).ok_or(OpenError::Cut.at(start))?;
        let name = head.first_chunk().expect("eight bytes begin with four");
        Ok(Self { start, name, size: u32_at(head, 4) as usize })
    }

    /// Where the next chunk begins, behind content and pad byte, which must be there.
    fn end(&self, bytes: &[u8]) -> Result<usize, OpenRefusal> {
        let end = self.start + 8 + self.size + self.size % 2;
        if end > bytes.len() {
            return Err(OpenError::Cut.at(self.start));
        }
        Ok(end)
    }

    fn content(&self, bytes: &[u8]) -> Result<Range<usize>, OpenRefusal> {
        self.end(bytes)?;
        Ok(self.start + 8..self.start + 8 + self.size)
    }
}

/// Tests the format's 16 bytes, which stand at `place`, and answers the rate.
fn test_format<K: Kind>(format: &[u8], place: usize) -> Result<u32, OpenRefusal> {
    let rate = u32_at(format, 4);
    let byte_rate = u64::from(rate) * u64::from(K::ALIGN);
    let tests = [
        (OpenError::Tag, 0, u16_at(format, 0) == 1),
        (OpenError::Channels, 2, u16_at(format, 2) == K::CHANNELS),
        (OpenError::Rate, 4, (1..=HIGHEST_RATE).contains(&rate)),
        (OpenError::ByteRate, 8, u64::from(u32_at(format, 8)) == byte_rate),
        (OpenError::Align, 12, u16_at(format, 12) == K::ALIGN),
        (OpenError::Bits, 14, u16_at(format, 14) == K::BITS),
    ];
    match tests.into_iter().find(|(_, _, passed)| !passed) {
        Some((error, field, _)) => Err(error.at(place + field)),
        None => Ok(rate),
    }
}

#[cfg(test)]
mod tests;
