//! Writing signal recordings into a buffer that is lent at each call.

use crate::item::ConverterSample;
use crate::recording::HIGHEST_RATE;

pub const HEAD: usize = 44;
pub const LONGEST: usize = 65_536;
/// As many samples as one recording holds.
pub const MOST_SAMPLES: usize = (LONGEST - HEAD) / 4;

#[derive(Clone, Copy, Debug, PartialEq, Eq)]
pub enum StartError {
    Buffer,
    Rate,
}

impl StartError {
    pub fn number(self) -> u8 {
        match self {
            Self::Buffer => 14,
            Self::Rate => 16,
        }
    }
}

/// Refusal 15: what is to be written does not fit the buffer or 65,536 bytes.
#[derive(Clone, Copy, Debug, PartialEq, Eq)]
pub struct DoesNotFit;

impl DoesNotFit {
    pub const NUMBER: u8 = 15;
}

/// A recording that was started. It holds a number only; the bytes are the buffer's.
#[derive(Debug, PartialEq, Eq)]
#[must_use = "a started recording must be finished or abandoned"]
pub struct Started {
    samples: usize,
}

impl Started {
    pub fn new(buffer: &mut [u8], rate: u32) -> Result<Self, StartError> {
        if !(1..=HIGHEST_RATE).contains(&rate) {
            return Err(StartError::Rate);
        }
        if !(HEAD..=LONGEST).contains(&buffer.len()) {
            return Err(StartError::Buffer);
        }
        buffer[..HEAD].copy_from_slice(&head(rate));
        Ok(Self { samples: 0 })
    }

    pub fn put(&mut self, buffer: &mut [u8], sample: ConverterSample) -> Result<(), DoesNotFit> {
        let end = self.length();
        let bytes = writable(buffer).get_mut(end..end + 4).ok_or(DoesNotFit)?;
        bytes[..2].copy_from_slice(&(sample.re() as i16 * 16).to_le_bytes());
        bytes[2..].copy_from_slice(&(sample.im() as i16 * 16).to_le_bytes());
        self.samples += 1;
        Ok(())
    }

    /// The length, or the started recording again if its samples do not fit.
    pub fn finish(self, buffer: &mut [u8]) -> Result<usize, (DoesNotFit, Self)> {
        let length = self.length();
        if writable(buffer).len() < length {
            return Err((DoesNotFit, self));
        }
        buffer[4..8].copy_from_slice(&(length as u32 - 8).to_le_bytes());
        buffer[40..44].copy_from_slice(&((length - HEAD) as u32).to_le_bytes());
        Ok(length)
    }

    pub fn abandon(self) {}

    fn length(&self) -> usize {
        HEAD + 4 * self.samples
    }
}

/// The bytes of a buffer that a recording can reach.
fn writable(buffer: &mut [u8]) -> &mut [u8] {
    let length = buffer.len().min(LONGEST);
    &mut buffer[..length]
}

/// The head of a recording without sizes.
fn head(rate: u32) -> [u8; HEAD] {
    let mut head = *b"RIFF\0\0\0\0WAVEfmt \x10\0\0\0\x01\0\x02\0....    \x04\0\x0C\0data\0\0\0\0";
    head[24..28].copy_from_slice(&rate.to_le_bytes());
    head[28..32].copy_from_slice(&(rate * 4).to_le_bytes());
    head
}

#[cfg(test)]
mod tests {
    use super::*;
    use crate::recording::{Recording, Signal};
    use crate::source::Source;

    #[test]
    fn the_recording_of_one_sample() {
        let expected = [
            0x52, 0x49, 0x46, 0x46, 0x28, 0, 0, 0, 0x57, 0x41, 0x56, 0x45, 0x66, 0x6D, 0x74, 0x20, 0x10, 0, 0, 0, 1, 0,
            2, 0, 0x40, 0x1F, 0, 0, 0, 0x7D, 0, 0, 4, 0, 0x0C, 0, 0x64, 0x61, 0x74, 0x61, 4, 0, 0, 0, 0x40, 6, 0xD0,
            0xFF,
        ];
        let mut buffer = [0xEE; 48];
        let mut started = Started::new(&mut buffer, 8000).unwrap();
        assert_eq!((buffer[4], buffer[40], buffer[44]), (0, 0, 0xEE));
        started.put(&mut buffer, ConverterSample::clipped(100, -3)).unwrap();
        let before = buffer;
        assert_eq!(started.put(&mut buffer, ConverterSample::clipped(1, 1)), Err(DoesNotFit));
        let Err((DoesNotFit, started)) = started.finish(&mut buffer[..47]) else { panic!("47 bytes hold no sample") };
        assert_eq!(buffer, before);
        assert_eq!(started.finish(&mut buffer), Ok(48));
        assert_eq!(buffer, expected);
    }

    #[test]
    fn starts_that_are_refused() {
        assert_eq!(Started::new(&mut [0; 43], 0), Err(StartError::Rate));
        assert_eq!(Started::new(&mut [0; 44], 100_000_001), Err(StartError::Rate));
        assert_eq!(Started::new(&mut [0; 43], 1), Err(StartError::Buffer));
        assert_eq!(Started::new(&mut vec![0; 65_537], 1), Err(StartError::Buffer));
    }

    #[test]
    fn the_longest_recording_comes_out_again() {
        let mut buffer = vec![0xEE; LONGEST];
        let sample = |k: usize| ConverterSample::clipped(k as i64 % 4096 - 2048, 2047 - k as i64 % 4096);
        let mut started = Started::new(&mut buffer, 100_000_000).unwrap();
        // A longer buffer that is lent later gives no more room than 65,536 bytes.
        buffer.resize(70_000, 0xEE);
        for k in 0..MOST_SAMPLES {
            started.put(&mut buffer, sample(k)).unwrap();
        }
        assert_eq!(started.put(&mut buffer, sample(0)), Err(DoesNotFit));
        assert_eq!(started.finish(&mut buffer), Ok(LONGEST));
        assert!(buffer[LONGEST..].iter().all(|&byte| byte == 0xEE));
        let mut recording = Recording::<Signal>::open(&buffer[..LONGEST], 0).unwrap();
        assert_eq!(recording.rate(), 100_000_000);
        for k in 0..MOST_SAMPLES {
            assert_eq!(recording.next(), Ok(Some(sample(k))));
        }
        assert_eq!(recording.next(), Ok(None));
    }
}
