//! The settings of the radio link. A setting call puts what it was given into the settings, or is refused and changes
//! nothing.

use crate::source::Seeds;
use crate::stages::{ENTRIES, Path};
use std::fmt;

pub const MOST_PATHS: usize = 10;
pub const LONGEST_DELAY: u16 = 63;
pub const GREATEST_CLOCK_OFFSET: i64 = 9_007_199_254_740;

/// A setting call saying no.
#[derive(Clone, Copy, Debug, PartialEq, Eq)]
pub enum Refusal {
    Scale,
    Gain,
    /// The first path that is wrong; 10 if their number is.
    Paths {
        path: usize,
    },
    /// The first entry that is wrong; 513 if their number is.
    AmplifierTable {
        entry: usize,
    },
    Clock,
    Seeds,
    Frequency,
    GainIndex,
}

impl Refusal {
    pub fn number(self) -> u8 {
        match self {
            Self::Scale => 1,
            Self::Gain => 2,
            Self::Paths { .. } => 3,
            Self::AmplifierTable { .. } => 4,
            Self::Clock => 5,
            Self::Seeds => 6,
            Self::Frequency => 7,
            Self::GainIndex => 13,
        }
    }
}

impl fmt::Display for Refusal {
    fn fmt(&self, f: &mut fmt::Formatter) -> fmt::Result {
        write!(f, "refused {}: ", self.number())?;
        match self {
            Self::Scale => write!(f, "the scale factor must be 1 to 32767"),
            Self::Gain => write!(f, "a gain's shift must be -32 to 18 and its factor 128 to 255"),
            Self::Paths { path: MOST_PATHS } => write!(f, "path 10: there must be 1 to 10 paths"),
            Self::Paths { path } => write!(f, "path {path}: a delay must be 0 to 63"),
            Self::AmplifierTable { entry: ENTRIES } => write!(f, "entry 513: the table must have 513 entries"),
            Self::AmplifierTable { entry } => write!(f, "entry {entry}: an amplitude must be 0 to 32767"),
            Self::Clock => write!(f, "the clock offset must be -9007199254740 to 9007199254740"),
            Self::Seeds => write!(f, "a noise seed must not be 0"),
            Self::Frequency => write!(f, "the frequency offset must be -2^47 to 2^47 - 1"),
            Self::GainIndex => write!(f, "the index of a receive gain must be 0 to 127"),
        }
    }
}

/// Shift and factor of a gain, within their ranges.
#[derive(Clone, Copy, Debug, PartialEq, Eq)]
pub struct GainSetting {
    pub shift: i16,
    pub factor: u16,
}

impl GainSetting {
    fn accept(shift: i16, factor: u16) -> Result<Self, Refusal> {
        match (shift, factor) {
            (-32..=18, 128..=255) => Ok(Self { shift, factor }),
            _ => Err(Refusal::Gain),
        }
    }
}

/// Two parts, 16 bits signed each.
pub type Offset = (i16, i16);
/// a, b and c of an imbalance.
pub type ImbalanceSetting = (i16, i16, i16);

/// Only the setting calls write, so every number is within its range.
#[derive(Clone, Debug, PartialEq, Eq)]
pub struct Settings {
    pub(crate) scale: u16,
    pub(crate) tx_dc: Offset,
    pub(crate) tx_imbalance: ImbalanceSetting,
    pub(crate) amplitudes: [u16; ENTRIES],
    pub(crate) phases: [i16; ENTRIES],
    pub(crate) amplifier_bypass: bool,
    pub(crate) paths: Vec<Path>,
    pub(crate) frequency: i64,
    pub(crate) clock: i64,
    pub(crate) clock_bypass: bool,
    pub(crate) gain: GainSetting,
    pub(crate) seeds: Seeds,
    pub(crate) receive_gains: [GainSetting; 128],
    pub(crate) lead: u16,
    pub(crate) rx_dc: Offset,
    pub(crate) rx_imbalance: ImbalanceSetting,
}

impl Default for Settings {
    fn default() -> Self {
        let unity = GainSetting { shift: 1, factor: 128 };
        let balanced = (16384, 16384, 0);
        Self {
            scale: 256,
            tx_dc: (0, 0),
            tx_imbalance: balanced,
            amplitudes: [32767; ENTRIES],
            phases: [0; ENTRIES],
            amplifier_bypass: true,
            paths: vec![Path { re: 8192, im: 0, delay: 0 }],
            frequency: 0,
            clock: 0,
            clock_bypass: true,
            gain: unity,
            seeds: Seeds::new(1, 1).expect("1 is no 0"),
            receive_gains: [unity; 128],
            lead: 0,
            rx_dc: (0, 0),
            rx_imbalance: balanced,
        }
    }
}

/// A path as a setting call is given it; the delay may be any.
pub type GivenPath = (i16, i16, u16);

impl Settings {
    pub fn set_scale(&mut self, factor: u16) -> Result<(), Refusal> {
        if !(1..=32767).contains(&factor) {
            return Err(Refusal::Scale);
        }
        self.scale = factor;
        Ok(())
    }

    pub fn set_tx_dc(&mut self, offset: Offset) {
        self.tx_dc = offset;
    }

    pub fn set_tx_imbalance(&mut self, imbalance: ImbalanceSetting) {
        self.tx_imbalance = imbalance;
    }

    pub fn set_amplifier_table(&mut self, amplitudes: &[u16], phases: &[i16]) -> Result<(), Refusal> {
        let wrong_length = |_| Refusal::AmplifierTable { entry: ENTRIES };
        let amplitudes = <[u16; ENTRIES]>::try_from(amplitudes).map_err(wrong_length)?;
        let phases = <[i16; ENTRIES]>::try_from(phases).map_err(wrong_length)?;
        if let Some(entry) = amplitudes.iter().position(|&amplitude| amplitude > 32767) {
            return Err(Refusal::AmplifierTable { entry });
        }
        self.amplitudes = amplitudes;
        self.phases = phases;
        Ok(())
    }

    pub fn set_amplifier_bypass(&mut self, bypass: bool) {
        self.amplifier_bypass = bypass;
    }

    pub fn set_paths(&mut self, paths: &[GivenPath]) -> Result<(), Refusal> {
        if !(1..=MOST_PATHS).contains(&paths.len()) {
            return Err(Refusal::Paths { path: MOST_PATHS });
        }
        if let Some(path) = paths.iter().position(|&(_, _, delay)| delay > LONGEST_DELAY) {
            return Err(Refusal::Paths { path });
        }
        self.paths = paths.iter().map(|&(re, im, delay)| Path { re, im, delay: delay as u8 }).collect();
        Ok(())
    }

    pub fn set_frequency(&mut self, offset: i64) -> Result<(), Refusal> {
        if !(-(1 << 47)..1 << 47).contains(&offset) {
            return Err(Refusal::Frequency);
        }
        self.frequency = offset;
        Ok(())
    }

    pub fn set_clock(&mut self, offset: i64) -> Result<(), Refusal> {
        if !(-GREATEST_CLOCK_OFFSET..=GREATEST_CLOCK_OFFSET).contains(&offset) {
            return Err(Refusal::Clock);
        }
        self.clock = offset;
        Ok(())
    }

    pub fn set_clock_bypass(&mut self, bypass: bool) {
        self.clock_bypass = bypass;
    }

    pub fn set_gain(&mut self, shift: i16, factor: u16) -> Result<(), Refusal> {
        self.gain = GainSetting::accept(shift, factor)?;
        Ok(())
    }

    pub fn set_seeds(&mut self, re: u32, im: u32) -> Result<(), Refusal> {
        self.seeds = Seeds::new(re, im).ok_or(Refusal::Seeds)?;
        Ok(())
    }

    pub fn set_receive_gain(&mut self, index: u8, shift: i16, factor: u16) -> Result<(), Refusal> {
        let entry = self.receive_gains.get_mut(usize::from(index)).ok_or(Refusal::GainIndex)?;
        *entry = GainSetting::accept(shift, factor)?;
        Ok(())
    }

    pub fn set_lead(&mut self, copies: u16) {
        self.lead = copies;
    }

    pub fn set_rx_dc(&mut self, offset: Offset) {
        self.rx_dc = offset;
    }

    pub fn set_rx_imbalance(&mut self, imbalance: ImbalanceSetting) {
        self.rx_imbalance = imbalance;
    }
}

#[cfg(test)]
mod tests {
    use super::*;

    fn refused(call: impl Fn(&mut Settings) -> Result<(), Refusal>, refusal: Refusal) {
        let mut settings = Settings::default();
        assert_eq!(call(&mut settings), Err(refusal));
        assert_eq!(settings, Settings::default());
    }

    #[test]
    fn numbers_outside_their_range_change_nothing() {
        refused(|s| s.set_scale(0), Refusal::Scale);
        refused(|s| s.set_scale(32768), Refusal::Scale);
        refused(|s| s.set_gain(-33, 128), Refusal::Gain);
        refused(|s| s.set_gain(19, 128), Refusal::Gain);
        refused(|s| s.set_gain(1, 127), Refusal::Gain);
        refused(|s| s.set_gain(1, 256), Refusal::Gain);
        refused(|s| s.set_receive_gain(128, 99, 0), Refusal::GainIndex);
        refused(|s| s.set_receive_gain(127, 99, 128), Refusal::Gain);
        refused(|s| s.set_paths(&[]), Refusal::Paths { path: 10 });
        refused(|s| s.set_paths(&[(0, 0, 64); 11]), Refusal::Paths { path: 10 });
        refused(|s| s.set_paths(&[(0, 0, 63), (0, 0, 64), (0, 0, 65)]), Refusal::Paths { path: 1 });
        refused(|s| s.set_clock(GREATEST_CLOCK_OFFSET + 1), Refusal::Clock);
        refused(|s| s.set_clock(-GREATEST_CLOCK_OFFSET - 1), Refusal::Clock);
        refused(|s| s.set_clock(i64::MIN), Refusal::Clock);
        refused(|s| s.set_seeds(0, 1), Refusal::Seeds);
        refused(|s| s.set_seeds(1, 0), Refusal::Seeds);
        refused(|s| s.set_frequency(1 << 47), Refusal::Frequency);
        refused(|s| s.set_frequency(-(1 << 47) - 1), Refusal::Frequency);
    }

    #[test]
    fn tables_are_judged_by_length_first() {
        let entry = |entry| Refusal::AmplifierTable { entry };
        refused(|s| s.set_amplifier_table(&[65535; 512], &[0; 513]), entry(513));
        refused(|s| s.set_amplifier_table(&[65535; 513], &[0; 514]), entry(513));
        let mut amplitudes = [1; 513];
        (amplitudes[7], amplitudes[300]) = (32768, 65535);
        refused(|s| s.set_amplifier_table(&amplitudes, &[0; 513]), entry(7));
    }

    #[test]
    fn limits_are_inside() {
        let mut settings = Settings::default();
        assert_eq!(settings.set_clock(GREATEST_CLOCK_OFFSET), Ok(()));
        assert_eq!(settings.set_frequency(-(1 << 47)), Ok(()));
        assert_eq!(settings.set_frequency((1 << 47) - 1), Ok(()));
        assert_eq!(settings.set_gain(-32, 128), Ok(()));
        assert_eq!(settings.set_gain(18, 255), Ok(()));
        assert_eq!(settings.set_paths(&[(0, 0, 63); 10]), Ok(()));
        assert!(settings.clock_bypass && settings.amplifier_bypass);
    }
}
