//! Settings files: one setting a line, a word and its numbers; `#` starts a comment.

use crate::settings::{Refusal, Settings};
use std::fmt;
use std::str::{FromStr, SplitWhitespace};

/// Why a line was not carried out.
#[derive(Clone, Debug, PartialEq, Eq)]
pub enum LineError {
    Refused(Refusal),
    UnknownWord(String),
    MissingNumber,
    SuperfluousNumber(String),
    WrongNumber(String),
}

impl From<Refusal> for LineError {
    fn from(refusal: Refusal) -> Self {
        Self::Refused(refusal)
    }
}

impl fmt::Display for LineError {
    fn fmt(&self, f: &mut fmt::Formatter) -> fmt::Result {
        match self {
            Self::Refused(refusal) => refusal.fmt(f),
            Self::UnknownWord(word) => write!(f, "unknown word {word}"),
            Self::MissingNumber => write!(f, "a number is missing"),
            Self::SuperfluousNumber(word) => write!(f, "superfluous: {word}"),
            Self::WrongNumber(word) => write!(f, "no number of its type: {word}"),
        }
    }
}

/// A line that was not carried out, counted from 1.
#[derive(Clone, Debug, PartialEq, Eq)]
pub struct FileError {
    pub line: usize,
    pub error: LineError,
}

/// The settings that the lines make of fresh ones.
pub fn read(text: &str) -> Result<Settings, FileError> {
    let mut settings = Settings::default();
    for (line, text) in text.lines().enumerate() {
        carry_out(text, &mut settings).map_err(|error| FileError { line: line + 1, error })?;
    }
    Ok(settings)
}

/// The lines that make these settings of fresh ones.
pub fn text(settings: &Settings) -> String {
    let s = settings;
    let pairs = |(re, im): (i16, i16)| format!("{re} {im}");
    let triples = |(a, b, c): (i16, i16, i16)| format!("{a} {b} {c}");
    let table = s.amplitudes.iter().zip(&s.phases).map(|(amplitude, phase)| format!(" {amplitude} {phase}"));
    let paths = s.paths.iter().map(|path| format!(" {} {} {}", path.re, path.im, path.delay));
    let mut lines = vec![
        format!("scale {}", s.scale),
        format!("tx_dc {}", pairs(s.tx_dc)),
        format!("tx_imbalance {}", triples(s.tx_imbalance)),
        format!("amplifier_table{}", table.collect::<String>()),
        format!("amplifier_bypass {}", u8::from(s.amplifier_bypass)),
        format!("paths{}", paths.collect::<String>()),
        format!("frequency {}", s.frequency),
        format!("clock {}", s.clock),
        format!("clock_bypass {}", u8::from(s.clock_bypass)),
        format!("gain {} {}", s.gain.shift, s.gain.factor),
        format!("seeds {} {}", s.seeds.re(), s.seeds.im()),
        format!("lead {}", s.lead),
        format!("rx_dc {}", pairs(s.rx_dc)),
        format!("rx_imbalance {}", triples(s.rx_imbalance)),
    ];
    let gains = s.receive_gains.iter().enumerate();
    lines.extend(gains.map(|(index, gain)| format!("receive_gain {index} {} {}", gain.shift, gain.factor)));
    lines.join("\n") + "\n"
}

fn carry_out(line: &str, settings: &mut Settings) -> Result<(), LineError> {
    let line = line.split('#').next().unwrap_or_default();
    let mut words = line.split_whitespace();
    let Some(word) = words.next() else { return Ok(()) };
    let mut numbers = Numbers { words };
    match word {
        "scale" => settings.set_scale(numbers.only()?)?,
        "tx_dc" => settings.set_tx_dc(numbers.two()?),
        "tx_imbalance" => settings.set_tx_imbalance(numbers.three()?),
        "amplifier_table" => {
            let entries = numbers.groups(Numbers::pair::<u16, i16>)?;
            let (amplitudes, phases): (Vec<_>, Vec<_>) = entries.into_iter().unzip();
            settings.set_amplifier_table(&amplitudes, &phases)?;
        }
        "amplifier_bypass" => settings.set_amplifier_bypass(numbers.switch()?),
        "paths" => settings.set_paths(&numbers.groups(Numbers::triple)?)?,
        "frequency" => settings.set_frequency(numbers.only()?)?,
        "clock" => settings.set_clock(numbers.only()?)?,
        "clock_bypass" => settings.set_clock_bypass(numbers.switch()?),
        "gain" => {
            let (shift, factor) = numbers.two()?;
            settings.set_gain(shift, factor)?;
        }
        "seeds" => {
            let (re, im) = numbers.two()?;
            settings.set_seeds(re, im)?;
        }
        "receive_gain" => {
            let (index, shift, factor) = numbers.three()?;
            settings.set_receive_gain(index, shift, factor)?;
        }
        "lead" => settings.set_lead(numbers.only()?),
        "rx_dc" => settings.set_rx_dc(numbers.two()?),
        "rx_imbalance" => settings.set_rx_imbalance(numbers.three()?),
        unknown => return Err(LineError::UnknownWord(unknown.to_owned())),
    }
    Ok(())
}

/// The numbers of a line that are still to be read.
struct Numbers<'a> {
    words: SplitWhitespace<'a>,
}

impl Numbers<'_> {
    fn take<T: FromStr>(&mut self) -> Result<T, LineError> {
        let word = self.words.next().ok_or(LineError::MissingNumber)?;
        word.parse().map_err(|_| LineError::WrongNumber(word.to_owned()))
    }

    fn pair<A: FromStr, B: FromStr>(&mut self) -> Result<(A, B), LineError> {
        Ok((self.take()?, self.take()?))
    }

    fn triple<A: FromStr, B: FromStr, C: FromStr>(&mut self) -> Result<(A, B, C), LineError> {
        Ok((self.take()?, self.take()?, self.take()?))
    }

    fn end(&mut self) -> Result<(), LineError> {
        match self.words.next() {
            None => Ok(()),
            Some(word) => Err(LineError::SuperfluousNumber(word.to_owned())),
        }
    }

    fn only<T: FromStr>(mut self) -> Result<T, LineError> {
        let number = self.take()?;
        self.end()?;
        Ok(number)
    }

    fn two<A: FromStr, B: FromStr>(mut self) -> Result<(A, B), LineError> {
        let numbers = self.pair()?;
        self.end()?;
        Ok(numbers)
    }

    fn three<A: FromStr, B: FromStr, C: FromStr>(mut self) -> Result<(A, B, C), LineError> {
        let numbers = self.triple()?;
        self.end()?;
        Ok(numbers)
    }

    /// 1 is on, 0 is off.
    fn switch(self) -> Result<bool, LineError> {
        match self.only::<u8>()? {
            0 => Ok(false),
            1 => Ok(true),
            other => Err(LineError::WrongNumber(other.to_string())),
        }
    }

    /// All numbers of the line, in groups.
    fn groups<T>(&mut self, group: fn(&mut Self) -> Result<T, LineError>) -> Result<Vec<T>, LineError> {
        let mut groups = Vec::new();
        while self.words.clone().next().is_some() {
            groups.push(group(self)?);
        }
        Ok(groups)
    }
}

#[cfg(test)]
mod tests {
    use super::*;

    #[test]
    fn lines_are_carried_out_in_order() {
        let settings =
            read("scale 4096 # loud\n\n  # nothing\nscale 300\r\npaths 1 -2 3\t4 5 6\nclock_bypass 0\n").unwrap();
        let mut expected = Settings::default();
        expected.set_scale(300).unwrap();
        expected.set_paths(&[(1, -2, 3), (4, 5, 6)]).unwrap();
        expected.set_clock_bypass(false);
        assert_eq!(settings, expected);
    }

    #[test]
    fn settings_come_back_from_their_text() {
        for seed in 0..50 {
            let settings = crate::random::settings(&mut crate::random::Random::new(seed));
            assert_eq!(read(&text(&settings)), Ok(settings));
        }
    }

    #[test]
    fn errors_name_their_line() {
        let error = |text: &str| read(text).map(|_| ()).map_err(|e| (e.line, e.error));
        let wrong = |word: &str| LineError::WrongNumber(word.to_owned());
        assert_eq!(error("lead 1\nscale 0"), Err((2, Refusal::Scale.into())));
        assert_eq!(error("scale 65536"), Err((1, wrong("65536"))));
        assert_eq!(error("clock_bypass 2"), Err((1, wrong("2"))));
        assert_eq!(error("paths"), Err((1, Refusal::Paths { path: 10 }.into())));
        assert_eq!(error("paths 1 2 3 4"), Err((1, LineError::MissingNumber)));
        assert_eq!(error("amplifier_table 99"), Err((1, LineError::MissingNumber)));
        assert_eq!(error("amplifier_table 65535 0"), Err((1, Refusal::AmplifierTable { entry: 513 }.into())));
        assert_eq!(error("receive_gain 255 99 0"), Err((1, Refusal::GainIndex.into())));
        assert_eq!(error("lead 1 2"), Err((1, LineError::SuperfluousNumber("2".to_owned()))));
        assert_eq!(error("LEAD 1"), Err((1, LineError::UnknownWord("LEAD".to_owned()))));
    }
}
