//! The commands, and what they share: files, inputs and failures.

#[cfg(feature = "library")]
pub mod against;
pub mod cases;
pub mod check;
mod damaged;
pub mod generate;
pub mod piles;
pub mod play;
pub mod replay;
pub mod time;
mod wave;

use model::chain::standard_chain;
use model::item::ConverterSample;
use model::recording::{Gains, Kind, OpenRefusal, Recording, Signal};
use model::settings::Settings;
use model::settings_file::{self, FileError};
use model::source::Source;
use model::whole::{self, Whole};
use std::fmt;
use std::path::Path;

/// Why a command was not carried out.
pub enum Failure {
    Usage,
    Read(String, std::io::Error),
    Write(String, std::io::Error),
    Refused(String, OpenRefusal),
    Settings(String, FileError),
    Call(String, usize),
    /// The pull model and the formulas disagree.
    Disagreement(String),
}

impl fmt::Display for Failure {
    fn fmt(&self, f: &mut fmt::Formatter) -> fmt::Result {
        match self {
            Self::Usage => write!(f, "bench: usage"),
            Self::Read(file, error) => write!(f, "bench: {file}: cannot be read: {error}"),
            Self::Write(file, error) => write!(f, "bench: {file}: cannot be written: {error}"),
            Self::Refused(file, refusal) => write!(f, "{file}: {refusal}"),
            Self::Settings(file, FileError { line, error }) => write!(f, "{file}:{line}: {error}"),
            Self::Call(file, line) => write!(f, "{file}:{line}: no call"),
            Self::Disagreement(what) => write!(f, "{what}: the pull model differs from the formulas"),
        }
    }
}

fn read(file: &str) -> Result<Vec<u8>, Failure> {
    std::fs::read(file).map_err(|error| Failure::Read(file.to_owned(), error))
}

fn read_text(file: &str) -> Result<String, Failure> {
    std::fs::read_to_string(file).map_err(|error| Failure::Read(file.to_owned(), error))
}

fn write(file: &Path, bytes: impl AsRef<[u8]>) -> Result<(), Failure> {
    std::fs::write(file, bytes).map_err(|error| Failure::Write(file.display().to_string(), error))
}

fn make_directory(directory: &Path) -> Result<(), Failure> {
    std::fs::create_dir_all(directory).map_err(|error| Failure::Write(directory.display().to_string(), error))
}

fn open<'a, K: Kind>(file: &str, bytes: &'a [u8], input: u8) -> Result<Recording<'a, K>, Failure> {
    Recording::open(bytes, input).map_err(|refusal| Failure::Refused(file.to_owned(), refusal))
}

/// What a run of the standard chain is made of, read from files.
struct Inputs {
    signal_file: String,
    signal: Vec<u8>,
    gain_file: String,
    gain: Vec<u8>,
    settings: Settings,
}

impl Inputs {
    fn read(signal_file: &str, gain_file: &str, settings_file: Option<&str>) -> Result<Self, Failure> {
        Ok(Self {
            signal_file: signal_file.to_owned(),
            signal: read(signal_file)?,
            gain_file: gain_file.to_owned(),
            gain: read(gain_file)?,
            settings: settings_file.map_or(Ok(Settings::default()), read_settings)?,
        })
    }

    fn signal(&self) -> Result<Recording<'_, Signal>, Failure> {
        open(&self.signal_file, &self.signal, 0)
    }

    fn gains(&self) -> Result<Recording<'_, Gains>, Failure> {
        open(&self.gain_file, &self.gain, 1)
    }

    fn chain(&self) -> Result<impl Source<Item = ConverterSample>, Failure> {
        Ok(standard_chain(&self.settings, self.signal()?, self.gains()?))
    }

    /// The whole of the chain, by the formulas.
    fn whole(&self) -> Result<Whole<ConverterSample>, Failure> {
        let (signal, gains) = (Whole::of(&mut self.signal()?), Whole::of(&mut self.gains()?));
        Ok(whole::standard_chain(&self.settings, &signal, &gains))
    }
}

fn read_settings(file: &str) -> Result<Settings, Failure> {
    settings_file::read(&read_text(file)?).map_err(|error| Failure::Settings(file.to_owned(), error))
}
