//! What the model answers, in the library's terms.

use super::library::{Answer, GAINS, Report, Run, SETTINGS, SIGNAL, Sample, UNKNOWN_KIND, WRONG_LINE};
use model::item::ConverterSample;
use model::recording::{Gains, Kind, Recording, Signal};
use model::settings::Settings;
use model::settings_file::{self, FileError, LineError};
use model::source::Fault;
use model::whole::{self, Whole};

pub fn open(kind: u32, bytes: &[u8]) -> Answer {
    match kind {
        SIGNAL => opened::<Signal>(kind, bytes),
        GAINS => opened::<Gains>(kind, bytes),
        _ => Answer::refused(UNKNOWN_KIND, 0, 0),
    }
}

fn opened<K: Kind>(kind: u32, bytes: &[u8]) -> Answer {
    recorded::<K>(kind, bytes).map_or_else(
        |refused| refused,
        |(rate, whole)| Answer::done(report(rate, whole.items.len(), Some(whole.ending))),
    )
}

/// The rate and the whole of a recording, or the refusal.
fn recorded<K: Kind>(input: u32, bytes: &[u8]) -> Result<(u32, Whole<K::Item>), Answer> {
    match Recording::<K>::open(bytes, input as u8) {
        Ok(mut recording) => Ok((recording.rate(), Whole::of(&mut recording))),
        Err(refusal) => Err(Answer::refused(refusal.error.number().into(), input, refusal.place as u64)),
    }
}

/// So many items, and the ending, if it was met.
fn report(rate: u32, items: usize, ending: Option<Result<(), Fault>>) -> Report {
    let met = Report { rate, items: items as u64, ended: u32::from(ending.is_some()), ..Report::default() };
    match ending {
        Some(Err(Fault { kind, input, item })) => {
            Report { fault: kind.number().into(), input: input.into(), item, ..met }
        }
        _ => met,
    }
}

fn settings(text: &str) -> Result<Settings, Answer> {
    settings_file::read(text).map_err(|FileError { line, error }| {
        let status = match error {
            LineError::Refused(refusal) => refusal.number().into(),
            _ => WRONG_LINE,
        };
        Answer::refused(status, SETTINGS, line as u64)
    })
}

/// The settings of a run, or the refusal of its text.
pub fn settled(run: &Run) -> Result<Settings, Answer> {
    settings(&run.settings)
}

/// The rate and the whole of the chain, or the refusal of a recording.
pub fn chain(settings: &Settings, run: &Run) -> Result<(u32, Whole<ConverterSample>), Answer> {
    let (rate, signal) = recorded::<Signal>(SIGNAL, &run.signal)?;
    let (_, gains) = recorded::<Gains>(GAINS, &run.gain)?;
    Ok((rate, whole::standard_chain(settings, &signal, &gains)))
}

/// What `play` answers, and what it leaves in the buffer.
pub fn play(run: &Run, out: &mut [Sample]) -> Answer {
    match settled(run).and_then(|settings| chain(&settings, run)) {
        Ok((rate, whole)) => {
            let count = out.len().min(whole.items.len());
            for (place, item) in out.iter_mut().zip(&whole.items) {
                *place = Sample { re: item.re() as i16, im: item.im() as i16 };
            }
            Answer::done(report(rate, count, (count < out.len()).then_some(whole.ending)))
        }
        Err(refused) => refused,
    }
}
