//! Random runs of the standard chain, each with the answers that it must give, and recordings that must not open, for
//! `compare.sh`.

use super::replay::{call_line, line};
use super::{Failure, Inputs, damaged, make_directory, play, wave, write as write_file};
use model::item::ConverterSample;
use model::plain::PlainPlayer;
use model::player::{Call, Player, make};
use model::random::{Random, settings};
use model::recorder::MOST_SAMPLES;
use model::settings_file;
use model::source::Fault;
use std::path::Path;
use std::process::ExitCode;

/// The most items of a recording.
const LONGEST: i64 = 3000;

pub fn write(directory: &Path, seed: &str, count: &str) -> Result<ExitCode, Failure> {
    let (seed, count): (u64, u64) = (number(seed)?, number(count)?);
    for case in seed..seed + count {
        write_case(&directory.join("chain").join(format!("{case:06}")), &mut Random::new(case))?;
    }
    damaged::write_all(&directory.join("damaged"), &mut Random::new(seed), 10 * count)?;
    Ok(ExitCode::SUCCESS)
}

fn number(word: &str) -> Result<u64, Failure> {
    word.parse().map_err(|_| Failure::Usage)
}

fn write_case(directory: &Path, random: &mut Random) -> Result<(), Failure> {
    let settings = settings(random);
    let rate = random.between(1, 100_000_000) as u32;
    let inputs = Inputs {
        signal_file: "signal.wav".to_owned(),
        signal: random_signal(random, rate, LONGEST),
        gain_file: "gain.wav".to_owned(),
        gain: random_gains(random, rate, LONGEST),
        settings,
    };
    let whole = inputs.whole()?;
    assert!(whole.items.len() <= MOST_SAMPLES, "a case fits one recording");
    let mut plain = PlainPlayer::new(whole.clone());
    let mut player = Player::new(inputs.chain()?);
    let (mut calls, mut answers) = (String::new(), String::new());
    for _ in 0..40 {
        let call = random_call(random);
        let blank = ConverterSample::clipped(-7, 7);
        let answer = make(&mut plain, call, blank);
        if make(&mut player, call, blank) != answer {
            return Err(Failure::Disagreement(directory.display().to_string()));
        }
        calls += &format!("{}\n", call_line(call));
        answers += &format!("{}\n", line(call, &answer));
    }
    make_directory(directory)?;
    write_file(&directory.join("signal.wav"), &inputs.signal)?;
    write_file(&directory.join("gain.wav"), &inputs.gain)?;
    write_file(&directory.join("settings.txt"), settings_file::text(&inputs.settings))?;
    write_file(&directory.join("calls.txt"), calls)?;
    write_file(&directory.join("answers.txt"), answers)?;
    write_file(&directory.join("expected.wav"), play::recording(rate, &whole.items))?;
    write_file(&directory.join("expected.json"), ending_json(whole.items.len(), whole.ending))
}

fn ending_json(items: usize, ending: Result<(), Fault>) -> String {
    let ending = match ending {
        Ok(()) => "\"finished\"".to_owned(),
        Err(fault) => format!(
            "{{\n  \"fault\": {},\n  \"input\": {},\n  \"item\": {},\n  \"place\": {items}\n }}",
            fault.kind.number(),
            fault.input,
            fault.item
        ),
    };
    format!("{{\n \"items\": {items},\n \"ending\": {ending}\n}}\n")
}

/// A signal of some level and up to `longest` items, faulty somewhere once in three times.
pub fn random_signal(random: &mut Random, rate: u32, longest: i64) -> Vec<u8> {
    let length = random.between(0, longest) as usize;
    let level = [20, 500, 2047][random.between(0, 2) as usize];
    let mut words: Vec<(i16, i16)> = Vec::new();
    for _ in 0..length {
        let mut part = || (random.between(-level - 1, level) * 16) as i16;
        words.push((part(), part()));
    }
    if length > 0 && random.once_in(3) {
        words[random.between(0, length as i64 - 1) as usize].0 |= random.between(1, 15) as i16;
    }
    wave::signal(rate, &words)
}

pub fn random_gains(random: &mut Random, rate: u32, longest: i64) -> Vec<u8> {
    let length = random.between(0, longest) as usize;
    let mut bytes: Vec<u8> = (0..length).map(|_| random.between(0, 127) as u8).collect();
    if length > 0 && random.once_in(3) {
        bytes[random.between(0, length as i64 - 1) as usize] = random.between(128, 255) as u8;
    }
    wave::gains(rate, &bytes)
}

pub fn random_call(random: &mut Random) -> Call {
    match random.between(0, 11) {
        0 => Call::Rewind,
        1..=3 => Call::Next,
        4..=6 => Call::Fill(random.between(0, 40) as usize),
        7 => Call::Fill(0),
        8 => Call::Skip(u32::MAX),
        _ => Call::Skip(random.offset(0, 900) as u32),
    }
}
