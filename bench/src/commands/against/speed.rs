//! The time a sample, of the model and of the library in turns.

use super::super::{Failure, generate};
use super::library::{self, Run, Sample};
use model::chain::standard_chain;
use model::item::ConverterSample;
use model::player::{Play, Player};
use model::recording::{Gains, Recording, Signal};
use model::settings_file;
use std::process::ExitCode;
use std::time::{Duration, Instant};

const BLOCK: usize = 4096;
/// Room for the whole chain: a clock offset adds at most one sample in a thousand.
const ROOM: usize = generate::SAMPLES + generate::SAMPLES / 500;

/// Plays three settings, each so many rounds, and shows the best of them.
pub fn speed(rounds: &str) -> Result<ExitCode, Failure> {
    let rounds: u32 = rounds.parse().ok().filter(|&rounds| rounds > 0).ok_or(Failure::Usage)?;
    let (signal, gain) = generate::recordings();
    let mut run = Run { signal, gain, settings: String::new(), calls: String::new() };
    println!("ns a sample, best of {rounds} rounds in turns");
    println!("{:16} {:>8} {:>8}", "settings", "model", "library");
    for (name, text) in generate::settings() {
        run.settings = text;
        let Some((model, library)) = best(&run, rounds) else {
            println!("{name}: model and library play different samples");
            return Ok(ExitCode::FAILURE);
        };
        println!("{:16} {model:8.1} {library:8.1}", name.trim_end_matches(".txt"));
    }
    Ok(ExitCode::SUCCESS)
}

/// The best time of each; none if they do not play the same.
fn best(run: &Run, rounds: u32) -> Option<(f64, f64)> {
    let mut by_model = vec![Sample::default(); ROOM];
    let mut by_library = by_model.clone();
    let (mut model, mut library) = (Duration::MAX, Duration::MAX);
    let mut played = 0;
    for _ in 0..rounds {
        let start = Instant::now();
        played = play_model(run, &mut by_model);
        model = model.min(start.elapsed());
        let start = Instant::now();
        let answer = library::play(run, &mut by_library);
        library = library.min(start.elapsed());
        if answer.status != 0 || answer.report.items != played as u64 || by_model != by_library {
            return None;
        }
    }
    let each = |time: Duration| time.as_nanos() as f64 / played as f64;
    Some((each(model), each(library)))
}

/// Opens, settles and plays as the library does; the number of samples.
fn play_model(run: &Run, out: &mut [Sample]) -> usize {
    let good = "good recordings and settings";
    let settings = settings_file::read(&run.settings).expect(good);
    let signal = Recording::<Signal>::open(&run.signal, 0).expect(good);
    let gains = Recording::<Gains>::open(&run.gain, 1).expect(good);
    let mut player = Player::new(standard_chain(&settings, signal, gains));
    let mut block = [ConverterSample::ZERO; BLOCK];
    let mut played = 0;
    while let Ok(placed @ 1..) = player.fill(&mut block) {
        for (place, item) in out[played..].iter_mut().zip(&block[..placed]) {
            *place = Sample { re: item.re() as i16, im: item.im() as i16 };
        }
        played += placed;
    }
    played
}
