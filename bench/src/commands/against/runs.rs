//! Runs of the standard chain: played into a buffer, and by calls on a player.

use super::super::replay::{call_line, line};
use super::super::{cases, damaged};
use super::library::{Answer, CALLS, ROOM, Report, Run, Sample, WRONG_LINE};
use super::{Tally, expected, library, texts};
use model::item::ConverterSample;
use model::plain::PlainPlayer;
use model::player::{Call, make};
use model::random::Random;

/// The most items of a recording.
const LONGEST: i64 = 60;

pub fn compare_played(tally: &mut Tally, case: u64, random: &mut Random) {
    let run = random_run(random, String::new());
    let blank = Sample { re: 7777, im: -7777 };
    let mut proved_out = vec![blank; random.between(0, 2 * LONGEST) as usize];
    let mut model_out = proved_out.clone();
    let (model, proved) = (expected::play(&run, &mut model_out), library::play(&run, &mut proved_out));
    tally.count("played", case, model, proved == model && proved_out == model_out, || {
        let place = proved_out.iter().zip(&model_out).position(|(x, y)| x != y);
        format!("{}\nfirst sample {place:?}: model {model:?}, library {proved:?}", told(&run))
    });
}

pub fn compare_replayed(tally: &mut Tally, case: u64, random: &mut Random) {
    let calls = random_calls(random);
    let run = random_run(random, calls.text.clone());
    let (model, text) = replayed(&run, &calls);
    let length = match random.between(0, 5) {
        0 => text.len(),
        1 => random.between(0, text.len() as i64) as usize,
        _ => text.len() + random.between(1, 50) as usize,
    };
    let mut model_out = vec![b'.'; length];
    let model = put(model, &text, &mut model_out);
    let mut proved_out = vec![b'.'; length];
    let proved = library::replay(&run, &mut proved_out);
    tally.count("replayed", case, model, proved == model && proved_out == model_out, || {
        let (library, model_text) = (String::from_utf8_lossy(&proved_out), String::from_utf8_lossy(&model_out));
        format!("{}\nmodel {model:?}\n{model_text}\nlibrary {proved:?}\n{library}", told(&run))
    });
}

fn told(run: &Run) -> String {
    let Run { signal, gain, settings, calls } = run;
    format!("signal {signal:02x?}\ngain {gain:02x?}\nsettings\n{settings}\ncalls\n{calls}")
}

fn random_run(random: &mut Random, calls: String) -> Run {
    let rate = random.between(1, 100_000_000) as u32;
    let signal = match random.once_in(25) {
        true => damaged::damaged(random),
        false => cases::random_signal(random, rate, LONGEST),
    };
    let gain = match random.once_in(25) {
        true => damaged::damaged(random),
        false => cases::random_gains(random, rate, LONGEST),
    };
    Run { signal, gain, settings: texts::random_text(random), calls }
}

/// Calls as a text, and the line that is none of them, counted from 1.
struct Calls {
    made: Vec<Call>,
    text: String,
    wrong: Option<u64>,
}

fn random_calls(random: &mut Random) -> Calls {
    let mut calls = Calls { made: Vec::new(), text: String::new(), wrong: None };
    for number in 0..random.between(0, 15) {
        if random.once_in(150) {
            let wrong = ["jump", "next 1", "fill", "skip -1", "skip 4294967296", "fill 1 2", "rewind x"];
            calls.text += wrong[random.between(0, wrong.len() as i64 - 1) as usize];
            calls.wrong = calls.wrong.or(Some(number as u64 + 1));
        } else {
            let call = cases::random_call(random);
            calls.text += &call_line(call);
            calls.made.push(call);
        }
        calls.text.push('\n');
    }
    calls
}

/// What a replay answers if its buffer is long enough, and the text that it writes then.
fn replayed(run: &Run, calls: &Calls) -> (Answer, String) {
    let answered = expected::settled(run).and_then(|settings| match calls.wrong {
        Some(line) => Err(Answer::refused(WRONG_LINE, CALLS, line)),
        None => expected::chain(&settings, run),
    });
    match answered {
        Ok((rate, whole)) => {
            let mut player = PlainPlayer::new(whole);
            let answer = |&call| line(call, &make(&mut player, call, ConverterSample::ZERO)) + "\n";
            let text: String = calls.made.iter().map(answer).collect();
            (Answer::done(Report { rate, items: text.len() as u64, ..Report::default() }), text)
        }
        Err(refused) => (refused, String::new()),
    }
}

/// Puts the text into the buffer, if it fits.
fn put(answer: Answer, text: &str, out: &mut [u8]) -> Answer {
    if answer.status != 0 {
        return answer;
    }
    match out.get_mut(..text.len()) {
        Some(start) => {
            start.copy_from_slice(text.as_bytes());
            answer
        }
        None => Answer::refused(ROOM, 0, text.len() as u64),
    }
}
