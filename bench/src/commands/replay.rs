//! Makes the calls of a file on one player, then compares the chain played in three block sizes.

use super::{Failure, Inputs, read_text};
use model::item::ConverterSample;
use model::player::{Answer, Call, Play, Player, PlayerFault, make};
use std::process::ExitCode;

const BLOCKS: [usize; 3] = [1, 7, 4096];

pub fn replay(signal: &str, gain: &str, calls_file: &str, settings: Option<&str>) -> Result<ExitCode, Failure> {
    let inputs = Inputs::read(signal, gain, settings)?;
    let calls = read_calls(calls_file)?;
    let mut player = Player::new(inputs.chain()?);
    for call in calls {
        println!("{}", line(call, &make(&mut player, call, ConverterSample::ZERO)));
    }
    compare_blocks(&inputs)
}

fn compare_blocks(inputs: &Inputs) -> Result<ExitCode, Failure> {
    let [one, others @ ..] = BLOCKS;
    let first = in_blocks(inputs, one)?;
    for size in others {
        let other = in_blocks(inputs, size)?;
        if other != first {
            let same = first.0.iter().zip(&other.0).take_while(|(a, b)| a == b).count();
            println!("block sizes {one} and {size} differ at place {same}");
            return Ok(ExitCode::FAILURE);
        }
    }
    println!("block sizes {BLOCKS:?}: {} items, alike", first.0.len());
    Ok(ExitCode::SUCCESS)
}

/// All items and the ending, filled block by block.
fn in_blocks(inputs: &Inputs, size: usize) -> Result<(Vec<ConverterSample>, Result<(), PlayerFault>), Failure> {
    let mut player = Player::new(inputs.chain()?);
    let mut block = vec![ConverterSample::ZERO; size];
    let mut items = Vec::new();
    loop {
        match player.fill(&mut block) {
            Ok(0) => return Ok((items, Ok(()))),
            Ok(placed) => items.extend_from_slice(&block[..placed]),
            Err(fault) => return Ok((items, Err(fault))),
        }
    }
}

fn read_calls(file: &str) -> Result<Vec<Call>, Failure> {
    let text = read_text(file)?;
    let numbered = text.lines().enumerate();
    numbered.map(|(k, line)| read_call(line).ok_or_else(|| Failure::Call(file.to_owned(), k + 1))).collect()
}

fn read_call(line: &str) -> Option<Call> {
    let words: Vec<&str> = line.split_whitespace().collect();
    match words[..] {
        ["next"] => Some(Call::Next),
        ["fill", n] => n.parse().ok().map(Call::Fill),
        ["skip", n] => n.parse().ok().map(Call::Skip),
        ["rewind"] => Some(Call::Rewind),
        _ => None,
    }
}

/// The call as a line of a file.
pub fn call_line(call: Call) -> String {
    match call {
        Call::Next => "next".to_owned(),
        Call::Fill(n) => format!("fill {n}"),
        Call::Skip(n) => format!("skip {n}"),
        Call::Rewind => "rewind".to_owned(),
    }
}

/// The call and its answer.
pub fn line(call: Call, answer: &Answer<ConverterSample>) -> String {
    let answer = match answer {
        Answer::Item(Some(item)) => format!("item {} {}", item.re(), item.im()),
        Answer::Item(None) => "no item".to_owned(),
        Answer::Filled { placed, buffer } => {
            let items = buffer[..*placed].iter().map(|item| format!("; {} {}", item.re(), item.im()));
            placed.to_string() + &items.collect::<String>()
        }
        Answer::Passed(count) => count.to_string(),
        Answer::FillFault { fault, .. } | Answer::Fault(fault) => fault.to_string(),
        Answer::Done => "done".to_owned(),
    };
    format!("{}: {answer}", call_line(call))
}
