//! Texts of settings: accepted ones, numbers at their limits and beyond, and lines that are no setting.

use model::random::{Random, settings};
use model::settings_file;

/// The words, and how many numbers stand behind each.
const WORDS: [(&str, usize); 17] = [
    ("scale", 1),
    ("tx_dc", 2),
    ("tx_imbalance", 3),
    ("amplifier_bypass", 1),
    ("paths", 3),
    ("paths", 30),
    ("paths", 33),
    ("frequency", 1),
    ("clock", 1),
    ("clock_bypass", 1),
    ("gain", 2),
    ("seeds", 2),
    ("receive_gain", 3),
    ("lead", 1),
    ("rx_dc", 2),
    ("rx_imbalance", 3),
    ("Scale", 1),
];

const LIMITS: [i128; 40] = [
    0,
    1,
    -1,
    2,
    9,
    10,
    18,
    19,
    -32,
    -33,
    63,
    64,
    127,
    128,
    129,
    255,
    256,
    513,
    8192,
    16384,
    32767,
    32768,
    -32768,
    -32769,
    65535,
    65536,
    4294967295,
    4294967296,
    9007199254740,
    9007199254741,
    -9007199254740,
    -9007199254741,
    140737488355327,
    140737488355328,
    -140737488355328,
    -140737488355329,
    9223372036854775807,
    9223372036854775808,
    -9223372036854775808,
    -9223372036854775809,
];

/// A text of settings; mostly one that is accepted.
pub fn random_text(random: &mut Random) -> String {
    let mut text = match random.between(0, 3) {
        0 => String::new(),
        1 => "# fresh\n\n".to_owned(),
        _ => settings_file::text(&settings(random)),
    };
    if random.once_in(2) {
        for _ in 0..random.between(1, 6) {
            text += &random_line(random);
            text.push_str([" # as measured\n", "\r\n", "\n", "\t\n\n"][random.between(0, 3) as usize]);
        }
    }
    text
}

fn random_line(random: &mut Random) -> String {
    if random.once_in(10) {
        return table(random);
    }
    let (word, count) = WORDS[random.between(0, WORDS.len() as i64 - 1) as usize];
    let count = match random.between(0, 30) {
        0 => count + 1,
        1 => count - 1,
        _ => count,
    };
    let wide = matches!(word, "frequency" | "clock") || random.once_in(4);
    let numbers = (0..count).map(|_| format!(" {}", number(random, wide)));
    word.to_owned() + &numbers.collect::<String>()
}

/// A number; where it is wide, often one at a limit of some setting or next to it.
fn number(random: &mut Random, wide: bool) -> String {
    match random.between(0, 60) {
        0 => ["x", "1.5", "--3", "0x10", "7_000"][random.between(0, 4) as usize].to_owned(),
        1..=40 if wide => LIMITS[random.between(0, LIMITS.len() as i64 - 1) as usize].to_string(),
        1..=30 => random.between(0, 1).to_string(),
        31..=50 => random.between(128, 255).to_string(),
        _ => random.between(-40, 63).to_string(),
    }
}

/// A whole table of the amplifier, or one with an entry too few or too many, or with an amplitude that is too great.
fn table(random: &mut Random) -> String {
    let entries = 513 + if random.once_in(6) { random.offset(-513, 2) } else { 0 };
    let faulty = if random.once_in(4) { random.between(0, 512) } else { -1 };
    let entry = |place| {
        let amplitude = if place == faulty { random.between(32768, 65535) } else { random.offset(0, 32767) };
        format!(" {amplitude} {}", random.part())
    };
    "amplifier_table".to_owned() + &(0..entries).map(entry).collect::<String>()
}
