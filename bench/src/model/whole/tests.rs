//! The worked numbers of the formulas, each on the formula over lists and on the pull model; then the two against each
//! other on random piles.

use super::*;
use crate::chain;
use crate::plain::PlainPlayer;
use crate::player::{Call, Player, make};
use crate::random::{Random, settings};
use crate::settings::GREATEST_CLOCK_OFFSET;
use crate::source::{FaultKind, Held, Noise};
use crate::stages::*;

const LOW_BITS: Fault = Fault { kind: FaultKind::LowBits, input: 0, item: 7 };
const OVER_RANGE: Fault = Fault { kind: FaultKind::GainOverRange, input: 1, item: 9 };

fn samples<const BITS: u32>(parts: &[(i64, i64)]) -> Whole<Sample<BITS>> {
    Whole::finished(parts.iter().map(|&(re, im)| Sample::clipped(re, im)).collect())
}

/// Real parts only.
fn reals<const BITS: u32>(parts: &[i64]) -> Whole<Sample<BITS>> {
    Whole::finished(parts.iter().map(|&re| Sample::clipped(re, 0)).collect())
}

fn list<T: Copy>(whole: &Whole<T>) -> Listed<T> {
    Listed::new(whole.clone())
}

/// Both ways give the whole that was worked out.
fn both<T: Copy + PartialEq + std::fmt::Debug>(formula: Whole<T>, mut pulled: impl Source<Item = T>, worked: Whole<T>) {
    assert_eq!(formula, worked);
    assert_eq!(Whole::of(&mut pulled), worked);
}

#[test]
fn scaling_as_worked() {
    for (f, x, y) in [(4096, 100, 1600), (300, -1, -2), (300, 1, 1), (256, -2048, -2048), (32767, 2047, 32767)] {
        let x = reals(&[x]);
        both(scaling(f, &x), Each::new(Scaling { factor: f.into() }, list(&x)), reals(&[y]));
    }
}

#[test]
fn dc_offset_as_worked() {
    let x = samples::<16>(&[(32000, -32000)]);
    let pulled = Each::new(DcOffset { re: 1000, im: -1000 }, list(&x));
    both(dc_offset((1000, -1000), &x), pulled, samples(&[(32767, -32768)]));
    let x = samples::<32>(&[(32000, -32000)]);
    let pulled = Each::new(DcOffset { re: 1000, im: -1000 }, list(&x));
    both(dc_offset((1000, -1000), &x), pulled, samples(&[(33000, -33000)]));
}

#[test]
fn imbalance_as_worked() {
    let worked = [
        ((15416, 17274, -905), (1000, 2000), (830, 2108)),
        ((16384, 8192, 4096), (1000, 2000), (1500, 1000)),
        ((16384, 8192, 4096), (-1, -1), (-2, -1)),
    ];
    for ((a, b, c), x, y) in worked {
        let x = samples::<16>(&[x]);
        both(imbalance((a, b, c), &x), Each::new(Imbalance { a, b, c }, list(&x)), samples(&[y]));
    }
}

fn amplifier_both(amplitudes: [u16; ENTRIES], phases: [i16; ENTRIES], x: (i64, i64), y: (i64, i64)) {
    let x = samples(&[x]);
    let pulled = Each::new(Amplifier::on(AmplifierTable::new(&amplitudes, &phases)), list(&x));
    both(amplifier(&amplitudes, &phases, &x), pulled, samples(&[y]));
}

#[test]
fn amplifier_as_worked() {
    amplifier_both([16384; ENTRIES], [0; ENTRIES], (3, 4), (1, 2));
    amplifier_both([16384; ENTRIES], [0; ENTRIES], (-3, 0), (-2, 0));
    amplifier_both([32767; ENTRIES], [0; ENTRIES], (1000, -1000), (999, -1000));
    let (mut amplitudes, mut phases) = ([0; ENTRIES], [0; ENTRIES]);
    (amplitudes[1], amplitudes[2], phases[2]) = (32767, 16383, -64);
    amplifier_both(amplitudes, phases, (60, 80), (43, 57));
}

#[test]
fn multipath_as_worked() {
    let path = |re, im, delay| Path { re, im, delay };
    let worked = [
        (vec![path(8192, 0, 0), path(4096, 0, 1)], [(1600, 0), (0, 0)], [(1600, 0), (800, 0)]),
        (vec![path(4096, 0, 0), path(4096, 0, 1)], [(1, 0), (1, 0)], [(0, 0), (1, 0)]),
        (vec![path(0, 8192, 0)], [(100, 7), (0, 0)], [(-7, 100), (0, 0)]),
    ];
    for (paths, x, y) in worked {
        let x = samples(&x);
        both(multipath(&paths, &x), Multipath::new(paths.clone(), list(&x)), samples(&y));
    }
}

#[test]
fn frequency_offset_as_worked() {
    for (f, y) in [(1 << 46, (0, -100)), (1, (100, -1)), (0, (100, 0))] {
        let x = samples(&[(100, 0), (100, 0)]);
        both(frequency_offset(f, &x), FrequencyOffset::new(f, list(&x)), samples(&[(100, 0), y]));
    }
}

#[test]
fn gain_as_worked() {
    let worked = [(-32, 128, -1, -1), (-32, 128, 1, 0), (18, 128, 1, 131072), (18, 255, 32767, 2147483647)];
    for (shift, factor, x, y) in worked {
        let x = reals(&[x]);
        both(gain(GainSetting { shift, factor }, &x), Each::new(Gain::new(shift, factor), list(&x)), reals(&[y]));
    }
}

#[test]
fn converter_as_worked() {
    let x = reals(&[15, 16, -1, 40000]);
    both(converter(&x), Each::new(Converter, list(&x)), reals(&[0, 1, -1, 2047]));
}

#[test]
fn clock_offset_as_worked() {
    let worked = [
        (1 << 43, vec![1000, 2000], vec![0, 1000]),
        (-(1 << 43), vec![1000, 2000], vec![0, 999, 1998]),
        (0, vec![10, 20, 30], vec![0, 10, 20]),
    ];
    for (c, x, y) in worked {
        let x = reals(&x);
        both(clock_offset(c, &x), ClockOffset::new(c, list(&x)), reals(&y));
    }
}

#[test]
fn clock_offset_has_the_length_of_its_formula() {
    for (c, length) in [(GREATEST_CLOCK_OFFSET, 2500), (-GREATEST_CLOCK_OFFSET, 2500), (1, 3), (-1, 3), (5, 0)] {
        let numbers: Vec<i64> = (0..length).map(|k| (k * 7919) % 20000 - 10000).collect();
        let x = reals(&numbers);
        let step = (1i128 << 53) + i128::from(c);
        let expected = (i128::from(length) * (1 << 53) + step - 1) / step;
        let y = clock_offset(c, &x);
        assert_eq!(y.items.len() as i128, expected);
        assert_eq!(Whole::of(&mut ClockOffset::new(c, list(&x))), y);
    }
}

#[test]
fn lead_as_worked() {
    let x = Whole { items: vec![5, 6], ending: Err(OVER_RANGE) };
    let worked = Whole { items: vec![0, 0, 5, 6], ending: Err(OVER_RANGE) };
    both(lead(0, 2, &x), Lead::new(0, 2, list(&x)), worked);
}

#[test]
fn pairing_as_worked() {
    let first = Whole { items: vec![1, 2, 3], ending: Err(LOW_BITS) };
    let second = Whole::finished(vec![10, 20]);
    let pairs = || Pairing::new(list(&first), list(&second));
    both(pairing(&first, &second), pairs(), Whole::finished(vec![(1, 10), (2, 20)]));
    let mut pulled = pairs();
    pulled.next().unwrap();
    pulled.next().unwrap();
    assert_eq!((pulled.next(), pulled.next()), (Ok(None), Ok(None)));
    let first = Whole { items: vec![1, 2], ending: Err(LOW_BITS) };
    let worked = Whole { items: vec![(1, 10), (2, 20)], ending: Err(LOW_BITS) };
    both(pairing(&first, &second), Pairing::new(list(&first), list(&second)), worked);
}

#[test]
fn adding_noise_and_receive_gain_as_worked() {
    let (x, noise) = (reals(&[2147483000]), reals(&[1000]));
    let pulled = Each::new(AddingNoise, Pairing::new(list(&x), list(&noise)));
    both(adding_noise(&x, &noise), pulled, reals(&[2147483647]));
    let mut gains = [GainSetting { shift: 1, factor: 128 }; 128];
    gains[9] = GainSetting { shift: 3, factor: 132 };
    let (x, index) = (samples(&[(796, -796)]), Whole::finished(vec![GainIndex::nearest(9)]));
    let pulled = Each::new(ReceiveGain { gains: gains.map(Gain::from) }, Pairing::new(list(&x), list(&index)));
    let y = receive_gain(&gains, &x, &index);
    both(y.clone(), pulled, samples(&[(3283, -3284)]));
    assert_eq!(converter(&y), samples(&[(205, -206)]));
}

#[test]
fn noise_and_held_items() {
    let seeds = Seeds::new(1, 77).unwrap();
    let worked = noise(seeds, 500);
    assert_eq!(worked.items[1].re(), -2189);
    assert_eq!(Whole::of(&mut Noise::new(seeds, 500)), worked);
    assert_eq!(Whole::of(&mut Held::new(3, 4)), held(3, 4));
}

/// Random samples of some length and either ending.
fn random_signal(random: &mut Random, most: i64) -> Whole<ConverterSample> {
    let length = random.between(0, most);
    let level = [20, 500, 2048][random.between(0, 2) as usize];
    let mut part = || random.between(-level, level);
    let items = (0..length).map(|_| ConverterSample::clipped(part(), part())).collect();
    Whole { items, ending: if random.once_in(2) { Ok(()) } else { Err(LOW_BITS) } }
}

fn random_gains(random: &mut Random, most: i64) -> Whole<GainIndex> {
    let items = (0..random.between(0, most)).map(|_| GainIndex::nearest(random.between(0, 127) as u32)).collect();
    Whole { items, ending: if random.once_in(2) { Ok(()) } else { Err(OVER_RANGE) } }
}

fn random_call(random: &mut Random) -> Call {
    match random.between(0, 9) {
        0 => Call::Rewind,
        1..=3 => Call::Next,
        4..=6 => Call::Fill(random.between(0, 90) as usize),
        _ => Call::Skip(random.offset(0, 300) as u32),
    }
}

#[test]
fn the_standard_chain_answers_as_the_plain_player() {
    let random = &mut Random::new(1);
    let blank = ConverterSample::clipped(-7, 7);
    for run in 0..400 {
        let settings = settings(random);
        let (signal, gains) = (random_signal(random, 2500), random_gains(random, 2500));
        let mut plain = PlainPlayer::new(standard_chain(&settings, &signal, &gains));
        let mut player = Player::new(chain::standard_chain(&settings, list(&signal), list(&gains)));
        for _ in 0..60 {
            let call = random_call(random);
            assert_eq!(make(&mut player, call, blank), make(&mut plain, call, blank), "run {run}, {call:?}");
        }
    }
}

/// A random pile of stages that take and give working samples, as a source and as its whole.
fn random_pile(random: &mut Random) -> (Box<dyn Source<Item = WorkingSample>>, Whole<WorkingSample>) {
    let signal = random_signal(random, 300);
    let mut whole = scaling(2560, &signal);
    let mut pile: Box<dyn Source<Item = _>> = Box::new(Each::new(Scaling { factor: 2560 }, Listed::new(signal)));
    for _ in 0..random.between(1, 6) {
        match random.between(0, 4) {
            0 => {
                let path = Path { re: random.part() / 4, im: random.part() / 4, delay: random.offset(0, 63) as u8 };
                let paths = vec![Path { re: 8192, im: 0, delay: 3 }, path];
                whole = multipath(&paths, &whole);
                pile = Box::new(Multipath::new(paths, pile));
            }
            1 => {
                let f = random.offset(-(1 << 47), (1 << 47) - 1);
                whole = frequency_offset(f, &whole);
                pile = Box::new(FrequencyOffset::new(f, pile));
            }
            2 => {
                let c = random.offset(-GREATEST_CLOCK_OFFSET, GREATEST_CLOCK_OFFSET);
                whole = clock_offset(c, &whole);
                pile = Box::new(ClockOffset::new(c, pile));
            }
            3 => {
                let (item, d) = (WorkingSample::clipped(random.part().into(), -5), random.offset(0, 70) as u16);
                whole = lead(item, d, &whole);
                pile = Box::new(Lead::new(item, d, pile));
            }
            _ => {
                let (a, b, c) = (random.part(), random.part(), random.part());
                whole = imbalance((a, b, c), &whole);
                pile = Box::new(Each::new(Imbalance { a, b, c }, pile));
            }
        }
    }
    (pile, whole)
}

#[test]
fn random_piles_answer_as_the_plain_player() {
    let random = &mut Random::new(2);
    for run in 0..1000 {
        let (pile, whole) = random_pile(random);
        let (mut player, mut plain) = (Player::new(pile), PlainPlayer::new(whole));
        for _ in 0..40 {
            let call = random_call(random);
            let blank = WorkingSample::clipped(1, 2);
            assert_eq!(make(&mut player, call, blank), make(&mut plain, call, blank), "run {run}, {call:?}");
        }
    }
}

#[test]
fn pairings_of_pairings_answer_as_the_plain_player() {
    let random = &mut Random::new(3);
    for run in 0..1000 {
        let [a, b, c] = [40, 40, 40]
            .map(|most| gain(GainSetting { shift: 4, factor: 200 }, &scaling(4096, &random_signal(random, most))));
        let seeds = Seeds::new(5, 6).unwrap();
        let n = random.between(0, 40) as u32;
        let whole = pairing(&adding_noise(&pairing(&a, &b).tabulate(|k| a.items[k]), &noise(seeds, n)), &c);
        let first = Each::new(First, Pairing::new(list(&a), list(&b)));
        let inner = Each::new(AddingNoise, Pairing::new(first, Noise::new(seeds, n)));
        let (mut player, mut plain) = (Player::new(Pairing::new(inner, list(&c))), PlainPlayer::new(whole));
        for _ in 0..30 {
            let call = random_call(random);
            let blank = (AirSample::ZERO, AirSample::ZERO);
            assert_eq!(make(&mut player, call, blank), make(&mut plain, call, blank), "run {run}, {call:?}");
        }
    }
}

/// The first item of a pair.
struct First;

impl Formula for First {
    type In = (AirSample, AirSample);
    type Out = AirSample;

    fn apply(&self, (first, _): (AirSample, AirSample)) -> AirSample {
        first
    }
}
