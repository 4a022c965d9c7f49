//! Piles other than the standard chain, worked out item by item, for other implementations to compare with.
//!
//! Each pile is built twice at once, as a source and as its whole by the formulas; a pile whose two sides differ is not
//! written.

use super::time::Sum;
use super::{Failure, make_directory, wave};
use model::item::{AirSample, ConverterSample, GainIndex, Sample, WorkingSample};
use model::recording::{Gains, Kind, Recording, Signal};
use model::settings::{GREATEST_CLOCK_OFFSET, GainSetting, ImbalanceSetting, Offset};
use model::source::{Held, Noise, Seeds, Source};
use model::stages::{
    AddingNoise, AirGain, Amplifier, AmplifierTable, ClockOffset, Converter, DcOffset, ENTRIES, Each, FrequencyOffset, Gain,
    Imbalance, Lead, Multipath, Pairing, Path, ReceiveGain, Scaling,
};
use model::whole::{self, Whole};
use std::process::ExitCode;

/// A source, its whole by the formulas, and what it is in words.
struct Pile<T> {
    words: String,
    source: Box<dyn Source<Item = T>>,
    whole: Whole<T>,
}

impl<T: Copy + 'static> Pile<T> {
    fn lowest(words: String, source: impl Source<Item = T> + 'static, whole: Whole<T>) -> Self {
        Self { words, source: Box::new(source), whole }
    }

    /// A stage over this pile.
    fn stage<U, S>(self, words: String, make: impl FnOnce(Box<dyn Source<Item = T>>) -> S, whole: Whole<U>) -> Pile<U>
    where
        S: Source<Item = U> + 'static,
    {
        Pile { words: format!("{words} over {}", self.words), source: Box::new(make(self.source)), whole }
    }

    /// A stage over a pairing of this pile and another.
    fn pair<U, V, S>(
        self,
        second: Pile<U>,
        words: &str,
        make: impl FnOnce(Pairing<Box<dyn Source<Item = T>>, Box<dyn Source<Item = U>>>) -> S,
        whole: Whole<V>,
    ) -> Pile<V>
    where
        U: Copy + 'static,
        S: Source<Item = V> + 'static,
    {
        let words = format!("{words} over ({}; {})", self.words, second.words);
        Pile { words, source: Box::new(make(Pairing::new(self.source, second.source))), whole }
    }
}

impl<T: Copy + 'static> Pile<T> {
    fn lead(self, item: T, d: u16, item_words: &str) -> Self {
        let whole = whole::lead(item, d, &self.whole);
        self.stage(format!("lead of {d} x {item_words}"), |below| Lead::new(item, d, below), whole)
    }
}

impl Pile<ConverterSample> {
    fn scaling(self, f: u16) -> Pile<WorkingSample> {
        let whole = whole::scaling(f, &self.whole);
        self.stage(format!("scaling {f}"), |below| Each::new(Scaling { factor: f.into() }, below), whole)
    }
}

impl Pile<WorkingSample> {
    fn multipath(self, paths: &[(i16, i16, u8)]) -> Self {
        let words =
            paths.iter().map(|(re, im, delay)| format!("({re}, {im}) at {delay}")).collect::<Vec<_>>().join(", ");
        let paths: Vec<Path> = paths.iter().map(|&(re, im, delay)| Path { re, im, delay }).collect();
        let whole = whole::multipath(&paths, &self.whole);
        self.stage(format!("multipath [{words}]"), |below| Multipath::new(paths, below), whole)
    }

    fn frequency(self, f: i64) -> Self {
        let whole = whole::frequency_offset(f, &self.whole);
        self.stage(format!("frequency offset {f}"), |below| FrequencyOffset::new(f, below), whole)
    }

    fn clock(self, c: i64) -> Self {
        let whole = whole::clock_offset(c, &self.whole);
        self.stage(format!("clock offset {c}"), |below| ClockOffset::new(c, below), whole)
    }

    /// The amplifier whose entry q is (32767 - 50 q, (q x 300) mod 65536 - 32768).
    fn amplifier(self) -> Self {
        let amplitudes: [u16; ENTRIES] = std::array::from_fn(|q| (32767 - 50 * q) as u16);
        let phases: [i16; ENTRIES] = std::array::from_fn(|q| (q as i64 * 300 % 65536 - 32768) as i16);
        let whole = whole::amplifier(&amplitudes, &phases, &self.whole);
        let amplifier = Amplifier::on(AmplifierTable::new(&amplitudes, &phases));
        let words = "amplifier, entry q = (32767 - 50 q, (q x 300) mod 65536 - 32768),".to_owned();
        self.stage(words, |below| Each::new(amplifier, below), whole)
    }

    fn gain(self, shift: i16, factor: u16) -> Pile<AirSample> {
        let whole = whole::gain(GainSetting { shift, factor }, &self.whole);
        self.stage(format!("gain ({shift}, {factor})"), |below| Each::new(Gain::new(shift, factor), below), whole)
    }
}

impl<const BITS: u32> Pile<Sample<BITS>> {
    fn dc_offset(self, offset: Offset) -> Self {
        let whole = whole::dc_offset(offset, &self.whole);
        let (re, im) = offset;
        self.stage(format!("DC offset {offset:?}"), |below| Each::new(DcOffset { re, im }, below), whole)
    }

    fn imbalance(self, imbalance: ImbalanceSetting) -> Self {
        let whole = whole::imbalance(imbalance, &self.whole);
        let (a, b, c) = imbalance;
        self.stage(format!("imbalance {imbalance:?}"), |below| Each::new(Imbalance { a, b, c }, below), whole)
    }
}

impl Pile<AirSample> {
    /// A fixed gain from air to air samples.
    fn air_gain(self, shift: i16, factor: u16) -> Self {
        let whole = whole::gain(GainSetting { shift, factor }, &self.whole);
        let gain = AirGain(Gain::new(shift, factor));
        self.stage(format!("gain ({shift}, {factor})"), |below| Each::new(gain, below), whole)
    }

    fn adding_noise(self, second: Self) -> Self {
        let whole = whole::adding_noise(&self.whole, &second.whole);
        self.pair(second, "adding noise", |pairing| Each::new(AddingNoise, pairing), whole)
    }

    /// Receive gain whose entry i is ((i mod 5) - 2, 128 + i).
    fn receive_gain(self, indices: Pile<GainIndex>) -> Self {
        let gain = |i: usize| GainSetting { shift: i as i16 % 5 - 2, factor: 128 + i as u16 };
        let gains: [GainSetting; 128] = std::array::from_fn(gain);
        let whole = whole::receive_gain(&gains, &self.whole, &indices.whole);
        let formula = ReceiveGain { gains: gains.map(Gain::from) };
        let words = "receive gain, entry i = ((i mod 5) - 2, 128 + i),";
        self.pair(indices, words, |pairing| Each::new(formula, pairing), whole)
    }

    fn converter(self) -> Pile<ConverterSample> {
        let whole = whole::converter(&self.whole);
        self.stage("converter".to_owned(), |below| Each::new(Converter, below), whole)
    }
}

/// A recording of `length` items, faulty from item `faulty` on if one is given.
fn recording<K: Kind + 'static>(
    bytes: Vec<u8>,
    input: u8,
    words: &str,
    length: usize,
    faulty: Option<usize>,
    item: impl Fn(usize) -> K::Item,
) -> Pile<K::Item> {
    let open = Recording::<K>::open(bytes.leak(), input).expect("the recording is whole");
    let items = (0..faulty.unwrap_or(length)).map(item).collect();
    let fault = faulty.map(|item| model::source::Fault { kind: K::FAULT, input, item: item as u64 });
    let ending = fault.map_or(Ok(()), Err);
    let faulty = faulty.map_or(String::new(), |item| format!(", item {item} faulty"));
    let words = format!("{} recording, input {input}, {length} items, item k = {words}{faulty}", K::NAME);
    Pile::lowest(words, open, Whole { items, ending })
}

fn signal(length: usize, faulty: Option<usize>) -> Pile<ConverterSample> {
    let parts = |k: usize| ((k * 37 % 4001) as i64 - 2000, (k * 91 % 3001) as i64 - 1500);
    let mut words: Vec<(i16, i16)> = (0..length).map(parts).map(|(re, im)| (re as i16 * 16, im as i16 * 16)).collect();
    if let Some(item) = faulty {
        words[item].1 |= 1;
    }
    let formula = "((k x 37) mod 4001 - 2000, (k x 91) mod 3001 - 1500)";
    let sample = |k| ConverterSample::clipped(parts(k).0, parts(k).1);
    recording::<Signal>(wave::signal(8000, &words), 0, formula, length, faulty, sample)
}

fn indices(length: usize, faulty: Option<usize>) -> Pile<GainIndex> {
    let mut bytes: Vec<u8> = (0..length).map(|k| (k * 7 % 128) as u8).collect();
    if let Some(item) = faulty {
        bytes[item] = 200;
    }
    let index = |k| GainIndex::nearest((k * 7 % 128) as u32);
    recording::<Gains>(wave::gains(8000, &bytes), 1, "(k x 7) mod 128", length, faulty, index)
}

fn noise(re: u32, im: u32, length: u32) -> Pile<AirSample> {
    let seeds = Seeds::new(re, im).expect("neither seed is 0");
    let words = format!("noise, seeds {re} and {im}, {length} items");
    Pile::lowest(words, Noise::new(seeds, length), whole::noise(seeds, length))
}

fn held(re: i64, im: i64, times: u32) -> Pile<WorkingSample> {
    let item = WorkingSample::clipped(re, im);
    Pile::lowest(format!("held ({re}, {im}), {times} items"), Held::new(item, times), whole::held(item, times))
}

const SLOW: i64 = GREATEST_CLOCK_OFFSET;
const FAST: i64 = -GREATEST_CLOCK_OFFSET;

/// A lead of working samples.
fn led(pile: Pile<WorkingSample>, d: u16, re: i64, im: i64) -> Pile<WorkingSample> {
    pile.lead(WorkingSample::clipped(re, im), d, &format!("({re}, {im})"))
}

fn multipath_over_clock(c: i64, length: usize, faulty: Option<usize>) -> Pile<WorkingSample> {
    let lower = [(8192, 0, 0), (-3000, 2000, 3), (1500, -2500, 17)];
    let upper = [(6000, -1000, 0), (4096, 0, 1), (0, -8192, 63)];
    signal(length, faulty).scaling(2048).multipath(&lower).clock(c).multipath(&upper)
}

/// The signal on the air, at a signal-to-noise ratio of 20 dB.
fn air(length: usize, faulty: Option<usize>) -> Pile<AirSample> {
    signal(length, faulty).scaling(1631).gain(2, 155)
}

fn noise_twice(faulty: Option<usize>, inner: u32, outer: u32) -> Pile<AirSample> {
    air(40, faulty).adding_noise(noise(7, 8, inner)).adding_noise(noise(1, 12345, outer))
}

fn gain_over_noise(signal_faulty: Option<usize>, noise_items: u32, gain_faulty: Option<usize>) -> Pile<AirSample> {
    let late = indices(40, gain_faulty).lead(GainIndex::nearest(0), 3, "index 0");
    air(40, signal_faulty).adding_noise(noise(1, 12345, noise_items)).receive_gain(late)
}

fn turned_held(c: i64, d: u16, times: u32) -> Pile<WorkingSample> {
    led(held(20000, -30000, times), d, -32768, 32767).clock(c).frequency((1 << 45) + 12345)
}

fn receiver(faulty: Option<usize>) -> Pile<ConverterSample> {
    let received = gain_over_noise(faulty, 100, None);
    received.dc_offset((-3000, 20000)).imbalance((15416, 17274, -905)).converter()
}

pub fn write(directory: &std::path::Path) -> Result<ExitCode, Failure> {
    make_directory(directory)?;
    let write = |name: &str, text: String| super::write(&directory.join(name).with_extension("txt"), text);
    write("multipath-clock-multipath", text(multipath_over_clock(FAST, 80, None))?)?;
    write("multipath-clock-multipath-fault", text(multipath_over_clock(FAST, 80, Some(70)))?)?;
    write("multipath-clock-multipath-long", text(multipath_over_clock(SLOW, 1100, None))?)?;
    write("multipath-clock-multipath-long-fault", text(multipath_over_clock(SLOW, 1100, Some(1002)))?)?;

    write("clock-lead", text(led(signal(30, None).scaling(4096), 5, 1234, -4321).clock(1 << 43))?)?;
    write("clock-lead-fault", text(led(signal(30, Some(12)).scaling(4096), 5, 1234, -4321).clock(FAST))?)?;
    write("clock-lead-fault-at-once", text(led(signal(30, Some(0)).scaling(4096), 5, 1234, -4321).clock(FAST))?)?;
    write("clock-lead-long", text(led(signal(30, None).scaling(4096), 990, 1234, -4321).clock(SLOW))?)?;
    write("clock-empty", text(signal(0, None).scaling(4096).clock(FAST))?)?;
    write("clock-clock", text(signal(60, None).scaling(4096).clock(FAST).clock(SLOW))?)?;
    write("clock-clock-fault", text(signal(60, Some(31)).scaling(4096).clock(FAST).clock(FAST))?)?;

    write("noise-noise-ends-with-second", text(noise_twice(None, 50, 30))?)?;
    write("noise-noise-ends-with-inner", text(noise_twice(None, 17, 30))?)?;
    write("noise-noise-fault", text(noise_twice(Some(25), 50, 30))?)?;
    write("noise-noise-fault-at-equal-length", text(noise_twice(Some(25), 25, 25))?)?;
    write("noise-noise-fault-hidden", text(noise_twice(Some(25), 50, 24))?)?;
    let inner = air(40, Some(25)).adding_noise(noise(7, 8, 50));
    write("noise-of-noise-in-second", text(noise(1, 12345, 60).adding_noise(inner))?)?;

    write("receive-gain-noise", text(gain_over_noise(None, 100, None))?)?;
    write("receive-gain-noise-signal-fault", text(gain_over_noise(Some(30), 100, None))?)?;
    write("receive-gain-noise-gain-fault", text(gain_over_noise(None, 100, Some(20)))?)?;
    write("receive-gain-noise-equal-faults", text(gain_over_noise(Some(23), 100, Some(20)))?)?;
    write("receive-gain-noise-ends-with-noise", text(gain_over_noise(Some(30), 21, Some(20)))?)?;
    write("gain-gain", text(signal(40, None).scaling(4096).gain(17, 200).air_gain(-3, 201))?)?;
    write("receiver", text(receiver(None))?)?;
    write("receiver-fault", text(receiver(Some(30)))?)?;

    write("frequency-clock-lead-held", text(turned_held(FAST, 4, 50))?)?;
    write("frequency-clock-lead-held-slow", text(turned_held(SLOW, 4, 50))?)?;
    write("frequency-clock-lead-held-empty", text(turned_held(FAST, 0, 0))?)?;
    let faulty = led(signal(50, Some(20)).scaling(3000), 4, -32768, 32767).clock(SLOW);
    write("frequency-clock-lead-fault", text(faulty.frequency((1 << 45) + 12345))?)?;

    let lead_lead = |faulty| led(led(signal(20, faulty).scaling(256), 2, 1, 2), 3, 3, 4);
    write("lead-lead-fault", text(lead_lead(Some(6)))?)?;
    let frequencies = signal(40, None).scaling(4096).frequency(-(1 << 47)).frequency(675_539_944_106);
    write("frequency-frequency", text(frequencies)?)?;
    let amplified = |faulty| signal(60, faulty).scaling(4096).frequency(1 << 40).amplifier();
    write("amplifier-frequency", text(amplified(None))?)?;
    write("amplifier-frequency-fault", text(amplified(Some(41)))?)?;
    Ok(ExitCode::SUCCESS)
}

/// What the pile is, the number and sum of its items, its ending, and the items, a line each.
fn text<const BITS: u32>(mut pile: Pile<Sample<BITS>>) -> Result<String, Failure> {
    if Whole::of(&mut pile.source) != pile.whole {
        return Err(Failure::Disagreement(pile.words));
    }
    let Whole { items, ending } = pile.whole;
    let ending = ending.map_or_else(|fault| fault.to_string(), |()| "finished".to_owned());
    let lines = items.iter().map(|item| format!("{} {}\n", item.re(), item.im()));
    Ok(format!("# {}\n{}, {ending}\n{}", pile.words, Sum::of(&items), lines.collect::<String>()))
}
