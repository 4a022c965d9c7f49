//! Wholes: finite lists of items with an ending, and the formulas of every source and stage over them.
//!
//! Everything here is the formula itself, item by item from the index and in 128 bits, with nothing carried from one item
//! to the next but the state of the noise. It is slow and meant to be plainly right.

use crate::item::{AirSample, ConverterSample, GainIndex, Sample, WorkingSample};
use crate::phasor::{Phasor, phasors};
use crate::settings::{GainSetting, ImbalanceSetting, Offset, Settings};
use crate::source::{Fault, Next, Seeds, Source, level, step};
use crate::stages::{ENTRIES, Path};

#[derive(Clone, Debug, PartialEq, Eq)]
pub struct Whole<T> {
    pub items: Vec<T>,
    /// Finished, or the fault.
    pub ending: Result<(), Fault>,
}

impl<T: Copy> Whole<T> {
    pub fn finished(items: Vec<T>) -> Self {
        Self { items, ending: Ok(()) }
    }

    /// The whole of a source, drawn item by item.
    pub fn of<S: Source<Item = T>>(source: &mut S) -> Self {
        source.rewind();
        let mut items = Vec::new();
        loop {
            match source.next() {
                Ok(Some(item)) => items.push(item),
                Ok(None) => return Self::finished(items),
                Err(fault) => return Self { items, ending: Err(fault) },
            }
        }
    }

    fn len(&self) -> usize {
        self.items.len()
    }

    /// Item `k` of the stage is `item(k)`, for as many items as there are here; the ending stays.
    fn tabulate<U>(&self, item: impl Fn(usize) -> U) -> Whole<U> {
        Whole { items: (0..self.len()).map(item).collect(), ending: self.ending }
    }
}

/// A source that hands out a given whole.
pub struct Listed<T> {
    whole: Whole<T>,
    place: usize,
}

impl<T> Listed<T> {
    pub fn new(whole: Whole<T>) -> Self {
        Self { whole, place: 0 }
    }
}

impl<T: Copy> Source for Listed<T> {
    type Item = T;

    fn next(&mut self) -> Next<T> {
        match self.whole.items.get(self.place) {
            Some(&item) => {
                self.place += 1;
                Ok(Some(item))
            }
            None => self.whole.ending.map(|()| None),
        }
    }

    fn rewind(&mut self) {
        self.place = 0;
    }
}

/// floor(n / d) for positive d.
fn floor(n: i128, d: i128) -> i128 {
    n.div_euclid(d)
}

/// The sample of two numbers, each clipped.
fn clipped<const BITS: u32>(re: i128, im: i128) -> Sample<BITS> {
    let (low, high) = (-(1i128 << (BITS - 1)), (1i128 << (BITS - 1)) - 1);
    Sample::clipped(re.clamp(low, high) as i64, im.clamp(low, high) as i64)
}

fn parts<const BITS: u32>(x: Sample<BITS>) -> (i128, i128) {
    (x.re().into(), x.im().into())
}

/// Item `k`, counted from 0; zero for negative `k`.
fn item_at(x: &Whole<WorkingSample>, k: i128) -> (i128, i128) {
    if k < 0 { (0, 0) } else { parts(x.items[k as usize]) }
}

pub fn scaling(f: u16, x: &Whole<ConverterSample>) -> Whole<WorkingSample> {
    let f = i128::from(f);
    x.tabulate(|k| {
        let (re, im) = parts(x.items[k]);
        clipped(floor(re * f, 1 << 8), floor(im * f, 1 << 8))
    })
}

pub fn dc_offset<const BITS: u32>(o: Offset, x: &Whole<Sample<BITS>>) -> Whole<Sample<BITS>> {
    x.tabulate(|k| {
        let (re, im) = parts(x.items[k]);
        clipped(re + i128::from(o.0), im + i128::from(o.1))
    })
}

pub fn imbalance<const BITS: u32>((a, b, c): ImbalanceSetting, x: &Whole<Sample<BITS>>) -> Whole<Sample<BITS>> {
    let (a, b, c) = (i128::from(a), i128::from(b), i128::from(c));
    x.tabulate(|k| {
        let (re, im) = parts(x.items[k]);
        clipped(floor(a * re + c * im, 1 << 14), floor(b * im, 1 << 14))
    })
}

pub fn amplifier(
    amplitudes: &[u16; ENTRIES],
    phases: &[i16; ENTRIES],
    x: &Whole<WorkingSample>,
) -> Whole<WorkingSample> {
    x.tabulate(|k| {
        let (re, im) = parts(x.items[k]);
        let m = root(re * re + im * im).min(32768);
        let (q, r) = ((m / 64) as usize, m % 64);
        let amplitude = between(|q| amplitudes[q].into(), q, r);
        let phase = between(|q| phases[q].into(), q, r);
        let (c, s) = phasor(floor(phase.rem_euclid(65536), 64));
        clipped(floor(amplitude * (re * c - im * s), 1 << 29), floor(amplitude * (re * s + im * c), 1 << 29))
    })
}

/// The greatest whole number whose square is at most `n`, by bisection.
fn root(n: i128) -> i128 {
    let (mut low, mut high) = (0, 1 << 32);
    while high - low > 1 {
        let middle = (low + high) / 2;
        if middle * middle <= n { low = middle } else { high = middle }
    }
    low
}

fn between(entry: impl Fn(usize) -> i128, q: usize, r: i128) -> i128 {
    if r == 0 { entry(q) } else { entry(q) + floor((entry(q + 1) - entry(q)) * r, 64) }
}

fn phasor(index: i128) -> (i128, i128) {
    let Phasor { cos, sin } = phasors()[index as usize];
    (cos.into(), sin.into())
}

pub fn multipath(paths: &[Path], x: &Whole<WorkingSample>) -> Whole<WorkingSample> {
    x.tabulate(|k| {
        let echoes = paths.iter().map(|path| {
            let (p, q) = (i128::from(path.re), i128::from(path.im));
            let (re, im) = item_at(x, k as i128 - i128::from(path.delay));
            (p * re - q * im, p * im + q * re)
        });
        let (re, im) = echoes.fold((0, 0), |sum, echo| (sum.0 + echo.0, sum.1 + echo.1));
        clipped(floor(re, 1 << 13), floor(im, 1 << 13))
    })
}

pub fn frequency_offset(f: i64, x: &Whole<WorkingSample>) -> Whole<WorkingSample> {
    x.tabulate(|k| {
        let (re, im) = parts(x.items[k]);
        let phase = (-(k as i128) * i128::from(f)).rem_euclid(1 << 48);
        let (c, s) = phasor(floor(phase, 1 << 38));
        clipped(floor(re * c - im * s, 1 << 14), floor(re * s + im * c, 1 << 14))
    })
}

pub fn clock_offset(c: i64, x: &Whole<WorkingSample>) -> Whole<WorkingSample> {
    let position = |m: usize| m as i128 * ((1 << 53) + i128::from(c));
    let exists = |m: &usize| floor(position(*m), 1 << 53) < x.len() as i128;
    let item = |m: usize| {
        let i = floor(position(m), 1 << 53);
        let f = floor(position(m).rem_euclid(1 << 53), 1 << 37);
        let ((re0, im0), (re1, im1)) = (item_at(x, i - 1), item_at(x, i));
        clipped(re0 + floor((re1 - re0) * f, 1 << 16), im0 + floor((im1 - im0) * f, 1 << 16))
    };
    Whole { items: (0..).take_while(exists).map(item).collect(), ending: x.ending }
}

fn amplified<const BITS: u32>(gain: GainSetting, x: Sample<BITS>) -> AirSample {
    // 2^(s - 8) over 2^40, which no shift goes below.
    let factor = i128::from(gain.factor) << (gain.shift + 32);
    let (re, im) = parts(x);
    clipped(floor(re * factor, 1 << 40), floor(im * factor, 1 << 40))
}

pub fn gain<const BITS: u32>(gain: GainSetting, x: &Whole<Sample<BITS>>) -> Whole<AirSample> {
    x.tabulate(|k| amplified(gain, x.items[k]))
}

pub fn converter(x: &Whole<AirSample>) -> Whole<ConverterSample> {
    x.tabulate(|k| {
        let (re, im) = parts(x.items[k]);
        clipped(floor(re, 1 << 4), floor(im, 1 << 4))
    })
}

pub fn lead<T: Copy>(item: T, d: u16, x: &Whole<T>) -> Whole<T> {
    let copies = std::iter::repeat_n(item, d.into());
    Whole { items: copies.chain(x.items.iter().copied()).collect(), ending: x.ending }
}

pub fn held<T: Copy>(item: T, n: u32) -> Whole<T> {
    Whole::finished(vec![item; n as usize])
}

pub fn noise(seeds: Seeds, n: u32) -> Whole<AirSample> {
    let states = |seed| std::iter::successors(Some(seed), |&v| Some(step(v))).skip(1);
    let samples = states(seeds.re()).zip(states(seeds.im())).map(|(re, im)| AirSample::clipped(level(re), level(im)));
    Whole::finished(samples.take(n as usize).collect())
}

pub fn pairing<A: Copy, B: Copy>(first: &Whole<A>, second: &Whole<B>) -> Whole<(A, B)> {
    let items = first.items.iter().copied().zip(second.items.iter().copied()).collect();
    let ending = if first.len() <= second.len() { first.ending } else { second.ending };
    Whole { items, ending }
}

pub fn adding_noise(first: &Whole<AirSample>, second: &Whole<AirSample>) -> Whole<AirSample> {
    let pairs = pairing(first, second);
    pairs.tabulate(|k| {
        let ((re0, im0), (re1, im1)) = (parts(pairs.items[k].0), parts(pairs.items[k].1));
        clipped(re0 + re1, im0 + im1)
    })
}

pub fn receive_gain(gains: &[GainSetting; 128], x: &Whole<AirSample>, index: &Whole<GainIndex>) -> Whole<AirSample> {
    let pairs = pairing(x, index);
    pairs.tabulate(|k| amplified(gains[pairs.items[k].1.get()], pairs.items[k].0))
}

/// The whole of the standard chain.
pub fn standard_chain(
    settings: &Settings,
    signal: &Whole<ConverterSample>,
    gains: &Whole<GainIndex>,
) -> Whole<ConverterSample> {
    let s = settings;
    let mut x = imbalance(s.tx_imbalance, &dc_offset(s.tx_dc, &scaling(s.scale, signal)));
    if !s.amplifier_bypass {
        x = amplifier(&s.amplitudes, &s.phases, &x);
    }
    x = frequency_offset(s.frequency, &multipath(&s.paths, &x));
    if !s.clock_bypass {
        x = clock_offset(s.clock, &x);
    }
    let x = gain(s.gain, &x);
    // As much of the noise as the signal can meet; more changes nothing.
    let noise = noise(s.seeds, x.len().min(u32::MAX as usize) as u32);
    let indices = lead(GainIndex::nearest(0), s.lead, gains);
    let x = receive_gain(&s.receive_gains, &adding_noise(&x, &noise), &indices);
    converter(&imbalance(s.rx_imbalance, &dc_offset(s.rx_dc, &x)))
}

#[cfg(test)]
mod tests;
