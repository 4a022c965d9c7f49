//! The formulas of levels: scaling, DC offset, imbalance, the two gains, adding noise and the converter.

use super::Formula;
use crate::item::{AirSample, ConverterSample, GainIndex, Sample, WorkingSample};

/// The level at which a digital signal drives the transmitter.
#[derive(Clone, Copy, Debug)]
pub struct Scaling {
    pub factor: i64,
}

impl Formula for Scaling {
    type In = ConverterSample;
    type Out = WorkingSample;

    #[inline]
    fn apply(&self, x: ConverterSample) -> WorkingSample {
        WorkingSample::clipped((x.re() * self.factor) >> 8, (x.im() * self.factor) >> 8)
    }
}

/// The carrier leaking through a mixer, at the transmitter (16 bits) or the receiver (32).
#[derive(Clone, Copy, Debug)]
pub struct DcOffset<const BITS: u32> {
    pub re: i16,
    pub im: i16,
}

impl<const BITS: u32> Formula for DcOffset<BITS> {
    type In = Sample<BITS>;
    type Out = Sample<BITS>;

    #[inline]
    fn apply(&self, x: Sample<BITS>) -> Sample<BITS> {
        Sample::clipped(x.re() + i64::from(self.re), x.im() + i64::from(self.im))
    }
}

/// An I/Q mixer whose Q branch has another amplitude and is not at a right angle to the I branch.
#[derive(Clone, Copy, Debug)]
pub struct Imbalance<const BITS: u32> {
    pub a: i16,
    pub b: i16,
    pub c: i16,
}

impl<const BITS: u32> Formula for Imbalance<BITS> {
    type In = Sample<BITS>;
    type Out = Sample<BITS>;

    #[inline]
    fn apply(&self, x: Sample<BITS>) -> Sample<BITS> {
        let (a, b, c) = (i64::from(self.a), i64::from(self.b), i64::from(self.c));
        Sample::clipped((a * x.re() + c * x.im()) >> 14, (b * x.im()) >> 14)
    }
}

/// The gain g × 2^(s − 8), ready to be applied: a product, then a shift to the right.
#[derive(Clone, Copy, Debug, PartialEq, Eq)]
pub struct Gain {
    factor: i64,
    right: u32,
}

impl Gain {
    /// For a shift of -32 to 18 and a factor of 128 to 255.
    pub fn new(shift: i16, factor: u16) -> Self {
        let left = (i32::from(shift) - 8).max(0) as u32;
        let right = (8 - i32::from(shift)).max(0) as u32;
        Self { factor: i64::from(factor) << left, right }
    }

    #[inline]
    pub fn apply<const BITS: u32>(self, x: Sample<BITS>) -> AirSample {
        AirSample::clipped((x.re() * self.factor) >> self.right, (x.im() * self.factor) >> self.right)
    }
}

/// The path from the transmitter to the receiver's input.
impl Formula for Gain {
    type In = WorkingSample;
    type Out = AirSample;

    #[inline]
    fn apply(&self, x: WorkingSample) -> AirSample {
        Gain::apply(*self, x)
    }
}

/// The thermal noise at the receiver's input.
#[derive(Clone, Copy, Debug)]
pub struct AddingNoise;

impl Formula for AddingNoise {
    type In = (AirSample, AirSample);
    type Out = AirSample;

    #[inline]
    fn apply(&self, (signal, noise): (AirSample, AirSample)) -> AirSample {
        AirSample::clipped(signal.re() + noise.re(), signal.im() + noise.im())
    }
}

/// A fixed gain at the receiver, from air to air samples.
#[derive(Clone, Copy, Debug)]
pub struct AirGain(pub Gain);

impl Formula for AirGain {
    type In = AirSample;
    type Out = AirSample;

    #[inline]
    fn apply(&self, x: AirSample) -> AirSample {
        self.0.apply(x)
    }
}

/// A receiver's switched amplifiers: the index that comes with a sample chooses its gain.
pub struct ReceiveGain {
    pub gains: [Gain; 128],
}

impl Formula for ReceiveGain {
    type In = (AirSample, GainIndex);
    type Out = AirSample;

    #[inline]
    fn apply(&self, (x, index): (AirSample, GainIndex)) -> AirSample {
        self.gains[index.get()].apply(x)
    }
}

/// The receiver's analogue-to-digital converter, which saturates.
#[derive(Clone, Copy, Debug)]
pub struct Converter;

impl Formula for Converter {
    type In = AirSample;
    type Out = ConverterSample;

    #[inline]
    fn apply(&self, x: AirSample) -> ConverterSample {
        ConverterSample::clipped(x.re() >> 4, x.im() >> 4)
    }
}
