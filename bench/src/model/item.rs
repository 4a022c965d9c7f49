//! The kinds of item, and the clipping that makes them from wider numbers.
//!
//! Formulas are computed in `i64`. There `>>` divides by a power of two and rounds towards minus infinity, which is the
//! floor that every formula means.

/// Moves `n` to the nearest number of `BITS` bits, signed.
#[inline]
pub fn clip<const BITS: u32>(n: i64) -> i64 {
    n.clamp(-(1 << (BITS - 1)), (1 << (BITS - 1)) - 1)
}

/// A sample whose two parts have `BITS` bits each. No part is ever outside its range.
#[derive(Clone, Copy, Debug, Default, PartialEq, Eq)]
pub struct Sample<const BITS: u32> {
    re: i32,
    im: i32,
}

/// Into the transmitter's and out of the receiver's converter: -2048 to 2047.
pub type ConverterSample = Sample<12>;
/// Transmitter and channel: 16 bits.
pub type WorkingSample = Sample<16>;
/// On the air and in the receiver: 32 bits.
pub type AirSample = Sample<32>;

impl<const BITS: u32> Sample<BITS> {
    pub const ZERO: Self = Self { re: 0, im: 0 };

    /// The sample nearest to two numbers.
    #[inline]
    pub fn clipped(re: i64, im: i64) -> Self {
        Self { re: clip::<BITS>(re) as i32, im: clip::<BITS>(im) as i32 }
    }

    #[inline]
    pub fn re(self) -> i64 {
        i64::from(self.re)
    }

    #[inline]
    pub fn im(self) -> i64 {
        i64::from(self.im)
    }
}

/// Which of the 128 receive gains is meant: 0 to 127.
#[derive(Clone, Copy, Debug, Default, PartialEq, Eq)]
pub struct GainIndex(u8);

impl GainIndex {
    pub const HIGHEST: u8 = 127;

    /// The index nearest to `n`.
    pub fn nearest(n: u32) -> Self {
        Self(n.min(u32::from(Self::HIGHEST)) as u8)
    }

    #[inline]
    pub fn get(self) -> usize {
        usize::from(self.0)
    }
}

#[cfg(test)]
mod tests {
    use super::*;

    #[test]
    fn numbers_outside_become_the_nearest_inside() {
        assert_eq!(ConverterSample::clipped(3000, -3000), ConverterSample { re: 2047, im: -2048 });
        assert_eq!(WorkingSample::clipped(40000, -40000), WorkingSample { re: 32767, im: -32768 });
        assert_eq!(AirSample::clipped(i64::MAX, i64::MIN), AirSample { re: i32::MAX, im: i32::MIN });
        assert_eq!(GainIndex::nearest(200).get(), 127);
        assert_eq!(GainIndex::nearest(127).get(), 127);
    }
}
