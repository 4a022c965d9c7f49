//! Phasors: the cosine and the sine of one of 1024 steps of a turn, 16384 for 1.

use std::sync::OnceLock;

/// The phasors of a full turn, by their index.
pub type Phasors = [Phasor; 1024];

#[derive(Clone, Copy, Debug, PartialEq, Eq)]
pub struct Phasor {
    pub cos: i32,
    pub sin: i32,
}

impl Phasor {
    /// The complex product of the phasor and the number (`re`, `im`), 16384 times too great.
    #[inline]
    pub fn turn(self, re: i64, im: i64) -> (i64, i64) {
        let (cos, sin) = (i64::from(self.cos), i64::from(self.sin));
        (re * cos - im * sin, re * sin + im * cos)
    }
}

/// The phasors, computed by the halving rule when they are first asked for.
pub fn phasors() -> &'static Phasors {
    static PHASORS: OnceLock<Phasors> = OnceLock::new();
    PHASORS.get_or_init(|| {
        let table = quarter();
        std::array::from_fn(|n| phasor(&table, n))
    })
}

/// The index of a phase of 48 bits, 2^48 a turn. Bits above are whole turns.
#[inline]
pub fn index_of_48_bits(phase: u64) -> usize {
    (phase >> 38) as usize % 1024
}

/// The index of a phase of 16 bits, 65536 a turn.
#[inline]
pub fn index_of_16_bits(phase: i64) -> usize {
    (phase as u16 / 64) as usize
}

fn phasor(table: &[i32; 257], n: usize) -> Phasor {
    let k = n % 256;
    let (t, u) = (table[k], table[256 - k]);
    let (cos, sin) = match n / 256 {
        0 => (t, u),
        1 => (-u, t),
        2 => (-t, -u),
        _ => (u, -t),
    };
    Phasor { cos, sin }
}

/// The cosines of the first quarter, from halving angles in whole numbers with 2^40 for 1.
fn quarter() -> [i32; 257] {
    let mut cosines = [0u128; 257];
    cosines[0] = 1 << 40;
    let mut half = (1u128 << 79).isqrt();
    for j in 1..=8 {
        let distance = 1 << (9 - j);
        for a in (0..256).step_by(distance) {
            cosines[a + distance / 2] = ((cosines[a] + cosines[a + distance]) << 39) / half;
        }
        half = (((1 << 40) + half) << 39).isqrt();
    }
    cosines.map(|cosine| ((cosine + (1 << 25)) >> 26) as i32)
}

#[cfg(test)]
mod tests {
    use super::*;

    #[test]
    fn worked_entries() {
        let table = quarter();
        let worked = [(0, 16384), (1, 16384), (2, 16383), (64, 15137), (128, 11585), (192, 6270), (255, 101), (256, 0)];
        for (k, t) in worked {
            assert_eq!(table[k], t, "entry {k}");
        }
    }

    #[test]
    fn worked_phasors() {
        let worked = [(1, (16384, 101)), (128, (11585, 11585)), (256, (0, 16384)), (512, (-16384, 0))];
        for (n, (cos, sin)) in worked.into_iter().chain([(768, (0, -16384)), (1023, (16384, -101))]) {
            assert_eq!(phasors()[n], Phasor { cos, sin }, "index {n}");
        }
    }

    #[test]
    fn every_phasor_is_a_rounded_cosine_and_sine() {
        for (n, phasor) in phasors().iter().enumerate() {
            let angle = n as f64 * std::f64::consts::TAU / 1024.0;
            assert!((f64::from(phasor.cos) - 16384.0 * angle.cos()).abs() <= 0.5, "cosine {n}");
            assert!((f64::from(phasor.sin) - 16384.0 * angle.sin()).abs() <= 0.5, "sine {n}");
        }
    }

    #[test]
    fn indices_of_phases() {
        assert_eq!(index_of_16_bits(-36), 1023);
        assert_eq!(index_of_16_bits(-65536), 0);
        assert_eq!(index_of_48_bits(1u64.wrapping_neg()), 1023);
        assert_eq!(index_of_48_bits((1u64 << 46).wrapping_neg()), 768);
    }
}
