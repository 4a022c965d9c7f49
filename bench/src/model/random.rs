//! Numbers drawn at random from a seed, the same on every machine.

use crate::settings::{GREATEST_CLOCK_OFFSET, Settings};
use crate::stages::ENTRIES;

/// The generator splitmix64.
pub struct Random {
    state: u64,
}

impl Random {
    pub fn new(seed: u64) -> Self {
        Self { state: seed }
    }

    pub fn bits(&mut self) -> u64 {
        self.state = self.state.wrapping_add(0x9E37_79B9_7F4A_7C15);
        let z = (self.state ^ (self.state >> 30)).wrapping_mul(0xBF58_476D_1CE4_E5B9);
        let z = (z ^ (z >> 27)).wrapping_mul(0x94D0_49BB_1331_11EB);
        z ^ (z >> 31)
    }

    /// A number from `low` to `high`, both included.
    pub fn between(&mut self, low: i64, high: i64) -> i64 {
        let count = (i128::from(high) - i128::from(low) + 1) as u128;
        (i128::from(low) + (u128::from(self.bits()) % count) as i128) as i64
    }

    /// True once in `n` times.
    pub fn once_in(&mut self, n: i64) -> bool {
        self.between(1, n) == 1
    }

    /// A number of 16 bits, signed: small, anywhere, or at a limit.
    pub fn part(&mut self) -> i16 {
        let number = match self.between(0, 5) {
            0 => self.between(-20, 20),
            1 => [-32768, -32767, 32766, 32767][self.between(0, 3) as usize],
            _ => self.between(-32768, 32767),
        };
        number as i16
    }

    /// One of the limits, 0, or a number anywhere between.
    pub fn offset(&mut self, low: i64, high: i64) -> i64 {
        match self.between(0, 5) {
            0 => low,
            1 => high,
            2 => 0,
            _ => self.between(low, high),
        }
    }

    /// Shift and factor of a gain, mostly near the gain 1.
    fn gain(&mut self) -> (i16, u16) {
        let shift = if self.once_in(8) { self.between(-32, 18) } else { self.between(-3, 4) };
        (shift as i16, self.between(128, 255) as u16)
    }
}

/// Settings in which everything may be set, within the limits and at them.
pub fn settings(random: &mut Random) -> Settings {
    let accepted = "the number is in its range";
    let mut settings = Settings::default();
    settings.set_scale(random.between(1, 8192) as u16).expect(accepted);
    if random.once_in(2) {
        settings.set_tx_dc((random.between(-999, 999) as i16, random.part()));
        settings.set_tx_imbalance((
            random.part(),
            random.between(14000, 18000) as i16,
            random.between(-3000, 3000) as i16,
        ));
        settings.set_rx_dc((random.part(), random.between(-999, 999) as i16));
        settings.set_rx_imbalance((
            random.between(14000, 18000) as i16,
            random.part(),
            random.between(-3000, 3000) as i16,
        ));
    }
    if random.once_in(2) {
        let amplitudes: [u16; ENTRIES] = std::array::from_fn(|_| random.between(20000, 32767) as u16);
        let phases: [i16; ENTRIES] = std::array::from_fn(|_| random.part());
        settings.set_amplifier_table(&amplitudes, &phases).expect(accepted);
        settings.set_amplifier_bypass(random.once_in(4));
    }
    if random.once_in(2) {
        let path = |_| (random.between(-9000, 9000) as i16, random.part() / 4, random.offset(0, 63) as u16);
        let mut paths: Vec<_> = (0..10).map(path).collect();
        paths.truncate(random.between(1, 10) as usize);
        settings.set_paths(&paths).expect(accepted);
    }
    settings.set_frequency(random.offset(-(1 << 47), (1 << 47) - 1)).expect(accepted);
    settings.set_clock(random.offset(-GREATEST_CLOCK_OFFSET, GREATEST_CLOCK_OFFSET)).expect(accepted);
    settings.set_clock_bypass(random.once_in(3));
    let (shift, factor) = random.gain();
    settings.set_gain(shift, factor).expect(accepted);
    settings.set_seeds(random.between(1, u32::MAX.into()) as u32, random.between(1, 9) as u32).expect(accepted);
    for index in 0..128 {
        let (shift, factor) = random.gain();
        settings.set_receive_gain(index, shift - 2, factor).unwrap_or_default();
    }
    settings.set_lead(random.offset(0, 200) as u16);
    settings
}
