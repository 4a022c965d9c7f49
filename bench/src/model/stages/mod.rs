//! The stages: sources over one source or two. Making a stage rewinds what is below it.

mod amplifier;
mod clock;
mod each;
mod frequency;
mod lead;
mod levels;
mod multipath;
mod pairing;

pub use amplifier::{Amplifier, AmplifierTable, ENTRIES};
pub use clock::ClockOffset;
pub use each::{Each, Formula};
pub use frequency::FrequencyOffset;
pub use lead::Lead;
pub use levels::{AddingNoise, AirGain, Converter, DcOffset, Gain, Imbalance, ReceiveGain, Scaling};
pub use multipath::{Multipath, Path};
pub use pairing::Pairing;
