//! A model of the channel emulator, written from the documents in `docs/` without a look at the libraries' code.
//!
//! It exists twice. The pull model (`stages`, `chain`, `player`) is the emulator as one would write it in Rust, for speed:
//! each source hands out one item at a time. The formulas (`whole`, with the plain player in `plain`) are the same
//! definitions over whole lists, one index at a time and in 128 bits. The tests hold one against the other.

pub mod chain;
pub mod item;
pub mod phasor;
pub mod plain;
pub mod player;
pub mod random;
pub mod recorder;
pub mod recording;
pub mod settings;
pub mod settings_file;
pub mod source;
pub mod stages;
pub mod whole;
