//! Recordings that must not open: random changes to good ones, each with the refusal that it must meet.

use super::{Failure, make_directory, wave, write};
use model::random::Random;
use model::recording::{Gains, Kind, OpenRefusal, Recording, Signal};
use std::path::Path;

/// Writes as many damaged recordings as are asked for, and the list of their refusals.
pub fn write_all(directory: &Path, random: &mut Random, count: u64) -> Result<(), Failure> {
    make_directory(directory)?;
    let mut list = String::from("# file  opened as  refusal  byte place\n");
    let mut written = 0;
    while written < count {
        let bytes = damaged(random);
        let (kind, refused) = match random.once_in(2) {
            true => (Signal::NAME, refusal::<Signal>(&bytes)),
            false => (Gains::NAME, refusal::<Gains>(&bytes)),
        };
        if let Some(OpenRefusal { error, place }) = refused {
            let name = format!("{written:06}.wav");
            list += &format!("{name} {kind} {} {place}\n", error.number());
            write(&directory.join(name), bytes)?;
            written += 1;
        }
    }
    write(&directory.join("expected.txt"), list)
}

fn refusal<K: Kind>(bytes: &[u8]) -> Option<OpenRefusal> {
    Recording::<K>::open(bytes, 0).err()
}

/// A recording with chunks put in, bytes changed or its end cut; mostly with a RIFF length that is right.
pub fn damaged(random: &mut Random) -> Vec<u8> {
    let items = random.between(0, 9) as usize;
    let mut bytes = match random.once_in(2) {
        true => wave::signal(8000, &vec![(160, -160); items]),
        false => wave::gains(8000, &vec![5; items]),
    };
    for _ in 0..random.between(0, 2) {
        let place = [12, 36, bytes.len()][random.between(0, 2) as usize];
        let chunk = chunk(random);
        bytes.splice(place..place, chunk);
    }
    for _ in 0..random.between(0, 2) {
        let place = random.between(0, bytes.len().min(80) as i64 - 1) as usize;
        bytes[place] = random.offset(0, 255) as u8;
    }
    if random.once_in(3) {
        bytes.truncate(random.between(0, bytes.len() as i64) as usize);
    }
    if bytes.len() >= 8 && !random.once_in(8) {
        let length = bytes.len() as u32 - 8;
        bytes[4..8].copy_from_slice(&length.to_le_bytes());
    }
    bytes
}

fn chunk(random: &mut Random) -> Vec<u8> {
    let name = [b"LIST", b"fmt ", b"data", b"DATA"][random.between(0, 3) as usize];
    let size = random.between(0, 20) as u32;
    let content = vec![1; size.next_multiple_of(2) as usize];
    [&name[..], &size.to_le_bytes(), &content].concat()
}
