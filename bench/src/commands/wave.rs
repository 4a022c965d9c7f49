//! The bytes of recordings of any length, faulty ones too.

/// A signal recording of the 16-bit words that are given.
pub fn signal(rate: u32, words: &[(i16, i16)]) -> Vec<u8> {
    let data: Vec<u8> = words.iter().flat_map(|(re, im)| [re.to_le_bytes(), im.to_le_bytes()]).flatten().collect();
    wave(2, rate, 4, 12, &data)
}

/// A gain recording of the bytes that are given.
pub fn gains(rate: u32, bytes: &[u8]) -> Vec<u8> {
    wave(1, rate, 1, 8, bytes)
}

fn wave(channels: u16, rate: u32, align: u16, bits: u16, data: &[u8]) -> Vec<u8> {
    let pad = &[0][..data.len() % 2];
    let length = 36 + data.len() + pad.len();
    let head = [
        &b"RIFF"[..],
        &(length as u32).to_le_bytes(),
        b"WAVEfmt ",
        &16u32.to_le_bytes(),
        &1u16.to_le_bytes(),
        &channels.to_le_bytes(),
        &rate.to_le_bytes(),
        &(rate * u32::from(align)).to_le_bytes(),
        &align.to_le_bytes(),
        &bits.to_le_bytes(),
        b"data",
        &(data.len() as u32).to_le_bytes(),
    ];
    [&head.concat(), data, pad].concat()
}
