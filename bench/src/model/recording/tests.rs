use super::*;

/// A chunk with its pad byte.
fn chunk(name: &[u8; 4], content: &[u8]) -> Vec<u8> {
    let mut bytes = [name, &(content.len() as u32).to_le_bytes()[..], content].concat();
    bytes.resize(bytes.len().next_multiple_of(2), 0xAA);
    bytes
}

fn riff(chunks: &[Vec<u8>]) -> Vec<u8> {
    let body = chunks.concat();
    [b"RIFF", &(body.len() as u32 + 4).to_le_bytes()[..], b"WAVE", &body].concat()
}

fn format(channels: u16, rate: u32, byte_rate: u32, align: u16, bits: u16) -> Vec<u8> {
    let halves = |n: u32| [n as u16, (n >> 16) as u16];
    let [rate, byte_rate] = [halves(rate), halves(byte_rate)];
    let fields = [1, channels, rate[0], rate[1], byte_rate[0], byte_rate[1], align, bits];
    chunk(b"fmt ", &fields.map(u16::to_le_bytes).concat())
}

fn signal(data: &[u8]) -> Vec<u8> {
    riff(&[format(2, 8000, 32000, 4, 12), chunk(b"data", data)])
}

fn gains(data: &[u8]) -> Vec<u8> {
    riff(&[format(1, 8000, 8000, 1, 8), chunk(b"data", data)])
}

/// Sets the RIFF length to what it must be.
fn mended(mut bytes: Vec<u8>) -> Vec<u8> {
    let length = bytes.len() as u32 - 8;
    bytes[4..8].copy_from_slice(&length.to_le_bytes());
    bytes
}

fn refusal<K: Kind>(bytes: &[u8]) -> Option<(u8, usize)> {
    Recording::<K>::open(bytes, 0).err().map(|refusal| (refusal.error.number(), refusal.place))
}

#[test]
fn heads_that_are_refused() {
    let good = signal(&[0; 8]);
    assert_eq!(refusal::<Signal>(&good), None);
    assert_eq!(refusal::<Signal>(&good[..11]), Some((8, 0)));
    assert_eq!(refusal::<Signal>(&[]), Some((8, 0)));
    for (byte, place) in [(0, 0), (3, 0), (4, 4), (7, 4), (8, 8), (11, 8)] {
        let mut bytes = good.clone();
        bytes[byte] ^= 1;
        assert_eq!(refusal::<Signal>(&bytes), Some((9, place)), "byte {byte}");
    }
    assert_eq!(refusal::<Signal>(&[&good[..], &[0]].concat()), Some((9, 4)));
    assert_eq!(refusal::<Signal>(&mended(good[..12].to_vec())), Some((8, 12)));
    assert_eq!(refusal::<Signal>(&mended(good[..19].to_vec())), Some((8, 12)));
    assert_eq!(refusal::<Signal>(&mended(good[..36].to_vec())), Some((8, 36)));
}

#[test]
fn format_fields_that_are_refused() {
    for (byte, place) in [(16, 16), (19, 16), (20, 20), (22, 22), (28, 28), (32, 32), (34, 34)] {
        let mut bytes = signal(&[0; 8]);
        bytes[byte] ^= 0x80;
        assert_eq!(refusal::<Signal>(&bytes), Some((10, place)), "byte {byte}");
    }
    let with_rate = |rate: u32| riff(&[format(2, rate, rate.wrapping_mul(4), 4, 12), chunk(b"data", &[])]);
    assert_eq!(refusal::<Signal>(&with_rate(0)), Some((10, 24)));
    assert_eq!(refusal::<Signal>(&with_rate(1)), None);
    assert_eq!(refusal::<Signal>(&with_rate(100_000_000)), None);
    assert_eq!(refusal::<Signal>(&with_rate(100_000_001)), Some((10, 24)));
    assert_eq!(refusal::<Signal>(&gains(&[0; 4])), Some((10, 22)));
    assert_eq!(refusal::<Gains>(&signal(&[0; 4])), Some((10, 22)));
}

#[test]
fn the_byte_rate_is_compared_with_the_align_that_the_kind_requires() {
    let bytes = riff(&[format(2, 8000, 16000, 2, 12), chunk(b"data", &[])]);
    assert_eq!(refusal::<Signal>(&bytes), Some((10, 28)));
    let bytes = riff(&[format(2, 8000, 32000, 2, 12), chunk(b"data", &[])]);
    assert_eq!(refusal::<Signal>(&bytes), Some((10, 32)));
}

#[test]
fn data_that_is_refused() {
    let data_first = riff(&[chunk(b"data", &[0; 3]), format(2, 8000, 32000, 4, 12)]);
    assert_eq!(refusal::<Signal>(&data_first), Some((11, 12)));
    assert_eq!(refusal::<Signal>(&signal(&[0; 30])), Some((10, 40)));
    let cut = signal(&[0; 8]);
    assert_eq!(refusal::<Signal>(&mended(cut[..51].to_vec())), Some((8, 36)));
    let odd = gains(&[1, 2, 3]);
    assert_eq!(refusal::<Gains>(&odd), None);
    assert_eq!(refusal::<Gains>(&mended(odd[..47].to_vec())), Some((8, 36)));
}

#[test]
fn the_size_is_tested_before_the_content_is_missed() {
    let mut bytes = signal(&[]);
    bytes[40] = 6;
    assert_eq!(refusal::<Signal>(&bytes), Some((10, 40)));
    bytes[40] = 8;
    assert_eq!(refusal::<Signal>(&bytes), Some((8, 36)));
    let format = mended(signal(&[])[..35].to_vec());
    assert_eq!(refusal::<Signal>(&format), Some((8, 12)));
}

#[test]
fn chunks_that_are_passed_over() {
    let good = format(2, 8000, 32000, 4, 12);
    let unknown = chunk(b"LIST", &[1, 2, 3]);
    let capitals = chunk(b"DATA", &[0; 4]);
    let second = chunk(b"fmt ", &[7; 5]);
    let data = chunk(b"data", &[0x10, 0, 0x20, 0]);
    let bytes = riff(&[unknown.clone(), good.clone(), capitals, second, data.clone(), vec![9; 3]]);
    let mut recording = Recording::<Signal>::open(&bytes, 0).unwrap();
    assert_eq!(recording.rate(), 8000);
    assert_eq!(recording.next(), Ok(Some(ConverterSample::clipped(1, 2))));
    assert_eq!(recording.next(), Ok(None));
    let mut cut = unknown;
    cut[4] = 200;
    let bytes = riff(&[good.clone(), cut, data]);
    assert_eq!(refusal::<Signal>(&bytes), Some((8, 36)));
    assert_eq!(refusal::<Signal>(&riff(&[good, chunk(b"junk", &[0; 2])])), Some((8, 46)));
}

#[test]
fn the_first_faulty_item_ends_the_whole() {
    let bytes = signal(&[0x40, 6, 0xD0, 0xFF, 0x10, 0, 0x11, 0, 0, 0, 0, 0]);
    let mut recording = Recording::<Signal>::open(&bytes, 9).unwrap();
    let fault = Fault { kind: FaultKind::LowBits, input: 9, item: 1 };
    for _ in 0..2 {
        assert_eq!(recording.next(), Ok(Some(ConverterSample::clipped(100, -3))));
        assert_eq!(recording.next(), Err(fault));
        assert_eq!(recording.next(), Err(fault));
        recording.rewind();
    }
    let bytes = gains(&[127, 128]);
    let mut recording = Recording::<Gains>::open(&bytes, 255).unwrap();
    assert_eq!(recording.next(), Ok(Some(GainIndex::nearest(127))));
    assert_eq!(recording.next(), Err(Fault { kind: FaultKind::GainOverRange, input: 255, item: 1 }));
}
