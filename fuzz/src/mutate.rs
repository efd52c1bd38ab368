//! The next input: mostly libFuzzer's change of the last one, at times a case of the oracle's generator.
use crate::form;
use oracle::harness::cases;
use oracle::harness::rng::{Rng, VERSION_2};
use surface::ours;

/// One in so many is the generator's, and one in so many is stretched: that takes a hundred times as long. One in so many has a
/// packet's version exchanged.
const GENERATED: u64 = 4;
const STRETCHED: u64 = 256;
const EXCHANGED: u64 = 32;

/// Sets the buffer's first bytes, and answers how many.
pub fn mutate(buffer: &mut [u8], seed: u64, change: impl FnOnce(&mut [u8]) -> usize) -> usize {
    let mut rng = Rng::new(seed, 0);
    let made = if rng.one_in(GENERATED) { generated(rng.bits()) } else { None };
    let len = match made.filter(|made| made.len() <= buffer.len()) {
        Some(made) => {
            buffer[..made.len()].copy_from_slice(&made);
            made.len()
        }
        None => change(buffer),
    };
    if rng.one_in(EXCHANGED) {
        exchange(&mut buffer[..len], &mut rng);
    }
    let by = if rng.one_in(STRETCHED) { Some(rng.bits() as u8) } else { None };
    form::stretch(&mut buffer[..len], by);
    len
}

/// One of the versions 1 and 2 that stand in the bytes, if any does, becomes the other.
fn exchange(input: &mut [u8], rng: &mut Rng) {
    let (one, two) = (1u32.to_be_bytes(), VERSION_2.to_be_bytes());
    let other = |b: &[u8]| if b == one { Some(two) } else { (b == two).then_some(one) };
    let found = |(at, b)| Some((at, other(b)?));
    let places: Vec<(usize, [u8; 4])> = input.windows(4).enumerate().filter_map(found).collect();
    if !places.is_empty() {
        let (at, version) = rng.pick(&places);
        input[at..at + 4].copy_from_slice(&version);
    }
}

fn generated(seed: u64) -> Option<Vec<u8>> {
    let operations: Vec<&str> = ours::operations().collect();
    form::input(&cases::random(seed, 0, &operations)?)
}

#[cfg(test)]
mod tests {
    use super::{Rng, exchange};

    /// All that the bytes can become.
    fn exchanged(bytes: &[u8]) -> Vec<Vec<u8>> {
        let mut all: Vec<Vec<u8>> = (0..100)
            .map(|seed| {
                let mut bytes = bytes.to_vec();
                exchange(&mut bytes, &mut Rng::new(seed, 0));
                bytes
            })
            .collect();
        all.sort();
        all.dedup();
        all
    }

    #[test]
    fn a_version_becomes_the_other() {
        assert_eq!(exchanged(&[0xe0, 0, 0, 0, 1, 9]), [[0xe0, 0x6b, 0x33, 0x43, 0xcf, 9]]);
        assert_eq!(exchanged(&[0xe0, 0x6b, 0x33, 0x43, 0xcf]), [[0xe0, 0, 0, 0, 1]]);
        assert_eq!(exchanged(&[0, 0, 0, 1, 0x6b, 0x33, 0x43, 0xcf]).len(), 2);
        assert_eq!(exchanged(&[0, 0, 0, 2]), [[0, 0, 0, 2]]);
        assert_eq!(exchanged(&[1]), [[1]]);
    }
}
