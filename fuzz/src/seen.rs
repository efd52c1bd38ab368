//! What our side answered, as coverage: the archive has no counters of its own.
use std::sync::atomic::{AtomicU8, Ordering};

/// From here on a word's length counts by its power of two.
const LONG: usize = 24;
/// How many counters there are.
const COUNTERS: usize = 1 << 14;

/// Counters of the fuzzed program's own, which libFuzzer looks at after each input and clears before it.
#[allow(unsafe_code)] // sound: the section is libFuzzer's for such counters, bytes that start as 0
#[used]
#[unsafe(link_section = "__libfuzzer_extra_counters")]
static SEEN: [AtomicU8; COUNTERS] = [const { AtomicU8::new(0) }; COUNTERS];

/// Counts how many steps an answer has and, of each, every word by its place, its length and what the step is.
pub fn note(case: &str, answer: &str) {
    let op = case.split(' ').next().unwrap_or_default();
    count(mix(hash(1, op), answer.split(';').count().ilog2() as usize));
    for step in answer.split(';') {
        let words: Vec<&str> = step.split(' ').collect();
        let what = (0..words.len()).filter(|&i| says_what(&words, i)).fold(hash(0, op), |h, i| hash(h, words[i]));
        for (place, word) in words.iter().enumerate() {
            let len = if word.len() < LONG { word.len() } else { LONG + word.len().ilog2() as usize };
            count(mix(mix(what, place), len));
        }
    }
}

/// Counts by a hash: no counter passes 255.
fn count(hash: usize) {
    let counter = &SEEN[(hash ^ hash >> 32) % COUNTERS];
    counter.store(counter.load(Ordering::Relaxed).saturating_add(1), Ordering::Relaxed);
}

/// Whether a word is a name, neither a number nor bytes, or the number of a refusal.
fn says_what(words: &[&str], i: usize) -> bool {
    let is_name = words[i].bytes().any(|b| (b'g'..=b'z').contains(&b));
    is_name || i >= 1 && words[i - 1] == "no" || i >= 2 && words[i - 2] == "refused"
}

fn hash(seed: usize, word: &str) -> usize {
    word.bytes().fold(seed, |h, b| mix(h, b.into()))
}

/// FNV-1a
fn mix(h: usize, x: usize) -> usize {
    (h ^ x).wrapping_mul(0x0000_0100_0000_01b3)
}
