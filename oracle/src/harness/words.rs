//! The words of a line: numbers decimal, bytes hex, `-` for none; `HEX*N` is HEX N times, `+` joins bytes.
use std::iter::Peekable;
use std::str::SplitAsciiWhitespace;

/// A request that is no request: the oracle's own refusal, never the Rust's.
#[derive(Debug)]
pub struct Bad;

/// More than this a word does not repeat: a record has less.
const MOST_TIMES: usize = 1 << 17;

pub struct Args<'a>(Peekable<SplitAsciiWhitespace<'a>>);

impl<'a> Args<'a> {
    pub fn new(line: &'a str) -> Self {
        Self(line.split_ascii_whitespace().peekable())
    }

    pub fn word(&mut self) -> Result<&'a str, Bad> {
        self.0.next().ok_or(Bad)
    }

    pub fn more(&mut self) -> bool {
        self.0.peek().is_some()
    }

    pub fn num(&mut self) -> Result<u64, Bad> {
        number(self.word()?)
    }

    /// A number below `end`.
    pub fn below(&mut self, end: u64) -> Result<u64, Bad> {
        self.num().and_then(|x| if x < end { Ok(x) } else { Err(Bad) })
    }

    pub fn flag(&mut self) -> Result<bool, Bad> {
        Ok(self.below(2)? == 1)
    }

    pub fn bytes(&mut self) -> Result<Vec<u8>, Bad> {
        unhex(self.word()?)
    }

    /// Bytes of a fixed count, as a mask or a token.
    pub fn array<const N: usize>(&mut self) -> Result<[u8; N], Bad> {
        self.bytes()?.try_into().map_err(|_| Bad)
    }

    /// Numbers with commas between.
    pub fn list(&mut self) -> Result<Vec<u64>, Bad> {
        numbers(self.word()?)
    }

    pub fn versions(&mut self) -> Result<Vec<u32>, Bad> {
        self.list()?.into_iter().map(|x| x.try_into().map_err(|_| Bad)).collect()
    }
}

pub fn number(word: &str) -> Result<u64, Bad> {
    word.parse().map_err(|_| Bad)
}

pub fn numbers(word: &str) -> Result<Vec<u64>, Bad> {
    if word == "-" {
        return Ok(Vec::new());
    }
    word.split(',').map(number).collect()
}

/// The bytes of a word, as `30+aa*3` is 30aaaaaa.
pub fn unhex(word: &str) -> Result<Vec<u8>, Bad> {
    if word == "-" {
        return Ok(Vec::new());
    }
    let mut bytes = Vec::new();
    for joined in word.split('+') {
        let (digits, times) = joined.split_once('*').unwrap_or((joined, "1"));
        let times = usize::try_from(number(times)?).ok().filter(|&n| n <= MOST_TIMES).ok_or(Bad)?;
        bytes.extend(of_digits(digits)?.repeat(times));
    }
    Ok(bytes)
}

fn of_digits(word: &str) -> Result<Vec<u8>, Bad> {
    let digit = |c: u8| char::from(c).to_digit(16).ok_or(Bad);
    if word.is_empty() || !word.len().is_multiple_of(2) {
        return Err(Bad);
    }
    let pairs = word.as_bytes().chunks(2);
    pairs.map(|p| Ok((digit(p[0])? << 4 | digit(p[1])?) as u8)).collect()
}

pub fn hex_into(out: &mut String, bytes: &[u8]) {
    const DIGITS: &[u8; 16] = b"0123456789abcdef";
    if bytes.is_empty() {
        out.push('-');
    }
    for b in bytes {
        out.push(DIGITS[usize::from(b >> 4)].into());
        out.push(DIGITS[usize::from(b & 15)].into());
    }
}

/// A record of the C surface: its fields as numbers, then the bytes at its places and in lent buffers.
pub fn record(fields: &[u64], bytes: &[&[u8]]) -> String {
    let words = fields.iter().map(u64::to_string).chain(bytes.iter().map(|b| hex(b)));
    words.collect::<Vec<String>>().join(" ")
}

pub fn hex(bytes: &[u8]) -> String {
    let mut out = String::with_capacity(2 * bytes.len() + 1);
    hex_into(&mut out, bytes);
    out
}
