//! The bytes of an input as a case, and a case as bytes. Any bytes are a case: what is missing at their end is 0 or empty.
//! The first byte is the operation, the second says what is stretched and how far, and then come the fields.
use oracle::harness::rng::VERSION_2;
use oracle::harness::words::{Args, Bad, hex_into};
use std::fmt::Write;

/// The operations, and their fields, a letter each:
/// - `n` a number, `w` one below 2^32, `y` one below 256, `f` one below 2;
/// - `m` five bytes, `x` one, `c` at most 255, `b` any, a token; `r` all that are left, last;
/// - `o` a version, `v` versions; `s` steps of the number ends, `S` steps that name a kind, last;
/// - `t` the length of a number, 0 for none: two words, whether there is one and its length;
/// - `k` a kind of header, `K` a kind with its own fields.
const OPERATIONS: [(&str, &str); 15] = [
    ("decode", "nfvr"),
    ("split", "nfvr"),
    ("walk", "nfvr"),
    ("finish", "knmr"),
    ("sample", "knr"),
    ("henc", "Kr"),
    ("hmask", "ntfmr"),
    ("whole", "Kmxr"),
    ("frames", "r"),
    ("ackscan", "nnnr"),
    ("ackiter", "nr"),
    ("ends", "s"),
    ("spaces", "S"),
    ("pnnew", "nn"),
    ("pnexp", "nwn"),
];

const KINDS: [(&str, &str); 6] = [
    ("initial", "onwccb"),
    ("0rtt", "onwcc"),
    ("handshake", "onwcc"),
    ("retry", "occ"),
    ("short", "ffnwc"),
    ("vneg", "ycc"),
];

/// From this first byte on a number has bytes of its own, one to eight.
const LONG: u8 = 0xf8;
/// As a version this byte is version 2; the number that it is elsewhere has a byte of its own there.
const TWO: u8 = LONG - 1;
/// What may be stretched, and to within eight bytes of which lengths: the last field, and a token. A Length of two bytes and the
/// form of a token's length end at 16,384, a packet at 65,527.
const REST: Edges = Edges { first: 0xe0, lengths: [16_384, 65_527] };
const TOKEN: Edges = Edges { first: 0xc0, lengths: [16_384, 65_500] };
/// Of what there are so many at the start of a step: of steps, and then of kinds, where it names one. A number of 8 bytes and one of 4
/// stand behind in a line.
const STEP: [u8; 1] = [7];
const NAMED_STEP: [u8; 2] = [7, 6];
const NUMBERS: usize = 12;

/// From its first on, 32 second bytes of an input stretch a field: sixteen around each of two lengths.
struct Edges {
    first: u8,
    lengths: [usize; 2],
}

impl Edges {
    /// The length that a second byte stretches to.
    fn length(&self, far: u8) -> Option<usize> {
        let far = usize::from(far.checked_sub(self.first)?);
        Some(self.lengths.get(far / 16)? + far % 16 - 8)
    }

    /// The second byte that stretches to a length.
    fn far(&self, length: usize) -> Option<u8> {
        (self.first..=u8::MAX).find(|&far| self.length(far) == Some(length))
    }
}

/// The case that these bytes are.
pub fn case(input: &[u8]) -> String {
    let mut input = Input { left: input, far: 0 };
    let (name, fields) = OPERATIONS[usize::from(input.byte()) % OPERATIONS.len()];
    input.far = input.byte();
    let mut line = String::from(name);
    input.put(fields, &mut line);
    line
}

/// Of each operation an input whose last field is longer than any may be.
pub fn too_long() -> impl Iterator<Item = Vec<u8>> {
    (0..OPERATIONS.len() as u8).map(|at| vec![at, u8::MAX])
}

/// Has an input stretched, by a number that says what and how far, or not.
pub fn stretch(input: &mut [u8], by: Option<u8>) {
    if let Some(far) = input.get_mut(1) {
        *far = by.map_or(*far % TOKEN.first, |by| TOKEN.first | by);
    }
}

/// What is left of an input.
struct Input<'a> {
    left: &'a [u8],
    far: u8,
}

impl<'a> Input<'a> {
    fn take(&mut self, n: usize) -> &'a [u8] {
        let (head, tail) = self.left.split_at(n.min(self.left.len()));
        self.left = tail;
        head
    }

    fn array<const N: usize>(&mut self) -> [u8; N] {
        let mut bytes = [0; N];
        let found = self.take(N);
        bytes[..found.len()].copy_from_slice(found);
        bytes
    }

    fn byte(&mut self) -> u8 {
        let [byte] = self.array();
        byte
    }

    fn number(&mut self) -> u64 {
        match self.byte() {
            short @ ..LONG => short.into(),
            long => self.take(usize::from(long - LONG) + 1).iter().fold(0, |x, &b| x << 8 | u64::from(b)),
        }
    }

    /// A number below so many.
    fn below(&mut self, end: u64) -> u64 {
        self.number() % end
    }

    fn bytes(&mut self, end: u64) -> &'a [u8] {
        let len = self.below(end);
        self.take(len as usize)
    }

    /// The bytes, stretched by the last of them.
    fn stretched(&self, bytes: &[u8], edges: &Edges) -> Vec<u8> {
        let mut bytes = bytes.to_vec();
        let len = edges.length(self.far).unwrap_or_default().max(bytes.len());
        bytes.resize(len, bytes.last().copied().unwrap_or_default());
        bytes
    }

    fn token(&mut self) -> Vec<u8> {
        let token = self.bytes(u64::MAX);
        self.stretched(token, &TOKEN)
    }

    fn rest(&mut self) -> Vec<u8> {
        let rest = std::mem::take(&mut self.left);
        self.stretched(rest, &REST)
    }

    fn steps(&mut self, first: &[u8]) -> Vec<u8> {
        let mut steps = Vec::new();
        while !self.left.is_empty() {
            steps.extend(first.iter().map(|count| self.byte() % count));
            steps.extend(self.number().to_be_bytes());
            steps.extend((self.number() as u32).to_be_bytes());
        }
        steps
    }

    fn version(&mut self) -> u32 {
        if self.left.first() == Some(&TWO) {
            self.take(1);
            return VERSION_2;
        }
        self.number() as u32
    }

    fn versions(&mut self) -> String {
        let versions: Vec<String> = (0..self.below(20)).map(|_| self.version().to_string()).collect();
        if versions.is_empty() { "-".into() } else { versions.join(",") }
    }

    fn put(&mut self, fields: &str, line: &mut String) {
        for field in fields.chars() {
            line.push(' ');
            match field {
                'n' => put_number(line, self.number()),
                'w' => put_number(line, self.below(1 << 32)),
                'o' => put_number(line, self.version().into()),
                'y' => put_number(line, self.below(256)),
                'f' => put_number(line, self.below(2)),
                'm' => hex_into(line, &self.array::<5>()),
                'x' => hex_into(line, &self.array::<1>()),
                'c' => hex_into(line, self.bytes(256)),
                'b' => hex_into(line, &self.token()),
                'r' => hex_into(line, &self.rest()),
                's' => hex_into(line, &self.steps(&STEP)),
                'S' => hex_into(line, &self.steps(&NAMED_STEP)),
                'v' => line.push_str(&self.versions()),
                't' => match self.number() {
                    0 => line.push_str("0 0"),
                    len => *line += &format!("1 {len}"),
                },
                _ => {
                    let (name, fields) = KINDS[usize::from(self.byte()) % KINDS.len()];
                    line.push_str(name);
                    if field == 'K' {
                        self.put(fields, line);
                    }
                }
            }
        }
    }
}

fn put_number(line: &mut String, x: u64) {
    let _ = write!(line, "{x}"); // to a String: it cannot fail
}

/// An input that is this case; none where there is none.
pub fn input(case_wanted: &str) -> Option<Vec<u8>> {
    let mut args = Args::new(case_wanted);
    let name = args.word().ok()?;
    let at = OPERATIONS.iter().position(|operation| operation.0 == name)?;
    let mut made = vec![at as u8, 0];
    make(OPERATIONS[at].1, &mut args, &mut made).ok()?;
    (case(&made) == case_wanted).then_some(made)
}

fn make(fields: &str, args: &mut Args, made: &mut Vec<u8>) -> Result<(), Bad> {
    for field in fields.chars() {
        match field {
            'n' | 'w' | 'y' | 'f' => make_number(made, args.num()?),
            'o' => make_version(made, args.num()?),
            'm' | 'x' => made.extend(args.bytes()?),
            'c' | 'b' => {
                let bytes = args.bytes()?;
                let kept = if field == 'b' { shortened(made, &bytes, &TOKEN) } else { &bytes };
                make_number(made, kept.len() as u64);
                made.extend(kept);
            }
            'r' => {
                let rest = args.bytes()?;
                let kept = shortened(made, &rest, &REST);
                made.extend(kept);
            }
            's' => make_steps(made, &args.bytes()?, &STEP),
            'S' => make_steps(made, &args.bytes()?, &NAMED_STEP),
            'v' => {
                let versions = args.versions()?;
                make_number(made, versions.len() as u64);
                versions.iter().for_each(|&version| make_version(made, version.into()));
            }
            't' => {
                args.flag()?;
                make_number(made, args.num()?);
            }
            _ => {
                let word = args.word()?;
                let at = KINDS.iter().position(|kind| kind.0 == word).ok_or(Bad)?;
                made.push(at as u8);
                if field == 'K' {
                    make(KINDS[at].1, args, made)?;
                }
            }
        }
    }
    Ok(())
}

fn make_number(made: &mut Vec<u8>, x: u64) {
    if x >= LONG.into() {
        let zeros = x.leading_zeros() as usize / 8;
        made.push(LONG + 7 - zeros as u8);
        made.extend(&x.to_be_bytes()[zeros..]);
    } else {
        made.push(x as u8);
    }
}

fn make_version(made: &mut Vec<u8>, x: u64) {
    if x == VERSION_2.into() {
        made.push(TWO);
    } else if x == TWO.into() {
        made.extend([LONG, TWO]);
    } else {
        make_number(made, x);
    }
}

/// Bytes of a length to which they can be stretched without those at the end that are all the same; says so in the second byte.
fn shortened<'a>(made: &mut [u8], bytes: &'a [u8], edges: &Edges) -> &'a [u8] {
    let (Some(far), Some(last)) = (edges.far(bytes.len()), bytes.last()) else { return bytes };
    made[1] = far;
    let kept = bytes.iter().rposition(|b| b != last).map_or(1, |i| i + 2);
    &bytes[..kept]
}

fn make_steps(made: &mut Vec<u8>, steps: &[u8], first: &[u8]) {
    for step in steps.chunks_exact(first.len() + NUMBERS) {
        let number = |bytes: &[u8]| bytes.iter().fold(0, |x, &b| x << 8 | u64::from(b));
        let (named, numbers) = step.split_at(first.len());
        made.extend(named);
        make_number(made, number(&numbers[..8]));
        make_number(made, number(&numbers[8..]));
    }
}

#[cfg(test)]
mod tests {
    use super::{OPERATIONS, case, input, too_long};
    use oracle::harness::cases;

    #[test]
    fn the_operations_are_the_surfaces() {
        let known: Vec<&str> = surface::ours::operations().collect();
        assert_eq!(OPERATIONS.map(|operation| operation.0)[..], known);
    }

    #[test]
    fn an_input_is_made_of_every_case_that_can_be_asked() {
        let names = OPERATIONS.map(|operation| operation.0);
        for line in (0..20_000).filter_map(|i| cases::random(1, i, &names)) {
            let is_asked = surface::ours::answer(&line).is_some();
            assert!(!is_asked || input(&line).is_some_and(|made| case(&made) == line), "{line}");
        }
        for line in ["walk 0 0 247,1798521807,1 40", "henc retry 247 - - -", "henc retry 1798521807 - - -"] {
            assert!(input(line).is_some(), "{line}");
        }
    }

    #[test]
    fn any_bytes_are_a_case() {
        assert_eq!(case(&[]), "decode 0 0 - -");
        assert_eq!(case(&[8, 0, 1, 2]), "frames 0102");
        assert_eq!(case(&[13, 0, 0xf8]), "pnnew 0 0");
        assert_eq!(case(&[11, 0, 8, 5, 6]), "ends 01000000000000000500000006");
        assert_eq!(case(&[12, 0, 8, 10, 5, 6]), "spaces 0104000000000000000500000006");
        assert_eq!(case(&[1, 0, 0, 0, 3, 0xf7, 1, 0xf8, 0xf7, 0x40]), "split 0 0 1798521807,1,247 40");
        assert_eq!(case(&[5, 0, 3, 0xf7]), "henc retry 1798521807 - - -");
        assert_eq!(case(&[8, 0xf8, 7]).len(), "frames ".len() + 2 * 65_527);
        assert!(too_long().any(|input| case(&input).len() == "frames ".len() + 2 * 65_534));
        assert_eq!(case(&[7, 0xc8]).len(), "whole initial 0 0 0 - -  0000000000 00 -".len() + 2 * 16_384);
    }
}
