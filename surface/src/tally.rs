//! Both sides of a case, compared; what came up, and how often.
use crate::{classes, ours};
use oracle::harness::ask;
use std::collections::{BTreeMap, BTreeSet};
use std::panic::catch_unwind;
use std::time::Instant;

/// How many cases are shown that differ, and after how many there is no use in going on.
const SHOWN: usize = 10;
const TOO_MANY: usize = 1000;
/// After how many cases a line of progress is written.
const PROGRESS: u64 = 500_000;

pub type Counts = BTreeMap<String, u64>;

fn count(counts: &mut Counts, name: &str) {
    match counts.get_mut(name) {
        Some(n) => *n += 1,
        None => {
            counts.insert(name.into(), 1);
        }
    }
}

/// What the two sides answer to a case; the Rust's line has its mark.
pub struct Both {
    pub ours: String,
    pub rust: String,
}

impl Both {
    /// None where the case cannot be asked over the surface.
    fn of(question: &str) -> Option<Self> {
        let answer = catch_unwind(|| ours::answer(question)); // it panics only over an answer that makes no sense
        let ours = answer.unwrap_or_else(|_| Some("panic".into()))?;
        let mut rust = String::new();
        ask::answer(question, &mut rust);
        Some(Self { ours, rust })
    }

    /// The line that ours must be, and the mark.
    pub fn wanted(&self) -> (&str, &str) {
        self.rust.split_once(" # ").unwrap_or((&self.rust, ""))
    }
}

/// What one operation's cases came to.
#[derive(Default)]
pub struct Operation {
    pub asked: u64,
    pub not_asked: u64,
    pub classes: Counts,
}

pub struct Tally {
    pub operations: BTreeMap<&'static str, Operation>,
    pub marks: Counts,
    pub differ: Vec<String>,
    asked: u64,
    started: Instant,
}

impl Tally {
    pub fn new(ops: &[&'static str]) -> Self {
        let operations = ops.iter().map(|&op| (op, Operation::default())).collect();
        Self { operations, marks: Counts::new(), differ: Vec::new(), asked: 0, started: Instant::now() }
    }

    pub fn asked(&self) -> u64 {
        self.asked
    }

    pub fn is_hopeless(&self) -> bool {
        self.differ.len() > TOO_MANY
    }

    /// Asks both sides, if the case is of an operation that is counted and can be asked over the surface.
    pub fn ask(&mut self, question: &str) -> Option<Both> {
        let op = question.split(' ').next().unwrap_or_default();
        let operation = self.operations.get_mut(op)?;
        let Some(both) = Both::of(question) else {
            operation.not_asked += 1;
            return None;
        };
        let (wanted, mark) = both.wanted();
        operation.asked += 1;
        classes::each(op, question, wanted, mark, &mut |class| count(&mut operation.classes, class));
        if !mark.is_empty() {
            count(&mut self.marks, mark);
        }
        if !agree(&both.ours, wanted) {
            self.differ.push(format!("DIFFERENT  {question}\n  rust     {}\n  surface  {}", both.rust, both.ours));
        }
        self.asked += 1;
        Some(both)
    }

    /// Writes a line now and then, after a case.
    pub fn progress(&self) {
        if self.asked.is_multiple_of(PROGRESS) {
            let took = self.started.elapsed().as_secs_f64();
            eprintln!("surface: {} cases, {} different, {took:.0} s", self.asked, self.differ.len());
        }
    }

    /// Prints all counts; answers whether nothing differs, every class came up and every mark is named.
    pub fn report(&self, named: &BTreeSet<String>) -> bool {
        println!("{:10} {:30} {:>10} {:>10}", "operation", "answer", "cases", "not asked");
        let mut faults = Vec::new();
        for (op, operation) in &self.operations {
            println!("{op:10} {:30} {:10} {:10}", "", operation.asked, operation.not_asked);
            for (class, n) in &operation.classes {
                println!("{:10} {class:30} {n:10}", "");
            }
            let known = classes::all(op);
            let missing = known.iter().filter(|class| !operation.classes.contains_key(*class));
            faults.extend(missing.map(|c| format!("never came up: {op}: {c}")));
            let unknown = operation.classes.keys().filter(|class| !known.contains(class));
            faults.extend(unknown.map(|c| format!("no class of the list: {op}: {c}")));
        }
        for (mark, n) in &self.marks {
            println!("{:10} {:30} {n:10}", "mark", mark);
        }
        faults.extend(
            self.marks.keys().filter(|m| !named.contains(*m)).map(|m| format!("not in docs/DIFFERENCES.md: {m}")),
        );
        faults.extend(self.differ.iter().take(SHOWN).cloned());
        faults.iter().for_each(|fault| println!("{fault}"));
        let (marked, took) = (self.marks.values().sum::<u64>(), self.started.elapsed().as_secs_f64());
        println!(
            "{} cases over the surface, {} different; {marked} marked with {} named differences; {took:.0} s",
            self.asked,
            self.differ.len(),
            self.marks.len()
        );
        faults.is_empty()
    }
}

/// The heading words of docs/DIFFERENCES.md.
pub fn named_differences() -> std::io::Result<BTreeSet<String>> {
    let text = std::fs::read_to_string(concat!(env!("CARGO_MANIFEST_DIR"), "/../docs/DIFFERENCES.md"))?;
    let heading = |line: &str| {
        let words = line.strip_prefix('#')?.trim_start_matches('#').trim_start_matches([' ', '`']);
        let end = words.find(|c: char| !c.is_alphanumeric() && c != '-').unwrap_or(words.len());
        Some(words[..end].to_string())
    };
    Ok(text.lines().filter_map(heading).collect())
}

/// Whether our line is the Rust's, but for the words that the surface does not say.
fn agree(ours: &str, rust: &str) -> bool {
    let mut parts = ours.split(ours::UNSAID);
    let Some(mut left) = rust.strip_prefix(parts.next().unwrap_or_default()) else { return false };
    for part in parts {
        let word = left.find([' ', ';']).unwrap_or(left.len());
        match left[word..].strip_prefix(part) {
            Some(rest) if word > 0 => left = rest,
            _ => return false,
        }
    }
    left.is_empty()
}

#[cfg(test)]
mod tests {
    use super::agree;

    #[test]
    fn an_unsaid_word_is_any_one_word() {
        assert!(agree("ok 1 2", "ok 1 2"));
        assert!(agree("ok _ 2", "ok 17 2"));
        assert!(agree("ok _", "ok -"));
        assert!(agree("1 2 : _ _;end : _ _;", "1 2 : 0 12;end : 5 0;"));
    }

    #[test]
    fn all_other_words_count() {
        assert!(!agree("ok 1 2", "ok 1 3"));
        assert!(!agree("ok 1", "ok 1 2"));
        assert!(!agree("ok 1 2", "ok 1"));
        assert!(!agree("ok _ 2", "ok 17 3"));
        assert!(!agree("ok _", "ok"));
        assert!(!agree("ok _", "ok 1 2"));
        assert!(!agree("ok _ 2", "ok 2"));
    }
}
