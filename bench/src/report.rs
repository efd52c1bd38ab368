//! docs/BENCH.md.
use crate::Effort;
use crate::clock::Times;
use crate::rows::Row;
use std::fmt::Write;

/// What is compared and how, and why rows are above 1.
const METHOD: &str = include_str!("method.md");
const REASONS: &str = include_str!("reasons.md");

/// The text, of the rows, the plot's points and the load before and after.
pub fn text(table: &[Row], growth: &[Vec<Row>], effort: Effort, load: [&str; 2]) -> String {
    let mut out = String::from("# Benchmarks\n\n");
    out += "Written by `bench/run`; do not edit.\n\n";
    out += &summary(table);
    out += METHOD;
    out += &machine(effort, load);
    out += "\n## Rows\n";
    out += "Times are nanoseconds for a call, least and median; a ratio is ours by the Rust's.\n";
    let mut group = "";
    for row in table {
        if row.group != group {
            group = row.group;
            out += &format!("\n### {group}\n{}", heading("input"));
        }
        out += &line(&row.input, row);
    }
    out += "\n## Growth\n![time against size](bench.svg)\n";
    for points in growth {
        out += &grown(points);
    }
    out + REASONS
}

fn summary(table: &[Row]) -> String {
    let medians: Vec<f64> = table.iter().filter_map(|row| row.sides.ratios()).map(|ratios| ratios[1]).collect();
    let count = |over: f64| medians.iter().filter(|&&ratio| ratio > over).count();
    let (all, above, faults) = (medians.len(), count(1.0), count(1.5));
    format!(
        "Of {all} rows, ours takes at most the Rust's median time in {}; more in {above}, and above 1.5 times it in {faults}.\n\n",
        all - above
    )
}

fn machine(effort: Effort, [before, after]: [&str; 2]) -> String {
    let info = std::fs::read_to_string("/proc/cpuinfo").unwrap_or_default();
    let cpu = info
        .lines()
        .find_map(|line| line.strip_prefix("model name")?.split_once(": "))
        .map_or("unknown", |found| found.1);
    let rustc = option_env!("BENCH_RUSTC").unwrap_or("rustc of unknown version");
    format!(
        "\nThis run: {cpu}; {rustc}; {} samples of each row and side; load of the machine {before} before and {after} after.\n",
        effort.rounds * effort.samples
    )
}

fn heading(first: &str) -> String {
    format!(
        "| {first} | bytes | items | ours least | median | Rust least | median | ratio of least | of medians |\n|---|--:|--:|--:|--:|--:|--:|--:|--:|\n"
    )
}

fn line(first: &str, row: &Row) -> String {
    let mut out = format!("| {first} | {} | {} |", some(row.bytes), some(row.items));
    for Times { least, median } in row.sides.times() {
        let _ = write!(out, " {least:.1} | {median:.1} |");
    }
    match row.sides.ratios() {
        Some(ratios) => out.extend(ratios.map(|ratio| format!(" {ratio:.2} |"))),
        None => out += " – | – | – | – |",
    }
    out + "\n"
}

fn some(n: usize) -> String {
    if n == 0 { "–".into() } else { n.to_string() }
}

/// The points of one operation: time by size, and how far the time of a byte moves over them.
fn grown(points: &[Row]) -> String {
    let Some(first) = points.first() else { return String::new() };
    let (rust, columns) = match first.sides.ratios() {
        Some(_) => (" Rust median | a byte | ratio |", 7),
        None => ("", 4),
    };
    let mut out = format!("\n### {}\n| bytes | items | ours median | a byte |{rust}\n|", first.group);
    out += &("--:|".repeat(columns) + "\n");
    for row in points {
        let _ = write!(out, "| {} | {} |", row.bytes, row.items);
        for Times { median, .. } in row.sides.times() {
            let _ = write!(out, " {median:.0} | {:.3} |", median / row.bytes as f64);
        }
        if let Some([_, ratio]) = row.sides.ratios() {
            let _ = write!(out, " {ratio:.2} |");
        }
        out.push('\n');
    }
    out
}
