//! docs/bench.svg: for each of four operations, time against size, both scales from 0, ours and the Rust's.
use crate::rows::Row;
use std::fmt::Write;

const WIDTH: f64 = 380.0;
const HEIGHT: f64 = 260.0;
/// Around a chart, for its numbers and words.
const LEFT: f64 = 60.0;
const TOP: f64 = 50.0;
const BOTTOM: f64 = 50.0;
const COLOURS: [(&str, &str); 2] = [("ours", "#0b6e4f"), ("Rust", "#b3541e")];

pub fn svg(growth: &[Vec<Row>]) -> String {
    let (across, down) = (WIDTH + LEFT, HEIGHT + TOP + BOTTOM);
    let (width, height) = (2.0 * across + 20.0, growth.len().div_ceil(2) as f64 * down);
    let mut out = format!(
        "<svg xmlns=\"http://www.w3.org/2000/svg\" viewBox=\"0 0 {width} {height}\" font-family=\"sans-serif\" font-size=\"12\">\n\
         <rect width=\"{width}\" height=\"{height}\" fill=\"#fff\"/>\n"
    );
    for (i, points) in growth.iter().enumerate() {
        let (x, y) = ((i % 2) as f64 * across + LEFT, (i / 2) as f64 * down);
        let _ = writeln!(out, "<g transform=\"translate({x} {y})\">");
        chart(&mut out, points);
        out += "</g>\n";
    }
    out + "</svg>\n"
}

/// Medians in microseconds against kilobytes.
fn chart(out: &mut String, points: &[Row]) {
    let Some(last) = points.last() else { return };
    let sizes: Vec<f64> = points.iter().map(|row| row.bytes as f64 / 1000.0).collect();
    let times = |side: usize| points.iter().map(|row| row.sides.times()[side].median / 1000.0).collect::<Vec<f64>>();
    let sides: Vec<Vec<f64>> = (0..last.sides.times().len()).map(times).collect();
    let (right, high) =
        (round_up(last.bytes as f64 / 1000.0), round_up(sides.iter().flatten().fold(0.0, |a, &b| a.max(b))));
    let base = TOP + HEIGHT;
    text(out, 0.0, TOP - 28.0, "start", &format!("{}: microseconds against kilobytes", last.group));
    for tick in 0..=4 {
        let part = f64::from(tick) / 4.0;
        let (across, up) = (part * (WIDTH - 20.0), base - part * HEIGHT);
        let _ = writeln!(out, "<path d=\"M0 {up:.1}H{:.1}\" stroke=\"#ddd\"/>", WIDTH - 20.0);
        text(out, -6.0, up + 4.0, "end", &short(part * high));
        text(out, across, base + 18.0, "middle", &short(part * right));
    }
    for (side, (times, (name, colour))) in sides.iter().zip(COLOURS).enumerate() {
        let at = |i: usize| (sizes[i] / right * (WIDTH - 20.0), base - times[i] / high * HEIGHT);
        let line: String = (0..points.len()).map(at).map(|(a, b)| format!("{a:.1},{b:.1} ")).collect();
        let _ = writeln!(
            out,
            "<polyline points=\"{}\" fill=\"none\" stroke=\"{colour}\" stroke-width=\"1.5\"/>",
            line.trim_end()
        );
        for (a, b) in (0..points.len()).map(at) {
            let _ = writeln!(out, "<circle cx=\"{a:.1}\" cy=\"{b:.1}\" r=\"2.5\" fill=\"{colour}\"/>");
        }
        let _ = writeln!(
            out,
            "<rect x=\"{:.1}\" y=\"{}\" width=\"10\" height=\"10\" fill=\"{colour}\"/>",
            60.0 * side as f64,
            TOP - 20.0
        );
        text(out, 60.0 * side as f64 + 14.0, TOP - 11.0, "start", name);
    }
}

fn text(out: &mut String, x: f64, y: f64, anchor: &str, words: &str) {
    let _ = writeln!(out, "<text x=\"{x:.1}\" y=\"{y:.1}\" text-anchor=\"{anchor}\">{words}</text>");
}

/// The next number of the form 1, 2, 4, 6 or 8 times a power of ten.
fn round_up(x: f64) -> f64 {
    let power = 10f64.powf(x.log10().floor());
    [1.0, 2.0, 4.0, 6.0, 8.0, 10.0].iter().map(|m| m * power).find(|&end| end >= x).unwrap_or(x)
}

fn short(x: f64) -> String {
    if x >= 10.0 || x == x.trunc() { format!("{x:.0}") } else { format!("{x:.1}") }
}
