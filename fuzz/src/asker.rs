//! What is asked for one input: its case, and the cases that the answer leads to.
use crate::bare::Bare;
use crate::{form, seen};
use oracle::harness::words::{Bad, hex, unhex};
use std::collections::BTreeSet;
use std::io;
use surface::tally::{Operation, Tally};
use surface::{classes, ours};

/// The most packets of a datagram that are gone into, and the longest case that is.
const PACKETS: usize = 4;
const LONGEST: usize = 10_000;

pub struct Asker {
    tally: Tally,
    bare: Bare,
    named: BTreeSet<String>,
    fault: Option<String>,
    is_shown: bool,
}

impl Asker {
    /// By the differences that are named; an asker that shows writes each case and its answers.
    pub fn new(named: BTreeSet<String>, is_shown: bool) -> io::Result<Self> {
        let operations: Vec<&str> = ours::operations().collect();
        Ok(Self { tally: Tally::new(&operations), bare: Bare::new()?, named, fault: None, is_shown })
    }

    /// Asks all of an input; answers what is wrong.
    pub fn input(&mut self, input: &[u8]) -> Option<&str> {
        let case = form::case(input);
        if let Some(answer) = self.ask(&case).filter(|_| case.len() < LONGEST) {
            let words: Vec<&str> = case.split(' ').collect();
            match words[0] {
                "walk" => self.packets(&words, &answer),
                "split" => {
                    self.protected(&answer, None);
                }
                "whole" => self.back(&words, &answer),
                "finish" => self.payload(&answer),
                _ => {}
            }
        }
        self.fault.as_deref()
    }

    /// Our answer; none where the surface cannot be asked, or something is wrong.
    fn ask(&mut self, case: &str) -> Option<String> {
        let both = self.tally.ask(case)?;
        let mark = both.wanted().1;
        if self.is_shown {
            println!("{case}\n  rust     {}\n  surface  {}", both.rust, both.ours);
        }
        if let Some(difference) = self.tally.differ.last() {
            self.fault = Some(difference.clone());
        } else if !mark.is_empty() && !self.named.contains(mark) {
            self.fault = Some(format!("not in docs/DIFFERENCES.md: {mark}\n  {case}"));
        } else if both.ours == "BAD REQUEST" {
            self.fault = Some(format!("no case: {case}"));
        } else if !self.bare.ask(case) {
            self.fault = Some(format!("NOT CLEAN  {case}"));
        }
        seen::note(case, &both.ours);
        if self.fault.is_none() { Some(both.ours) } else { None }
    }

    /// Each packet of a walk, split from the bytes that start with it.
    fn packets(&mut self, walk: &[&str], answer: &str) {
        let [_, cid_len, grease, versions, datagram] = walk[..] else { return };
        let starts = answer.split("; ").map_while(|packet| packet.split(' ').next()?.parse::<usize>().ok());
        for start in starts.take(PACKETS) {
            self.packet(&format!("{cid_len} {grease} {versions} {}", &datagram[2 * start..]), None);
        }
    }

    fn packet(&mut self, reader: &str, mask: Option<&str>) -> Option<String> {
        let answer = self.ask(&format!("split {reader}"))?;
        self.protected(&answer, mask)
    }

    /// A packet that was split: its sample, the protection off by this mask or by the sample's first bytes, its payload as if it
    /// were not encrypted. Answers what finish says.
    fn protected(&mut self, split: &str, mask: Option<&str>) -> Option<String> {
        let words: Vec<&str> = split.split(' ').collect();
        let ["ok", kind, .., offset, _, _, _, _, _, _, _, _, packet, _, _] = words[..] else { return None };
        let sample = self.ask(&format!("sample {kind} {offset} {packet}"))?;
        let start = sample.strip_prefix("ok ").and_then(|place| place.split(' ').next()?.parse::<usize>().ok());
        let of_sample = start.map_or("0000000000", |start| &packet[2 * start..2 * start + 10]);
        let finish = self.ask(&format!("finish {kind} {offset} {} {packet}", mask.unwrap_or(of_sample)))?;
        self.payload(&finish);
        Some(finish)
    }

    fn payload(&mut self, finish: &str) {
        if let Some(payload) = finish.strip_prefix("ok ").and_then(|said| said.split(' ').next_back()) {
            self.ask(&format!("frames {payload}"));
        }
    }

    /// A packet that was written, read again: its number and its payload must come back.
    fn back(&mut self, whole: &[&str], answer: &str) {
        let Some(packet) = answer.strip_prefix("ok ") else { return };
        let [_, kind, .., mask, xor, payload] = whole[..] else { return };
        let (version, number, dst) = match kind {
            "short" => ("1", Some(&whole[4..6]), whole[6]),
            "retry" => (whole[2], None, whole[3]),
            "vneg" => ("1", None, whole[3]),
            _ => (whole[2], Some(&whole[3..5]), whole[5]),
        };
        let cid_len = unhex(dst).map_or(0, |dst| dst.len());
        let read = self.packet(&format!("{cid_len} 1 {version} {packet}"), Some(mask)).unwrap_or_default();
        let words: Vec<&str> = read.split(' ').collect();
        let is_back = match (number, &words[..]) {
            (Some(number), ["ok", _, k, value, .., body]) if version != "0" => {
                [*k, *value] == *number && sealed(payload, xor).is_ok_and(|sealed| sealed == *body)
            }
            (number, _) => number.is_none() || version == "0", // a version of 0 reads as Version Negotiation
        };
        if !is_back && self.fault.is_none() {
            self.fault = Some(format!("NOT BACK   {}\n  written  {packet}\n  read     {read}", whole.join(" ")));
        }
    }

    /// What came up, a line each, its words with tabs between: an operation, with how often it was asked and could not be; a class
    /// of answer of it, or one that is in no list; a mark.
    pub fn counts(&self) -> String {
        let mut lines = String::new();
        for (op, operation) in &self.tally.operations {
            lines += &format!("operation\t{op}\t{}\t{}\n", operation.asked, operation.not_asked);
            let known = classes::all(op);
            known.iter().for_each(|class| lines += &format!("class\t{op}\t{class}\t{}\n", of(operation, class)));
            let unknown = operation.classes.keys().filter(|class| !known.contains(class));
            unknown.for_each(|class| lines += &format!("unknown\t{op}\t{class}\n"));
        }
        self.tally.marks.iter().for_each(|(mark, n)| lines += &format!("mark\t{mark}\t{n}\n"));
        lines
    }
}

fn of(operation: &Operation, class: &str) -> u64 {
    operation.classes.get(class).copied().unwrap_or_default()
}

/// The hex of a payload that is encrypted by the XOR with a byte.
fn sealed(payload: &str, xor: &str) -> Result<String, Bad> {
    let (payload, key) = (unhex(payload)?, unhex(xor)?);
    Ok(hex(&payload.iter().map(|b| b ^ key[0]).collect::<Vec<u8>>()))
}
