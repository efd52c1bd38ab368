//! Classes of answers, and those that must come up.
use crate::ours;
use oracle::harness::rng::VERSION_2;
use oracle::harness::{differences, words::unhex};

/// The steps of a run, by their numbers; the first are calls.
const STEPS: [&str; 7] = ["send", "acknowledge", "read", "accept", "set next", "set acked", "set largest"];
const CALLS: usize = 4;
/// What calls are refused with.
const REFUSED: &str = "send no 14,acknowledge no 14,read no 14,accept no 14";

/// The classes of version 2: of a packet that is read or written its kind; of one that is read or not listed, which of 1 and 2 are
/// listed, in their order.
const LONG_2: &str = "initial # version-2,0rtt # version-2,handshake # version-2,retry # version-2";
const LISTED: &str =
    "listed: 2 # version-2,listed: 1 then 2 # version-2,listed: 2 then 1 # version-2,listed: 1,listed: neither";

/// What the type bits of version 2 decide, with commas between.
fn all_of_2(op: &str) -> &'static [&'static str] {
    match op {
        "decode" => &[LONG_2, LISTED, "no 1 # version-2,no 5 # version-2"],
        "split" => &[LONG_2, LISTED, "no 1 # version-2,no 5 # version-2,no 7 # version-2"],
        "walk" => &[
            LONG_2,
            "both versions # version-2,end # version-2,refused 1 # version-2,refused 2 # version-2,refused 3 # version-2",
            "refused 4 # version-2,refused 5 # version-2,refused 6 # version-2,refused 7 # version-2",
        ],
        "henc" | "whole" => &[LONG_2],
        _ => &[],
    }
}

/// Of a run over three spaces: by each kind its steps, and what they are refused with; by one without a number every call is.
fn all_of_spaces(kind: &str) -> Vec<String> {
    let (done, far) =
        if matches!(kind, "retry" | "vneg") { (&STEPS[CALLS..], None) } else { (&STEPS[..], Some("send no 16")) };
    done.iter().copied().chain(REFUSED.split(',')).chain(far).map(|said| format!("{kind}: {said}")).collect()
}

/// Every class that must come up among the answers of an operation: its kinds first, then the rest, with commas between.
pub fn all(op: &str) -> Vec<String> {
    let (kinds, rest): (Vec<&str>, &str) = match op {
        "decode" => (ours::kinds(), "no 1,no 2,no 3,no 4,no 5,no 6,no 14"),
        "split" => (ours::kinds(), "no 1,no 2,no 3,no 4,no 5,no 6,no 7,no 14"),
        "walk" => {
            (ours::kinds(), "end,refused 1,refused 2,refused 3,refused 4,refused 5,refused 6,refused 7,refused 14")
        }
        "finish" | "whole" => (ours::kinds(), "no 8,no 14"),
        "sample" => (vec!["ok", "none"], "no 8,no 14"),
        "henc" => (ours::kinds(), "no 14,no 15"),
        "hmask" => (vec!["ok"], "no 8,no 14"),
        "frames" => (ours::frame_words(), "no 10,no 11,no 12,no 13,no 14"),
        "ackscan" => (vec!["ok"], "no 10,no 12"),
        "ackiter" => (vec!["range", "end"], "no 10,no 12,no 14"),
        "ends" => (STEPS.into_iter().chain(REFUSED.split(',')).collect(), "send no 16,run # ceiling"),
        "spaces" => (vec![], "run # ceiling"),
        "pnnew" => (vec!["ok"], "no 14,no 16"),
        "pnexp" => (vec!["ok"], "ok # ceiling,no 14"),
        _ => (vec![], "an operation without a list"),
    };
    let of_2 = all_of_2(op).iter().flat_map(|some| some.split(','));
    let mut all: Vec<String> = kinds.into_iter().chain(rest.split(',')).chain(of_2).map(str::to_string).collect();
    if op == "spaces" {
        all.extend(ours::kinds().into_iter().flat_map(all_of_spaces));
    }
    all
}

/// The marks that stand behind a class, so that it must come up with them; no other does.
const SHOWN: [&str; 2] = [differences::VERSION_2, differences::CEILING];

/// Hands out the class of an answer, of a walk or a run that of each step; of a run with a mark that too.
pub fn each(op: &str, question: &str, answer: &str, mark: &str, count: &mut dyn FnMut(&str)) {
    let kind_asked = || question.split(' ').nth(1).unwrap_or_default();
    let mark = if SHOWN.contains(&mark) { mark } else { "" };
    match op {
        "walk" => walked(word(question, 4), answer, mark, count),
        "frames" if answer.starts_with("ok") => answer.split(" ; ").skip(1).for_each(|frame| count(framed(frame))),
        "ackiter" => answer.split_terminator(';').for_each(|step| count(ranged(step))),
        "ends" | "spaces" => {
            answer.split_terminator(';').enumerate().for_each(|(i, step)| count(&stepped(question, i, step)));
            if !mark.is_empty() {
                count(&with_mark("run", mark));
            }
        }
        "henc" | "whole" if answer.starts_with("ok") => count(&with_mark(kind_asked(), mark)),
        "decode" | "split" | "finish" if answer.starts_with("ok") => count(&with_mark(word(answer, 1), mark)),
        _ => count(&with_mark(refusal_or_word(answer), mark)),
    }
    let is_header = matches!(op, "decode" | "split") && matches!(refusal_or_word(answer), "ok" | "no 4");
    if is_header && version_at(word(question, 4), 0) == Some(VERSION_2) {
        count(&with_mark(&listed(word(question, 3)), mark));
    }
}

fn with_mark(class: &str, mark: &str) -> String {
    format!("{class}{}", differences::mark_if(!mark.is_empty(), mark))
}

/// The version of the long packet that starts at a place of a datagram; none in a short one.
fn version_at(datagram: &str, start: usize) -> Option<u32> {
    let head = unhex(datagram.get(2 * start..2 * start + 10)?).ok()?;
    let version = head[1..].try_into().ok()?;
    (head[0] >= 0x80).then_some(u32::from_be_bytes(version))
}

/// Which of 1 and 2 are listed, in their order.
fn listed(versions: &str) -> String {
    let at = |version: u32| versions.split(',').position(|listed| listed == version.to_string());
    let said = match (at(1), at(VERSION_2)) {
        (None, None) => "neither",
        (Some(_), None) => "1",
        (None, Some(_)) => "2",
        (one, two) if one < two => "1 then 2",
        _ => "2 then 1",
    };
    format!("listed: {said}")
}

fn word(text: &str, at: usize) -> &str {
    text.split(' ').nth(at).unwrap_or_default()
}

/// A refusal with its number, or the first word.
fn refusal_or_word(answer: &str) -> &str {
    let words = if word(answer, 0) == "no" { 2 } else { 1 };
    answer.match_indices(' ').nth(words - 1).map_or(answer, |(end, _)| &answer[..end])
}

/// Of each START LENGTH KIND OFFSET the kind, with the mark where it is of version 2; whether there are both versions; then how the
/// walk ended: end TOTAL | refused START N.
fn walked(datagram: &str, answer: &str, mark: &str, count: &mut dyn FnMut(&str)) {
    let mut versions = Vec::new();
    for said in answer.split("; ") {
        match word(said, 0) {
            "end" => count(&with_mark("end", mark)),
            "refused" => count(&with_mark(&format!("refused {}", word(said, 2)), mark)),
            start => {
                let version = version_at(datagram, start.parse().unwrap_or_default());
                let of_2 = if version == Some(VERSION_2) { differences::VERSION_2 } else { "" };
                count(&with_mark(word(said, 2), of_2));
                versions.push(version);
            }
        }
    }
    if [1, VERSION_2].iter().all(|version| versions.contains(&Some(*version))) {
        count(&with_mark("both versions", differences::VERSION_2));
    }
}

/// START SIZE TYPE TY ELICITS NAME .. | START SIZE no N ..
fn framed(frame: &str) -> &str {
    let said = frame.splitn(3, ' ').nth(2).unwrap_or_default();
    if said.starts_with("no") { refusal_or_word(said) } else { word(said, 3) }
}

fn ranged(step: &str) -> &str {
    if step.starts_with(|c: char| c.is_ascii_digit()) { "range" } else { refusal_or_word(step) }
}

/// The step's name, by the first of its bytes, and its refusal; over three spaces, behind the kind that the second names.
fn stepped(question: &str, at: usize, step: &str) -> String {
    let (op, steps) = question.split_once(' ').unwrap_or_default();
    let has_kind = op == "spaces";
    let start = 2 * at * if has_kind { 14 } else { 13 };
    let byte = |at: usize| steps.get(start + 2 * at..).and_then(|from| usize::from_str_radix(from.get(..2)?, 16).ok());
    let name = byte(0).and_then(|number| STEPS.get(number)).unwrap_or(&"");
    let said = match refusal_or_word(step) {
        "ok" | "set" => name.to_string(),
        no => format!("{name} {no}"),
    };
    match byte(1).filter(|_| has_kind).and_then(|kind| ours::kinds().get(kind).copied()) {
        Some(kind) => format!("{kind}: {said}"),
        None => said,
    }
}

#[cfg(test)]
mod tests {
    use super::each;

    fn marked(question: &str, answer: &str, mark: &str) -> Vec<String> {
        let mut found = Vec::new();
        each(question.split(' ').next().unwrap(), question, answer, mark, &mut |class| found.push(class.into()));
        found
    }

    fn of(question: &str, answer: &str) -> Vec<String> {
        marked(question, answer, "")
    }

    #[test]
    fn steps_are_classed_one_by_one() {
        assert_eq!(of("walk 0 0 1 00", "0 9 handshake 8; refused 9 6"), ["handshake", "refused 6"]);
        assert_eq!(of("frames 0120", "ok ; 0 1 1 1 1 ping ; 1 1 no 11 32"), ["ping", "no 11"]);
        assert_eq!(of("ackiter 5 00", "5 5 : 5 0;end : 5 0;"), ["range", "end"]);
        let steps = format!("ends 00{}01{}", "0".repeat(24), "0".repeat(24));
        assert_eq!(of(&steps, "ok 0 1 0 : 1 - -;no 14 : 1 - -;"), ["send", "acknowledge no 14"]);
    }

    #[test]
    fn steps_over_three_spaces_are_classed_by_their_kinds() {
        let steps = format!("spaces 0004{0}0102{0}0503{0}0305{0}", "0".repeat(24));
        let said =
            "ok 0 1 0 : 0 - - 0 - - 1 - -;no 14 : 0 - - 0 - - 1 - -;set : 0 - - 0 - - 1 - -;no 14 : 0 - - 0 - - 1 - -;";
        assert_eq!(
            of(&steps, said),
            ["short: send", "handshake: acknowledge no 14", "retry: set acked", "vneg: accept no 14"]
        );
        assert_eq!(marked(&steps[..35], "ok 0 : 0 - - 0 - - 0 - -;", "ceiling"), ["short: send", "run # ceiling"]);
    }

    #[test]
    fn a_reading_at_the_ceiling_is_classed_apart() {
        assert_eq!(marked("pnexp 1 0 9", "ok 9", "ceiling"), ["ok # ceiling"]);
        let steps = format!("ends 02{}02{}", "0".repeat(24), "0".repeat(24));
        assert_eq!(marked(&steps, "ok 0 : 0 - -;ok 0 : 0 - -;", "ceiling"), ["read", "read", "run # ceiling"]);
    }

    #[test]
    fn an_answer_is_classed_by_its_kind_or_refusal() {
        assert_eq!(of("split 0 0 1 40", "ok short 0 1 0 - 2 0 0 0 - - 40 none -"), ["short"]);
        assert_eq!(of("split 0 0 1 00", "no 4 7 01 02"), ["no 4"]);
        assert_eq!(of("whole vneg 1 - - 00 00 -", "ok 81"), ["vneg"]);
        assert_eq!(of("sample retry 0 -", "none"), ["none"]);
    }

    #[test]
    fn a_packet_of_version_2_is_classed_apart() {
        let of_2 = |question, answer| marked(question, answer, "version-2");
        let retry = "split 0 0 1,1798521807 c06b3343cf0000";
        assert_eq!(of_2(retry, "ok retry 7"), ["retry # version-2", "listed: 1 then 2 # version-2"]);
        assert_eq!(of("decode 0 0 1798521808 c06b3343cf0000", "no 4 1798521807 - -"), ["no 4", "listed: neither"]);
        assert_eq!(of("decode 0 0 1 c0000000020000", "no 4 2 - -"), ["no 4"]);
        assert_eq!(of_2("split 0 0 1798521807,1 d06b3343cf0000", "no 1"), ["no 1 # version-2"]);
        assert_eq!(of_2("whole retry 1798521807 - - 00 00 -", "ok c0"), ["retry # version-2"]);
        let both = "walk 0 0 1 f06b3343cf000000e00000000100000040";
        let said = ["handshake # version-2", "handshake", "short", "end # version-2", "both versions # version-2"];
        assert_eq!(of_2(both, "0 8 handshake 8; 8 8 handshake 8; 16 1 short 1; end 17"), said);
        assert_eq!(marked("split 0 0 1 40", "no 14", "size-65527"), ["no 14"]);
    }
}
