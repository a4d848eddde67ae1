//! Layouts at their limits: one digit, byte or continuation more or less.

use super::{Edge, draft};
use crate::samples::Sample;
use crate::samples::draft::Draft;

pub fn all() -> Vec<Edge> {
    vec![
        Edge::list("layouts of numbers", numbers()),
        Edge::list("layouts of amounts", amounts()),
        Edge::list("layouts of accounts", accounts()),
        Edge::list("layouts of texts", texts()),
        Edge::list("continuations under every field", continuations()),
        Edge::list("layouts of headings", headings()),
        every_name(),
    ]
}

const NAMES: [&str; 26] = [
    "KC", "EC", "AK", "ZK", "IN", "S0", "S1", "S2", "S3", "S4", "S5", "S6", "S7", "S8", "S9", "UD",
    "UK", "DI", "KI", "ZP", "AV", "ID", "DO", "00", "9Z", "HD",
];

const SEPARATORS: [&str; 5] = [" ", "", "  ", "\t", "x"];
const ENDINGS: [&str; 6] = ["", " ", " x", "x", "0", "\r"];

/// A good value for each name, so that only what is put after it can break.
fn good_value(name: &str) -> &'static str {
    match name {
        "HD" => "11 20240304 0000300 0000002 0000710 0000000 0000000",
        "KC" => "1 20240304",
        "EC" | "AK" | "ZK" => "1",
        "UD" | "UK" => " 19",
        _ => "1 1",
    }
}

/// An item 11 with an amount of 1, the lines, and a closing 51 that agrees.
fn in_item(lines: &[Vec<u8>]) -> Sample {
    let mut draft = draft();
    draft.heading(draft.good_heading(11, 1));
    draft.line("KC:1 20240304");
    lines.iter().for_each(|line| draft.line(line.clone()));
    close(&mut draft, &[]);
    draft.sample()
}

/// The same item, and the lines in the closing 51.
fn in_control(lines: &[Vec<u8>]) -> Sample {
    let mut draft = draft();
    draft.heading(draft.good_heading(11, 1));
    draft.line("KC:1 20240304");
    close(&mut draft, lines);
    draft.sample()
}

/// The 51: IN and S1 are right, but the given lines stand before them.
fn close(draft: &mut Draft, lines: &[Vec<u8>]) {
    draft.heading(draft.good_heading(51, 0));
    lines.iter().for_each(|line| draft.line(line.clone()));
    draft.line("IN:1 1");
    draft.line("S1:1 1");
}

fn row(digit: &str, length: usize) -> String {
    digit.repeat(length)
}

/// EC, AK, ZK, IN and the sums, with every number of digits.
fn numbers() -> Vec<Sample> {
    let mut lines = Vec::new();
    for name in ["EC", "AK", "ZK"] {
        for length in 0..=12 {
            lines.extend(ENDINGS.map(|ending| format!("{name}:{}{ending}", row("7", length))));
        }
    }
    for (names, second_most) in [(&NAMES[4..5], 9), (&NAMES[5..15], 19)] {
        for (name, digit) in names.iter().flat_map(|name| [(name, "1"), (name, "0")]) {
            for first in 0..=9 {
                for second in 0..=second_most {
                    let place = lines.len();
                    let separator = SEPARATORS[if place % 3 == 0 { place % 5 } else { 0 }];
                    let ending = ENDINGS[if place % 4 == 0 { place % 6 } else { 0 }];
                    let (first, second) = (row("0", first), row(digit, second));
                    lines.push(format!("{name}:{first}{separator}{second}{ending}"));
                }
            }
        }
    }
    lines.into_iter().map(|line| in_control(&[line.into_bytes()])).collect()
}

fn amounts() -> Vec<Sample> {
    let mut samples = Vec::new();
    for (amount, day) in (0..=17).flat_map(|amount| (0..=10).map(move |day| (amount, day))) {
        for separator in SEPARATORS {
            for ending in ENDINGS {
                let day = &"2024030411"[..day];
                let line = format!("KC:{}{separator}{day}{ending}", row("1", amount));
                samples.push(as_first_amount(&line));
            }
        }
    }
    for amount in
        ["99999999999", "100000000000", "100000000001", "000100000000001", "999999999999999"]
    {
        for kind in [32, 33, 11, 44, 99, 51] {
            samples.push(as_amount_of(kind, &format!("KC:{amount} 20240304 CZK")));
        }
    }
    samples
}

/// The line as the first KC of an 11, a good one after it, no closing 51.
fn as_first_amount(line: &str) -> Sample {
    let mut draft = draft();
    draft.heading(draft.good_heading(11, 1));
    draft.line(line);
    draft.line("KC:5 20240304");
    draft.heading(draft.good_heading(51, 2));
    draft.line("IN:1 1");
    draft.line("S1:1 1");
    draft.sample()
}

fn as_amount_of(kind: u32, line: &str) -> Sample {
    let mut draft = draft();
    draft.heading(draft.good_heading(kind, 1));
    draft.line(line);
    draft.sample()
}

fn accounts() -> Vec<Sample> {
    let names = [None, Some(0), Some(1), Some(19), Some(20), Some(21)];
    let mut lines = Vec::new();
    for (prefix, number) in (0..=7).flat_map(|prefix| (0..=11).map(move |number| (prefix, number)))
    {
        for name in names {
            let name = name.map_or(String::new(), |length| format!(" {}", row("n", length)));
            for (left, right) in [("0", "0"), ("1", "1"), ("5", "9")] {
                let (prefix, number) = (row(left, prefix), row(right, number));
                lines.push(format!("UD:{prefix} {number}{name}"));
            }
            lines.push(format!("UK:{}{}{name}", row("0", prefix), row("0", number)));
        }
    }
    let prefixes = ["19", "20", "", "000019", "x", " ", "1 9"];
    let numbers =
        ["2000145399", "2000145398", "0", "0000000000", "19", "91", "11", "10", "x9", "9x"];
    for (prefix, number) in
        prefixes.iter().flat_map(|prefix| numbers.map(|number| (prefix, number)))
    {
        lines.extend(SEPARATORS.map(|separator| format!("UK:{prefix}{separator}{number}")));
    }
    lines.into_iter().map(|line| in_item(&[line.into_bytes()])).collect()
}

/// Texts of 34 to 37 bytes with 0 to 5 continuations of 34 to 37 bytes.
fn texts() -> Vec<Sample> {
    let mut samples = Vec::new();
    for name in ["DI", "KI", "ZP", "AV"] {
        for length in [0, 1, 2, 34, 35, 36, 37] {
            let first = format!("{name}:{}", row("t", length));
            for (count, odd, odd_length) in odd_continuations() {
                let lengths = (0..count).map(|place| if place == odd { odd_length } else { 3 });
                let texts = lengths.map(|length| format!("   {}", row("c", length)));
                let lines: Vec<String> = [first.clone()].into_iter().chain(texts).collect();
                samples.push(in_item(&with_stray(&lines, samples.len() % 4)));
            }
        }
    }
    samples
}

/// How many continuations, which one is odd, and its length.
fn odd_continuations() -> Vec<(usize, usize, usize)> {
    let mut all = vec![(0, 0, 0)];
    for count in 1..=5 {
        for odd in 0..count {
            all.extend([0, 34, 35, 36, 37].map(|length| (count, odd, length)));
        }
    }
    all
}

/// The lines with a stray line after the first, in the middle, or nowhere.
fn with_stray(lines: &[String], variant: usize) -> Vec<Vec<u8>> {
    let mut lines: Vec<Vec<u8>> = lines.iter().map(|line| line.clone().into_bytes()).collect();
    match variant {
        1 => lines.insert(1, b"stray".to_vec()),
        2 => lines.insert(lines.len().div_ceil(2), Vec::new()),
        3 => lines.push(b"  ".to_vec()),
        _ => {}
    }
    lines
}

fn continuations() -> Vec<Sample> {
    let mut samples = Vec::new();
    for name in NAMES {
        for (count, variant) in
            (0..=5).flat_map(|count| (0..4).map(move |variant| (count, variant)))
        {
            let mut lines = vec![format!("{name}:{}", good_value(name))];
            lines.extend((0..count).map(|_| "   c".to_string()));
            let lines = with_stray(&lines, variant);
            samples.push(in_item(&lines));
            samples.push(in_control(&lines));
            samples.push(on_top(&lines));
        }
    }
    samples
}

/// The lines above the first heading, and again under it.
fn on_top(lines: &[Vec<u8>]) -> Sample {
    let mut draft = draft();
    lines.iter().for_each(|line| draft.line(line.clone()));
    draft.line("   c");
    draft.heading(draft.good_heading(11, 1));
    lines.iter().for_each(|line| draft.line(line.clone()));
    draft.sample()
}

/// An 11 and a 51 with one byte changed, missing or put in at every place.
fn headings() -> Vec<Sample> {
    let mut samples = Vec::new();
    for kind in [11, 51] {
        let good = draft().good_heading(kind, 2).write();
        for place in 0..=good.len() {
            for byte in *b"09 /:xX\t\r\n\x7f\xb2" {
                let mut longer = good.clone();
                longer.insert(place, byte);
                samples.push(between(longer));
                if place < good.len() {
                    let mut other = good.clone();
                    other[place] = byte;
                    samples.push(between(other));
                }
            }
            let mut shorter = good.clone();
            shorter.truncate(place);
            samples.push(between(shorter));
        }
    }
    samples
}

/// The line as a heading between an 11 and a closing 51.
fn between(line: Vec<u8>) -> Sample {
    let mut draft = draft();
    draft.heading(draft.good_heading(11, 1));
    draft.line("KC:1 20240304");
    draft.line(line);
    draft.line("KC:1 20240304");
    draft.line("S1:1 1");
    draft.heading(draft.good_heading(51, 3));
    draft.line("IN:1 2");
    draft.line("S1:2 2");
    draft.sample()
}

/// Every name once in an item and once more in the next, and each name twice
/// in an item full of others: only the same name in the same item repeats.
fn every_name() -> Edge {
    let signs = b"ABCDEFGHIJKLMNOPQRSTUVWXYZ0123456789";
    let names = signs.iter().flat_map(|&a| signs.iter().map(move |&b| [a, b, b':']));
    let names: Vec<[u8; 3]> = names.filter(|name| name != b"HD:").collect();
    Edge::new("every name of a field", names.len(), move |case| {
        let mut draft = draft();
        // All names for the first case, some neighbours for the others.
        let some = if case == 0 { &names[..] } else { &names[case.saturating_sub(40)..=case] };
        for number in 1..=2 {
            draft.heading(draft.good_heading(11, number));
            some.iter().for_each(|name| draft.line(*name));
        }
        draft.line(names[case]);
        draft.line(names[(case + 36) % names.len()]);
        draft.sample()
    })
}
