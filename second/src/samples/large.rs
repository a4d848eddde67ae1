//! Files near 10,000,000 bytes: clean ones, damaged ones and the worst ones.

use super::Sample;
use super::clean;
use super::dice::Dice;
use super::draft::Draft;
use super::mutations;
use super::soup;

pub const MOST: usize = 10_000_000;
const CODE: u32 = 300;
const DAY: u32 = 20240304;

/// How many kinds of large files there are.
pub const KINDS: u64 = 22;

/// The kinds of large files, over and over.
pub fn large(dice: &mut Dice, kind: u64) -> Sample {
    match kind % KINDS {
        0 => clean_of(dice, MOST),
        1 | 2 => mutated(dice, 3),
        3 => mutated(dice, 200),
        4 => giant_line(b"x", b"ab c:", MOST),
        5 => giant_line(b"HD:", b"\xff\r \x80", MOST),
        6 => nothing_but_ends(MOST),
        7 => many_fields(MOST),
        8 => every_line_broken(MOST),
        9 => late_heading(MOST),
        10 => headings_only(MOST),
        11 => controls_only(MOST),
        12 => one_long_block(MOST),
        13 => wrapping_sum(dice.below(100_000)),
        14 => soup::lines_of(dice, 400_000),
        15 => byte_soup(dice),
        16 => many_continuations(MOST),
        17 => without_mark(dice),
        18 => with_leftover(dice, MOST + 1),
        19 => short_lines(dice),
        20 => after_many_lines(dice),
        _ => with_leftover(dice, MOST),
    }
}

fn sample(file: Vec<u8>) -> Sample {
    Sample { code: CODE, day: DAY, file }
}

/// The pattern again and again, the end mark as the last of so many bytes.
fn repeated(start: &[u8], pattern: &[u8], bytes: usize) -> Sample {
    let mut file = start.to_vec();
    while file.len() + pattern.len() < bytes {
        file.extend(pattern);
    }
    file.resize(bytes - 1, b' ');
    file.push(0x1a);
    sample(file)
}

fn heading(kind: u32, number: u32) -> Vec<u8> {
    [Draft::new(CODE, DAY).good_heading(kind, number).write(), b"\r\n".to_vec()].concat()
}

/// A clean file of nearly so many bytes.
pub fn clean_of(dice: &mut Dice, bytes: usize) -> Sample {
    clean::of_size(dice, bytes).sample()
}

fn mutated(dice: &mut Dice, times: u64) -> Sample {
    let mut draft = clean::of_size(dice, MOST - 100_000);
    for _ in 0..times {
        let mutation = &mutations::ALL[dice.place(mutations::ALL.len())];
        (mutation.apply)(&mut draft, dice);
    }
    draft.sample()
}

/// A single line with no CR LF at all.
pub fn giant_line(start: &[u8], pattern: &[u8], bytes: usize) -> Sample {
    repeated(start, pattern, bytes)
}

/// Empty lines only: as many lines as a file can have.
pub fn nothing_but_ends(bytes: usize) -> Sample {
    repeated(b"", b"\r\n", bytes)
}

/// One item of about two million fields, all their names in turn.
pub fn many_fields(bytes: usize) -> Sample {
    let signs = b"ABCDEFGHIJKLMNOPQRSTUVWXYZ0123456789";
    let names = signs.iter().flat_map(|&a| signs.iter().map(move |&b| [a, b]));
    let names = names.filter(|name| name != b"HD");
    let fields: Vec<u8> = names.flat_map(|[a, b]| [a, b, b':', b'\r', b'\n']).collect();
    let mut file = heading(11, 1);
    while file.len() + fields.len() < bytes {
        file.extend(&fields);
    }
    file.push(0x1a);
    sample(file)
}

/// Items of which every line breaks as much as it can.
pub fn every_line_broken(bytes: usize) -> Sample {
    let item = b"HD:99 20249999 9999999 0000000 0000000 0000001 0000009\r\n\
        KC:\x7f\r\nKC:1\r\nUD: 18\r\nUD: 0\r\nxx\r\n\r\nHD:51 0\r\n   \r\nEC:\r\n";
    repeated(b"", item, bytes)
}

/// A first heading that is only judged at the very end (rule 16), with more
/// faults below it than any room holds.
pub fn late_heading(bytes: usize) -> Sample {
    repeated(&heading(11, 1), b"EC:\r\n", bytes)
}

/// Headings with nothing below them.
pub fn headings_only(bytes: usize) -> Sample {
    repeated(b"", &heading(11, 1), bytes)
}

/// Blocks of a 51 alone.
pub fn controls_only(bytes: usize) -> Sample {
    repeated(b"", &heading(51, 1), bytes)
}

/// Blocks of one item each, every number once, `step` apart: ascending,
/// descending, every other one first, or in any order.
pub fn blocks_of_one(dice: &mut Dice, bytes: usize, order: u64, step: u32) -> Sample {
    const LONGEST: usize = 155;
    let places = 0..(bytes / LONGEST) as u32;
    let mut numbers: Vec<u32> = places.map(|place| 1 + place * step).collect();
    match order {
        0 => {}
        1 => numbers.reverse(),
        2 => numbers.sort_by_key(|number| (number / step % 2, *number)),
        _ => dice.shuffle(&mut numbers),
    }
    let mut draft = Draft::new(CODE, DAY);
    numbers.into_iter().for_each(|number| draft.numbered(DAY, &[number], 0));
    draft.sample()
}

/// One block of as many items as fit, closed by a 51 that is nearly right.
fn one_long_block(bytes: usize) -> Sample {
    let mut draft = Draft::new(CODE, DAY);
    let items = (bytes - 200) / (56 + 15);
    for number in 1..=items as u32 {
        draft.heading(draft.good_heading(11, number));
        draft.line(format!("KC:1 {DAY}"));
    }
    draft.heading(draft.good_heading(51, 0));
    draft.line(format!("IN:1 {items}"));
    draft.line(format!("S1:{items} {}", items + 1));
    draft.sample()
}

/// A true sum past 2^64, of which the S line states what is left over: a sum
/// kept in 64 bits wraps round to it.
fn wrapping_sum(left_over: u64) -> Sample {
    const MOST_OF_ONE: u128 = 999_999_999_999_999;
    let mut left = (1_u128 << 64) + u128::from(left_over);
    let mut draft = Draft::new(CODE, DAY);
    let mut number = 0;
    while left > 0 {
        let amount = left.min(MOST_OF_ONE);
        (left, number) = (left - amount, number + 1);
        draft.heading(draft.good_heading(55, number));
        draft.line(format!("KC:{amount} {DAY}"));
    }
    draft.heading(draft.good_heading(51, number + 1));
    draft.line(format!("IN:1 {number}"));
    draft.line(format!("S5:{number} {left_over}"));
    draft.sample()
}

fn byte_soup(dice: &mut Dice) -> Sample {
    let alphabet = b"\r\n\r\n   HD:A0\x7f";
    let mut file: Vec<u8> = (0..MOST - 1).map(|_| dice.pick(alphabet)).collect();
    file.push(0x1a);
    sample(file)
}

/// A text with continuations to the end of the file, the heading's own last.
fn many_continuations(bytes: usize) -> Sample {
    repeated(&[&heading(11, 1)[..], b"AV:x\r\n"].concat(), b"   \r\n", bytes)
}

fn without_mark(dice: &mut Dice) -> Sample {
    let mut sample = clean_of(dice, MOST);
    sample.file.retain(|&byte| byte != 0x1a);
    sample.file.resize(MOST, b' ');
    sample
}

/// A small clean file with leftovers up to so many bytes.
fn with_leftover(dice: &mut Dice, bytes: usize) -> Sample {
    let mut sample = clean::small(dice).sample();
    sample.file.resize(bytes, b'\r');
    sample
}

/// Very short lines of every kind, good and bad ones, in any order.
fn short_lines(dice: &mut Dice) -> Sample {
    let lines: [&[u8]; 12] = [
        b"\r\n",
        b"AA:\r\n",
        b"AB:\r\n",
        b"EC:\r\n",
        b"EC:1\r\n",
        b"AV:x\r\n",
        b"   \r\n",
        b"   \r\n",
        b"x\r\n",
        b"\x7f\r\n",
        b"A9:\x7f\r\n",
        b"HD:\r\n",
    ];
    let mut file = Vec::new();
    while file.len() < MOST - 10 {
        file.extend(dice.pick(&lines));
    }
    file.push(0x1a);
    sample(file)
}

/// A damaged file whose line numbers are all beyond a million.
fn after_many_lines(dice: &mut Dice) -> Sample {
    let mut draft = clean::of_size(dice, 1_000_000);
    for _ in 0..50 {
        let mutation = &mutations::ALL[dice.place(mutations::ALL.len())];
        (mutation.apply)(&mut draft, dice);
    }
    let mut sample = draft.sample();
    let start = [&heading(11, 1)[..], &b"AA:\r\n".repeat(1_700_000)].concat();
    sample.file.splice(0..0, start);
    sample
}
