//! Whole files: document 01's marked cases here, the decisions of docs/DECISIONS.md in readings.rs,
//! output files in delivering.rs.

mod delivering;
mod readings;

use crate::check::{self, check};
use crate::rules::Fault;

const CODE: u32 = 300;
const DAY: u32 = 20240304;

/// A heading that breaks no rule by itself.
fn head(kind: u32, number: u32) -> String {
    let third = if matches!(kind, 35 | 37 | 45) { 800 } else { 0 };
    format!("HD:{kind:02} {DAY} {CODE:07} {number:07} 0000710 0000000 {third:07}")
}

/// One part of such a heading replaced: its place among the spaces, its text.
fn head_with(kind: u32, number: u32, part: usize, text: &str) -> String {
    let heading = head(kind, number);
    let mut parts: Vec<&str> = heading.split(' ').collect();
    parts[part] = text;
    parts.join(" ")
}

fn file(lines: &[&str]) -> Vec<u8> {
    let mut file: Vec<u8> =
        lines.iter().flat_map(|line| [line.as_bytes(), b"\r\n"].concat()).collect();
    file.push(0x1a);
    file
}

fn faults_of(file: &[u8]) -> Vec<Fault> {
    assert_eq!(check::refusal(file, CODE, DAY, [0; 3]), None);
    check::faults(file, CODE, DAY)
}

fn faults(lines: &[&str]) -> Vec<Fault> {
    faults_of(&file(lines))
}

/// The faults of a block: the lines, then a 51 that agrees with one item 11,
/// number 1, amount 1.
fn closed(lines: &[&str]) -> Vec<Fault> {
    let control = head(51, 0);
    faults(&[lines, &[&control, "IN:1 1", "S1:1 1"]].concat())
}

/// The rules broken at a line.
fn rules_at(faults: &[Fault], line: u32) -> Vec<u32> {
    faults.iter().filter(|fault| fault.0 == line).map(|fault| fault.1).collect()
}

fn refused(file: &[u8], code: u32, day: u32, rooms: [usize; 3]) -> u32 {
    let mut slices = rooms.map(|room| vec![7; room]);
    let lent = slices.each_mut().map(Vec::as_mut_slice);
    let number = check(file, code, day, lent).expect_err("is refused");
    assert!(slices.iter().flatten().all(|&place| place == 7));
    number
}

const KC: &str = "KC:1 20240304";

#[test]
fn a_good_block_has_no_fault() {
    assert_eq!(closed(&[&head(11, 1), KC]), []);
}

// Document 01, "Both sides of the mark".

#[test]
fn mark_of_characters() {
    let with = |byte: u8| {
        let text = [&file(&[&head(11, 1)])[..56], b"AV:", &[byte], b"\r\n\x1a"].concat();
        rules_at(&faults_of(&text), 2)
    };
    assert_eq!((with(0xDE), with(0xDF)), (vec![], vec![1]));
    assert_eq!((with(0x7E), with(0x7F)), (vec![], vec![1]));
}

#[test]
fn mark_of_accounts() {
    let with = |account: &str| rules_at(&closed(&[&head(11, 1), KC, account]), 3);
    assert_eq!(with("UD: 2000145399"), []);
    assert_eq!(with("UD: 2000145398"), [23]);
    assert_eq!(with("UK: 0"), [24]);
    assert_eq!(with("UK:19 2000145399"), []);
    assert_eq!(with("UK:20 2000145399"), [7]);
    assert_eq!(with("UD:20 2000145398"), [7, 23]);
    assert_eq!(with("UK:20 0"), [7, 24]);
}

#[test]
fn mark_of_heading_days() {
    let with = |day: &str| rules_at(&faults(&[&head_with(11, 1, 1, day), KC]), 1);
    assert_eq!(with("20240223"), [16]);
    assert_eq!(with("20240222"), [11, 16]);
    assert_eq!(with("20240304"), [16]);
    assert_eq!(with("20240305"), [11, 16]);
    assert_eq!(with("20230229"), [11, 16]);
    assert_eq!(with("20240230"), [11, 16]);
    assert_eq!(refused(b"x\x1a", CODE, 20230229, [0; 3]), 2);
}

#[test]
fn mark_of_amounts() {
    let with = |kind, field: &str| rules_at(&faults(&[&head(kind, 1), field]), 2);
    assert_eq!(with(32, "KC:1 20240403"), []);
    assert_eq!(with(32, "KC:1 20240404"), [8]);
    assert_eq!(with(33, "KC:1 20240404"), [8]);
    assert_eq!(with(11, "KC:1 20240304"), []);
    assert_eq!(with(11, "KC:1 20240305"), [8]);
    assert_eq!(with(32, "KC:100000000000 20240304"), []);
    assert_eq!(with(32, "KC:100000000001 20240304"), [9]);
    assert_eq!(with(33, "KC:100000000001 20240304"), []);
    assert_eq!(with(32, "KC:100000000001 20240404"), [8, 9]);
}

#[test]
fn mark_of_numbers() {
    let lines =
        [&head(11, 9_999_999), KC, &head(11, 0), KC, &head(51, 0), "IN:9999999 0", "S1:2 2"];
    assert_eq!(faults(&lines), [(3, 19)]);
    let lines = [&head(11, 9_999_999), KC, &head(51, 0), "IN:9999999 9999999", "S1:1 1"];
    assert_eq!(faults(&lines), []);
}

#[test]
fn bytes_after_the_mark_are_refused() {
    let whole = file(&[&head(11, 1)]);
    for behind in [&b"\n"[..], b" ", b"\x1a", b"\x1aHD:\r\n\xff", &whole] {
        assert_eq!(refused(&[&whole, behind].concat(), CODE, DAY, [0; 3]), 9);
    }
    assert_eq!(refused(b"\x1a\x1a", CODE, DAY, [0; 3]), 9);
    assert_eq!(refused(b"\x1a", CODE, DAY, [0; 3]), 6);
    assert_eq!(refused(&[&whole[..], b"x"].concat(), CODE, DAY, [0, 1, 0]), 4);
}

// Document 01, "Errors that tempt".

#[test]
fn the_control_item_is_not_counted_into_s5() {
    let control = head(51, 0);
    let lines = [&head(11, 1), KC, &control, KC, "IN:1 1", "S1:1 1"];
    assert_eq!(faults(&lines), []);
    let lines = [&lines[..], &["S5:1 1"]].concat();
    assert_eq!(faults(&lines), [(3, 35)]);
}

#[test]
fn an_unreadable_heading_does_not_stop_a_block() {
    let lines = [&head(11, 1), KC, "HD:", KC, &head(11, 3), KC, &head(51, 0), "IN:1 3", "S1:2 2"];
    assert_eq!(faults(&lines), [(3, 6), (5, 19)]);
}

#[test]
fn a_full_room_does_not_stop_the_total() {
    let text = file(&["", "", ""]);
    let (mut lines, mut rules, mut offsets) = ([9; 4], [9; 4], [9; 4]);
    assert_eq!(check(&text, CODE, DAY, [&mut lines, &mut rules, &mut offsets]), Ok(6));
    assert_eq!((lines, rules, offsets), ([1, 1, 2, 2], [2, 3, 2, 3], [0, 0, 2, 2]));
    let (mut lines, mut rules, mut offsets) = ([9; 8], [9; 8], [9; 8]);
    assert_eq!(check(&text, CODE, DAY, [&mut lines, &mut rules, &mut offsets]), Ok(6));
    assert_eq!(
        (&lines[5..], &rules[5..], &offsets[5..]),
        (&[3, 9, 9][..], &[3, 9, 9][..], &[4, 9, 9][..])
    );
    assert_eq!(check(&text, CODE, DAY, [&mut [], &mut [], &mut []]), Ok(6));
}

// Document 02, A11.

#[test]
fn records_have_the_offset_of_their_line() {
    let lines = [
        &head_with(11, 1, 2, "0000301"),
        "KC:12500 20240304",
        "UD: 2000145398",
        &head(51, 0),
        "IN:1 1",
        "S1:1 12600",
    ];
    let offsets: Vec<u32> =
        check::records(&file(&lines), CODE, DAY).iter().map(|record| record[2]).collect();
    assert_eq!(offsets, [0, 75, 91]);
    let records = |file: &[u8]| check::records(file, CODE, DAY);
    assert_eq!(
        records(b"\r\n\r\nx\x1a"),
        [[1, 2, 0], [1, 3, 0], [2, 2, 2], [2, 3, 2], [3, 2, 4], [3, 3, 4], [3, 4, 4]]
    );
}

#[test]
fn three_equal_slices_or_none() {
    for rooms in [[1, 0, 0], [0, 1, 0], [0, 0, 1], [2, 2, 3], [3, 2, 2], [2, 3, 2], [1, 2, 3]] {
        assert_eq!(refused(b"\r\n\x1a", CODE, DAY, rooms), 4, "{rooms:?}");
    }
}
