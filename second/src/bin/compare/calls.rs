//! Groups about telling, about deriving and about the account check.

use second::heading::Heading;
use second::samples::dice::Dice;

use crate::group::Group;
use crate::judge::Judge;

pub const OUTCOMES: [u32; 16] = [0, 1, 2, 3, 4, 5, 6, 7, 8, 9, 10, 255, 257, 263, 65_537, u32::MAX];

pub const STANDINGS: [u32; 6] = [0, 1, 2, 3, 257, u32::MAX];

/// The ends of the three classes and beyond.
pub const NUMBERS: [u32; 17] = [
    0,
    1,
    2,
    4_999_999,
    5_000_000,
    5_000_001,
    5_000_002,
    8_999_999,
    9_000_000,
    9_000_001,
    9_000_002,
    9_999_998,
    9_999_999,
    10_000_000,
    10_000_001,
    1 << 31,
    u32::MAX,
];

const TARGETS: [usize; 6] = [0, 1, 53, 54, 55, 60];

pub fn all() -> Vec<Group> {
    vec![
        Group::listed("deriving: every type, outcome, standing and class end", 100, every_type),
        Group::listed("deriving: headings broken at every byte", 54, broken_headings),
        Group::listed("deriving: headings of every length", 120, lengths),
        Group::random("deriving: random headings", 100_000, random_heading),
        Group::listed("accounts of every length", 9 * 13, account_lengths),
        Group::listed("accounts with every byte at every place", 256, account_bytes),
        Group::listed("accounts of every small number", 1_000, small_accounts),
        Group::random("accounts of random digits", 200_000, random_account),
    ]
}

/// All outcomes, numbers and targets, with each code zero or not.
fn every_type(judge: &mut Judge, _: &mut Dice, kind: u64) {
    for codes in 0..8 {
        let part = |digit: u32, code: u32| if codes >> digit & 1 == 1 { code } else { 0 };
        let heading = Heading {
            kind: kind as u32,
            day: 20240304,
            first: 300,
            number: 17,
            second: part(0, 710),
            output: part(1, 1),
            third: part(2, 990),
        };
        let text = heading.write();
        for outcome in OUTCOMES {
            for standing in STANDINGS {
                judge.tell(&text, outcome, standing);
                for number in NUMBERS {
                    for target in TARGETS {
                        judge.derive(&text, outcome, standing, number, target);
                    }
                }
            }
        }
    }
}

/// Any byte instead of the one at this place, or put in there.
fn broken_headings(judge: &mut Judge, _: &mut Dice, place: u64) {
    for good in [
        &b"HD:35 20240304 0000990 0000001 0000300 0000000 0000710"[..],
        b"HD:12 20240304 0000300 0000017 0000710 0000000 0000000",
    ] {
        for byte in 0..=255 {
            let mut text = good.to_vec();
            text[place as usize] = byte;
            judge.tell(&text, 1, 2);
            judge.derive(&text, 1, 1, 7, 54);
            judge.derive(&text, 9, 3, 0, 53);
            text[place as usize] = good[place as usize];
            text.insert(place as usize, byte);
            judge.tell(&text, 1, 1);
            judge.derive(&text, 1, 1, 7, 54);
            judge.derive(&text[..54], 1, 1, 7, 60);
        }
    }
}

fn lengths(judge: &mut Judge, _: &mut Dice, length: u64) {
    let mut text = b"HD:12 20240304 0000300 0000017 0000710 0000000 0000000 0000000".repeat(2);
    text.truncate(length as usize);
    judge.tell(&text, 6, 1);
    for target in TARGETS {
        judge.derive(&text, 6, 1, 42, target);
        judge.derive(&text, 0, 0, 0, target);
    }
}

fn random_heading(judge: &mut Judge, dice: &mut Dice, _: u64) {
    let code = |dice: &mut Dice| dice.pick(&[0, 1, 300, 9_999, 10_000, 9_999_999]);
    let any = |dice: &mut Dice| dice.below(10_000_000) as u32;
    let kinds = [1, 11, 12, 13, 14, 21, 32, 33, 35, 37, 44, 45, 51, 55, 96, 97, 98];
    let heading = Heading {
        kind: if dice.once_in(8) { dice.below(100) as u32 } else { dice.pick(&kinds) },
        day: dice.below(100_000_000) as u32,
        first: any(dice),
        number: any(dice),
        second: if dice.once_in(4) { code(dice) } else { any(dice) },
        output: if dice.once_in(8) { code(dice) } else { 0 },
        third: if dice.once_in(2) { 0 } else { any(dice) },
    };
    let mut text = heading.write();
    if dice.once_in(16) {
        let place = dice.place(text.len());
        text[place] = dice.byte();
    }
    let outcome = if dice.once_in(16) { dice.pick(&OUTCOMES) } else { dice.range(1, 7) as u32 };
    let standing = if dice.once_in(16) { dice.pick(&STANDINGS) } else { dice.pick(&[1, 1, 2]) };
    judge.tell(&text, outcome, standing);
    for number in [any(dice), dice.pick(&NUMBERS), dice.range(1, 5_000_000) as u32] {
        let target = dice.pick(&TARGETS).max(dice.place(70));
        judge.derive(&text, outcome, standing, number, target);
    }
}

/// Lengths 0 to 8 and 0 to 12, with good and bad digits.
fn account_lengths(judge: &mut Judge, dice: &mut Dice, case: u64) {
    let (prefix, number) = (case as usize / 13, case as usize % 13);
    for (left, right) in [(b'0', b'0'), (b'0', b'1'), (b'1', b'0'), (b'1', b'1'), (b'9', b'9')] {
        judge.account(&vec![left; prefix], &vec![right; number]);
    }
    for _ in 0..200 {
        judge.account(&digits(dice, prefix), &digits(dice, number));
    }
}

fn account_bytes(judge: &mut Judge, _: &mut Dice, byte: u64) {
    let (prefix, number) = (b"000019", b"2000145399");
    for place in 0..prefix.len() {
        let mut other = *prefix;
        other[place] = byte as u8;
        judge.account(&other, number);
        judge.account(&other[..=place], number);
    }
    for place in 0..number.len() {
        let mut other = *number;
        other[place] = byte as u8;
        judge.account(prefix, &other);
        judge.account(b"", &other[..=place]);
    }
}

/// A thousand numbers for each case, as a prefix and as a number.
fn small_accounts(judge: &mut Judge, _: &mut Dice, case: u64) {
    for value in case * 1_000..(case + 1) * 1_000 {
        let text = value.to_string();
        judge.account(text.as_bytes(), b"19");
        judge.account(b"", text.as_bytes());
        judge.account(b"19", format!("{value:010}").as_bytes());
    }
}

fn random_account(judge: &mut Judge, dice: &mut Dice, _: u64) {
    let (prefix, number) = (dice.place(7), dice.range(1, 10) as usize);
    let (prefix, mut number) = (digits(dice, prefix), digits(dice, number));
    // Ten last digits: about one of them holds.
    let last = number.len() - 1;
    for digit in b'0'..=b'9' {
        number[last] = digit;
        judge.account(&prefix, &number);
        judge.account(b"", &number);
    }
}

fn digits(dice: &mut Dice, length: usize) -> Vec<u8> {
    (0..length).map(|_| b'0' + dice.below(10) as u8).collect()
}
