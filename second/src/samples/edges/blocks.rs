//! Blocks at their limits: none, one or many headings, what is left after the
//! last one, numbers, intervals, sums and classes.

use super::{CODE, DAY, Edge, draft};
use crate::heading::Heading;
use crate::samples::Sample;
use crate::samples::draft::Draft;

pub fn all() -> Vec<Edge> {
    vec![
        rows_of_headings(),
        Edge::list("rows of numbers", rows_of_numbers()),
        Edge::list("intervals", intervals()),
        Edge::list("first and later fields of a name", first_fields()),
        Edge::list("sums at their limit", sums()),
        Edge::list("classes of types", classes()),
        Edge::list("every type", every_type()),
        Edge::list("codes of the submitter", codes()),
        Edge::list("days within a block", days_of_block()),
    ]
}

/// What a heading in a row can be.
#[derive(Clone, Copy, PartialEq)]
enum Sort {
    Payment,
    OtherClass,
    NoInputType,
    Unreadable,
    UnreadableControl,
    GoodControl,
    BareControl,
}

const SORTS: [Sort; 7] = [
    Sort::Payment,
    Sort::OtherClass,
    Sort::NoInputType,
    Sort::Unreadable,
    Sort::UnreadableControl,
    Sort::GoodControl,
    Sort::BareControl,
];

/// Every row of up to five headings.
fn rows_of_headings() -> Edge {
    let most = 5;
    let counts = (1..=most).map(|length| SORTS.len().pow(length));
    Edge::new("every row of up to five headings", counts.sum(), move |mut case| {
        let mut length = 1;
        while case >= SORTS.len().pow(length) {
            case -= SORTS.len().pow(length);
            length += 1;
        }
        let place = |digit| case / SORTS.len().pow(digit) % SORTS.len();
        row_of_headings((0..length).map(|digit| SORTS[place(digit)]))
    })
}

/// What a good 51 has to say of the block so far.
#[derive(Default)]
struct Account {
    numbers: Vec<u32>,
    payments: u32,
    others: u32,
}

fn row_of_headings(row: impl Iterator<Item = Sort>) -> Sample {
    let mut draft = draft();
    let mut account = Account::default();
    for (number, sort) in (1..).zip(row) {
        let kind = match sort {
            Sort::Payment | Sort::Unreadable => 11,
            Sort::OtherClass => 44,
            Sort::NoInputType => 62,
            _ => 51,
        };
        draft.heading(draft.good_heading(kind, number));
        match sort {
            Sort::Payment => account.payments += 1,
            Sort::OtherClass => account.others += 1,
            Sort::Unreadable => draft.lines.last_mut().unwrap().push(b' '),
            Sort::UnreadableControl => draft.line("   "),
            _ => {}
        }
        match sort {
            Sort::Payment | Sort::OtherClass | Sort::NoInputType => account.numbers.push(number),
            Sort::GoodControl => write_account(&mut draft, &account),
            _ => {}
        }
        draft.line(format!("KC:{number} {DAY}"));
        if matches!(sort, Sort::GoodControl | Sort::BareControl) {
            account = Account::default();
        }
    }
    draft.sample()
}

/// IN and the sums; the amounts are the numbers, so two S lines may be wrong
/// in what they sum, but both are right in what they count.
fn write_account(draft: &mut Draft, account: &Account) {
    let first = account.numbers.first().unwrap_or(&0);
    let last = account.numbers.last().unwrap_or(&0);
    let sum: u32 = account.numbers.iter().sum();
    draft.line(format!("IN:{first} {last}"));
    draft.line(format!("S1:{} {sum}", account.payments));
    if account.others > 0 {
        draft.line(format!("S4:{} {sum}", account.others));
    }
}

fn rows_of_numbers() -> Vec<Sample> {
    let numbers = [0, 1, 2, 3, 9_999_998, 9_999_999];
    let mut samples = Vec::new();
    for case in 0..numbers.len().pow(4) {
        let row =
            [0, 1, 2, 3].map(|digit| numbers[case / numbers.len().pow(digit) % numbers.len()]);
        let mut draft = draft();
        for number in &row[..3] {
            draft.heading(draft.good_heading(11, *number));
            draft.line(format!("KC:0 {DAY}"));
        }
        draft.heading(draft.good_heading(51, row[3]));
        draft.line(format!("IN:{} {}", row[0], row[2]));
        draft.line("S1:3 0");
        draft.heading(draft.good_heading(12, row[3]));
        draft.heading(draft.good_heading(12, row[0]));
        samples.push(draft.sample());
    }
    samples
}

/// IN against the first and last number, with unreadable headings about.
fn intervals() -> Vec<Sample> {
    let mut samples = Vec::new();
    for case in 0..4_u32.pow(2) * 3_u32.pow(2) * 5 {
        let (stated, case) = ((case % 4, case / 4 % 4), case / 16);
        let (numbers, unreadable) = ([case % 3 + 1, case / 3 % 3 + 1, 2], case / 9);
        let mut draft = draft();
        for (place, number) in numbers.into_iter().enumerate() {
            draft.heading(draft.good_heading(11, number));
            if unreadable == place as u32 || unreadable == 3 {
                draft.line("   ");
            }
            draft.line(format!("KC:0 {DAY}"));
        }
        draft.heading(draft.good_heading(51, 0));
        draft.line(format!("IN:{} {}", stated.0, stated.1));
        samples.push(draft.sample());
    }
    samples
}

/// KC, IN and every sum: first, second and third line of the name absent,
/// right, wrong or broken.
fn first_fields() -> Vec<Sample> {
    let mut samples = Vec::new();
    for case in 0..4_usize.pow(3) {
        let states = [case % 4, case / 4 % 4, case / 16];
        let lines = |values: [&'static str; 3]| {
            let stated = states.into_iter().filter(|&state| state > 0);
            stated.map(move |state| values[state - 1])
        };
        samples.push(amounts_in_item(lines(["7 20240304", "7 20240305", "7"])));
        let intervals = lines(["1 1", "1 2", "1"]);
        samples.push(in_control("IN", intervals, &["S1:1 7"]));
        for group in 0..=9 {
            let name = format!("S{group}");
            let right = if group == 1 { "1 7" } else { "0 0" };
            samples.push(in_control(&name, lines([right, "1 6", "1"]), &["IN:1 1"]));
        }
    }
    samples
}

fn amounts_in_item(values: impl Iterator<Item = &'static str>) -> Sample {
    let mut draft = draft();
    draft.heading(draft.good_heading(32, 1));
    draft.heading(draft.good_heading(11, 2));
    values.for_each(|value| draft.line(format!("KC:{value}")));
    draft.heading(draft.good_heading(51, 0));
    draft.line("IN:1 2");
    draft.line("S1:1 7");
    draft.sample()
}

fn in_control(name: &str, values: impl Iterator<Item = &'static str>, more: &[&str]) -> Sample {
    let mut draft = draft();
    draft.heading(draft.good_heading(11, 1));
    draft.line(format!("KC:7 {DAY}"));
    draft.heading(draft.good_heading(51, 0));
    more.iter().for_each(|line| draft.line(*line));
    values.for_each(|value| draft.line(format!("{name}:{value}")));
    draft.sample()
}

/// True sums about 10^17, and what an S line can say of them.
fn sums() -> Vec<Sample> {
    const LIMIT: u64 = 100_000_000_000_000_000;
    let mut samples = Vec::new();
    for total in [LIMIT - 2, LIMIT - 1, LIMIT, LIMIT + 1, 2 * LIMIT - 1, 2 * LIMIT] {
        for stated in [0, 1, LIMIT - 2, LIMIT - 1, total % LIMIT, total % (1 << 32)] {
            let mut draft = draft();
            let count = write_amounts(&mut draft, total);
            draft.heading(draft.good_heading(51, 0));
            draft.line(format!("IN:1 {count}"));
            draft.line(format!("S1:{count} {stated}"));
            samples.push(draft.sample());
        }
    }
    samples
}

/// Items 11 and 13 whose amounts add up to the total; how many there are.
fn write_amounts(draft: &mut Draft, total: u64) -> u32 {
    let (mut left, mut count) = (total, 0);
    while left > 0 {
        let amount = left.min(999_999_999_999_999);
        (left, count) = (left - amount, count + 1);
        draft.heading(draft.good_heading(11 + count % 2 * 2, count));
        draft.line(format!("KC:{amount} {DAY}"));
    }
    count
}

/// Two types in one file: any first type, then some of each class; the first
/// heading readable or not.
fn classes() -> Vec<Sample> {
    let mut samples = Vec::new();
    for first in 0..100 {
        for second in [1, 11, 21, 32, 44, 45, 51, 55, 96, 99] {
            for unreadable in [false, true] {
                let mut draft = draft();
                draft.heading(draft.good_heading(first, 1));
                if unreadable {
                    draft.line("   ");
                }
                draft.line(format!("KC:0 {DAY}"));
                draft.heading(draft.good_heading(second, 2));
                draft.line(format!("KC:0 {DAY}"));
                draft.heading(draft.good_heading(35, 3));
                samples.push(draft.sample());
            }
        }
    }
    samples
}

/// Every type with its codes and output number zero or not, its KC absent,
/// good, broken or late, and its amounts about the limit of a 32.
fn every_type() -> Vec<Sample> {
    (0..100).flat_map(|kind| [type_with_codes(kind), type_with_amounts(kind)]).collect()
}

fn type_with_codes(kind: u32) -> Sample {
    let mut draft = draft();
    for case in 0..32 {
        let part = |digit: u32| case >> digit & 1;
        let (second, output, third) = (part(0), part(1), part(2));
        let number = case + 1;
        let heading = Heading { kind, day: DAY, first: CODE, number, second, output, third };
        draft.heading(heading);
        match case >> 3 {
            0 => {}
            1 => draft.line(format!("KC:1 {DAY}")),
            2 => draft.line("KC:"),
            _ => draft.line("EC:1"),
        }
    }
    draft.sample()
}

fn type_with_amounts(kind: u32) -> Sample {
    let mut draft = draft();
    let days = [20240303, 20240304, 20240305, 20240403, 20240404, 20240230, 10101, 99991231, 0];
    let amounts: [u64; 3] = [100_000_000_000, 100_000_000_001, 0];
    let pairs = days.into_iter().flat_map(|day| amounts.map(|amount| (amount, day)));
    for (number, (amount, day)) in (1..).zip(pairs) {
        draft.heading(draft.good_heading(kind, number));
        draft.line(format!("KC:{amount} {day:08}"));
    }
    draft.heading(draft.good_heading(51, 0));
    draft.line("IN:1 27");
    draft.line(format!("S{}:27 1800000000009", kind / 10));
    draft.sample()
}

/// First codes near the submitter's, also past 16 bits and past four digits.
fn codes() -> Vec<Sample> {
    let mut samples = Vec::new();
    for code in [0, 1, 2, 255, 256, 300, 9998, 9999, 10_000, 10_001, 65_836, 10_000_300, u32::MAX] {
        for first in [0, 1, 2, 255, 256, 300, 301, 9999, 10_000, 10_300, 65_836, 9_999_999] {
            let mut draft = Draft::new(code, DAY);
            draft.heading(Heading { first, ..draft.good_heading(11, 1) });
            draft.line(format!("KC:1 {DAY}"));
            draft.heading(Heading { first: code.min(9_999_999), ..draft.good_heading(51, 2) });
            samples.push(draft.sample());
        }
    }
    samples
}

/// Days within a block: real or not, of readable headings or not.
fn days_of_block() -> Vec<Sample> {
    let days = [20240303, 20240304, 20240230, 0];
    let mut samples = Vec::new();
    for case in 0..4_usize.pow(3) * 4 {
        let unreadable = case / 64;
        let mut draft = draft();
        for place in 0..3 {
            let kind = if place == 2 { 51 } else { 11 };
            let day = days[case >> (2 * place) & 3];
            draft.heading(Heading { day, ..draft.good_heading(kind, place as u32 + 1) });
            if place == unreadable {
                draft.line("   ");
            }
        }
        draft.heading(draft.good_heading(12, 1));
        draft.heading(Heading { day: 20240303, ..draft.good_heading(12, 2) });
        samples.push(draft.sample());
    }
    samples
}
