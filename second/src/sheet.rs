//! The turnover sheet: accepted files posted for up to 64 participants, from
//! document 02, A1, and chapter 7 of source document 002.
//!
//! Lent memory is numbers in a row, four to a participant; here a turnover is
//! looked up by its participant and side, and is wide enough for any sum.

use std::collections::{BTreeMap, BTreeSet};

use crate::check;
use crate::fields::Reading;
use crate::heading::Heading;
use crate::items::{File, Item};
use crate::rules;
use crate::types;

/// Participants of a list.
pub const LISTED: usize = 64;
/// Numbers of a sheet in lent memory.
pub const TURNOVERS: usize = 4 * LISTED;

/// 10^17 - 1, either way.
const LARGEST: u128 = 99_999_999_999_999_999;

/// In the order in which a participant's turnovers lie in lent memory.
#[derive(Clone, Copy, Debug, PartialEq, Eq, PartialOrd, Ord)]
pub enum Side {
    Debit,
    Credit,
    SecondDebit,
    SecondCredit,
}

pub const SIDES: [Side; 4] = [Side::Debit, Side::Credit, Side::SecondDebit, Side::SecondCredit];

/// The turnovers of the listed participants.
type Sheet = BTreeMap<(u32, Side), i128>;

/// What one item does: the same signed amount on two turnovers.
#[derive(Clone, Copy, Debug, PartialEq, Eq)]
pub struct Posting {
    pub payer: (u32, Side),
    pub beneficiary: (u32, Side),
    pub amount: i128,
}

/// "over 64, repeats a code or has one outside 1 to 9999": refusal 19.
pub fn is_list(codes: &[u32]) -> bool {
    codes.len() <= LISTED
        && codes.iter().all(|code| (1..=9999).contains(code))
        && codes.iter().collect::<BTreeSet<_>>().len() == codes.len()
}

/// The open job of opening: all turnovers are nought.
pub fn open(codes: &[u32], turnovers: &mut [i64]) -> Result<(), u32> {
    if !is_list(codes) {
        return Err(19);
    }
    turnovers.fill(0);
    Ok(())
}

/// The open job of posting: all items of a file, or none and a refusal.
pub fn post(
    codes: &[u32],
    turnovers: &mut [i64],
    file: &[u8],
    code: u32,
    day: u32,
) -> Result<(), u32> {
    if !is_list(codes) {
        return Err(19);
    }
    if let Some(number) = check::refusal(file, code, day, [0; 3]) {
        return Err(number);
    }
    let parsed = check::parse(file);
    if !rules::faults(&parsed, code, day).is_empty() {
        return Err(20);
    }
    let sheet = read(codes, turnovers);
    let postings = postings(&parsed);
    if !postings.iter().all(|posting| is_listed(&sheet, posting)) {
        return Err(21);
    }
    let sheet = posted(sheet, &postings).ok_or(22_u32)?;
    write(&sheet, codes, turnovers);
    Ok(())
}

/// A turnover "shown with its sign, nought as plus".
pub fn show(turnover: i64) -> String {
    format!("{turnover:+}")
}

/// What the items of a file post, in their order.
pub fn postings(file: &File) -> Vec<Posting> {
    file.items.iter().filter_map(|item| posting(file, item)).collect()
}

fn posting(file: &File, item: &Item) -> Option<Posting> {
    let heading = item.heading?;
    let Reading::Amount { amount, .. } = file.first_field(item, b"KC")?.reading else {
        return None;
    };
    let (on_payer, on_beneficiary, sign) = scheme(heading.kind)?;
    let (payer, beneficiary) = parties(&heading);
    Some(Posting {
        payer: (payer, on_payer),
        beneficiary: (beneficiary, on_beneficiary),
        amount: sign * i128::from(amount),
    })
}

/// The sides of payer and beneficiary that a type posts on, and its sign.
fn scheme(kind: u32) -> Option<(Side, Side, i128)> {
    match kind {
        1 | 11 | 12 | 21 | 35 | 45 => Some((Side::Debit, Side::Credit, 1)),
        13 | 14 | 37 => Some((Side::Credit, Side::Debit, -1)),
        32 => Some((Side::SecondCredit, Side::SecondDebit, 1)),
        33 => Some((Side::SecondDebit, Side::SecondCredit, -1)),
        _ => None,
    }
}

/// "the second and third code in 35, 37, 45, else the first and second"
fn parties(heading: &Heading) -> (u32, u32) {
    if types::is_trilateral(heading.kind) {
        (heading.second, heading.third)
    } else {
        (heading.first, heading.second)
    }
}

fn is_listed(sheet: &Sheet, posting: &Posting) -> bool {
    sheet.contains_key(&posting.payer) && sheet.contains_key(&posting.beneficiary)
}

/// The sheet after all items; nothing if after any of them a turnover that it
/// moved has passed the limit.
fn posted(mut sheet: Sheet, postings: &[Posting]) -> Option<Sheet> {
    for posting in postings {
        for place in [posting.payer, posting.beneficiary] {
            let turnover = sheet.get_mut(&place)?;
            *turnover += posting.amount;
            if turnover.unsigned_abs() > LARGEST {
                return None;
            }
        }
    }
    Some(sheet)
}

/// Every turnover of a list with its place in lent memory.
fn places(codes: &[u32]) -> impl Iterator<Item = (u32, Side)> {
    codes.iter().flat_map(|&code| SIDES.map(|side| (code, side)))
}

fn read(codes: &[u32], turnovers: &[i64]) -> Sheet {
    places(codes).zip(turnovers.iter().map(|&turnover| i128::from(turnover))).collect()
}

/// Places past the list keep what they held.
fn write(sheet: &Sheet, codes: &[u32], turnovers: &mut [i64]) {
    for (place, turnover) in places(codes).zip(turnovers) {
        // Within the limit, or as it was read.
        *turnover = sheet[&place] as i64;
    }
}

/// One side of all participants together.
pub fn together(turnovers: &[i64], side: Side) -> i128 {
    turnovers.iter().skip(side as usize).step_by(4).map(|&turnover| i128::from(turnover)).sum()
}

#[cfg(test)]
mod tests {
    use super::*;
    use crate::samples::draft::{Draft, Payment};

    const DAY: u32 = 20240304;

    fn file(code: u32, items: &[Payment]) -> Vec<u8> {
        Draft::block_of(code, DAY, items).sample().file
    }

    fn sheet(first: &[i64]) -> Vec<i64> {
        let mut turnovers = first.to_vec();
        turnovers.resize(TURNOVERS, 0);
        turnovers
    }

    /// Posts on a sheet that begins so; the refusal, or how it begins after.
    fn after(before: &[i64], codes: &[u32], file: &[u8], code: u32) -> Result<Vec<i64>, u32> {
        let mut turnovers = sheet(before);
        match post(codes, &mut turnovers, file, code, DAY) {
            Ok(()) => Ok(turnovers[..4 * codes.len()].to_vec()),
            Err(number) => {
                assert_eq!(turnovers, sheet(before));
                Err(number)
            }
        }
    }

    #[test]
    fn lists() {
        let full: Vec<u32> = (1..=64).collect();
        for good in [&full[..], &[], &[1, 9999]] {
            let mut turnovers = vec![7; TURNOVERS];
            assert_eq!(open(good, &mut turnovers), Ok(()));
            assert_eq!(turnovers, sheet(&[]));
        }
        let long: Vec<u32> = (1..=65).collect();
        for bad in [&long[..], &[1, 2, 1], &[0], &[10_000]] {
            let mut turnovers = vec![7; TURNOVERS];
            assert_eq!(open(bad, &mut turnovers), Err(19));
            assert_eq!(turnovers, [7; TURNOVERS]);
            assert_eq!(after(&[], bad, b"", 0), Err(19));
        }
    }

    #[test]
    fn a_day() {
        let codes = [300, 710, 820];
        let mut turnovers = sheet(&[]);
        let a = [
            (11, 710, 0, 12_500),
            (12, 710, 0, 700),
            (13, 710, 0, 500),
            (14, 820, 0, 40),
            (32, 710, 0, 2_000),
            (33, 820, 0, 300),
            (35, 710, 820, 900),
            (37, 710, 820, 60),
            (55, 710, 0, 7),
        ];
        let b = [(1, 710, 0, 100_000), (21, 820, 0, 5), (45, 820, 710, 30), (44, 710, 0, 999)];
        let files = [
            (300, file(300, &a), Ok(())),
            (300, file(300, &b), Ok(())),
            (710, file(710, &[(13, 300, 0, 500)]), Ok(())),
            (710, file(710, &[(11, 999, 0, 1)]), Err(21)),
        ];
        for (code, file, answer) in files {
            assert_eq!(post(&codes, &mut turnovers, &file, code, DAY), answer);
        }
        let expected = [112_705, -540, -300, 2_000, 400, 112_670, 2_000, 0, -70, 905, 0, -300];
        assert_eq!(turnovers, sheet(&expected));
        assert_eq!(SIDES.map(|side| together(&turnovers, side)), [113_035, 113_035, 1_700, 1_700]);
    }

    #[test]
    fn each_type() {
        let posts =
            |kind, third| after(&[], &[300, 710], &file(300, &[(kind, 710, third, 25)]), 300);
        for kind in [1, 11, 12, 21] {
            assert_eq!(posts(kind, 0), Ok(vec![25, 0, 0, 0, 0, 25, 0, 0]));
        }
        for kind in [35, 45] {
            assert_eq!(posts(kind, 300), Ok(vec![0, 25, 0, 0, 25, 0, 0, 0]));
        }
        for kind in [13, 14] {
            assert_eq!(posts(kind, 0), Ok(vec![0, -25, 0, 0, -25, 0, 0, 0]));
        }
        assert_eq!(posts(37, 300), Ok(vec![-25, 0, 0, 0, 0, -25, 0, 0]));
        assert_eq!(posts(32, 0), Ok(vec![0, 0, 0, 25, 0, 0, 25, 0]));
        assert_eq!(posts(33, 0), Ok(vec![0, 0, -25, 0, 0, 0, 0, -25]));
        for kind in [44, 55, 96, 97, 98] {
            assert_eq!(posts(kind, 0), Ok(vec![0; 8]));
        }
    }

    #[test]
    fn refusals_in_their_order() {
        let good = file(300, &[(11, 710, 0, 1)]);
        let codes = [300, 710];
        assert_eq!(after(&[], &codes, &good, 0), Err(1));
        assert_eq!(after(&[], &codes, b"", 300), Err(5));
        assert_eq!(after(&[], &codes, b"\x1a", 300), Err(6));
        assert_eq!(after(&[], &[], &good, 710), Err(20));
        assert_eq!(after(&[], &[300], &good, 300), Err(21));
        let mixed = file(300, &[(11, 710, 0, 1), (11, 999, 0, 0)]);
        assert_eq!(after(&[LARGEST as i64], &codes, &mixed, 300), Err(21));
        assert_eq!(after(&[LARGEST as i64], &codes, &good, 300), Err(22));
    }

    #[test]
    fn who_must_be_listed() {
        assert!(after(&[], &[710, 820], &file(300, &[(35, 710, 820, 1)]), 300).is_ok());
        assert_eq!(after(&[], &[300], &file(300, &[(11, 999, 0, 0)]), 300), Err(21));
        assert_eq!(after(&[], &[300], &file(300, &[(33, 999, 0, 0)]), 300), Err(21));
        assert_eq!(after(&[], &[300], &file(300, &[(11, 10_300, 0, 1)]), 300), Err(21));
        assert_eq!(after(&[], &[], &file(300, &[(55, 710, 0, 1)]), 300), Ok(vec![]));
        assert_eq!(after(&[], &[], &file(300, &[(98, 710, 0, 1)]), 300), Ok(vec![]));
    }

    #[test]
    fn the_limit_after_any_item() {
        let most = LARGEST as i64;
        let up_first = file(300, &[(11, 300, 0, 1), (13, 300, 0, 1)]);
        let down_first = file(300, &[(13, 300, 0, 1), (11, 300, 0, 1)]);
        assert_eq!(after(&[most], &[300], &up_first, 300), Err(22));
        assert_eq!(after(&[most], &[300], &down_first, 300), Ok(vec![most, 0, 0, 0]));
        assert_eq!(after(&[0, -most], &[300], &down_first, 300), Err(22));
        // What lies past the limit and is not moved is not asked about.
        assert_eq!(after(&[0, 0, i64::MIN], &[300], &up_first, 300), Ok(vec![0, 0, i64::MIN, 0]));
        assert_eq!(after(&[i64::MAX], &[300], &up_first, 300), Err(22));
    }

    #[test]
    fn shown() {
        let expected = ["+0", "+5", "-5", "+99999999999999999", "-9223372036854775808"];
        assert_eq!([0, 5, -5, LARGEST as i64, i64::MIN].map(show), expected);
    }
}
