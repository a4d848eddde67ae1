//! The register of numbers used, from document 02, A2 and A9.
//!
//! A register is read into sets of numbers, one for each day; numbers are
//! entered in the sets, and ranges are made of them again when it is written.

use std::collections::{BTreeMap, BTreeSet};

use crate::check;
use crate::days;
use crate::items::File;
use crate::rules;

/// Ranges of a register as it is written, and of one of version 1.
pub const RANGES: usize = 1_024;
pub const OLD_RANGES: usize = 64;
/// Bytes of a register with no ranges, and of a range.
pub const HEAD: usize = 13;
pub const RANGE: usize = 12;

/// The version that is written.
const VERSION: u16 = 2;
const LARGEST: u32 = 9_999_999;

/// Numbers of a day from a first to a last.
#[derive(Clone, Copy, Debug, PartialEq, Eq)]
pub struct Range {
    pub day: u32,
    pub first: u32,
    pub last: u32,
}

#[derive(Clone, Debug, PartialEq, Eq)]
pub struct Register {
    pub code: u32,
    pub latest: u32,
    pub ranges: Vec<Range>,
}

/// The numbers used of each day: those of ranges are too many to hold one by
/// one, so a day's numbers are its first numbers, each with its last.
type Used = BTreeMap<u32, BTreeMap<u32, u32>>;

impl Register {
    /// The register that bytes are, if they are a well-formed one.
    pub fn read(bytes: &[u8]) -> Option<Register> {
        let mut rest = bytes.strip_prefix(b"CRG")?;
        let mut take = |width: usize| {
            let (number, after) = rest.split_at_checked(width)?;
            rest = after;
            Some(number.iter().fold(0, |value, &byte| value << 8 | u32::from(byte)))
        };
        let most = most_of(take(2)?)?;
        let (code, latest, count) = (take(2)?, take(4)?, take(2)?);
        if count as usize > most {
            return None;
        }
        let mut ranges = Vec::new();
        for _ in 0..count {
            ranges.push(Range { day: take(4)?, first: take(4)?, last: take(4)? });
        }
        let register = Register { code, latest, ranges };
        (rest.is_empty() && register.is_well_formed()).then_some(register)
    }

    pub fn write(&self) -> Vec<u8> {
        self.write_as(VERSION)
    }

    /// "Version 2 is the same layout".
    pub fn write_as(&self, version: u16) -> Vec<u8> {
        let mut bytes = b"CRG".to_vec();
        bytes.extend(version.to_be_bytes());
        bytes.extend((self.code as u16).to_be_bytes());
        bytes.extend(self.latest.to_be_bytes());
        bytes.extend((self.ranges.len() as u16).to_be_bytes());
        for range in &self.ranges {
            for number in [range.day, range.first, range.last] {
                bytes.extend(number.to_be_bytes());
            }
        }
        bytes
    }

    fn is_well_formed(&self) -> bool {
        let is_new = self.latest == 0 && self.ranges.is_empty();
        (1..=9999).contains(&self.code)
            && (is_new || days::is_real(self.latest))
            && self.ranges.iter().all(|range| self.may_have(range))
            && self.ranges.windows(2).all(|pair| is_apart(&pair[0], &pair[1]))
    }

    /// "days real, no range's day after the latest or more than ten before it,
    /// numbers 1 to 9,999,999, first not over last"
    fn may_have(&self, range: &Range) -> bool {
        days::is_real(range.day)
            && (0..=10).contains(&days::days_between(range.day, self.latest))
            && 1 <= range.first
            && range.first <= range.last
            && range.last <= LARGEST
    }
}

/// How many ranges a register of a version may have, if there is the version:
/// "The new program reads both".
fn most_of(version: u32) -> Option<usize> {
    match version {
        1 => Some(OLD_RANGES),
        2 => Some(RANGES),
        _ => None,
    }
}

/// "Ranges stand by day and first number, and never touch or overlap within a
/// day."
fn is_apart(one: &Range, next: &Range) -> bool {
    one.day < next.day || one.day == next.day && one.last + 1 < next.first
}

/// The numbers that a file uses, with their days: "A 51 numbered other than 0
/// counts as used".
pub fn uses(file: &File) -> Vec<(u32, u32)> {
    let headings = file.items.iter().filter_map(|item| item.heading);
    headings.map(|heading| (heading.day, heading.number)).filter(|use_| use_.1 != 0).collect()
}

/// The open job of entering: the bytes of the new register, or a refusal.
pub fn enter(
    register: &[u8],
    file: &[u8],
    code: u32,
    day: u32,
    room: usize,
) -> Result<Vec<u8>, u32> {
    if let Some(number) = check::refusal(file, code, day, [0; 3]) {
        return Err(number);
    }
    let register = Register::read(register).ok_or(23_u32)?;
    if register.code != code {
        return Err(24);
    }
    if day < register.latest {
        return Err(25);
    }
    let parsed = check::parse(file);
    if !rules::faults(&parsed, code, day).is_empty() {
        return Err(26);
    }
    let uses = uses(&parsed);
    if uses.iter().collect::<BTreeSet<_>>().len() < uses.len() {
        return Err(27);
    }
    let mut used = Used::new();
    for range in register.ranges.iter().filter(|range| days::days_between(range.day, day) <= 10) {
        used.entry(range.day).or_default().insert(range.first, range.last);
    }
    for (day, number) in uses {
        if !enter_one(used.entry(day).or_default(), number) {
            return Err(27);
        }
    }
    let ranges: Vec<Range> =
        used.into_iter().flat_map(|(day, used)| ranges_of(day, &used)).collect();
    if ranges.len() > RANGES {
        return Err(28);
    }
    let bytes = Register { code, latest: day, ranges }.write();
    if bytes.len() > room { Err(29) } else { Ok(bytes) }
}

/// One number more of a day, alone; false if it was used.
fn enter_one(used: &mut BTreeMap<u32, u32>, number: u32) -> bool {
    let is_free = used.range(..=number).next_back().is_none_or(|(_, &last)| last < number);
    if is_free {
        used.insert(number, number);
    }
    is_free
}

/// Those that touch become one range.
fn ranges_of(day: u32, used: &BTreeMap<u32, u32>) -> Vec<Range> {
    let mut ranges: Vec<Range> = Vec::new();
    for (&first, &last) in used {
        match ranges.last_mut() {
            Some(range) if range.last + 1 == first => range.last = last,
            _ => ranges.push(Range { day, first, last }),
        }
    }
    ranges
}

/// The job of a new register.
pub fn blank(code: u32, room: usize) -> Result<Vec<u8>, u32> {
    if !(1..=9999).contains(&code) {
        return Err(1);
    }
    if room < HEAD {
        return Err(29);
    }
    Ok(Register { code, latest: 0, ranges: Vec::new() }.write())
}

#[cfg(test)]
mod tests {
    use super::*;
    use crate::samples::draft::Draft;

    const DAY: u32 = 20240304;

    fn register(latest: u32, ranges: &[(u32, u32, u32)]) -> Vec<u8> {
        let ranges = ranges.iter().map(|&(day, first, last)| Range { day, first, last }).collect();
        Register { code: 300, latest, ranges }.write()
    }

    /// A file of blocks: the numbers of each, and that of its 51.
    fn file(blocks: &[(&[u32], u32)]) -> Vec<u8> {
        let mut draft = Draft::new(300, DAY);
        blocks.iter().for_each(|(numbers, closing)| draft.numbered(DAY, numbers, *closing));
        draft.sample().file
    }

    fn entered(register: &[u8], file: &[u8]) -> Result<Vec<u8>, u32> {
        enter(register, file, 300, DAY, 12_301)
    }

    #[test]
    fn bytes() {
        assert_eq!(blank(300, 13), Ok(b"CRG\0\x02\x01\x2c\0\0\0\0\0\0".to_vec()));
        assert_eq!([blank(0, 99), blank(10_000, 0), blank(1, 12)], [Err(1), Err(1), Err(29)]);
        let bytes = entered(&register(0, &[]), &file(&[(&[1, 2], 0)])).expect("entered");
        let expected =
            b"CRG\0\x02\x01\x2c\x01\x34\xd7\xb0\0\x01\x01\x34\xd7\xb0\0\0\0\x01\0\0\0\x02";
        assert_eq!(bytes, expected);
    }

    #[test]
    fn ranges_join() {
        let one_two = file(&[(&[1, 2], 0)]);
        let whole = Ok(register(DAY, &[(DAY, 1, 9)]));
        assert_eq!(
            entered(&register(DAY, &[(DAY, 1, 4), (DAY, 6, 9)]), &file(&[(&[5], 0)])),
            whole
        );
        assert_eq!(entered(&register(DAY, &[(DAY, 3, 9)]), &one_two), whole);
        let three = Ok(register(DAY, &[(DAY, 1, 3)]));
        assert_eq!(entered(&register(0, &[]), &file(&[(&[1, 2], 3)])), three);
        let apart = Ok(register(DAY, &[(DAY, 1, 1), (DAY, 3, 3)]));
        assert_eq!(entered(&register(0, &[]), &file(&[(&[3], 0), (&[1], 0)])), apart);
        let kept = Ok(register(DAY, &[(20240223, 1, 5), (DAY, 1, 2)]));
        let old = register(20240303, &[(20240222, 1, 5), (20240223, 1, 5)]);
        assert_eq!(entered(&old, &one_two), kept);
    }

    #[test]
    fn used_already() {
        let one_two = file(&[(&[1, 2], 0)]);
        for used in [(DAY, 1, 1), (DAY, 2, 9), (DAY, 1, 9)] {
            assert_eq!(entered(&register(DAY, &[used]), &one_two), Err(27));
        }
        assert_eq!(entered(&register(0, &[]), &file(&[(&[1], 2), (&[2], 0)])), Err(27));
        let full = register(DAY, &odd(1_024));
        assert_eq!(full.len(), 12_301);
        assert_eq!(entered(&full, &file(&[(&[3_000], 0)])), Err(28));
        assert_eq!(entered(&full, &file(&[(&[3_000], 0), (&[2_047], 0)])), Err(27));
        assert!(entered(&full, &file(&[(&[2_048], 0)])).is_ok());
    }

    /// So many ranges of one odd number each.
    fn odd(count: u32) -> Vec<(u32, u32, u32)> {
        (0..count).map(|place| (DAY, 2 * place + 1, 2 * place + 1)).collect()
    }

    #[test]
    fn versions() {
        let read = |version, count| {
            let mut bytes = register(DAY, &odd(count));
            bytes[4] = version;
            Register::read(&bytes)
        };
        assert!(read(1, 64).is_some() && read(1, 65).is_none());
        assert!(read(2, 65).is_some() && read(2, 1_024).is_some() && read(2, 1_025).is_none());
        assert!(read(0, 1).is_none() && read(3, 1).is_none());
        assert_eq!(read(1, 64), read(2, 64));
        let old = Register::read(&register(DAY, &odd(64))).expect("well formed").write_as(1);
        assert_eq!(old[..5], *b"CRG\0\x01");
        let wider: Vec<_> = odd(64).into_iter().chain([(DAY, 200, 200)]).collect();
        assert_eq!(entered(&old, &file(&[(&[200], 0)])), Ok(register(DAY, &wider)));
    }

    #[test]
    fn refusals_in_their_order() {
        let (new, good) = (register(0, &[]), file(&[(&[1], 0)]));
        assert_eq!(enter(b"", b"", 0, DAY, 0), Err(1));
        assert_eq!(enter(b"", b"", 300, DAY, 0), Err(5));
        assert_eq!(enter(b"", &good, 300, DAY, 0), Err(23));
        let later = register(20240305, &[]);
        assert_eq!(enter(&later, &good, 301, DAY, 0), Err(24));
        assert_eq!(enter(&later, b"x\x1a", 300, DAY, 0), Err(25));
        assert_eq!(enter(&new, b"x\x1a", 300, DAY, 0), Err(26));
        assert_eq!(enter(&new, &good, 300, DAY, 24), Err(29));
        assert!(enter(&new, &good, 300, DAY, 25).is_ok());
    }

    #[test]
    fn well_formed() {
        let is_good = |latest, ranges: &[_]| Register::read(&register(latest, ranges)).is_some();
        assert!(is_good(0, &[]) && is_good(DAY, &[]) && is_good(DAY, &[(DAY, 1, LARGEST)]));
        assert!(!is_good(20230229, &[]) && !is_good(0, &[(DAY, 1, 1)]));
        assert!(is_good(DAY, &[(20240223, 1, 1)]) && !is_good(DAY, &[(20240222, 1, 1)]));
        assert!(!is_good(DAY, &[(20240305, 1, 1)]) && !is_good(DAY, &[(20230229, 1, 1)]));
        assert!(!is_good(DAY, &[(DAY, 0, 1)]) && !is_good(DAY, &[(DAY, 2, 1)]));
        assert!(!is_good(DAY, &[(DAY, 1, LARGEST + 1)]));
        assert!(is_good(DAY, &[(DAY, 1, 2), (DAY, 4, 4)]));
        assert!(!is_good(DAY, &[(DAY, 1, 2), (DAY, 3, 4)]));
        assert!(!is_good(DAY, &[(DAY, 4, 4), (DAY, 1, 2)]));
        let new = register(0, &[]);
        assert!(Register::read(&new[..12]).is_none());
        assert!(Register::read(&[&new[..], b"\0"].concat()).is_none());
    }
}
