//! Checking: refusals 1 to 6 and 9, then the faults of a file.

use crate::days;
use crate::items::File;
use crate::lines::END_MARK;
use crate::rules::{self, Fault};

const LARGEST_FILE: usize = 10_000_000;

/// A fault as it is listed: line, rule, and the offset of the line's first byte.
pub type Record = [u32; 3];

/// The first refusal that applies, if any. `rooms` are the lengths of the three
/// lent slices; the whole file is measured, bytes after the mark included. 9
/// stands between 5 and 6.
pub fn refusal(file: &[u8], code: u32, day: u32, rooms: [usize; 3]) -> Option<u32> {
    let refusals = [
        (1, !(1..=9999).contains(&code)),
        (2, !days::is_accounting_day(day)),
        (3, file.len() > LARGEST_FILE),
        (4, rooms != [rooms[0]; 3]),
        (5, !file.contains(&END_MARK)),
        (9, end_mark(file).is_some_and(|place| place + 1 != file.len())),
        (6, file.first() == Some(&END_MARK)),
    ];
    refusals.into_iter().find_map(|(number, applies)| applies.then_some(number))
}

/// All faults of a file that is not refused.
pub fn faults(file: &[u8], code: u32, day: u32) -> Vec<Fault> {
    rules::faults(&parse(file), code, day)
}

/// The same as records.
pub fn records(file: &[u8], code: u32, day: u32) -> Vec<Record> {
    let file = parse(file);
    let offset = |line: u32| file.lines[line as usize - 1].offset as u32;
    let faults = rules::faults(&file, code, day).into_iter();
    faults.map(|(line, rule)| [line, rule, offset(line)]).collect()
}

/// What stands before the end mark.
pub fn parse(file: &[u8]) -> File<'_> {
    let end = end_mark(file).unwrap_or(file.len());
    File::parse(&file[..end])
}

/// Where the first end mark stands. Parts without one are passed over with
/// `contains`, which is many times faster than looking byte by byte.
fn end_mark(file: &[u8]) -> Option<usize> {
    const PART: usize = 1_024;
    let start = PART * file.chunks(PART).position(|part| part.contains(&END_MARK))?;
    let place = file[start..].iter().position(|&byte| byte == END_MARK)?;
    Some(start + place)
}

/// The open job: the total, with the first records that fit written. The slices
/// are those for lines, rules and offsets.
pub fn check(file: &[u8], code: u32, day: u32, slices: [&mut [u32]; 3]) -> Result<u64, u32> {
    let rooms = slices.each_ref().map(|slice| slice.len());
    if let Some(number) = refusal(file, code, day, rooms) {
        return Err(number);
    }
    let records = records(file, code, day);
    enter(&records, slices);
    Ok(records.len() as u64)
}

/// Writes the first records that fit; places after them keep what they held.
fn enter(records: &[Record], slices: [&mut [u32]; 3]) {
    for (part, slice) in slices.into_iter().enumerate() {
        for (place, record) in slice.iter_mut().zip(records) {
            *place = record[part];
        }
    }
}
