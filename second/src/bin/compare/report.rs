//! Mismatches in words: what was expected, what was found, and the input, made
//! smaller where that is possible.

use second::account::Halves;
use second::check::Record;
use second::deliver::Delivery;
use second::samples::{Job, Sample};

use crate::state::Call;

/// Bytes of an input that are shown.
const SHOWN: usize = 1_200;
/// Larger inputs are not made smaller: each attempt checks the whole.
const SHRINKABLE: usize = 200_000;
const ATTEMPTS: usize = 1_000;
/// Calls that are told.
const CALLS: usize = 40;

/// Still wrong, and in which way.
type Differs<'a> = &'a dyn Fn(Job) -> Option<String>;

/// Bytes with escapes, cut in the middle to something readable.
fn shown(bytes: &[u8]) -> String {
    if bytes.len() <= SHOWN {
        return format!("b\"{}\"", bytes.escape_ascii());
    }
    let (start, end) = (&bytes[..SHOWN / 2], &bytes[bytes.len() - SHOWN / 2..]);
    let left_out = bytes.len() - SHOWN;
    format!(
        "b\"{}\"\n  ... {left_out} bytes ...\n  b\"{}\"",
        start.escape_ascii(),
        end.escape_ascii()
    )
}

fn input(Job { code, day, file }: Job) -> String {
    format!("code {code}, day {day}, file of {} bytes:\n  {}", file.len(), shown(file))
}

pub fn file(job: Job, difference: &str, differs: Differs) -> String {
    let story = format!("{difference}\n  {}", input(job));
    let Some(smaller) = shrink(job, differs) else {
        return story;
    };
    let difference = differs(smaller.job()).unwrap_or_default();
    format!("{story}\n  made smaller: {difference}\n  {}", input(smaller.job()))
}

/// Return values and totals.
pub fn answers(expected: (u32, u64), found: (u32, u64)) -> String {
    format!(
        "expected answer {} and total {}, found {} and {}",
        expected.0, expected.1, found.0, found.1
    )
}

/// Both lists from shortly before the place where they part. The places found
/// after the last record should hold the pattern.
pub fn lists(expected: &[Record], [lines, rules, offsets]: [&mut [u32]; 3]) -> String {
    let columns = lines.iter().zip(rules).zip(offsets);
    let found: Vec<Record> =
        columns.map(|((line, rule), offset)| [*line, *rule, *offset]).collect();
    let same = expected.iter().zip(&found).take_while(|(one, other)| one == other).count();
    let from = same.saturating_sub(3);
    let few =
        |list: &[Record]| format!("{:?}", &list[from.min(list.len())..list.len().min(from + 12)]);
    format!("records from place {from}: expected {}\n  found {}", few(expected), few(&found))
}

pub fn derived(
    text: &[u8],
    (outcome, standing, number): (u32, u32, u32),
    expected: (Result<(), u32>, &[u8]),
    found: (u32, &[u8]),
) -> String {
    format!(
        "certis_derive, outcome {outcome}, standing {standing}, number {number}, target of {} bytes, heading {}\n  \
         expected {:?} {}\n  found {} {}",
        found.1.len(),
        shown(text),
        expected.0,
        shown(expected.1),
        found.0,
        shown(found.1),
    )
}

pub fn told(
    text: &[u8],
    (outcome, standing): (u32, u32),
    expected: Result<(u32, u32), u32>,
    found: (u32, u32, u32),
) -> String {
    format!(
        "certis_tell, outcome {outcome}, standing {standing}, heading {}\n  expected {expected:?}\n  found {found:?}",
        shown(text),
    )
}

pub fn account(
    prefix: &[u8],
    number: &[u8],
    expected: Result<Halves, u32>,
    (found, before, after): (u32, u32, (u32, u32)),
) -> String {
    let (prefix, number) = (shown(prefix), shown(number));
    format!(
        "certis_account {prefix} {number}: expected {expected:?}, found {found}, answers were {before} and are {after:?}"
    )
}

/// All calls on a state, of which the last went wrong.
pub fn portions(calls: &[Call], expected: u32, found: u32) -> String {
    let told = calls.iter().map(|call| match call {
        Call::Open(code, day) => format!("open for {code} and {day}"),
        Call::Add(start, length) => format!("add {length} bytes {}", shown(start)),
        Call::Close => "close".to_string(),
    });
    let (from, told) = (calls.len().saturating_sub(CALLS), told.collect::<Vec<_>>());
    format!(
        "portions: expected {expected}, found {found}, or other memory than expected, after {} calls, the last of them\n  {}",
        calls.len(),
        told[from..].join("\n  ")
    )
}

pub fn opening(codes: &[u32]) -> String {
    format!("certis_sheet_open for {codes:?}")
}

pub fn posting(codes: &[u32], job: Job) -> String {
    format!("certis_sheet_post for {codes:?}, {}", input(job))
}

/// The places that differ, or what lies around them does.
pub fn sheet(
    call: &str,
    (answer, expected): (Result<(), u32>, &[i64]),
    (found, turnovers): (u32, &[i64]),
) -> String {
    let places = expected.iter().zip(turnovers).enumerate();
    let parted: Vec<_> = places.filter(|(_, (one, other))| one != other).take(12).collect();
    format!(
        "{call}\n  expected {answer:?}, found {found}\n  \
         turnovers that differ, as place, expected and found: {parted:?}"
    )
}

pub fn blank(code: u32, room: usize) -> String {
    format!("certis_register_new for {code}, target of {room} bytes")
}

pub fn entering(register: &[u8], job: Job, room: usize) -> String {
    let (register, input) = (shown(register), input(job));
    format!("certis_register_enter, target of {room} bytes, register {register}, {input}")
}

pub fn register(call: &str, expected: (u32, &[u8]), found: (u32, &[u8])) -> String {
    format!(
        "{call}\n  expected {} {}\n  found {} {}",
        expected.0,
        shown(expected.1),
        found.0,
        shown(found.1)
    )
}

/// Number, length and bytes, from shortly before the place where they part.
pub fn delivered(
    delivery: &Delivery,
    expected: (u32, u64, &[u8]),
    found: (u32, u64, &[u8]),
) -> String {
    let Delivery { items, outcomes, standings, certis, day, start } = *delivery;
    let few = |numbers: &[u32]| format!("{:?}", &numbers[..numbers.len().min(40)]);
    let same = expected.2.iter().zip(found.2).take_while(|(one, other)| one == other).count();
    let from = |bytes: &[u8]| shown(&bytes[same.saturating_sub(60)..]);
    format!(
        "certis_deliver for {certis}, day {day}, start {start}, target of {} bytes\n  \
         {} outcomes {}\n  {} standings {}\n  {} bytes of items {}\n  \
         expected {} {} {}\n  found {} {} {}",
        found.2.len(),
        outcomes.len(),
        few(outcomes),
        standings.len(),
        few(standings),
        items.len(),
        shown(items),
        expected.0,
        expected.1,
        from(expected.2),
        found.0,
        found.1,
        from(found.2),
    )
}

pub fn shown_turnover(turnover: i64, expected: &str, found: usize, text: &[u8]) -> String {
    format!("certis_turnover_text {turnover}: expected {expected}, found {found} {}", shown(text))
}

/// A smaller file that still makes a difference: lines are left out, then
/// bytes, in ever smaller pieces.
fn shrink(job: Job, differs: Differs) -> Option<Sample> {
    let Job { code, day, file } = job;
    let mut small = Sample { code, day, file: file.to_vec() };
    if file.len() > SHRINKABLE || differs(small.job()).is_none() {
        return None;
    }
    let mut attempts = ATTEMPTS;
    for cut in [cut_lines, cut_bytes] {
        let mut pieces = cut(&small.file);
        let mut width = pieces.len() / 2;
        while width > 0 {
            leave_out(&mut pieces, width, &mut |file| {
                attempts = attempts.saturating_sub(1);
                attempts > 0 && differs(Job { code, day, file }).is_some()
            });
            width /= 2;
        }
        small.file = pieces.concat();
    }
    Some(small)
}

/// Leaves out so many pieces at a time wherever the rest is still good.
fn leave_out(pieces: &mut Vec<Vec<u8>>, width: usize, is_good: &mut dyn FnMut(&[u8]) -> bool) {
    let mut place = 0;
    while place + width <= pieces.len() {
        let rest = [&pieces[..place], &pieces[place + width..]].concat().concat();
        if is_good(&rest) {
            pieces.drain(place..place + width);
        } else {
            place += width;
        }
    }
}

fn cut_lines(file: &[u8]) -> Vec<Vec<u8>> {
    file.split_inclusive(|&byte| byte == b'\n').map(<[u8]>::to_vec).collect()
}

fn cut_bytes(file: &[u8]) -> Vec<Vec<u8>> {
    file.iter().map(|&byte| vec![byte]).collect()
}
