//! Groups about the register of numbers used: new ones, and entering.

use std::collections::BTreeSet;

use second::check;
use second::register::{HEAD, OLD_RANGES, RANGE, RANGES, Range, Register, uses};
use second::samples::calendar::{TRICKY, next, shift};
use second::samples::dice::Dice;
use second::samples::draft::Draft;
use second::samples::mutations::ALL as MUTATIONS;
use second::samples::{Job, Sample, large};

use crate::group::Group;
use crate::judge::Judge;
use crate::refusals::{CODES, DAYS, FILES};

const CODE: u32 = 300;
const DAY: u32 = 20240304;

/// Room for any register, and for an old one with a few ranges more.
const ROOM: usize = HEAD + RANGE * RANGES;
const OLD_ROOM: usize = HEAD + RANGE * (OLD_RANGES + 4);

/// What a byte of a full register is changed by.
const CHANGES: [u8; 3] = [0x01, 0x80, 0xFF];

/// The random groups take their share of the files of a round.
pub fn all(files: u64) -> Vec<Group> {
    let registers = edges();
    let old = old().len() as u64;
    vec![
        Group::listed("new registers", CODES.len() as u64, |judge, _, case| {
            (0..=HEAD + 3).for_each(|room| judge.blank(CODES[case as usize], room));
        }),
        Group::listed("registers at their edges", registers.len() as u64, move |judge, _, case| {
            judge.enter(&registers[case as usize], plain().job(), ROOM);
        }),
        Group::listed("registers of version 1, each byte changed", old, each_byte),
        Group::listed("registers of version 1 of each length", old + 14, each_length),
        Group::listed(
            "registers of 1,024 ranges, each byte changed",
            ROOM as u64,
            each_byte_of_full,
        ),
        Group::listed("registers about 1,024 ranges long", 40, lengths_of_full),
        Group::listed("registers, two ranges", 12 * 12, two_ranges),
        Group::listed("registers in both versions", OLD_RANGES as u64 + 3, versions),
        Group::listed("registers, refusals in their order", orders(), order),
        Group::listed("registers, files about 10,000,000 bytes", 2, lengths),
        Group::listed("registers, targets of each length", OLD_ROOM as u64, targets),
        Group::listed("registers, targets about 12,301 bytes", 40, long_targets),
        Group::listed("registers, days about the tenth", TRICKY.len() as u64, tenth_day),
        Group::random("registers, rows of files", files.div_ceil(60), row),
        Group::random(
            "registers, rows of files on nearly full ones",
            files.div_ceil(600),
            full_row,
        ),
        Group::random("registers, thirty days", files.div_ceil(600), thirty_days),
        Group::random("registers, blocks of one item in any order", 2, many_blocks),
    ]
}

fn register(latest: u32, ranges: &[(u32, u32, u32)]) -> Register {
    let ranges = ranges.iter().map(|&(day, first, last)| Range { day, first, last }).collect();
    Register { code: CODE, latest, ranges }
}

fn new() -> Register {
    register(0, &[])
}

/// Ranges of one number each, evenly over eleven days.
fn filled(count: usize) -> Register {
    let a_day = count.div_ceil(11);
    let range = |place: usize| {
        let number = 3 * (place % a_day) as u32 + 5;
        (shift(DAY, (place / a_day) as i32 - 10), number, number)
    };
    register(DAY, &(0..count).map(range).collect::<Vec<_>>())
}

/// The same with larger numbers than a file of some group uses.
fn raised(count: usize, by: u32) -> Register {
    let mut register = filled(count);
    for range in &mut register.ranges {
        range.first += by;
        range.last += by;
    }
    register
}

/// A full register of version 1.
fn old() -> Vec<u8> {
    filled(OLD_RANGES).write_as(1)
}

/// A file of one block.
fn block(numbers: &[u32], closing: u32) -> Sample {
    let mut draft = Draft::new(CODE, DAY);
    draft.numbered(DAY, numbers, closing);
    draft.sample()
}

fn plain() -> Sample {
    block(&[1, 2], 3)
}

// Which bytes are a register.

/// Both sides of every bound of its parts, one range more and fewer than it may
/// have, each in both versions, and other marks and versions.
fn edges() -> Vec<Vec<u8>> {
    let mut all: Vec<Register> = Vec::new();
    all.extend([0, 1, 299, 300, 301, 9_999, 10_000, 65_535].map(|code| Register { code, ..new() }));
    let days = [0, 1, 101, 10_101, 20230229, 20240303, DAY, 20240305, 99_991_231, 99_991_232];
    for latest in days.into_iter().chain([u32::MAX]) {
        all.push(register(latest, &[]));
        for day in (-12..=2).map(|days| shift(DAY, days)).chain(days) {
            all.push(register(latest, &[(day, 5, 5)]));
        }
    }
    let numbers = [0, 1, 2, 9_999_998, 9_999_999, 10_000_000, u32::MAX - 1, u32::MAX];
    for first in numbers {
        all.extend(numbers.map(|last| register(DAY, &[(DAY, first, last)])));
    }
    for most in [OLD_RANGES as u32, RANGES as u32] {
        for count in most - 1..=most + 2 {
            let range = |place| (DAY, 5 + 2 * place, 5 + 2 * place);
            all.push(register(DAY, &(0..count).map(range).collect::<Vec<_>>()));
        }
    }
    let mut bytes: Vec<Vec<u8>> =
        [1, 2].iter().flat_map(|&version| all.iter().map(move |it| it.write_as(version))).collect();
    bytes.extend(
        [0, 3, 4, 255, 256, 257, 258, 512, 513, 514, u16::MAX].map(|it| new().write_as(it)),
    );
    for mark in [b"crg", b"GRC", b"CRF", b"BRG"] {
        bytes.push([mark, &new().write()[3..]].concat());
    }
    bytes.push(Vec::new());
    bytes
}

fn each_byte(judge: &mut Judge, _: &mut Dice, place: u64) {
    for byte in 0..=255 {
        let mut bytes = old();
        bytes[place as usize] = byte;
        judge.enter(&bytes, plain().job(), OLD_ROOM);
    }
}

/// The bytes of the head take every value, the others some.
fn each_byte_of_full(judge: &mut Judge, dice: &mut Dice, place: u64) {
    let changes: Vec<u8> = if place < HEAD as u64 {
        (0..=255).collect()
    } else {
        vec![CHANGES[dice.place(CHANGES.len())]]
    };
    for change in changes {
        let mut bytes = filled(RANGES).write();
        bytes[place as usize] ^= change;
        judge.enter(&bytes, plain().job(), ROOM);
    }
}

fn each_length(judge: &mut Judge, _: &mut Dice, length: u64) {
    with_length(judge, old(), length as usize);
}

/// From two ranges fewer to one more.
fn lengths_of_full(judge: &mut Judge, _: &mut Dice, case: u64) {
    with_length(judge, filled(RANGES + 2).write(), ROOM - 26 + case as usize);
}

/// Cut or made longer; then with the count changed along with it, where it can be.
fn with_length(judge: &mut Judge, mut bytes: Vec<u8>, length: usize) {
    bytes.resize(length, 0);
    judge.enter(&bytes, plain().job(), ROOM);
    if let Some(count) = bytes.len().checked_sub(HEAD) {
        bytes[11..HEAD].copy_from_slice(&((count / RANGE) as u16).to_be_bytes());
        judge.enter(&bytes, plain().job(), ROOM);
    }
}

/// So many ranges, one more than version 1 may have among them, in both.
fn versions(judge: &mut Judge, dice: &mut Dice, count: u64) {
    let register = filled(count as usize);
    for file in [plain(), block(&[6], 0), file_of_row(dice, DAY)] {
        for version in [1, 2] {
            judge.enter(&register.write_as(version), file.job(), ROOM);
        }
    }
}

/// The second about the end of the first, on the same day and on others.
fn two_ranges(judge: &mut Judge, _: &mut Dice, case: u64) {
    let (first, last) = (1 + case as u32 % 12, 1 + case as u32 / 12);
    for days in -1..=1 {
        let ranges = [(shift(DAY, -3), 5, 7), (shift(DAY, days - 3), first, last)];
        judge.enter(&register(DAY, &ranges).write(), plain().job(), ROOM);
    }
    judge.enter(&register(DAY, &[(DAY, first, last)]).write(), block(&[6, 7], 8).job(), ROOM);
}

// Refusals.

fn orders() -> u64 {
    (CODES.len() * DAYS.len() * FILES.len()) as u64
}

/// Codes, days and files as checking is compared on, for registers that are
/// right and wrong.
fn order(judge: &mut Judge, _: &mut Dice, case: u64) {
    let case = case as usize;
    let code = CODES[case % CODES.len()];
    let day = DAYS[case / CODES.len() % DAYS.len()];
    let file = FILES[case / CODES.len() / DAYS.len()];
    let registers =
        [new(), register(DAY, &[]), register(99_991_231, &[]), Register { code: 1, ..new() }];
    for bytes in registers.iter().map(Register::write).chain([b"CRG".to_vec()]) {
        for room in [0, ROOM] {
            judge.enter(&bytes, Job { code, day, file }, room);
        }
    }
}

fn lengths(judge: &mut Judge, _: &mut Dice, case: u64) {
    let mut sample = plain();
    sample.file.resize(10_000_000 + case as usize, b'x');
    for bytes in [new().write(), b"CRG".to_vec()] {
        judge.enter(&bytes, sample.job(), ROOM);
    }
}

fn targets(judge: &mut Judge, _: &mut Dice, room: u64) {
    let some = [new().write(), filled(3).write(), old()];
    for (bytes, file) in some.iter().zip([plain(), plain(), block(&[6], 0)]) {
        judge.enter(bytes, file.job(), room as usize);
    }
}

/// Registers that take all or nearly all of it.
fn long_targets(judge: &mut Judge, _: &mut Dice, case: u64) {
    for count in RANGES - 2..=RANGES {
        let bytes = filled(count).write();
        for file in [plain(), block(&[6], 0), block(&[4], 0)] {
            judge.enter(&bytes, file.job(), ROOM - 26 + case as usize);
        }
    }
}

/// A register whose ranges are zero to twelve days old when a file comes.
fn tenth_day(judge: &mut Judge, _: &mut Dice, case: u64) {
    let latest = TRICKY[case as usize];
    for age in 0..=10 {
        let bytes = register(latest, &[(shift(latest, -age), 1, 9)]).write();
        for later in 0..=12 {
            let day = shift(latest, later);
            let mut draft = Draft::new(CODE, day);
            draft.numbered(day, &[10, 11], 0);
            draft.numbered(shift(day, -10), &[7, 8], 9);
            judge.enter(&bytes, draft.sample().job(), ROOM);
        }
    }
}

// Rows of files.

/// A register, and the days and numbers of the files entered in it: "each pair
/// of day and input number unique".
struct Kept {
    bytes: Vec<u8>,
    taken: BTreeSet<(u32, u32)>,
}

impl Kept {
    fn new(bytes: Vec<u8>) -> Self {
        Kept { bytes, taken: BTreeSet::new() }
    }

    fn enter(&mut self, judge: &mut Judge, dice: &mut Dice, sample: &Sample) {
        let room = room(dice, &self.bytes);
        let Some(bytes) = judge.enter(&self.bytes, sample.job(), room) else { return };
        self.bytes = bytes;
        for taken in uses(&check::parse(&sample.file)) {
            if !self.taken.insert(taken) {
                judge.fail(|| format!("taken twice: {taken:?}"));
            }
        }
    }
}

/// Files of one day on one register, of either version.
fn row(judge: &mut Judge, dice: &mut Dice, _: u64) {
    let bytes = new().write_as(dice.range(1, 2) as u16);
    files_on(judge, dice, bytes);
}

/// On one that has room for a few ranges more, or for none.
fn full_row(judge: &mut Judge, dice: &mut Dice, _: u64) {
    let bytes = raised(RANGES - dice.place(25), 200).write();
    files_on(judge, dice, bytes);
}

fn files_on(judge: &mut Judge, dice: &mut Dice, bytes: Vec<u8>) {
    let mut kept = Kept::new(bytes);
    for _ in 0..dice.range(1, 12) {
        let sample = file_of_row(dice, DAY);
        kept.enter(judge, dice, &sample);
    }
}

/// A participant's register over a month, with days on which nothing comes.
fn thirty_days(judge: &mut Judge, dice: &mut Dice, _: u64) {
    let mut kept = Kept::new(new().write());
    let mut day = dice.pick(&TRICKY[..8]);
    for _ in 0..30 {
        for _ in 0..dice.below(4) {
            let sample = file_of_row(dice, day);
            kept.enter(judge, dice, &sample);
        }
        day = next(day);
        if dice.once_in(12) {
            day = shift(day, dice.below(14) as i32);
        }
    }
}

/// Mostly enough; now and then about what the register takes now.
fn room(dice: &mut Dice, bytes: &[u8]) -> usize {
    if dice.once_in(8) { bytes.len() + dice.place(30) } else { ROOM }
}

/// Blocks of a few numbers among not many, in any order and on any of eleven
/// days, some closed with a number; now and then a fault or another job.
fn file_of_row(dice: &mut Dice, day: u32) -> Sample {
    let mut draft = Draft::new(CODE, day);
    for _ in 0..dice.range(1, 5) {
        let day = shift(day, -(dice.pick(&[0, 0, 0, 0, 1, 2, 9, 10]) as i32));
        let first = dice.range(1, 120) as u32;
        let last = first + dice.below(6) as u32;
        let numbers: Vec<u32> = (first..=last).collect();
        let closing = if dice.once_in(3) { last + 1 } else { 0 };
        draft.numbered(day, &numbers, closing);
    }
    if dice.once_in(24) {
        let mutation = &MUTATIONS[dice.place(MUTATIONS.len())];
        (mutation.apply)(&mut draft, dice);
    }
    let mut sample = draft.sample();
    match dice.below(80) {
        0 => sample.code = 301,
        1 => sample.day = shift(sample.day, -1),
        _ => {}
    }
    sample
}

/// As many blocks as a file can have: ascending, descending, odd before even or
/// shuffled. They close up to one range, or to a few, or to too many.
fn many_blocks(judge: &mut Judge, dice: &mut Dice, case: u64) {
    let step = if case == 0 { 1 } else { dice.range(1, 2) as u32 };
    for order in 0..4 {
        let sample = large::blocks_of_one(dice, large::MOST, order, step);
        let twice = dice.range(1, 60_000) as u32;
        let once = register(DAY, &[(DAY, twice, twice)]);
        let nearly_full = raised(RANGES - 1, 200_000);
        for register in [new(), once, nearly_full] {
            judge.enter(&register.write(), sample.job(), ROOM);
        }
    }
}
