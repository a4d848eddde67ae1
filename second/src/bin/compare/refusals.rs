//! Groups about checking's refusals, and about what lies beside the file in
//! memory. (Codes and days by themselves are among the listed edges.)

use second::samples::clean;
use second::samples::dice::Dice;
use second::samples::{Job, Sample};

use crate::group::Group;
use crate::judge::Judge;

pub const CODES: [u32; 8] = [0, 1, 300, 9999, 10_000, 65_836, 1 << 31, u32::MAX];
pub const DAYS: [u32; 12] = [
    19991231,
    20000101,
    20000102,
    20991230,
    20991231,
    21000101,
    20230229,
    20240229,
    20240304,
    20000229,
    0,
    u32::MAX,
];
pub const FILES: [&[u8]; 9] =
    [b"", b"\x1a", b"\r\n\x1a", b"x", b"x\x1a", b"\x1ax\x1a", b"\r\n", b"x\x1ay", b"\x1a\x1a"];
const ROOMS: [[usize; 3]; 10] = [
    [0, 0, 0],
    [3, 3, 3],
    [1, 0, 0],
    [0, 1, 0],
    [0, 0, 1],
    [4, 5, 5],
    [5, 4, 5],
    [5, 5, 4],
    [1, 2, 3],
    [256, 255, 256],
];
const LENGTHS: [usize; 5] = [9_999_998, 9_999_999, 10_000_000, 10_000_001, 10_000_002];

pub fn all() -> Vec<Group> {
    let orders = CODES.len() * DAYS.len() * FILES.len();
    vec![
        Group::listed("refusals in their order", orders as u64, order),
        Group::listed("lengths about 10,000,000", LENGTHS.len() as u64, lengths),
        Group::random("rooms of different lengths", 2_000, |judge, dice, _| {
            let sample = clean::small(dice).sample();
            let rooms = [40; 3].map(|most| dice.place(most));
            judge.uneven_rooms(sample.job(), rooms);
        }),
        Group::random("files cut short in memory that goes on", 2_000, cut_short),
    ]
}

/// Every combination of codes, days, files and rooms.
fn order(judge: &mut Judge, dice: &mut Dice, case: u64) {
    let case = case as usize;
    let code = CODES[case % CODES.len()];
    let day = DAYS[case / CODES.len() % DAYS.len()];
    let file = FILES[case / CODES.len() / DAYS.len()].to_vec();
    let sample = Sample { code, day, file };
    judge.small(&sample, dice);
    ROOMS.into_iter().for_each(|rooms| judge.uneven_rooms(sample.job(), rooms));
}

/// Files about the largest length: the mark early, late, nowhere or first; and
/// the same with a code, a day or rooms that are refused as well.
fn lengths(judge: &mut Judge, _: &mut Dice, case: u64) {
    let length = LENGTHS[case as usize];
    for mark in [Some(0), Some(5), Some(length - 1), None] {
        let mut file = vec![b'x'; length];
        if let Some(mark) = mark {
            file[mark] = 0x1a;
        }
        let mut sample = Sample { code: 300, day: 20240304, file };
        judge.large(sample.job());
        judge.uneven_rooms(sample.job(), [2, 2, 3]);
        for (code, day) in [(0, 20240304), (300, 20230229), (10_000, 0)] {
            (sample.code, sample.day) = (code, day);
            judge.large(sample.job());
            judge.uneven_rooms(sample.job(), [2, 2, 3]);
        }
    }
}

/// A clean file lent only in part: its other bytes, the mark among them, still
/// stand before and behind in memory and must not be seen.
fn cut_short(judge: &mut Judge, dice: &mut Dice, _: u64) {
    let sample = clean::small(dice).sample();
    let end = dice.place(sample.file.len() + 1);
    let start = if dice.once_in(3) { dice.place(end + 1) } else { 0 };
    judge.lent(Job { file: &sample.file[start..end], ..sample.job() }, dice);
}
