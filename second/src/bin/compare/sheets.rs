//! Groups about the turnover sheet: opening, posting, showing.

use second::check;
use second::samples::clean::{self, LARGEST_AMOUNT, ORDINARY, PRIORITY};
use second::samples::dice::Dice;
use second::samples::draft::{Draft, Payment};
use second::samples::mutations::ALL as MUTATIONS;
use second::samples::{Job, Sample};
use second::sheet::{self, LISTED, SIDES, TURNOVERS};

use crate::group::Group;
use crate::judge::Judge;
use crate::refusals::{CODES, DAYS, FILES};

const CODE: u32 = 300;
const DAY: u32 = 20240304;

/// 10^17 - 1, the largest turnover.
const LARGEST: i64 = 99_999_999_999_999_999;
/// A 32 has no larger amount.
const LARGEST_REQUEST: u64 = 100_000_000_000;

const NEW: [i64; TURNOVERS] = [0; TURNOVERS];

/// The random groups take their share of the files of a round.
pub fn all(files: u64) -> Vec<Group> {
    let lists = lists();
    let orders = CODES.len() * DAYS.len() * FILES.len();
    let kinds = PRIORITY.len() + ORDINARY.len();
    vec![
        Group::listed("lists", lists.len() as u64, move |judge, _, case| {
            list(judge, &lists[case as usize]);
        }),
        Group::listed("sheets, refusals in their order", orders as u64, order),
        Group::listed("sheets, files about 10,000,000 bytes", 2, lengths),
        Group::listed("sheets, each type and code", 100, each_type),
        Group::listed("sheets, each place in a list", (kinds * LISTED) as u64, each_place),
        Group::random("sheets, limits", files.div_ceil(12), limits),
        Group::random("sheets, rows of files", files.div_ceil(60), row),
        Group::random("sheets, large files", 1, large),
        Group::random("turnovers shown", files.div_ceil(60), shown),
    ]
}

/// A file of one block.
fn block(code: u32, items: &[Payment]) -> Sample {
    Draft::block_of(code, DAY, items).sample()
}

// Lists.

/// Every length about the limit, codes at the ends of their range at every
/// place, and a repeat at every pair of places.
fn lists() -> Vec<Vec<u32>> {
    let of_length = |length: usize| -> Vec<u32> { (300..300 + length as u32).collect() };
    let mut lists: Vec<Vec<u32>> = (0..=LISTED + 6).map(of_length).collect();
    lists.extend((1..=LISTED as u32 + 2).map(|length| (10_000 - length..=9_999).collect()));
    for length in [1, 2, LISTED - 1, LISTED, LISTED + 1] {
        for place in 0..length {
            lists.extend([0, 1, 9_999, 10_000, 10_300, 65_836, 1 << 31, u32::MAX].map(|code| {
                let mut list = of_length(length);
                list[place] = code;
                list
            }));
        }
    }
    for length in [2, 3, LISTED, LISTED + 1] {
        for first in 0..length {
            for second in first + 1..length {
                let mut list = of_length(length);
                list[second] = list[first];
                lists.push(list);
            }
        }
    }
    lists
}

/// Opened over memory that holds anything; then a file that posts nothing, one
/// that posts, one with faults and one that is refused.
fn list(judge: &mut Judge, codes: &[u32]) {
    for held in [0, 1, -1, i64::MIN, i64::MAX] {
        judge.open(codes, held);
    }
    let files = [
        block(CODE, &[(55, 710, 0, 1)]),
        block(CODE, &[(11, 301, 0, 1)]),
        block(CODE, &[(99, 301, 0, 1)]),
        Sample { code: 0, day: 0, file: Vec::new() },
    ];
    for sample in files {
        judge.post(codes, &mut [7; TURNOVERS], sample.job());
    }
}

// Checking's own refusals.

/// Codes, days and files as checking is compared on, for lists that are right
/// and wrong.
fn order(judge: &mut Judge, _: &mut Dice, case: u64) {
    let case = case as usize;
    let code = CODES[case % CODES.len()];
    let day = DAYS[case / CODES.len() % DAYS.len()];
    let file = FILES[case / CODES.len() / DAYS.len()];
    for codes in [&[][..], &[300], &[300, 300], &[0]] {
        judge.post(codes, &mut [3; TURNOVERS], Job { code, day, file });
    }
}

fn lengths(judge: &mut Judge, _: &mut Dice, case: u64) {
    let mut sample = block(CODE, &[(11, 710, 0, 1)]);
    sample.file.resize(10_000_000 + case as usize, b'x');
    for codes in [&[][..], &[300, 710], &[0]] {
        judge.post(codes, &mut [0; TURNOVERS], sample.job());
    }
}

// What an item posts.

/// All pairs of second and third code, those that break a rule too, for lists
/// that have them or not.
fn each_type(judge: &mut Judge, _: &mut Dice, kind: u64) {
    const PARTIES: [u32; 7] = [0, 300, 710, 820, 999, 10_300, 9_999_999];
    let most = if kind == 32 { LARGEST_REQUEST } else { LARGEST_AMOUNT };
    for second in PARTIES {
        for third in PARTIES {
            for amount in [0, 1, most] {
                let sample = block(CODE, &[(kind as u32, second, third, amount)]);
                for codes in [&[][..], &[300], &[300, 710, 820], &[820, 710], &[999, 820, 300]] {
                    judge.post(codes, &mut [0; TURNOVERS], sample.job());
                }
            }
        }
    }
}

/// The payer at each place of a full list; the beneficiary at some.
fn each_place(judge: &mut Judge, dice: &mut Dice, case: u64) {
    let (kind, place) = (case as usize / LISTED, case as usize % LISTED);
    let kind = *PRIORITY.iter().chain(&ORDINARY).nth(kind).expect("a type");
    let mut codes: Vec<u32> = (1..=9_999).step_by(150).take(LISTED).collect();
    dice.shuffle(&mut codes);
    for other in [place, 0, LISTED - 1, dice.place(LISTED), dice.place(LISTED)] {
        let (payer, beneficiary) = (codes[place], codes[other]);
        let sample = if matches!(kind, 35 | 37 | 45) {
            block(CODE, &[(kind, payer, beneficiary, 5)])
        } else {
            block(payer, &[(kind, beneficiary, 0, 5)])
        };
        judge.post(&codes, &mut [1; TURNOVERS], sample.job());
    }
}

// The limit.

/// A few items on turnovers near the limit, past it, or anywhere.
fn limits(judge: &mut Judge, dice: &mut Dice, _: u64) {
    let codes = [300, 710, 820];
    let codes = &codes[..dice.range(1, 3) as usize];
    let mut turnovers = NEW;
    turnovers.iter_mut().for_each(|turnover| *turnover = preset(dice));
    let kinds = if dice.once_in(3) { &PRIORITY[..] } else { &ORDINARY };
    let items: Vec<Payment> = (0..dice.range(1, 6))
        .map(|_| {
            let kind = dice.pick(kinds);
            let unlisted = dice.once_in(60);
            let second = if unlisted { 999 } else { dice.pick(codes) };
            let third = if matches!(kind, 35 | 37 | 45) { dice.pick(codes) } else { 0 };
            (kind, second, third, amount(dice, kind))
        })
        .collect();
    judge.post(codes, &mut turnovers, block(CODE, &items).job());
}

fn preset(dice: &mut Dice) -> i64 {
    let few = dice.below(3) as i64;
    let size = match dice.below(16) {
        0..=10 => 0,
        11 => LARGEST - few,
        12 => LARGEST + few,
        13 => LARGEST - LARGEST_AMOUNT as i64 + 1 - few,
        14 => dice.pick(&[i64::MAX - few, i64::MAX - LARGEST_AMOUNT as i64 + 1 - few]),
        _ => (dice.throw() >> 1) as i64,
    };
    // The least number has no opposite.
    if dice.once_in(2) { size } else { -size - i64::from(size == i64::MAX) }
}

fn amount(dice: &mut Dice, kind: u32) -> u64 {
    let most = if kind == 32 { LARGEST_REQUEST } else { LARGEST_AMOUNT };
    match dice.below(4) {
        0 => dice.below(4),
        1 => most - dice.below(3),
        2 => dice.below(most),
        _ => 1,
    }
}

// Rows of files.

/// A day on a new sheet: files that are posted, with faulty, unlisted, too
/// large and refused ones among them. After each "the debits of the first sheet
/// together equal the posted additions less the posted cancellations, and so do
/// the credits"; and so it is on the second sheet.
fn row(judge: &mut Judge, dice: &mut Dice, _: u64) {
    let codes = participants(dice);
    let mut turnovers = NEW;
    let mut net = [0; 2];
    for _ in 0..dice.range(1, 8) {
        let sample = file_of_row(dice, &codes);
        if judge.post(&codes, &mut turnovers, sample.job()) {
            for posting in sheet::postings(&check::parse(&sample.file)) {
                net[posting.payer.1 as usize / 2] += posting.amount;
            }
        }
        let columns = SIDES.map(|side| sheet::together(&turnovers, side));
        if columns != [net[0], net[0], net[1], net[1]] {
            judge.fail(|| format!("not conserved: {columns:?}, and posted was {net:?}"));
        }
    }
}

/// Mostly a few; now and then nobody or a full list.
fn participants(dice: &mut Dice) -> Vec<u32> {
    let length = match dice.below(8) {
        0 => dice.place(LISTED + 1),
        1 => LISTED,
        _ => dice.range(1, 5) as usize,
    };
    let mut codes: Vec<u32> = (1..=9_999).step_by(1 + dice.place(150)).take(length).collect();
    dice.shuffle(&mut codes);
    codes
}

fn file_of_row(dice: &mut Dice, codes: &[u32]) -> Sample {
    let strangers = [300, 710, 820];
    let codes = if codes.is_empty() { &strangers } else { codes };
    let mut draft = match dice.below(8) {
        0 => clean::small(dice),
        1 | 2 => heavy(dice, codes),
        _ => clean::small_among(dice, codes),
    };
    if dice.once_in(6) {
        let mutation = &MUTATIONS[dice.place(MUTATIONS.len())];
        (mutation.apply)(&mut draft, dice);
    }
    let mut sample = draft.sample();
    match dice.below(60) {
        0 => sample.code = dice.pick(&[0, 10_000]),
        1 => sample.day = 20230229,
        2 => sample.file.retain(|&byte| byte != 0x1a),
        3 => sample.file.insert(0, 0x1a),
        _ => {}
    }
    sample
}

/// Blocks of large amounts between two participants: some of them pass the
/// limit.
fn heavy(dice: &mut Dice, codes: &[u32]) -> Draft {
    let other = dice.pick(codes);
    let kind = dice.pick(&[11, 13]);
    let amount = LARGEST_AMOUNT - dice.below(2);
    let mut draft = Draft::new(dice.pick(codes), DAY);
    for _ in 0..dice.range(1, 2) {
        draft.block(&vec![(kind, other, 0, amount); dice.range(1, 100) as usize]);
    }
    draft
}

/// As many items as a file can have, on a full list.
fn large(judge: &mut Judge, dice: &mut Dice, _: u64) {
    let codes: Vec<u32> = (1..=9_999).step_by(150).take(LISTED).collect();
    let mut turnovers = NEW;
    for most in [1_000_000_000, LARGEST_AMOUNT] {
        let sample = clean::of_size_among(dice, 10_000_000, &codes, most).sample();
        judge.post(&codes, &mut turnovers, sample.job());
        judge.post(&codes[1..], &mut turnovers, sample.job());
    }
}

// Showing.

/// Both sides of every power of ten, and any number.
fn shown(judge: &mut Judge, dice: &mut Dice, case: u64) {
    let power = 10_i64.pow(case as u32 % 19);
    for turnover in [0, power - 1, power, power + 1, i64::MAX] {
        judge.show(turnover);
        judge.show(-turnover);
    }
    judge.show(i64::MIN);
    for _ in 0..20 {
        judge.show(dice.throw() as i64 >> dice.below(64));
    }
}
