//! Groups about writing an output file.

use second::deliver::deliver;
use second::heading::Heading;
use second::samples::clean::LARGEST_AMOUNT;
use second::samples::deliveries::{self, Parcel};
use second::samples::dice::Dice;
use second::samples::mutations::ALL as MUTATIONS;
use second::samples::soup;

use crate::calls::{NUMBERS, OUTCOMES, STANDINGS};
use crate::group::Group;
use crate::groups::change_byte;
use crate::judge::Judge;
use crate::refusals::{CODES, DAYS};

const CERTIS: u32 = 999;
const DAY: u32 = 20240304;

/// Items of one file at most.
const MOST: usize = 30_000;

/// Types that meet in a row: of all classes, some of three parties.
const ROW_TYPES: [u32; 8] = [11, 12, 35, 55, 1, 21, 45, 44];

/// The random groups take their share of the files of a round.
pub fn all(files: u64) -> Vec<Group> {
    let rows = rows();
    let broken = broken_items();
    let worked = worked().items.len() as u64;
    let orders = CODES.len() * DAYS.len();
    vec![
        Group::listed("deliveries, every type, outcome and standing", 100, every_type),
        Group::listed(
            "deliveries, rows of types about the ends of classes",
            rows.len() as u64,
            move |judge, dice, case| row(judge, dice, &rows[case as usize]),
        ),
        Group::listed("deliveries, starts", NUMBERS.len() as u64, starts),
        Group::listed("deliveries, numbers of items", COUNTS.len() as u64, counts),
        Group::listed(
            "deliveries, each rule broken",
            broken.len() as u64,
            move |judge, dice, case| broken_item(judge, dice, &broken[case as usize]),
        ),
        Group::listed("deliveries, the worked example cut short", worked + 1, cut_short),
        Group::listed("deliveries, the worked example, each byte changed", worked, each_byte),
        Group::listed("deliveries, EC", 100, reference_numbers),
        Group::listed(
            "deliveries, two recipients",
            (RECIPIENTS.len() * RECIPIENTS.len()) as u64,
            two_recipients,
        ),
        Group::listed("deliveries, sums about 10^17", 5 * 8, sums),
        Group::listed("deliveries, targets of each length", 320, targets),
        Group::listed("deliveries, refusals in their order", orders as u64, order),
        Group::random("deliveries, clean items", files.div_ceil(12), |judge, dice, _| {
            let (_, parcel) = deliveries::small(dice);
            judge.parcel(&parcel.delivery(), dice);
        }),
        Group::random("deliveries, mutations", files.div_ceil(8), mutated),
        Group::random("deliveries, changed bytes", files.div_ceil(12), changed_bytes),
        Group::random("deliveries, other numbers", files.div_ceil(24), other_numbers),
        Group::random("deliveries, line soup", files.div_ceil(24), line_soup),
        Group::random("deliveries, 30,000 items", 2, large),
    ]
}

// Slices by hand.

/// A heading whose codes are all the same, so that its item goes to that one
/// whatever became of it.
fn heading(kind: u32, code: u32) -> Heading {
    let third = if matches!(kind, 35 | 37 | 45) { code } else { 0 };
    Heading { kind, day: DAY, first: code, number: 17, second: code, output: 0, third }
}

fn text(heading: Heading) -> String {
    String::from_utf8(heading.write()).expect("digits")
}

fn slice<T: AsRef<str>>(lines: &[T]) -> Vec<u8> {
    lines.iter().flat_map(|line| [line.as_ref().as_bytes(), b"\r\n"].concat()).collect()
}

/// An item with an amount, and an EC between two other lines.
fn item(heading: Heading, amount: u64) -> Vec<u8> {
    slice(&[text(heading), format!("KC:{amount} {DAY}"), "EC:5".into(), "AV:x".into()])
}

fn parcel(items: Vec<u8>, outcomes: &[u32], standings: &[u32], start: u32) -> Parcel {
    let (outcomes, standings) = (outcomes.to_vec(), standings.to_vec());
    Parcel { items, outcomes, standings, certis: CERTIS, day: DAY, start }
}

/// Items in a row, all delivered alike from number 1 on.
fn alike(items: Vec<u8>, count: usize) -> Parcel {
    parcel(items, &vec![1; count], &vec![1; count], 1)
}

/// Two items of two groups to 0300, of which one has its EC replaced.
fn worked() -> Parcel {
    let lines = [
        "HD:12 20240304 0000300 0000017 0000710 0000000 0000000",
        "KC:12500 20240304",
        "EC:5",
        "AV:x",
        "   y",
        "HD:35 20240304 0000990 0000009 0000820 0000000 0000300",
        "KC:7 20240304",
    ];
    parcel(slice(&lines), &[8, 1], &[1, 2], 42)
}

// What becomes of an item.

/// All outcomes, standings and starts, with a third code and without.
fn every_type(judge: &mut Judge, _: &mut Dice, kind: u64) {
    for third in [0, 990] {
        let heading = Heading { second: 710, third, ..heading(kind as u32, 300) };
        let items = item(heading, 1);
        for outcome in OUTCOMES {
            for standing in STANDINGS {
                for start in NUMBERS {
                    let parcel = parcel(items.clone(), &[outcome], &[standing], start);
                    judge.deliver(&parcel.delivery(), 400);
                }
            }
        }
    }
}

/// Every row of up to three types.
fn rows() -> Vec<Vec<u32>> {
    let mut rows: Vec<Vec<u32>> = vec![Vec::new()];
    let mut from = 0;
    for _ in 0..3 {
        let shorter = rows[from..].to_vec();
        from = rows.len();
        let longer = |row: &Vec<u32>| ROW_TYPES.map(|kind| [&row[..], &[kind]].concat());
        rows.extend(shorter.iter().flat_map(longer));
    }
    rows
}

/// Started so that some of its numbers stand before an end and some behind it:
/// where one class ends with an item and the next begins with the next one.
fn row(judge: &mut Judge, dice: &mut Dice, kinds: &[u32]) {
    let items: Vec<u8> = kinds.iter().flat_map(|&kind| item(heading(kind, 300), 7)).collect();
    let any = |dice: &mut Dice| kinds.iter().map(|_| dice.pick(&[1, 7])).collect::<Vec<u32>>();
    let rows = [vec![1; kinds.len()], vec![7; kinds.len()], vec![8; kinds.len()], any(dice)];
    for end in [0, 5_000_000, 9_000_000, 9_999_999] {
        for start in (end + 2_u32).saturating_sub(4)..=end + 1 {
            for outcomes in &rows {
                let standings: Vec<u32> = kinds.iter().map(|_| 1).collect();
                judge.parcel(&parcel(items.clone(), outcomes, &standings, start).delivery(), dice);
            }
        }
    }
}

/// Ten items from numbers about every end, and far behind them.
fn starts(judge: &mut Judge, _: &mut Dice, case: u64) {
    for kind in ROW_TYPES {
        let items = item(heading(kind, 300), 1).repeat(10);
        for start in NUMBERS[case as usize].saturating_sub(12)..=NUMBERS[case as usize] {
            let ones = [1; 10];
            judge.deliver(&parcel(items.clone(), &ones, &ones, start).delivery(), 2_000);
        }
    }
}

// Refusal 30.

const COUNTS: [usize; 9] = [0, 1, 2, 3, MOST - 1, MOST, MOST + 1, MOST + 2, 65_537];

/// So many items, with an outcome and a standing for each, one fewer or one more.
fn counts(judge: &mut Judge, _: &mut Dice, case: u64) {
    let count = COUNTS[case as usize];
    let good = item(heading(11, 300), 1);
    for items in
        [good.repeat(count), b"HD:\r\n".repeat(count), [good, b"ZZ:\r\n".repeat(count)].concat()]
    {
        for outcomes in count.saturating_sub(1)..=count + 1 {
            for standings in count.saturating_sub(1)..=count + 1 {
                let parcel = parcel(items.clone(), &vec![1; outcomes], &vec![1; standings], 1);
                judge.deliver(&parcel.delivery(), items.len() + 200);
            }
        }
    }
}

// Refusal 31.

/// Items that each break one rule, and some that break none that is asked.
fn broken_items() -> Vec<Vec<String>> {
    let good = heading(11, 300);
    let with = |heading: Heading, lines: &[&str]| {
        [&[text(heading)][..], &lines.iter().map(ToString::to_string).collect::<Vec<_>>()].concat()
    };
    let kc = "KC:1 20240304";
    let mut all: Vec<Vec<String>> = Vec::new();
    // 1 to 7, 23 and 24: lines below a good heading.
    let lines: [&[&str]; 36] = [
        &[kc],
        &[kc, "AV:\u{7f}"],
        &[kc, "ID:\t"],
        &[kc, "ID:\r"],
        &[kc, "\nID:"],
        &[kc, "ID:\u{1a}"],
        &["\u{1a}", kc],
        &[kc, "x"],
        &[kc, ""],
        &[kc, "hd:"],
        &[kc, "ID:", "ID:"],
        &[kc, kc],
        &[kc, "EC:1", "ID:", "EC:1"],
        &["   ", kc],
        &["KC:"],
        &["KC:1 2024030"],
        &["KC:1234567890123456 20240304"],
        &[kc, "EC:"],
        &[kc, "EC:12345678901"],
        &[kc, "EC:1", "   "],
        &[kc, "IN:1"],
        &[kc, "S0:1"],
        &[kc, "S9:"],
        &[kc, "UD:19"],
        &[kc, "DI:"],
        &[kc, "AV:x", "   ", "   ", "   ", "   "],
        &[kc, "UD:20 19"],
        &[kc, "UK:20 19"],
        &[kc, "UD: 18"],
        &[kc, "UK: 18"],
        &[kc, "UD: 0"],
        &[kc, "UK:20 0"],
        &[kc, "UD: 19", "UK:19 2000145399 NAME"],
        &[kc, "IN:7 3", "S3:0 1", "S9:9999999 99999999999999999"],
        &[],
        &["AK:1", "ZK:1"],
    ];
    all.extend(lines.map(|lines| with(good, lines)));
    // 8 and 9, by type.
    for kind in [1, 11, 32, 33, 35, 44, 45, 55] {
        let days = [20240304, 20240305, 20240403, 20240404, 20230229, 99991231, 10101, 0];
        for amount in [0_u64, 100_000_000_000, 100_000_000_001] {
            let of_day = |day| with(heading(kind, 300), &[&format!("KC:{amount} {day:08}")]);
            all.extend(days.map(of_day));
        }
    }
    // 10 to 15: parts of the heading.
    for day in [20240305, 20240304, 20240223, 20240222, 20240230, 0, 99999999] {
        all.push(with(Heading { day, ..good }, &[kc]));
    }
    for first in [0, 1, 301, 9_999_999] {
        all.push(with(Heading { first, ..good }, &[kc]));
    }
    for number in [0, 1, 9_999_999] {
        all.push(with(Heading { number, ..good }, &[kc]));
        all.push(with(Heading { output: number, ..good }, &[kc]));
        all.push(with(Heading { second: number, ..good }, &[kc]));
        all.push(with(Heading { third: number, ..good }, &[kc]));
        all.push(with(Heading { third: number, ..heading(37, 300) }, &[kc]));
    }
    all.extend((0..100).map(|kind| with(heading(kind, 300), &[kc])));
    let mut short = text(good);
    short.pop();
    all.push(vec![short, kc.to_string()]);
    all.push(vec![text(good) + "0", kc.to_string()]);
    all
}

/// At the first place of three items, at the second and at the last.
fn broken_item(judge: &mut Judge, dice: &mut Dice, lines: &[String]) {
    let good = item(heading(11, 300), 1);
    for place in 0..3 {
        let mut items = vec![good.clone(); 2];
        items.insert(place, slice(lines));
        judge.parcel(&alike(items.concat(), 3).delivery(), dice);
    }
    // Above the first heading: the lines without their own.
    let above = [slice(&lines[1..]), good].concat();
    judge.parcel(&alike(above, 1).delivery(), dice);
    // Alone, for the days about its own.
    for day in [DAY - 1, DAY + 1, 20240314, 20240315] {
        let parcel = Parcel { day, ..alike(slice(lines), 1) };
        judge.parcel(&parcel.delivery(), dice);
    }
}

/// The bytes before each place and behind it, with outcomes for two items, one
/// and none; and then with an end mark.
fn cut_short(judge: &mut Judge, dice: &mut Dice, place: u64) {
    let whole = worked();
    let (front, back) = whole.items.split_at(place as usize);
    for items in [front, back, &[front, b"\x1a"].concat(), &[front, b"\x1a", back].concat()] {
        for count in 0..=3 {
            let (outcomes, standings) = ([8, 1, 1], [1, 2, 1]);
            let (outcomes, standings) = (&outcomes[..count], &standings[..count]);
            judge.parcel(&parcel(items.to_vec(), outcomes, standings, 42).delivery(), dice);
        }
    }
}

/// Every byte instead of the one that stands there, and some put in before it.
fn each_byte(judge: &mut Judge, dice: &mut Dice, place: u64) {
    let place = place as usize;
    for byte in 0..=255 {
        let mut parcel = worked();
        parcel.items[place] = byte;
        judge.parcel(&parcel.delivery(), dice);
    }
    for byte in *b"\r\n\x1a 0H:" {
        let mut parcel = worked();
        parcel.items.insert(place, byte);
        judge.parcel(&parcel.delivery(), dice);
    }
}

/// EC of 0 to 11 digits, absent, twice, continued, at the front and at the end,
/// for each outcome.
fn reference_numbers(judge: &mut Judge, dice: &mut Dice, case: u64) {
    let (form, outcome) = (case as usize / 10, case as u32 % 10);
    let digits = |length: usize| "1234567890123"[..length].to_string();
    let forms = [
        vec![],
        vec!["EC:".to_string()],
        vec!["EC:9999999999".to_string()],
        vec!["EC:0000000000".to_string()],
        vec!["EC:1".to_string(), "   ".to_string()],
        vec!["EC:1".to_string(), "EC:2".to_string()],
        vec!["EC:1 ".to_string()],
        vec!["EC:x".to_string()],
        vec!["AK:1".to_string(), "ZK:2".to_string(), "E0:3".to_string()],
    ];
    let lines = match forms.get(form) {
        Some(lines) => vec![lines.clone()],
        None => (1..=11).map(|length| vec![format!("EC:{}", digits(length))]).collect(),
    };
    for lines in lines {
        for (kind, start) in [(11, 1), (14, 1), (21, 5_000_001), (45, 5_000_001)] {
            let (head, kc) = (vec![text(heading(kind, 300))], vec![format!("KC:1 {DAY}")]);
            let front = slice(&[head.clone(), lines.clone(), kc.clone()].concat());
            let end = slice(&[head, kc, lines.clone()].concat());
            for standing in [1, 2] {
                for other in [outcome, 1, 8] {
                    let items = [&front[..], &end].concat();
                    let parcel = parcel(items, &[outcome, other], &[standing; 2], start);
                    judge.parcel(&parcel.delivery(), dice);
                }
            }
        }
    }
}

const RECIPIENTS: [u32; 10] = [0, 1, 2, 300, 9_998, 9_999, 10_000, 10_001, 65_836, 9_999_999];

/// Each two codes at each two of the places that a recipient has in a heading.
fn two_recipients(judge: &mut Judge, dice: &mut Dice, case: u64) {
    let (one, other) = (case as usize / RECIPIENTS.len(), case as usize % RECIPIENTS.len());
    let to = |kind: u32, outcome: u32, code: u32| {
        let mut heading = heading(kind, 4_711);
        match outcome {
            1 if kind == 11 => heading.second = code,
            1 => heading.third = code,
            3 => heading.second = code,
            _ => heading.first = code,
        }
        (item(heading, 1), outcome)
    };
    let all = |code: u32| {
        [to(11, 1, code), to(11, 6, code), to(35, 1, code), to(35, 3, code), to(37, 7, code)]
    };
    for (first, first_outcome) in all(RECIPIENTS[one]) {
        for (second, second_outcome) in all(RECIPIENTS[other]) {
            let items = [&first[..], &second].concat();
            let parcel = parcel(items, &[first_outcome, second_outcome], &[1, 1], 1);
            judge.parcel(&parcel.delivery(), dice);
        }
    }
}

// Refusal 33.

/// A hundred or so of the largest amount and one more item, in one group of
/// output types, in two or in three.
fn sums(judge: &mut Judge, dice: &mut Dice, case: u64) {
    const LAST: [u64; 8] = [0, 98, 99, 100, 101, 200, 1_099, LARGEST_AMOUNT];
    let (form, last) = (case as usize / LAST.len(), LAST[case as usize % LAST.len()]);
    let groups: [&[(u32, u32)]; 5] = [
        &[(11, 1), (12, 1), (35, 1)],
        &[(11, 7), (12, 7)],
        &[(11, 1), (11, 7), (55, 1)],
        &[(12, 1), (13, 6)],
        &[(35, 2), (11, 6), (37, 4)],
    ];
    for count in 98..=103 {
        let kind = |place: usize| groups[form][place % groups[form].len()];
        let amount = |place: usize| if place + 1 == count { last } else { LARGEST_AMOUNT };
        let items = (0..count).flat_map(|place| item(heading(kind(place).0, 300), amount(place)));
        let outcomes: Vec<u32> = (0..count).map(|place| kind(place).1).collect();
        let items: Vec<u8> = items.collect();
        judge.parcel(&parcel(items.clone(), &outcomes, &vec![1; count], 1).delivery(), dice);
        // As many in each of the groups, so that none is too large.
        let (outcomes, items) = (outcomes.repeat(2), items.repeat(2));
        judge.parcel(&parcel(items, &outcomes, &vec![1; 2 * count], 1).delivery(), dice);
    }
}

// Refusals 34, 1 and 2.

fn targets(judge: &mut Judge, _: &mut Dice, room: u64) {
    let one = alike(item(heading(11, 300), 1), 1);
    let shorter = Parcel { outcomes: vec![6, 1], ..worked() };
    for parcel in [one, shorter, worked()] {
        judge.deliver(&parcel.delivery(), room as usize);
    }
}

/// Codes and days as checking is compared on, for slices that are right and
/// wrong in each way.
fn order(judge: &mut Judge, _: &mut Dice, case: u64) {
    let code = CODES[case as usize % CODES.len()];
    let day = DAYS[case as usize / CODES.len()];
    let good = item(heading(11, 300), 1);
    let large = item(heading(11, 300), LARGEST_AMOUNT);
    let priority = item(heading(1, 300), 1);
    let slices = [
        (Vec::new(), 0, 1),
        (b"ZZ:\r\n".to_vec(), 0, 1),
        (b"HD:\r\n".to_vec(), 1, 1),
        (good.clone(), 1, 1),
        (good[..good.len() - 1].to_vec(), 1, 1),
        ([&good[..], &priority].concat(), 2, 5_000_000),
        (large.repeat(101), 101, 1),
        ([&large.repeat(101)[..], &priority].concat(), 102, 4_999_900),
        ([&large.repeat(101)[..], &priority, b"x\r\n"].concat(), 102, 4_999_900),
    ];
    for (items, count, start) in slices {
        for (outcomes, standings) in [(count, count), (count + 1, count), (count, count + 1)] {
            for room in [0, 12_000] {
                let (outcomes, standings) = (vec![1; outcomes], vec![1; standings]);
                let items = items.clone();
                let parcel = Parcel { items, outcomes, standings, certis: code, day, start };
                judge.deliver(&parcel.delivery(), room);
            }
        }
    }
}

// Anything.

/// A few items damaged in one way or in several.
fn mutated(judge: &mut Judge, dice: &mut Dice, case: u64) {
    let (mut draft, mut parcel) = deliveries::small(dice);
    let more = if dice.once_in(3) { dice.below(3) } else { 0 };
    for place in 0..=more {
        let number = if place == 0 { case } else { dice.throw() >> 8 };
        let mutation = &MUTATIONS[(number % MUTATIONS.len() as u64) as usize];
        (mutation.apply)(&mut draft, dice);
    }
    parcel.items = draft.slice();
    judge.parcel(&parcel.delivery(), dice);
}

fn changed_bytes(judge: &mut Judge, dice: &mut Dice, _: u64) {
    let (_, mut parcel) = deliveries::small(dice);
    for _ in 0..dice.range(1, 3) {
        change_byte(&mut parcel.items, dice);
    }
    judge.parcel(&parcel.delivery(), dice);
}

/// Good items with another outcome or standing, one more or fewer, another
/// code, day or start.
fn other_numbers(judge: &mut Judge, dice: &mut Dice, _: u64) {
    let (_, mut parcel) = deliveries::small(dice);
    for _ in 0..dice.range(1, 2) {
        let place = dice.place(parcel.outcomes.len().min(parcel.standings.len()).max(1));
        match dice.below(10) {
            0 => parcel.certis = dice.pick(&CODES),
            1 => parcel.day = dice.pick(&DAYS),
            2 => parcel.start = dice.pick(&NUMBERS),
            3 => parcel.start = parcel.start.wrapping_sub(dice.below(6) as u32),
            4 => parcel.outcomes.push(1),
            5 => parcel.standings.truncate(place),
            6 | 7 if place < parcel.standings.len() => {
                parcel.standings[place] = dice.pick(&STANDINGS);
            }
            _ if place < parcel.outcomes.len() => parcel.outcomes[place] = dice.pick(&OUTCOMES),
            _ => {}
        }
    }
    judge.parcel(&parcel.delivery(), dice);
}

/// Lines in any order, an outcome and a standing for each heading.
fn line_soup(judge: &mut Judge, dice: &mut Dice, _: u64) {
    let length = dice.range(1, 12);
    let mut items = soup::lines_of(dice, length).file;
    items.pop();
    let headings = items.split(|&byte| byte == b'\n').filter(|line| line.starts_with(b"HD:"));
    let count = headings.count();
    let outcomes: Vec<u32> = (0..count).map(|_| dice.pick(&[1, 1, 7, 8])).collect();
    judge.parcel(&parcel(items, &outcomes, &vec![1; count], 1).delivery(), dice);
}

/// As many items as there can be, with small amounts and with any, into a target
/// of just their length and into one that is a byte too short.
fn large(judge: &mut Judge, dice: &mut Dice, case: u64) {
    let most = [1_000_000_000, LARGEST_AMOUNT][case as usize % 2];
    let (_, parcel) = deliveries::of_items(dice, MOST as u32, most);
    let length = deliver(&parcel.delivery(), usize::MAX).map_or(40, |file| file.len());
    for room in [length, length - 1] {
        judge.deliver(&parcel.delivery(), room);
    }
}
