//! Groups about files that come in portions. Each file is closed, and then asked
//! again.

use second::samples::dice::Dice;
use second::samples::edges;
use second::samples::{Job, large, soup};

use crate::group::Group;
use crate::groups::any_file;
use crate::judge::Judge;
use crate::refusals::{CODES, DAYS, FILES};
use crate::state::State;

const CODE: u32 = 300;
const DAY: u32 = 20240304;

/// Document 01's worked example.
const EXAMPLE: &[u8] = b"HD:11 20240304 0000301 0000001 0000710 0000000 0000000\r\n\
    KC:12500 20240304\r\n\
    UD: 2000145398\r\n\
    HD:51 20240304 0000300 0000000 0000999 0000000 0000000\r\n\
    IN:1 1\r\n\
    S1:1 12600\r\n\x1a";

/// The files to try it on, with faults and without.
const SAMPLES: [&[u8]; 2] = [
    include_bytes!("../../../../samples/clean.kc0"),
    include_bytes!("../../../../samples/faults.kc0"),
];

const HEADING: &[u8] = b"HD:11 20240304 0000300 0000001 0000710 0000000 0000000\r\n";

/// What cuts a file and what does not.
const SHORT: &[u8; 4] = b"\r\n\x1ax";
const SHORT_MOST: u32 = 6;

/// Kinds of large files that differ in what is kept between two portions.
const LARGE: [u64; 8] = [0, 3, 5, 9, 14, 15, 17, 21];
const LENGTHS: [usize; 3] = [10_000_000, 10_000_001, 10_000_002];

/// The random groups take their share of the files of a round.
pub fn all(files: u64, large: u64) -> Vec<Group> {
    let share = |percent: u64| (files * percent).div_ceil(100);
    let short: usize = (0..=SHORT_MOST).map(|length| SHORT.len().pow(length)).sum();
    let openings = CODES.len() * DAYS.len() * FILES.len();
    let longest = SAMPLES.iter().map(|sample| sample.len()).max().unwrap_or(0);
    vec![
        Group::listed("portions, the worked example in three", EXAMPLE.len() as u64 + 1, in_three),
        Group::listed("portions, the samples in two", longest as u64 + 1, in_two),
        Group::listed("portions, every short file in every cutting", short as u64, short_file),
        Group::listed("portions, refusals in their order", openings as u64, order),
        Group::listed("portions, long lines", LINES.len() as u64 * LONGEST, long_line),
        Group::listed("portions, lengths about 10,000,000", LENGTHS.len() as u64, lengths),
        Group::random("portions, states that are not open", share(2), shut),
        Group::random("portions, states with numbers changed", share(10), changed),
        Group::random("portions, states that are copied", share(2), copied),
        Group::random("portions, states that are opened again", share(2), opened_again),
        Group::random("portions, small files", share(15), |judge, dice, _| {
            let sample = any_file(dice);
            any_cutting(judge, dice, sample.job());
        }),
        Group::random("portions, soups of line ends and end marks", share(4), |judge, dice, _| {
            let alphabets: [&[u8]; 3] = [b"\r\n", b"\r\n\r\n\r\n:AHD x", b"\r\r\n\n\r\n\r\nx\x1a"];
            let alphabet = dice.pick(&alphabets);
            let sample = soup::bytes_of(dice, alphabet, 150);
            any_cutting(judge, dice, sample.job());
        }),
        Group::random("portions, more than 256 faults", share(1), many_faults),
        listed_files(),
        Group::random("portions, large files", large.min(LARGE.len() as u64), large_file),
    ]
}

fn job(file: &[u8]) -> Job<'_> {
    Job { code: CODE, day: DAY, file }
}

// How a file is cut.

/// A file in portions of these lengths, on a state; then closed.
fn give(judge: &mut Judge, state: &mut State, file: &[u8], lengths: &[usize]) {
    let mut rest = file;
    for &length in lengths {
        let (portion, after) = rest.split_at(length);
        state.add(judge, portion);
        rest = after;
    }
    state.add(judge, rest);
    state.close(judge);
}

/// The whole of it, from opening to what is refused after closing.
fn cut(judge: &mut Judge, dice: &mut Dice, Job { code, day, file }: Job, lengths: &[usize]) {
    let mut state = memory(dice);
    if state.open(judge, code, day) {
        give(judge, &mut state, file, lengths);
    }
    ask_again(judge, dice, &mut state, file);
}

/// What the memory of a state may hold before it is opened.
fn memory(dice: &mut Dice) -> State {
    match dice.below(16) {
        0 => State::noise(dice),
        1..=3 => State::of(|| u64::MAX),
        4..=8 => State::of(|| 1),
        _ => State::zeros(),
    }
}

/// Calls on a state that is not open.
fn ask_again(judge: &mut Judge, dice: &mut Dice, state: &mut State, file: &[u8]) {
    match dice.below(4) {
        0 => state.add(judge, file),
        1 => state.add(judge, b""),
        _ => state.close(judge),
    }
    if dice.once_in(4) {
        state.add(judge, b"\x1a");
        state.close(judge);
    }
}

fn any_cutting(judge: &mut Judge, dice: &mut Dice, job: Job) {
    let lengths = any_lengths(dice, job.file);
    cut(judge, dice, job, &lengths);
}

/// Lengths of portions; what is left over is the last.
fn any_lengths(dice: &mut Dice, file: &[u8]) -> Vec<usize> {
    let next_to = |from: usize, is: &dyn Fn(usize) -> bool| {
        (from..file.len()).find(|&place| is(place)).unwrap_or(file.len())
    };
    // A long file is seldom cut in pieces of a byte or two.
    let kind = if file.len() < 200 || dice.once_in(8) { dice.below(9) } else { dice.range(2, 8) };
    let mut at = 0;
    let mut lengths = Vec::new();
    while at < file.len() && lengths.len() < 2_000 {
        let left = file.len() - at;
        let length = match kind {
            0 => 1,
            1 => dice.pick(&[0, 1, 1, 2, 3]),
            2 => dice.pick(&[0, 1, 2, 63, 64, 65]),
            3 => dice.place(left + 1),
            4 => 64,
            // Between CR and LF, each time.
            5 => next_to(at + 1, &|place| file[place] == b'\n' && file[place - 1] == b'\r') - at,
            // Behind each line.
            6 => next_to(at + 1, &|place| file[place - 1] == b'\n') - at,
            // Before and behind each end mark.
            7 => next_to(at + 1, &|place| file[place] == 0x1a || file[place - 1] == 0x1a) - at,
            _ => dice.range(1, 200) as usize,
        };
        let length = length.min(left);
        at += length;
        lengths.push(length);
    }
    lengths
}

// Listed files.

/// A first cut of the worked example, and every second one.
fn in_three(judge: &mut Judge, dice: &mut Dice, first: u64) {
    let first = first as usize;
    for second in 0..=EXAMPLE.len() - first {
        cut(judge, dice, job(EXAMPLE), &[first, second]);
    }
}

fn in_two(judge: &mut Judge, dice: &mut Dice, place: u64) {
    for file in SAMPLES.into_iter().filter(|file| place as usize <= file.len()) {
        cut(judge, dice, job(file), &[place as usize]);
    }
}

fn short_file(judge: &mut Judge, dice: &mut Dice, case: u64) {
    let (mut case, mut length) = (case as usize, 0);
    while case >= SHORT.len().pow(length) {
        case -= SHORT.len().pow(length);
        length += 1;
    }
    let file: Vec<u8> =
        (0..length).map(|digit| SHORT[case / SHORT.len().pow(digit) % SHORT.len()]).collect();
    for borders in 0..1_u32 << length.saturating_sub(1) {
        let mut lengths = vec![];
        let mut from = 0;
        for place in 1..length as usize {
            if borders >> (place - 1) & 1 == 1 {
                lengths.push(place - from);
                from = place;
            }
        }
        cut(judge, dice, job(&file), &lengths);
    }
}

/// Every combination of codes, days and short files, in two portions.
fn order(judge: &mut Judge, dice: &mut Dice, case: u64) {
    let case = case as usize;
    let code = CODES[case % CODES.len()];
    let day = DAYS[case / CODES.len() % DAYS.len()];
    let file = FILES[case / CODES.len() / DAYS.len()];
    for place in 0..=file.len() {
        cut(judge, dice, Job { code, day, file }, &[place]);
    }
}

/// Starts of lines that may go past the 64 bytes that are kept of one.
const LINES: [&[u8]; 7] = [
    b"HD:11 20240304 0000300 0000002 0000710 0000000 0000000",
    b"KC:1 20240304 ",
    b"UD: 19 ",
    b"AV:",
    b"EC:",
    b"   ",
    b"x",
];
const LONGEST: u64 = 24;

/// A long line with a byte about the 64th, or its last, that is bad or is not;
/// cut in two at every place of it.
fn long_line(judge: &mut Judge, dice: &mut Dice, case: u64) {
    let start = LINES[(case % LINES.len() as u64) as usize];
    let length = match (case / LINES.len() as u64) as usize {
        few @ 0..=15 => 58 + few,
        more => [80, 90, 100, 127, 128, 129, 200, 300][more - 16],
    };
    for byte in *b"\x7f\xde\r\n" {
        for place in (62..=66).chain([length - 1]).filter(|&place| place < length) {
            let mut line = start.to_vec();
            line.resize(length, b'0');
            line[place] = byte;
            let file = [HEADING, &line, b"\r\n   x\r\nEC:1\r\n\x1a"].concat();
            let more = 1 + length / 40;
            for place in (0..=length + 3).step_by(more) {
                let lengths = [HEADING.len() + place, dice.place(2)];
                cut(judge, dice, job(&file), &lengths);
            }
        }
    }
}

/// Files about the largest length: the mark early, late, nowhere or first.
fn lengths(judge: &mut Judge, dice: &mut Dice, case: u64) {
    let length = LENGTHS[case as usize];
    for mark in [Some(0), Some(5), Some(length - 1), None] {
        let mut file = vec![b'x'; length];
        if let Some(mark) = mark {
            file[mark] = 0x1a;
        }
        cut(judge, dice, job(&file), &[65_536; 152]);
    }
}

// Random ones.

/// Some of the files that are listed elsewhere.
fn listed_files() -> Group {
    let edges = edges::all();
    let count: u64 = edges.iter().map(|edge| edge.count).sum();
    Group::random("portions, listed files", count / 5, move |judge, dice, _| {
        let mut case = dice.below(count);
        let mut edges = edges.iter();
        let edge = edges.find(|edge| {
            let is_here = case < edge.count;
            case -= if is_here { 0 } else { edge.count };
            is_here
        });
        let sample = edge.expect("one of all").sample(case);
        any_cutting(judge, dice, sample.job());
    })
}

/// Calls on memory that no opening made a state, and opening it then.
fn shut(judge: &mut Judge, dice: &mut Dice, case: u64) {
    let sample = any_file(dice);
    let mut state = if case % 4 == 0 { memory(dice) } else { State::noise(dice) };
    for _ in 0..dice.range(1, 4) {
        ask_again(judge, dice, &mut state, &sample.file);
    }
    state.open(judge, dice.pick(&[0, 10_000]), sample.day);
    state.add(judge, &sample.file);
    if state.open(judge, sample.code, sample.day) {
        give(judge, &mut state, &sample.file, &[]);
    }
}

/// Numbers of an open state are changed in the middle of a file.
fn changed(judge: &mut Judge, dice: &mut Dice, _: u64) {
    let sample = any_file(dice);
    let mut state = memory(dice);
    if state.open(judge, sample.code, sample.day) {
        let (start, rest) = sample.file.split_at(dice.place(sample.file.len() + 1));
        state.add(judge, start);
        state.spoil(judge, dice, rest);
    }
}

/// A state is copied in the middle of a file, and the two go on with different
/// rests, taking turns.
fn copied(judge: &mut Judge, dice: &mut Dice, _: u64) {
    let (sample, other) = (any_file(dice), any_file(dice));
    let mut state = memory(dice);
    if !state.open(judge, sample.code, sample.day) {
        return;
    }
    let (start, rest) = sample.file.split_at(dice.place(sample.file.len() + 1));
    for portion in start.chunks(dice.range(1, 90) as usize) {
        state.add(judge, portion);
    }
    let mut states = [state.clone(), state];
    let mut rests = [rest, &other.file[dice.place(other.file.len() + 1)..]];
    while rests.iter().any(|rest| !rest.is_empty()) {
        let which = dice.place(2);
        let (portion, after) = rests[which].split_at(dice.place(100).min(rests[which].len()));
        states[which].add(judge, portion);
        rests[which] = after;
    }
    for mut state in states {
        state.close(judge);
        ask_again(judge, dice, &mut state, start);
    }
}

/// A file that is given up for another, whose opening may be refused.
fn opened_again(judge: &mut Judge, dice: &mut Dice, _: u64) {
    let (sample, other) = (any_file(dice), any_file(dice));
    let mut state = memory(dice);
    if !state.open(judge, sample.code, sample.day) {
        return;
    }
    let (start, rest) = sample.file.split_at(dice.place(sample.file.len() + 1));
    state.add(judge, start);
    if dice.once_in(2) {
        state.open(judge, dice.pick(&CODES), dice.pick(&DAYS[..1]));
        give(judge, &mut state, rest, &[]);
    }
    if state.open(judge, other.code, other.day) {
        let lengths = any_lengths(dice, &other.file);
        give(judge, &mut state, &other.file, &lengths);
    }
}

/// Faults about as many as are kept, some of them known only much later: those
/// of headings and of 51s.
fn many_faults(judge: &mut Judge, dice: &mut Dice, _: u64) {
    let lines = dice.range(60, 500);
    let mut sample = soup::lines_of(dice, lines);
    if dice.once_in(3) {
        sample.file.splice(0..0, [HEADING, &b"EC:\r\n".repeat(dice.place(300))].concat());
    }
    any_cutting(judge, dice, sample.job());
}

fn large_file(judge: &mut Judge, dice: &mut Dice, case: u64) {
    let sample = large::large(dice, LARGE[case as usize]);
    let length = dice.pick(&[65_536, 65_536, 4_096, 65_537, 1_000_003]);
    let lengths = vec![length; sample.file.len() / length];
    cut(judge, dice, sample.job(), &lengths);
}
