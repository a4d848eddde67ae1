//! How fast the proved library is, in one run beside the second program and
//! beside reading line ends alone: best of interleaved rounds.
//!
//! The lent memory is made once and not cleared between calls. Goals stand
//! beside the numbers; missing one is told but is not an error.

#![deny(unsafe_code)]

mod clock;
mod deliver;
mod ends;
#[path = "../../face.rs"]
#[allow(unsafe_code)]
mod face;
mod portions;
mod register;
mod sheet;

use std::cmp::Ordering;
use std::env;
use std::hint::black_box;
use std::time::Duration;

use clock::{Contestant, race, ratio};
use second::account;
use second::check;
use second::derive;
use second::samples::dice::Dice;
use second::samples::{Job, Sample, large};

const ROOM: usize = 256;
const CALLS: u32 = 100_000;
/// One heading, CR LF and the end mark.
const SHORT: usize = 57;
/// The clean file is raced so often, and the middle of the ratios counts.
const RACES: usize = 9;

fn main() {
    let rounds = env::args().nth(1).and_then(|word| word.parse().ok()).unwrap_or(11);
    println!("{}, {}, best of {rounds} interleaved rounds", env::consts::ARCH, clock::name());
    println!("lent memory is not cleared between calls");
    let clean = large::clean_of(&mut Dice::new(1), large::MOST);
    let mut missed = clean_file(clean.job(), rounds);
    missed += small_files(rounds);
    missed += small_calls(rounds);
    missed += growth(clean.job(), rounds);
    missed += worst_files(clean.job(), rounds);
    missed += portions::portions(rounds);
    missed += sheet::posting(rounds);
    missed += register::entering(rounds);
    missed += deliver::delivering(rounds);
    println!("\ngoals missed: {missed}");
}

/// Prints a ratio beside its goal; 1 if the goal is missed.
fn judge(name: &str, time: &str, ratio: f64, goal: Option<f64>) -> u32 {
    let is_missed = goal.is_some_and(|goal| ratio > goal);
    let goal = match goal {
        None => String::new(),
        Some(goal) => format!("at most {goal:5.2}  {}", if is_missed { "MISSED" } else { "met" }),
    };
    println!("  {name:44} {time:>16} {ratio:9.3}  {goal}");
    u32::from(is_missed)
}

fn header(title: &str, time: &str, ratio: &str) {
    println!("\n{title}");
    println!("  {:44} {time:>16} {ratio:>9}  goal", "");
}

/// Room for so many records: lines, rules and offsets.
type Rooms = [Vec<u32>; 3];

fn rooms(room: usize) -> Rooms {
    [room; 3].map(|room| vec![0; room])
}

fn library_check(Job { code, day, file }: Job, rooms: &mut Rooms) {
    let mut total = 0;
    let slices = rooms.each_mut().map(Vec::as_mut_slice);
    let answer = face::check(black_box(file), code, day, slices, &mut total);
    assert_eq!(answer, 0);
    black_box(total);
}

fn library_total(Job { code, day, file }: Job) {
    let mut total = 0;
    black_box(face::total(black_box(file), code, day, &mut total));
    black_box(total);
}

fn second_check(Job { code, day, file }: Job, rooms: &mut Rooms) {
    let answer = check::check(black_box(file), code, day, rooms.each_mut().map(Vec::as_mut_slice));
    black_box(answer.expect("not refused"));
}

fn per_byte(contestant: &Contestant, file: &[u8]) -> String {
    format!("{:.3} ns/byte", contestant.best.as_nanos() as f64 / file.len() as f64)
}

/// The proved check on a clean file against everything else: the middle of
/// several races.
fn clean_file(job: Job, rounds: u32) -> u32 {
    let (mut few, mut few2) = (rooms(ROOM), rooms(ROOM));
    let mut all = [
        Contestant::new("proved check", || library_check(job, &mut few)),
        Contestant::new("second program's check", || second_check(job, &mut few2)),
        Contestant::new("reading line ends alone", || {
            black_box(ends::read(black_box(job.file)));
        }),
        Contestant::new("search for one byte (the mark, at the end)", || {
            black_box(black_box(job.file).contains(&0x1a));
        }),
        Contestant::new("proved total alone", || library_total(job)),
    ];
    let races: [_; RACES] = std::array::from_fn(|_| {
        all.iter_mut().for_each(|it| it.best = Duration::MAX);
        race(&mut all, rounds);
        all.each_ref().map(|it| it.best)
    });
    let bytes = job.file.len();
    let title = format!("a clean file of {bytes} bytes, room {ROOM}, the middle of {RACES} races");
    header(&title, "time", "proved/it");
    let goals = [None, Some(0.45), Some(3.0), None, None];
    let rows = all.iter_mut().enumerate().zip(goals);
    rows.map(|((place, it), goal)| {
        it.best = middle(races.map(|race| race[place]), Duration::cmp);
        let times = middle(races.map(|race| ratio(race[0], race[place])), f64::total_cmp);
        judge(&it.name, &per_byte(it, job.file), times, goal)
    })
    .sum()
}

fn middle<T: Copy>(mut all: [T; RACES], order: fn(&T, &T) -> Ordering) -> T {
    all.sort_by(order);
    all[RACES / 2]
}

/// A heading alone, and a clean file of 4 KB.
fn small_files(rounds: u32) -> u32 {
    let heading = large::headings_only(SHORT);
    // Short ones end some thousand bytes before the size asked for.
    let clean = large::clean_of(&mut Dice::new(1), 11_500);
    [(heading, CALLS / 2), (clean, CALLS / 100)]
        .map(|(sample, calls)| small_file(sample.job(), calls, rounds))
        .into_iter()
        .sum()
}

fn small_file(job: Job, calls: u32, rounds: u32) -> u32 {
    let (mut few, mut few2) = (rooms(ROOM), rooms(ROOM));
    let mut all = [
        Contestant::new("proved check", || {
            (0..calls).for_each(|_| library_check(job, &mut few));
        }),
        Contestant::new("second program's check", || {
            (0..calls).for_each(|_| second_check(job, &mut few2));
        }),
    ];
    race(&mut all, rounds);
    header(&format!("a file of {} bytes", job.file.len()), "time", "proved/it");
    let rows = all.iter().map(|it| {
        let time = format!("{:.0} ns", it.best.as_nanos() as f64 / f64::from(calls));
        judge(&it.name, &time, ratio(all[0].best, it.best), None)
    });
    rows.sum()
}

/// Telling, deriving, the account check and showing, a hundred thousand calls at a time.
fn small_calls(rounds: u32) -> u32 {
    let headings = [
        &b"HD:12 20240304 0000300 0000017 0000710 0000000 0000000"[..],
        b"HD:35 20240304 0000990 0000001 0000300 0000000 0000710",
        b"HD:11 20240304 0000301 0000001 0000710 0000000 0000000",
    ];
    let accounts = [(&b""[..], &b"2000145399"[..]), (b"19", b"2000145398"), (b"000019", b"19")];
    let turnovers = [0, -540, 99_999_999_999_999_999];
    let of = |call: u32| call as usize % 3;
    let (mut target, mut target2, mut text) = ([0; 54], [0; 54], [0; 20]);
    let mut all = [
        Contestant::new("telling, proved", || {
            for call in 0..CALLS {
                let (mut kind, mut recipient) = (0, 0);
                black_box(face::tell(
                    black_box(headings[of(call)]),
                    7,
                    1,
                    black_box(&mut kind),
                    black_box(&mut recipient),
                ));
            }
        }),
        Contestant::new("telling, second program", || {
            for call in 0..CALLS {
                black_box(derive::tell(black_box(headings[of(call)]), 7, 1).is_ok());
            }
        }),
        Contestant::new("deriving, proved", || {
            for call in 0..CALLS {
                black_box(face::derive(
                    black_box(headings[of(call)]),
                    7,
                    1,
                    42,
                    black_box(&mut target),
                ));
            }
        }),
        Contestant::new("deriving, second program", || {
            for call in 0..CALLS {
                let answer = derive::derive(
                    black_box(headings[of(call)]),
                    7,
                    1,
                    42,
                    black_box(&mut target2),
                );
                black_box(answer.is_ok());
            }
        }),
        Contestant::new("account check, proved", || {
            for call in 0..CALLS {
                let (prefix, number) = black_box(accounts[of(call)]);
                black_box(face::account(prefix, number, black_box((&mut 0, &mut 0))));
            }
        }),
        Contestant::new("account check, second program", || {
            for call in 0..CALLS {
                let (prefix, number) = black_box(accounts[of(call)]);
                black_box(account::check(prefix, number).is_ok());
            }
        }),
        Contestant::new("turnover shown, proved", || {
            for call in 0..CALLS {
                let turnover = black_box(turnovers[of(call)]);
                black_box(face::turnover_text(turnover, black_box(&mut text)));
            }
        }),
        Contestant::new("turnover shown, second program", || {
            for call in 0..CALLS {
                black_box(second::sheet::show(black_box(turnovers[of(call)])));
            }
        }),
    ];
    race(&mut all, rounds);
    header("single calls", "time", "proved/it");
    let goals = [None, None, None, None, None, Some(0.8), None, None];
    let rows = all.iter().enumerate().zip(goals);
    rows.map(|((place, it), goal)| {
        let time = format!("{:.1} ns", it.best.as_nanos() as f64 / f64::from(CALLS));
        judge(&it.name, &time, ratio(all[place / 2 * 2].best, it.best), goal)
    })
    .sum()
}

fn growth(clean: Job, rounds: u32) -> u32 {
    let small = large::clean_of(&mut Dice::new(1), large::MOST / 10);
    ten_times("growth", [small.job(), clean], rounds, &|job| {
        library_check(job, &mut rooms(ROOM));
    })
}

/// Ten times the bytes: how many times the time.
fn ten_times(title: &str, jobs: [Job; 2], rounds: u32, run: &dyn Fn(Job)) -> u32 {
    let mut all = jobs.map(|job| {
        let name = format!("clean file of {} bytes", job.file.len());
        Contestant::new(&name, move || run(job))
    });
    race(&mut all, rounds * 3);
    header(title, "time", "it/first");
    let times = ratio(all[1].best, all[0].best);
    let [small, large] = jobs.map(|job| job.file);
    let bytes = large.len() as f64 / small.len() as f64;
    judge(&all[0].name, &per_byte(&all[0], small), 1.0, None);
    // The files are not exactly ten to one.
    judge(&all[1].name, &per_byte(&all[1], large), times * 10.0 / bytes, Some(11.0))
}

/// The files that could be worst, per byte beside the clean one.
fn worst_files(clean: Job, rounds: u32) -> u32 {
    let worst: [(&str, Sample, usize); 10] = [
        ("every line broken", large::every_line_broken(large::MOST), ROOM),
        ("every line broken, room 1,000,000", large::every_line_broken(large::MOST), 1_000_000),
        ("one giant line", large::giant_line(b"x", b"ab c:", large::MOST), ROOM),
        (
            "one giant line of bad bytes and lone CR",
            large::giant_line(b"HD:", b"\xff\r \x80", large::MOST),
            ROOM,
        ),
        (
            "one giant field of digits",
            large::giant_line(b"HD:\r\nKC:", b"12345", large::MOST),
            ROOM,
        ),
        ("nothing but CR LF", large::nothing_but_ends(large::MOST), ROOM),
        ("one item of two million fields", large::many_fields(large::MOST), ROOM),
        ("a late heading, full room 1,000,000", large::late_heading(large::MOST), 1_000_000),
        ("headings only", large::headings_only(large::MOST), ROOM),
        ("51s only", large::controls_only(large::MOST), ROOM),
    ];
    let mut lent: Vec<_> = worst.iter().map(|(_, _, room)| rooms(*room)).collect();
    let mut few = rooms(ROOM);
    let mut all = vec![Contestant::new("clean", || library_check(clean, &mut few))];
    all.extend(worst.iter().zip(&mut lent).map(|((name, sample, _), rooms)| {
        Contestant::new(name, || library_check(sample.job(), rooms))
    }));
    race(&mut all, rounds);
    header("worst files", "time", "it/clean");
    judge(&all[0].name, &per_byte(&all[0], clean.file), 1.0, None);
    let rows = all[1..].iter().zip(&worst);
    rows.map(|(it, (_, sample, _))| {
        let bytes = sample.file.len() as f64 / clean.file.len() as f64;
        let ratio = ratio(it.best, all[0].best) / bytes;
        judge(&it.name, &per_byte(it, &sample.file), ratio, Some(8.0))
    })
    .sum()
}
