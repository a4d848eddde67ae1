//! Entering a file in a register, beside checking it and beside the second
//! program's entering; and the orders of blocks that could be worst.

use std::hint::black_box;

use second::register::{self, Range, Register};
use second::samples::calendar::shift;
use second::samples::dice::Dice;
use second::samples::draft::Draft;
use second::samples::{Job, Sample, large};

use crate::clock::{Contestant, race, ratio};
use crate::{face, header, judge, library_total, per_byte, ten_times};

const CODE: u32 = 300;
const DAY: u32 = 20240304;
const ROOM: usize = register::HEAD + register::RANGE * register::RANGES;

pub fn entering(rounds: u32) -> u32 {
    let [small, large] = [large::MOST / 10, large::MOST].map(one_block);
    let missed = against_others(large.job(), rounds);
    let jobs = [small.job(), large.job()];
    missed
        + full_register(large.job(), rounds)
        + ten_times("growth of entering", jobs, rounds, &library_enter)
        + worst_orders(large.job(), rounds)
}

/// Items numbered from 1 on, in one block: the usual file.
fn one_block(bytes: usize) -> Sample {
    let items = (bytes - 200) / (56 + 15);
    let numbers: Vec<u32> = (1..=items as u32).collect();
    let mut draft = Draft::new(CODE, DAY);
    draft.numbered(DAY, &numbers, 0);
    draft.sample()
}

fn library_enter(job: Job) {
    let mut new = [0; register::HEAD];
    assert_eq!(face::register_new(job.code, &mut new), 0);
    library_enter_in(&new, job);
}

fn library_enter_in(bytes: &[u8], Job { code, day, file }: Job) {
    let (mut target, mut written) = ([0; ROOM], 0);
    let answer = face::register_enter(bytes, black_box(file), code, day, &mut target, &mut written);
    assert!(answer == 0 || answer == 28);
    black_box((target, written));
}

fn second_enter(job: Job) {
    second_enter_in(&register::blank(job.code, ROOM).expect("a code"), job);
}

fn second_enter_in(bytes: &[u8], Job { code, day, file }: Job) {
    black_box(register::enter(bytes, black_box(file), code, day, ROOM).expect("not refused"));
}

/// As many ranges as a register can have, on days before, but for one that
/// the file's last number touches.
fn full() -> Vec<u8> {
    let items = (large::MOST - 200) / (56 + 15);
    let one = |day, number| Range { day, first: number, last: number };
    let mut ranges: Vec<Range> = (0..register::RANGES as u32 - 1)
        .map(|place| one(shift(DAY, (place / 103) as i32 - 10), 2 * (place % 103) + 1))
        .collect();
    ranges.push(one(DAY, items as u32 + 1));
    Register { code: CODE, latest: DAY, ranges }.write()
}

/// The same file in a full register.
fn full_register(job: Job, rounds: u32) -> u32 {
    let bytes = full();
    let mut all = [
        Contestant::new("entering in a new register", || library_enter(job)),
        Contestant::new("entering in one of 1,024 ranges", || library_enter_in(&bytes, job)),
        Contestant::new("second program's, in that", || second_enter_in(&bytes, job)),
    ];
    race(&mut all, rounds);
    header(&format!("a full register, a file of {} bytes", job.file.len()), "time", "it/new");
    let rows = all.iter().zip([None, Some(1.1), None]);
    rows.map(|(it, goal)| {
        judge(&it.name, &per_byte(it, job.file), ratio(it.best, all[0].best), goal)
    })
    .sum()
}

fn against_others(job: Job, rounds: u32) -> u32 {
    let mut all = [
        Contestant::new("entering", || library_enter(job)),
        Contestant::new("checking it, for the total", || library_total(job)),
        Contestant::new("second program's entering", || second_enter(job)),
    ];
    race(&mut all, rounds);
    header(&format!("entering a file of {} bytes", job.file.len()), "time", "entering/it");
    let rows = all.iter().zip([None, Some(1.35), Some(0.6)]);
    rows.map(|(it, goal)| {
        judge(&it.name, &per_byte(it, job.file), ratio(all[0].best, it.best), goal)
    })
    .sum()
}

/// Blocks of one item each, per byte beside the usual file.
fn worst_orders(usual: Job, rounds: u32) -> u32 {
    let file = |order, step| large::blocks_of_one(&mut Dice::new(1), large::MOST, order, step);
    let worst = [
        ("blocks of one item, ascending", file(0, 1)),
        ("blocks of one item, descending", file(1, 1)),
        ("blocks of one item, every other one first", file(2, 1)),
        ("blocks of one item, shuffled", file(3, 1)),
        ("blocks of one item, shuffled, none touching", file(3, 100)),
    ];
    let mut all = vec![Contestant::new("one block", || library_enter(usual))];
    let orders =
        worst.iter().map(|(name, sample)| Contestant::new(name, || library_enter(sample.job())));
    all.extend(orders);
    race(&mut all, rounds);
    header("entering, orders of blocks", "time", "it/usual");
    judge(&all[0].name, &per_byte(&all[0], usual.file), 1.0, None);
    let rows = all[1..].iter().zip(&worst);
    rows.map(|(it, (_, sample))| {
        let bytes = sample.file.len() as f64 / usual.file.len() as f64;
        let ratio = ratio(it.best, all[0].best) / bytes;
        judge(&it.name, &per_byte(it, &sample.file), ratio, Some(8.0))
    })
    .sum()
}
