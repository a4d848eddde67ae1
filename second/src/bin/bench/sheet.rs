//! Posting a clean file, beside checking it and beside the second program's
//! posting.

use std::hint::black_box;

use second::samples::clean;
use second::samples::dice::Dice;
use second::samples::{Job, Sample, large};
use second::sheet::{self, LISTED, TURNOVERS};

use crate::clock::{Contestant, race, ratio};
use crate::{face, header, judge, library_total, per_byte, ten_times};

/// All that pay and are paid in the file.
const FIVE: [u32; 5] = [300, 710, 820, 2_010, 6_210];
/// Small enough for every turnover of a file of 10,000,000 bytes.
const MOST_OF_ONE: u64 = 1_000_000_000;

pub fn posting(rounds: u32) -> u32 {
    let [small, large] = [large::MOST / 10, large::MOST].map(file);
    let full = full_list();
    let missed = against_others(large.job(), &full, rounds);
    let jobs = [small.job(), large.job()];
    missed + ten_times("growth of posting", jobs, rounds, &|job| library_post(&full, job))
}

fn file(bytes: usize) -> Sample {
    clean::of_size_among(&mut Dice::new(1), bytes, &FIVE, MOST_OF_ONE).sample()
}

/// A full list with those of the file at its end.
fn full_list() -> Vec<u32> {
    let others = (1..).take(LISTED - FIVE.len());
    others.chain(FIVE).collect()
}

fn library_post(codes: &[u32], Job { code, day, file }: Job) {
    let mut turnovers = [0; TURNOVERS];
    assert_eq!(face::sheet_open(codes, &mut turnovers), 0);
    assert_eq!(face::sheet_post(codes, &mut turnovers, black_box(file), code, day), 0);
    black_box(turnovers);
}

fn second_post(codes: &[u32], Job { code, day, file }: Job) {
    let mut turnovers = [0; TURNOVERS];
    assert_eq!(sheet::post(codes, &mut turnovers, black_box(file), code, day), Ok(()));
    black_box(turnovers);
}

/// The file checked and posted in one race, with the two lists.
fn against_others(job: Job, full: &[u32], rounds: u32) -> u32 {
    let mut all = [
        Contestant::new("checking it, for the total", || library_total(job)),
        Contestant::new("posting, list of 5", || library_post(&FIVE, job)),
        Contestant::new("second program's posting, list of 5", || second_post(&FIVE, job)),
        Contestant::new("posting, list of 64, its last 5 used", || library_post(full, job)),
        Contestant::new("second program's posting, list of 64", || second_post(full, job)),
    ];
    race(&mut all, rounds);
    header(&format!("posting a clean file of {} bytes", job.file.len()), "time", "posting/it");
    // Which one, against which posting, and the goal.
    let rows = [
        (1, 1, None),
        (0, 1, Some(1.35)),
        (2, 1, Some(0.6)),
        (3, 3, None),
        (0, 3, Some(1.35)),
        (4, 3, Some(0.6)),
    ];
    let judged = rows.map(|(it, posting, goal)| {
        let times = ratio(all[posting].best, all[it].best);
        judge(&all[it].name, &per_byte(&all[it], job.file), times, goal)
    });
    judged.into_iter().sum()
}
