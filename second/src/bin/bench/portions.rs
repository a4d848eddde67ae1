//! Checking a clean file that comes in portions, beside checking it whole.

use std::hint::black_box;

use second::samples::dice::Dice;
use second::samples::{Job, large};

use crate::clock::{Contestant, race, ratio};
use crate::{ROOM, face, header, judge, library_check, per_byte, rooms, ten_times};

/// Bytes of a portion, and how many times the whole check it may take.
const PORTIONS: [(usize, Option<f64>); 4] =
    [(65_536, Some(1.1)), (4_096, Some(1.3)), (256, None), (16, None)];

pub fn portions(rounds: u32) -> u32 {
    let [small, large] =
        [large::MOST / 10, large::MOST].map(|bytes| large::clean_of(&mut Dice::new(1), bytes));
    let jobs = [small.job(), large.job()];
    let missed: u32 = jobs.map(|job| against_whole(job, rounds)).into_iter().sum();
    let title = format!("growth of portions of {} bytes", PORTIONS[1].0);
    missed + ten_times(&title, jobs, rounds, &|job| in_portions(job, PORTIONS[1].0))
}

/// The parts of a state.
struct State {
    wide: [u64; 38],
    length: u64,
    narrow: [u32; 33],
    frame: [u32; 8],
    pairs: [[u32; ROOM]; 3],
    stood: [u32; 1_296],
    small: [u8; 19],
    text: [u8; 68],
}

impl State {
    fn new() -> Self {
        State {
            wide: [0; 38],
            length: 0,
            narrow: [0; 33],
            frame: [0; 8],
            pairs: [[0; ROOM]; 3],
            stood: [0; 1_296],
            small: [0; 19],
            text: [0; 68],
        }
    }

    fn lend(&mut self) -> face::Portions<'_> {
        let [lines, rules, offsets] = self.pairs.each_mut();
        face::Portions {
            wide: &mut self.wide,
            length: &mut self.length,
            narrow: &mut self.narrow,
            frame: &mut self.frame,
            lines,
            rules,
            offsets,
            stood: &mut self.stood,
            small: &mut self.small,
            text: &mut self.text,
        }
    }
}

fn in_portions(Job { code, day, file }: Job, length: usize) {
    let (mut state, mut rooms, mut total) = (State::new(), [[0; ROOM]; 3], 0);
    assert_eq!(face::portions_open(code, day, state.lend()), 0);
    for portion in black_box(file).chunks(length) {
        assert_eq!(face::portions_add(portion, state.lend()), 0);
    }
    assert_eq!(face::portions_close(state.lend(), rooms.each_mut(), &mut total), 0);
    black_box((rooms, total));
}

fn against_whole(job: Job, rounds: u32) -> u32 {
    let mut few = rooms(ROOM);
    let mut all = vec![Contestant::new("whole", || library_check(job, &mut few))];
    all.extend(PORTIONS.map(|(length, _)| {
        let name = format!("portions of {length} bytes");
        Contestant::new(&name, move || in_portions(job, length))
    }));
    race(&mut all, rounds);
    header(&format!("a clean file of {} bytes in portions", job.file.len()), "time", "it/whole");
    judge(&all[0].name, &per_byte(&all[0], job.file), 1.0, None);
    let rows = all[1..].iter().zip(PORTIONS);
    rows.map(|(it, (_, goal))| {
        judge(&it.name, &per_byte(it, job.file), ratio(it.best, all[0].best), goal)
    })
    .sum()
}
