//! All groups of comparisons.

use second::samples::Sample;
use second::samples::clean;
use second::samples::dice::Dice;
use second::samples::edges;
use second::samples::large;
use second::samples::mutations::ALL as MUTATIONS;
use second::samples::soup;

use crate::calls;
use crate::deliveries;
use crate::group::Group;
use crate::judge::Judge;
use crate::options::Options;
use crate::portions;
use crate::refusals;
use crate::registers;
use crate::sheets;

pub fn all(options: &Options) -> Vec<Group> {
    let edges = edges::all().into_iter().map(|edge| {
        let (name, count) = (edge.name, edge.count);
        Group::listed(name, count, move |judge, dice, case| judge.small(&edge.sample(case), dice))
    });
    let mut groups = refusals::all();
    groups.extend(calls::all());
    groups.extend(edges);
    groups.extend(portions::all(options.files, options.large));
    groups.extend(sheets::all(options.files));
    groups.extend(registers::all(options.files));
    groups.extend(deliveries::all(options.files));
    groups.extend(random_files(options.files));
    groups.push(large_files(options.large));
    groups
}

/// Each kind in turn, or any kinds if there are fewer files than kinds.
fn large_files(files: u64) -> Group {
    Group::random("large files", files, move |judge, dice, case| {
        let kind = if files < large::KINDS { dice.below(large::KINDS) } else { case };
        judge.large(large::large(dice, kind).job());
    })
}

/// Small random files, shared out among the ways to make them.
fn random_files(files: u64) -> Vec<Group> {
    let share = |percent: u64| (files * percent).div_ceil(100);
    vec![
        Group::random("clean files", share(10), clean_file),
        Group::random("clean files, another code or day", share(4), other_job),
        Group::random("mutations alone", share(14), |judge, dice, case| {
            mutated(judge, dice, &[case]);
        }),
        Group::random("mutations in pairs", share(30), |judge, dice, case| {
            mutated(judge, dice, &[case, case / MUTATIONS.len() as u64]);
        }),
        Group::random("mutations in heaps", share(8), |judge, dice, _| {
            let heap: Vec<u64> = (0..dice.range(3, 12)).map(|_| dice.throw() >> 8).collect();
            mutated(judge, dice, &heap);
        }),
        Group::random("changed bytes", share(10), changed_bytes),
        Group::random("line soup", share(12), |judge, dice, _| {
            let sample = soup::lines(dice);
            judge.small(&sample, dice);
        }),
        Group::random("byte soup", share(6), |judge, dice, _| {
            let sample = soup::bytes(dice);
            judge.small(&sample, dice);
        }),
        Group::random("soup of pieces", share(5), |judge, dice, _| {
            let sample = soup::pieces(dice);
            judge.small(&sample, dice);
        }),
        Group::random("noise", share(1), |judge, dice, _| {
            let sample = soup::noise(dice);
            judge.small(&sample, dice);
        }),
    ]
}

/// A file that is meant to be clean has to be so for the reference, too.
fn clean_file(judge: &mut Judge, dice: &mut Dice, _: u64) {
    let sample = clean::small(dice).sample();
    if judge.verdict(sample.job()) != Ok(Vec::new()) {
        judge.fail(|| format!("not clean: {}", sample.file.escape_ascii()));
    }
    judge.small(&sample, dice);
}

/// A clean file checked for a neighbouring code or day.
fn other_job(judge: &mut Judge, dice: &mut Dice, _: u64) {
    let mut sample = clean::small(dice).sample();
    if dice.once_in(2) {
        sample.code = sample.code + 1 - 2 * dice.below(2) as u32;
    } else {
        sample.day = sample.day + 2 - dice.below(5) as u32;
    }
    judge.small(&sample, dice);
}

fn mutated(judge: &mut Judge, dice: &mut Dice, numbers: &[u64]) {
    judge.small(&mutated_file(dice, numbers), dice);
}

/// A clean file with the mutations of these numbers, one after another.
fn mutated_file(dice: &mut Dice, numbers: &[u64]) -> Sample {
    let mut draft = clean::small(dice);
    for number in numbers {
        let mutation = &MUTATIONS[(number % MUTATIONS.len() as u64) as usize];
        (mutation.apply)(&mut draft, dice);
    }
    draft.sample()
}

fn changed_bytes(judge: &mut Judge, dice: &mut Dice, _: u64) {
    judge.small(&changed_file(dice), dice);
}

/// A clean file with a few bytes replaced, put in or left out.
fn changed_file(dice: &mut Dice) -> Sample {
    let mut sample = clean::small(dice).sample();
    for _ in 0..dice.range(1, 4) {
        change_byte(&mut sample.file, dice);
    }
    sample
}

/// A small file of any of these makes.
pub fn any_file(dice: &mut Dice) -> Sample {
    match dice.below(10) {
        0 => clean::small(dice).sample(),
        kind @ 1..=3 => {
            let times = if kind == 3 { dice.range(3, 12) } else { kind };
            let numbers: Vec<u64> = (0..times).map(|_| dice.throw() >> 8).collect();
            mutated_file(dice, &numbers)
        }
        4 => changed_file(dice),
        5 | 6 => soup::lines(dice),
        7 => soup::bytes(dice),
        8 => soup::pieces(dice),
        _ => soup::noise(dice),
    }
}

pub fn change_byte(bytes: &mut Vec<u8>, dice: &mut Dice) {
    let place = dice.place(bytes.len());
    let byte = if dice.once_in(4) { dice.byte() } else { dice.pick(b"\r\n\x1a 0159:HDKCSAx\x7f") };
    match dice.below(3) {
        0 => bytes[place] = byte,
        1 => bytes.insert(place, byte),
        // A file of one byte is left alone: the next change needs a place.
        _ if bytes.len() > 1 => drop(bytes.remove(place)),
        _ => {}
    }
}
