//! Holds the proved library against the reference, call by call.
//!
//! Prints its seed, every mismatch with its input, how often each rule and
//! each refusal was met, and last `N passed, M failed`: the groups of
//! comparisons. The exit status is 0 only if none failed.

#![deny(unsafe_code)]

mod calls;
mod deliveries;
#[path = "../../face.rs"]
#[allow(unsafe_code)]
mod face;
mod group;
mod groups;
mod judge;
mod lent;
mod options;
mod portions;
mod refusals;
mod registers;
mod report;
mod sheets;
mod state;
mod tally;

use std::process::ExitCode;
use std::sync::atomic::{AtomicU64, Ordering};
use std::thread;
use std::time::{Duration, Instant};

use group::Group;
use judge::Judge;
use options::Options;
use second::samples::dice::Dice;

fn main() -> ExitCode {
    match Options::from_command_line() {
        Ok(options) => compare(&options),
        Err(message) => {
            eprintln!("{message}");
            ExitCode::from(2)
        }
    }
}

const STACK: usize = 8 << 20;

/// A group with what became of it over all rounds.
struct Entry {
    group: Group,
    judge: Judge,
}

fn compare(options: &Options) -> ExitCode {
    let start = Instant::now();
    let deadline = options.seconds.map(|seconds| start + Duration::from_secs(seconds));
    let mut entries = entries(options);
    println!("seed {}, {} groups, {} threads", options.seed, entries.len(), options.threads);
    first_round(&mut entries, options);
    if let Some(deadline) = deadline {
        more_rounds(&mut entries, options, deadline);
    }
    println!("{:.1} seconds", start.elapsed().as_secs_f64());
    finish(&entries, options.only.is_none())
}

fn entries(options: &Options) -> Vec<Entry> {
    let wanted = |name: &str| options.only.as_ref().is_none_or(|text| name.contains(text));
    let groups = groups::all(options).into_iter().filter(|group| wanted(group.name));
    groups.map(|group| Entry { group, judge: Judge::new() }).collect()
}

/// All groups, each whole: only this round can meet every rule for certain.
fn first_round(entries: &mut [Entry], options: &Options) {
    for Entry { group, judge } in entries {
        let start = Instant::now();
        run(group, judge, options.seed, options.threads, None);
        let verdict = if judge.failed == 0 { "ok    " } else { "FAILED" };
        let (cases, comparisons) = (group.cases, judge.comparisons);
        let seconds = start.elapsed().as_secs_f64();
        let name = group.name;
        println!("{verdict} {name:50} {cases:8} cases {comparisons:9} comparisons {seconds:6.2} s");
    }
}

/// Random groups with new seeds until the time is up.
fn more_rounds(entries: &mut [Entry], options: &Options, deadline: Instant) {
    let mut seed = options.seed;
    while Instant::now() < deadline {
        seed = seed.wrapping_add(1);
        println!("seed {seed}");
        for entry in entries.iter_mut().filter(|entry| entry.group.is_random) {
            run(&entry.group, &mut entry.judge, seed, options.threads, Some(deadline));
        }
    }
}

/// Runs the cases of a group, shared out among the threads, and tells what
/// went wrong.
fn run(group: &Group, judge: &mut Judge, seed: u64, threads: u64, deadline: Option<Instant>) {
    let next = AtomicU64::new(0);
    let batch = (group.cases / threads / 16).clamp(1, 256);
    let mut round = Judge::new();
    thread::scope(|scope| {
        let work = || run_batches(group, seed, &next, batch, deadline);
        // Entering in a register takes more than a megabyte of stack.
        let spawn = || thread::Builder::new().stack_size(STACK).spawn_scoped(scope, work);
        let workers: Vec<_> = (0..threads).map(|_| spawn().expect("a worker starts")).collect();
        for worker in workers {
            round.add(worker.join().expect("a worker ends"));
        }
    });
    for story in &round.told {
        println!("{story}");
    }
    if round.failed > 0 {
        println!("{} mismatches in \"{}\", seed {seed}", round.failed, group.name);
    }
    judge.add(round);
}

/// One thread's work: the next cases, as long as there are any and there is time.
fn run_batches(
    group: &Group,
    seed: u64,
    next: &AtomicU64,
    batch: u64,
    deadline: Option<Instant>,
) -> Judge {
    let mut judge = Judge::new();
    while deadline.is_none_or(|deadline| Instant::now() < deadline) {
        let first = next.fetch_add(batch, Ordering::Relaxed);
        if first >= group.cases {
            break;
        }
        for case in first..group.cases.min(first + batch) {
            run_case(group, &mut judge, seed, case);
        }
    }
    judge
}

/// One case, with dice of its own; a mismatch is told with its seed.
fn run_case(group: &Group, judge: &mut Judge, seed: u64, case: u64) {
    let told = judge.told.len();
    let mut dice = Dice::of_case(seed, group.name, case);
    (group.run)(judge, &mut dice, case);
    for story in &mut judge.told[told..] {
        *story = format!("MISMATCH in \"{}\", seed {seed}, case {case}:\n  {story}", group.name);
    }
}

/// The table and the last line. A partial run need not meet every rule.
fn finish(entries: &[Entry], is_whole: bool) -> ExitCode {
    let mut all = Judge::new();
    for entry in entries {
        all.tally.add(&entry.judge.tally);
        all.comparisons += entry.judge.comparisons;
    }
    all.tally.print();
    let mut failed = entries.iter().filter(|entry| entry.judge.failed > 0).count();
    let mut groups = entries.len();
    if is_whole {
        groups += 6;
        failed += usize::from(is_missing("rules", &all.tally.missing_rules()));
        failed += usize::from(is_missing("refusals", &all.tally.missing_refusals()));
        let missing = all.tally.missing_portion_answers();
        failed += usize::from(is_missing("answers of portions", &missing));
        let missing = all.tally.missing_sheet_answers();
        failed += usize::from(is_missing("answers of the sheet", &missing));
        let missing = all.tally.missing_register_answers();
        failed += usize::from(is_missing("answers of the register", &missing));
        let missing = all.tally.missing_delivery_answers();
        failed += usize::from(is_missing("answers of delivering", &missing));
    }
    println!("{} comparisons in {groups} groups", all.comparisons);
    println!("{} passed, {failed} failed", groups - failed);
    if failed == 0 { ExitCode::SUCCESS } else { ExitCode::FAILURE }
}

fn is_missing(what: &str, numbers: &[usize]) -> bool {
    if !numbers.is_empty() {
        println!("FAILED {what} never met: {numbers:?}");
    }
    !numbers.is_empty()
}
