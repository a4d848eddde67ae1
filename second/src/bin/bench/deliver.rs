//! Writing an output file of as many items as it can have, beside the second
//! program's, and beside checking an input file of the same bytes.

use std::hint::black_box;

use second::deliver::{self, CHECKLIST, MOST_ITEMS};
use second::heading::Heading;
use second::samples::Sample;
use second::samples::deliveries::Parcel;
use second::samples::draft::Draft;

use crate::clock::{Contestant, race, ratio};
use crate::{face, header, judge, library_total, per_byte};

const CODE: u32 = 300;
const CERTIS: u32 = 999;
const DAY: u32 = 20240304;

/// Bytes that an output file has more than its items, at most: those of the
/// closing item, and of EC lines whose number grows.
const CLOSING: usize = 500;
const GROWTH: usize = 10;

/// What each item has beside its amount.
const FIELDS: [&str; 4] =
    ["UD:19 2000145399", "UK: 2000145399 JAN NOVAK", "EC:1234567890", "AV:PLATBA"];

pub fn delivering(rounds: u32) -> u32 {
    let [small, large] = [MOST_ITEMS / 10, MOST_ITEMS].map(items);
    against_others(&large, rounds) + growth([&small.0, &large.0], rounds)
}

/// So many items of a bank to itself, so that it gets them whatever became of
/// them: as a parcel, every other one refused by the checklist, and as an input
/// file without faults.
fn items(count: usize) -> (Parcel, Sample) {
    let mut draft = Draft::new(CODE, DAY);
    for number in 1..=count as u32 {
        let kind = [11, 12, 13, 14][number as usize % 4];
        draft.heading(Heading { second: CODE, ..draft.good_heading(kind, number) });
        draft.line(format!("KC:12500 {DAY}"));
        FIELDS.iter().for_each(|field| draft.line(*field));
    }
    let parcel = Parcel {
        items: draft.slice(),
        outcomes: (0..count).map(|place| [1, CHECKLIST][place % 2]).collect(),
        standings: vec![1; count],
        certis: CERTIS,
        day: DAY,
        start: 1,
    };
    draft.heading(draft.good_heading(51, 0));
    draft.line(format!("IN:1 {count}"));
    draft.line(format!("S1:{count} {}", count * 12_500));
    (parcel, draft.sample())
}

fn target(parcel: &Parcel) -> Vec<u8> {
    vec![0; parcel.items.len() + GROWTH * parcel.outcomes.len() + CLOSING]
}

fn library_deliver(parcel: &Parcel, target: &mut [u8]) {
    let mut written = 0;
    assert_eq!(face::deliver(black_box(&parcel.delivery()), target, &mut written), 0);
    black_box((target, written));
}

fn second_deliver(parcel: &Parcel) {
    let answer = deliver::deliver(black_box(&parcel.delivery()), usize::MAX);
    black_box(answer.expect("not refused"));
}

fn against_others((parcel, file): &(Parcel, Sample), rounds: u32) -> u32 {
    let (mut written, mut copied) = (target(parcel), target(parcel));
    let mut all = [
        Contestant::new("delivering", || library_deliver(parcel, &mut written)),
        Contestant::new("second program's delivering", || second_deliver(parcel)),
        Contestant::new("checking an input file of these items", || library_total(file.job())),
        Contestant::new("copying the items", || {
            copied[..parcel.items.len()].copy_from_slice(black_box(&parcel.items));
            black_box(&copied);
        }),
    ];
    race(&mut all, rounds);
    let (count, bytes) = (parcel.outcomes.len(), parcel.items.len());
    header(&format!("delivering {count} items of {bytes} bytes"), "time", "delivering/it");
    let rows = all.iter().zip([None, Some(0.6), None, None]);
    rows.map(|(it, goal)| {
        judge(&it.name, &per_byte(it, &parcel.items), ratio(all[0].best, it.best), goal)
    })
    .sum()
}

/// Ten times the items: how many times the time.
fn growth(parcels: [&Parcel; 2], rounds: u32) -> u32 {
    let mut targets = parcels.map(target);
    let mut all: Vec<Contestant> = parcels
        .iter()
        .zip(&mut targets)
        .map(|(parcel, target)| {
            let name = format!("{} items", parcel.outcomes.len());
            Contestant::new(&name, || library_deliver(parcel, target))
        })
        .collect();
    race(&mut all, rounds * 3);
    header("growth of delivering", "time", "it/first");
    judge(&all[0].name, &per_byte(&all[0], &parcels[0].items), 1.0, None);
    let times = ratio(all[1].best, all[0].best);
    judge(&all[1].name, &per_byte(&all[1], &parcels[1].items), times, Some(11.0))
}
