//! Items to be delivered, with an outcome and a standing for each of them.

use std::ops::RangeInclusive;

use super::calendar::{self, TRICKY};
use super::clean;
use super::dice::Dice;
use super::draft::Draft;
use crate::deliver::Delivery;
use crate::heading::Heading;

/// What one delivery takes.
#[derive(Clone, Debug)]
pub struct Parcel {
    pub items: Vec<u8>,
    pub outcomes: Vec<u32>,
    pub standings: Vec<u32>,
    pub certis: u32,
    pub day: u32,
    pub start: u32,
}

impl Parcel {
    pub fn delivery(&self) -> Delivery<'_> {
        let Parcel { items, outcomes, standings, certis, day, start } = self;
        let (certis, day, start) = (*certis, *day, *start);
        Delivery { items, outcomes, standings, certis, day, start }
    }
}

/// Types that go in a file together, and the class of their output numbers.
struct Class {
    kinds: &'static [u32],
    numbers: RangeInclusive<u32>,
}

const CLASSES: [Class; 3] = [
    Class { kinds: &[11, 12, 13, 14, 32, 33, 35, 37, 55], numbers: 1..=5_000_000 },
    Class { kinds: &[1, 21, 45], numbers: 5_000_001..=9_000_000 },
    Class { kinds: &[44], numbers: 9_000_001..=9_999_999 },
];

/// A few items that nothing is wrong with: as lines that can still be changed,
/// and as a parcel.
pub fn small(dice: &mut Dice) -> (Draft, Parcel) {
    let items = dice.range(1, 6) as u32;
    of_items(dice, items, clean::LARGEST_AMOUNT)
}

/// So many of them, with amounts up to `most`.
pub fn of_items(dice: &mut Dice, items: u32, most: u64) -> (Draft, Parcel) {
    let class = &CLASSES[dice.place(CLASSES.len())];
    let recipient = dice.range(1, 9_999) as u32;
    let mut draft = Draft::new(recipient, dice.pick(&TRICKY));
    let (mut outcomes, mut standings) = (Vec::new(), Vec::new());
    for _ in 0..items {
        let kind = dice.pick(class.kinds);
        let standing = if is_trilateral(kind) { dice.range(1, 2) as u32 } else { 1 };
        let outcome = dice.pick(outcomes_of(kind, standing));
        let heading = heading_to(dice, &draft, recipient, kind, outcome);
        draft.lines.extend(clean::item(dice, draft.day, heading, most));
        outcomes.push(outcome);
        standings.push(standing);
    }
    let (first, last) = (*class.numbers.start(), *class.numbers.end() + 1 - items);
    let start = match dice.below(4) {
        0 => first,
        1 => last,
        _ => dice.range(first.into(), last.into()) as u32,
    };
    let (certis, day) = (dice.range(1, 9_999) as u32, draft.day);
    let parcel = Parcel { items: draft.slice(), outcomes, standings, certis, day, start };
    (draft, parcel)
}

fn is_trilateral(kind: u32) -> bool {
    matches!(kind, 35 | 37 | 45)
}

/// Those for which document 01's table has an entry, and 8 with the 6.
fn outcomes_of(kind: u32, standing: u32) -> &'static [u32] {
    match (kind, standing) {
        (45, 2) => &[1, 2, 3, 4, 5, 6, 7, 8],
        (35 | 37 | 45, _) => &[1, 2, 3, 4, 7],
        (32 | 33 | 44 | 55, _) => &[1, 7],
        _ => &[1, 6, 7, 8],
    }
}

/// A heading whose item goes to this participant; its other codes are anybody's.
fn heading_to(dice: &mut Dice, draft: &Draft, recipient: u32, kind: u32, outcome: u32) -> Heading {
    let mut anybody = || {
        let last = if dice.once_in(4) { 9_999_999 } else { 9_999 };
        dice.range(1, last) as u32
    };
    let mut codes = [anybody(), anybody(), anybody()];
    let place = match (is_trilateral(kind), outcome) {
        (false, 1) | (true, 3 | 4) => 1,
        (true, 1 | 2) => 2,
        _ => 0,
    };
    codes[place] = recipient;
    let [first, second, third] = codes;
    Heading {
        kind,
        day: calendar::shift(draft.day, -(dice.below(11) as i32)),
        first,
        number: dice.below(10_000_000) as u32,
        second,
        output: 0,
        third: if is_trilateral(kind) { third } else { 0 },
    }
}

#[cfg(test)]
mod tests {
    use super::*;
    use crate::deliver::deliver;

    #[test]
    fn nothing_is_wrong_with_them() {
        for seed in 0..3_000 {
            let (_, parcel) = small(&mut Dice::new(seed));
            let answer = deliver(&parcel.delivery(), usize::MAX);
            assert!(answer.is_ok(), "{answer:?} {}", parcel.items.escape_ascii());
        }
    }
}
