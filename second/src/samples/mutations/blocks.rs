//! Damage to blocks and to what their 51 says: rules 16 to 21 and 30 to 39.

use super::tools::{
    DAY, KIND, NUMBER, any_line, any_place, is_control, is_heading, item_end, other_digit, set,
    spoil, value,
};
use crate::samples::calendar;
use crate::samples::dice::Dice;
use crate::samples::draft::Draft;

pub(super) fn no_last_control(draft: &mut Draft, dice: &mut Dice) {
    if let Some(place) = draft.lines.iter().rposition(|line| is_control(line)) {
        let end = if dice.once_in(2) { draft.lines.len() } else { place + 1 };
        draft.lines.drain(place..end);
    }
}

pub(super) fn heading_at_end(draft: &mut Draft, dice: &mut Dice) {
    for number in 0..dice.range(1, 3) as u32 {
        let kind = dice.pick(&[1, 11, 35, 51, 99]);
        let mut line = draft.good_heading(kind, number).write();
        if dice.once_in(3) {
            spoil(&mut line, dice);
        }
        draft.line(line);
    }
}

pub(super) fn broken_control(draft: &mut Draft, dice: &mut Dice) {
    if let Some(line) = any_line(draft, dice, is_control) {
        spoil(line, dice);
    }
}

pub(super) fn empty_block(draft: &mut Draft, dice: &mut Dice) {
    if let Some(place) = any_place(draft, dice, is_control) {
        let end = item_end(draft, place);
        let item = draft.lines[place..end].to_vec();
        draft.lines.splice(end..end, item);
        if dice.once_in(3) {
            draft.lines.insert(end, b"HD:".to_vec());
        }
    }
}

pub(super) fn other_day(draft: &mut Draft, dice: &mut Dice) {
    if let Some(line) = any_line(draft, dice, is_heading) {
        let day = calendar::shift(value(line, DAY).max(20000101), dice.pick(&[-1, 1, 2]));
        set(line, DAY, day);
    }
}

pub(super) fn other_number(draft: &mut Draft, dice: &mut Dice) {
    if let Some(line) = any_line(draft, dice, is_heading) {
        let number = value(line, NUMBER);
        let near =
            [0, 1, number + 1, number.saturating_sub(1), number + 256, number + 65_536, 9_999_999];
        set(line, NUMBER, dice.pick(&near));
    }
}

pub(super) fn swapped_headings(draft: &mut Draft, dice: &mut Dice) {
    let first = any_place(draft, dice, is_heading);
    let second = any_place(draft, dice, is_heading);
    if let (Some(first), Some(second)) = (first, second) {
        draft.lines.swap(first, second);
    }
}

pub(super) fn other_class(draft: &mut Draft, dice: &mut Dice) {
    let kind = dice.pick(&[1, 21, 44, 45, 11, 32, 37, 55, 96, 98]);
    let wanted = |line: &[u8]| is_heading(line) && !is_control(line);
    if let Some(line) = any_line(draft, dice, wanted) {
        set(line, KIND, kind);
    }
}

fn is_interval(line: &[u8]) -> bool {
    line.starts_with(b"IN:")
}

pub(super) fn no_interval(draft: &mut Draft, dice: &mut Dice) {
    if let Some(place) = any_place(draft, dice, is_interval) {
        draft.lines.remove(place);
    }
}

pub(super) fn other_interval(draft: &mut Draft, dice: &mut Dice) {
    if let Some(line) = any_line(draft, dice, is_interval) {
        other_digit(line, dice);
    }
}

/// A first IN that does not read, before one that does.
pub(super) fn broken_interval(draft: &mut Draft, dice: &mut Dice) {
    if let Some(place) = any_place(draft, dice, is_interval) {
        draft.lines.insert(place, dice.pick(&["IN:", "IN:1", "IN:1 2 "]).as_bytes().to_vec());
    }
}

// Sums: rules 30 to 39.

pub(super) fn any_sum<const GROUP: u8>(draft: &mut Draft, dice: &mut Dice) {
    let name = [b'S', b'0' + GROUP, b':'];
    let known = any_place(draft, dice, |line| line.starts_with(&name));
    match (known, dice.below(4)) {
        (Some(place), 0) => drop(draft.lines.remove(place)),
        (Some(place), 1 | 2) => other_digit(&mut draft.lines[place], dice),
        _ => wrong_sum(draft, dice, &name),
    }
}

/// An S line at the start of a 51: wrong, zero, or one that does not read.
fn wrong_sum(draft: &mut Draft, dice: &mut Dice, name: &[u8]) {
    if let Some(place) = any_place(draft, dice, is_control) {
        let values = ["0 0", "1 0", "0 1", "1 5", "", "1", "1 1 ", "9999999 99999999999999999"];
        let line = [name, dice.pick(&values).as_bytes()].concat();
        draft.lines.insert(place + 1, line);
    }
}
