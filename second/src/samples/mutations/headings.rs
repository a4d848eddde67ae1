//! Damage to headings by themselves: rules 10 to 15.

use super::tools::{
    DAY, FIRST, KIND, OUTPUT, SECOND, THIRD, any_place, is_heading, set, set_in_any_heading,
};
use crate::samples::calendar;
use crate::samples::dice::Dice;
use crate::samples::draft::Draft;

pub(super) fn odd_type(draft: &mut Draft, dice: &mut Dice) {
    let kind = dice.below(100) as u32;
    set_in_any_heading(draft, dice, KIND, kind);
}

fn bad_day(draft: &Draft, dice: &mut Dice) -> u32 {
    match dice.below(4) {
        0 => dice.pick(&[20230229, 20240231, 0, 99999999, 20240010, 20241310]),
        _ => calendar::shift(draft.day, dice.range(0, 15) as i32 - 13),
    }
}

pub(super) fn heading_day(draft: &mut Draft, dice: &mut Dice) {
    let day = bad_day(draft, dice);
    set_in_any_heading(draft, dice, DAY, day);
}

pub(super) fn days_of_all(draft: &mut Draft, dice: &mut Dice) {
    let day = bad_day(draft, dice);
    for line in draft.lines.iter_mut().filter(|line| is_heading(line)) {
        set(line, DAY, day);
    }
}

pub(super) fn first_code(draft: &mut Draft, dice: &mut Dice) {
    let near = [draft.code - 1, draft.code + 1, draft.code + 10_000, draft.code + 65_536, 0];
    let code = dice.pick(&near);
    set_in_any_heading(draft, dice, FIRST, code);
}

pub(super) fn output_number(draft: &mut Draft, dice: &mut Dice) {
    let number = dice.pick(&[1, 65_536, 9_999_999, 5_000_001]);
    set_in_any_heading(draft, dice, OUTPUT, number);
}

pub(super) fn second_code(draft: &mut Draft, dice: &mut Dice) {
    set_in_any_heading(draft, dice, SECOND, 0);
}

pub(super) fn third_code(draft: &mut Draft, dice: &mut Dice) {
    let code = dice.pick(&[0, 1, 65_536, 9_999_999]);
    set_in_any_heading(draft, dice, THIRD, code);
}

pub(super) fn no_amount(draft: &mut Draft, dice: &mut Dice) {
    if let Some(place) = any_place(draft, dice, |line| line.starts_with(b"KC:")) {
        draft.lines.remove(place);
    }
}
