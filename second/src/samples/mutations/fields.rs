//! Damage to fields: rules 5 to 9, 23 and 24.

use super::tools::{
    KIND, any_line, any_place, is_control, is_field, is_heading, item_end, other_digit, set, spoil,
};
use crate::samples::calendar;
use crate::samples::dice::Dice;
use crate::samples::draft::Draft;

pub(super) fn repeated_field(draft: &mut Draft, dice: &mut Dice) {
    if let Some(place) = any_place(draft, dice, is_field) {
        let mut line = draft.lines[place].clone();
        if dice.once_in(3) {
            spoil(&mut line, dice);
        }
        let end = item_end(draft, place);
        let to = dice.range(place as u64, end as u64) as usize;
        draft.lines.insert(to, line);
    }
}

pub(super) fn broken_field(draft: &mut Draft, dice: &mut Dice) {
    if let Some(line) = any_line(draft, dice, is_field) {
        spoil(line, dice);
    }
}

pub(super) fn broken_heading(draft: &mut Draft, dice: &mut Dice) {
    if let Some(line) = any_line(draft, dice, is_heading) {
        spoil(line, dice);
    }
}

pub(super) fn continued_heading(draft: &mut Draft, dice: &mut Dice) {
    if let Some(place) = any_place(draft, dice, is_heading) {
        draft.lines.insert(place + 1, b"   ".to_vec());
        if dice.once_in(2) {
            draft.lines.insert(place + 1, b"stray".to_vec());
        }
    }
}

pub(super) fn more_continuations(draft: &mut Draft, dice: &mut Dice) {
    if let Some(place) = any_place(draft, dice, is_field) {
        for _ in 0..dice.range(1, 4) {
            let length = dice.pick(&[0, 1, 35, 36]);
            let line = if dice.once_in(6) { b"?".to_vec() } else { [b' '].repeat(3 + length) };
            draft.lines.insert(place + 1, line);
        }
    }
}

pub(super) fn longer_line(draft: &mut Draft, dice: &mut Dice) {
    let length = dice.range(1, 40) as usize;
    if let Some(line) = any_line(draft, dice, |line| !is_heading(line)) {
        line.extend([b'x'].repeat(length));
    }
}

fn is_account(line: &[u8]) -> bool {
    line.starts_with(b"UD:") || line.starts_with(b"UK:")
}

pub(super) fn bad_account(draft: &mut Draft, dice: &mut Dice) {
    if let Some(line) = any_line(draft, dice, is_account) {
        other_digit(line, dice);
    }
}

/// A prefix of a few digits, as they fall, in place of the one that stands.
pub(super) fn bad_prefix(draft: &mut Draft, dice: &mut Dice) {
    let length = dice.range(1, 7) as usize;
    let digits: Vec<u8> = (0..length).map(|_| b'0' + dice.below(10) as u8).collect();
    if let Some(line) = any_line(draft, dice, is_account) {
        let rest = line.iter().skip(3).skip_while(|byte| byte.is_ascii_digit()).copied();
        *line = line[..3].iter().copied().chain(digits).chain(rest).collect();
    }
}

/// Noughts for the digits of the number.
pub(super) fn zero_number(draft: &mut Draft, dice: &mut Dice) {
    if let Some(line) = any_line(draft, dice, is_account) {
        let number = line.iter_mut().skip(3).skip_while(|byte| **byte != b' ').skip(1);
        number.take_while(|byte| byte.is_ascii_digit()).for_each(|byte| *byte = b'0');
    }
}

pub(super) fn amount_day(draft: &mut Draft, dice: &mut Dice) {
    let shifted = calendar::shift(draft.day, dice.pick(&[-11, -1, 0, 1, 29, 30, 31, 32, 400]));
    let unreal = dice.pick(&[20230229, 20240230, 20241301, 20240100, 0, 99999999, 1231, 21000229]);
    let day = if dice.once_in(3) { unreal } else { shifted };
    if let Some(line) = any_line(draft, dice, |line| line.starts_with(b"KC:")) {
        let amount: Vec<u8> = line.iter().copied().take_while(|&byte| byte != b' ').collect();
        *line = [amount, format!(" {day:08}").into_bytes()].concat();
    }
}

pub(super) fn amount_limit(draft: &mut Draft, dice: &mut Dice) {
    if let Some(place) = any_place(draft, dice, |line| is_heading(line) && !is_control(line)) {
        if !dice.once_in(4) {
            set(&mut draft.lines[place], KIND, 32);
        }
        let amount = dice.range(99_999_999_999, 100_000_000_001);
        let (day, end) = (draft.day, item_end(draft, place));
        let item = &mut draft.lines[place..end];
        if let Some(line) = item.iter_mut().find(|line| line.starts_with(b"KC:")) {
            *line = format!("KC:{amount} {day}").into_bytes();
        }
    }
}
