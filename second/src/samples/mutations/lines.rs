//! Damage to lines, whatever they are: rules 1 to 4, and some aimed at no rule.

use super::tools::{any_line, any_place, gap};
use crate::samples::dice::Dice;
use crate::samples::draft::Draft;

pub(super) fn bad_byte(draft: &mut Draft, dice: &mut Dice) {
    let bytes =
        b"\0\t\x19\x1b\x1f\x7f\x80\x83\x86\x8f\x97\x9d\xa4\xb6\xd3\xdd\xdf\xe1\xeb\xfb\xfe\xff";
    let byte = if dice.once_in(4) { dice.byte() } else { dice.pick(bytes) };
    let inserts = dice.once_in(2);
    if let Some(line) = any_line(draft, dice, |_| true) {
        let place = dice.place(line.len() + 1);
        if inserts || place == line.len() {
            line.insert(place, byte);
        } else {
            line[place] = byte;
        }
    }
}

pub(super) fn lone_end(draft: &mut Draft, dice: &mut Dice) {
    let bytes = dice.pick(&[&b"\r"[..], b"\n", b"\n\r", b"\r\r"]);
    if let Some(line) = any_line(draft, dice, |_| true) {
        let place = if dice.once_in(3) { line.len() } else { dice.place(line.len() + 1) };
        line.splice(place..place, bytes.iter().copied());
    }
}

/// Bytes behind the end mark: the file is refused with 9.
pub(super) fn leftover(draft: &mut Draft, dice: &mut Dice) {
    let length = dice.range(1, 60);
    draft.leftover = (0..length).map(|_| dice.pick(b"\x1a\r\nHD:   \xff")).collect();
}

pub(super) fn stray_line(draft: &mut Draft, dice: &mut Dice) {
    let strays =
        ["", " ", "  ", "x", "hd:", "kc:1 20240304", "A:", ":::", " HD:", "HD", "KC 1 20240304"];
    let place = gap(draft, dice);
    draft.lines.insert(place, dice.pick(&strays).as_bytes().to_vec());
}

pub(super) fn stray_continuation(draft: &mut Draft, dice: &mut Dice) {
    let place = if dice.once_in(2) { 0 } else { gap(draft, dice) };
    draft.lines.insert(place, b"   and more".to_vec());
}

pub(super) fn lines_on_top(draft: &mut Draft, dice: &mut Dice) {
    let tops = ["KC:1 20240304", "KC:", "UD: 18", "   x", "AV:", "x", "", "S9:", "IN:1 1"];
    for _ in 0..dice.range(1, 4) {
        draft.lines.insert(0, dice.pick(&tops).as_bytes().to_vec());
    }
}

pub(super) fn no_last_end(draft: &mut Draft, _: &mut Dice) {
    draft.ended = false;
}

// Aimed at nothing.

pub(super) fn missing_line(draft: &mut Draft, dice: &mut Dice) {
    if let Some(place) = any_place(draft, dice, |_| true) {
        draft.lines.remove(place);
    }
}

pub(super) fn moved_line(draft: &mut Draft, dice: &mut Dice) {
    if let Some(place) = any_place(draft, dice, |_| true) {
        let line = draft.lines.remove(place);
        let to = gap(draft, dice);
        draft.lines.insert(to, line);
    }
}

pub(super) fn joined_lines(draft: &mut Draft, dice: &mut Dice) {
    if let Some(place) =
        any_place(draft, dice, |_| true).filter(|place| place + 1 < draft.lines.len())
    {
        let below = draft.lines.remove(place + 1);
        draft.lines[place].extend(below);
    }
}

pub(super) fn split_line(draft: &mut Draft, dice: &mut Dice) {
    if let Some(place) = any_place(draft, dice, |_| true) {
        let at = dice.place(draft.lines[place].len() + 1);
        let rest = draft.lines[place].split_off(at);
        draft.lines.insert(place + 1, rest);
    }
}
