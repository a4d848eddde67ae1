//! What the mutations share: finding lines in a draft and changing their texts.

use std::ops::Range;

use crate::samples::dice::Dice;
use crate::samples::draft::Draft;

pub(super) fn is_heading(line: &[u8]) -> bool {
    line.len() == 54 && line.starts_with(b"HD:")
}

pub(super) fn is_control(line: &[u8]) -> bool {
    is_heading(line) && line[3..5] == *b"51"
}

pub(super) fn is_field(line: &[u8]) -> bool {
    line.get(2) == Some(&b':') && !line.starts_with(b"HD")
}

pub(super) fn any_place(
    draft: &Draft,
    dice: &mut Dice,
    wanted: impl Fn(&[u8]) -> bool,
) -> Option<usize> {
    let places = draft.lines.iter().enumerate().filter(|(_, line)| wanted(line));
    let places: Vec<usize> = places.map(|(place, _)| place).collect();
    (!places.is_empty()).then(|| dice.pick(&places))
}

pub(super) fn any_line<'d>(
    draft: &'d mut Draft,
    dice: &mut Dice,
    wanted: impl Fn(&[u8]) -> bool,
) -> Option<&'d mut Vec<u8>> {
    let place = any_place(draft, dice, wanted)?;
    Some(&mut draft.lines[place])
}

/// The place after the last line of the item that a line stands in.
pub(super) fn item_end(draft: &Draft, place: usize) -> usize {
    let below = draft.lines[place + 1..].iter();
    below.take_while(|line| !line.starts_with(b"HD:")).count() + place + 1
}

/// A place where a line can be put in, the end included.
pub(super) fn gap(draft: &Draft, dice: &mut Dice) -> usize {
    dice.place(draft.lines.len() + 1)
}

// Changing texts.

/// The parts of a heading by their places in its text.
pub(super) const KIND: Range<usize> = 3..5;
pub(super) const DAY: Range<usize> = 6..14;
pub(super) const FIRST: Range<usize> = 15..22;
pub(super) const NUMBER: Range<usize> = 23..30;
pub(super) const SECOND: Range<usize> = 31..38;
pub(super) const OUTPUT: Range<usize> = 39..46;
pub(super) const THIRD: Range<usize> = 47..54;

pub(super) fn value(line: &[u8], part: Range<usize>) -> u32 {
    std::str::from_utf8(&line[part]).ok().and_then(|text| text.parse().ok()).unwrap_or(0)
}

pub(super) fn set(line: &mut [u8], part: Range<usize>, value: u32) {
    let width = part.len();
    let text = format!("{value:0width$}");
    line[part].copy_from_slice(&text.as_bytes()[text.len() - width..]);
}

pub(super) fn set_in_any_heading(
    draft: &mut Draft,
    dice: &mut Dice,
    part: Range<usize>,
    value: u32,
) {
    if let Some(line) = any_line(draft, dice, is_heading) {
        set(line, part, value);
    }
}

/// Changes a text so that its layout often breaks.
pub(super) fn spoil(line: &mut Vec<u8>, dice: &mut Dice) {
    let place = dice.range(3, line.len().max(4) as u64 - 1) as usize;
    let place = place.min(line.len());
    match dice.below(8) {
        0 => line.push(b' '),
        1 => line.push(b'0'),
        2 => line.push(b'x'),
        3 => line.insert(place, b' '),
        4 => line.insert(place, b'0'),
        5 if place < line.len() => line[place] = dice.pick(b"x :/\r\n."),
        6 if place < line.len() => drop(line.remove(place)),
        _ => line.truncate(place),
    }
}

/// Any digit behind the colon becomes any digit.
pub(super) fn other_digit(line: &mut [u8], dice: &mut Dice) {
    let digits: Vec<usize> = (3..line.len()).filter(|&at| line[at].is_ascii_digit()).collect();
    if !digits.is_empty() {
        line[dice.pick(&digits)] = b'0' + dice.below(10) as u8;
    }
}
