//! Clean files: many blocks, types and fields, and no fault at all.

use super::calendar::{self, TRICKY};
use super::dice::Dice;
use super::draft::Draft;
use crate::characters::is_admissible;
use crate::heading::Heading;

pub const PRIORITY: [u32; 4] = [1, 21, 44, 45];
pub const ORDINARY: [u32; 12] = [11, 12, 13, 14, 32, 33, 35, 37, 55, 96, 97, 98];

const LARGEST_NUMBER: u32 = 9_999_999;
/// The largest amount of one item.
pub const LARGEST_AMOUNT: u64 = 999_999_999_999_999;
/// The largest sum that an S line can state.
const LARGEST_SUM: u64 = 99_999_999_999_999_999;
/// No item and no control item of this module is longer.
const LONGEST_ITEM: usize = 4_000;

/// A field with its continuations.
type Lines = Vec<Vec<u8>>;

/// Count and sum of each group.
type Sums = [(u64, u64); 10];

/// A few blocks of a few items.
pub fn small(dice: &mut Dice) -> Draft {
    small_by(Author::new(dice))
}

/// The same, from one of these participants and to them.
pub fn small_among(dice: &mut Dice, codes: &[u32]) -> Draft {
    small_by(Author::among(dice, codes, LARGEST_AMOUNT))
}

fn small_by(mut author: Author) -> Draft {
    for _ in 0..author.dice.range(1, 3) {
        let items = author.dice.range(1, 6);
        author.block(items as u32, usize::MAX);
    }
    author.draft
}

/// About so many bytes, and not more; blocks of up to 5,000 items.
pub fn of_size(dice: &mut Dice, bytes: usize) -> Draft {
    of_size_by(Author::new(dice), bytes)
}

/// The same, from one of these participants and to them, with amounts up to
/// `most`.
pub fn of_size_among(dice: &mut Dice, bytes: usize, codes: &[u32], most: u64) -> Draft {
    of_size_by(Author::among(dice, codes, most), bytes)
}

fn of_size_by(mut author: Author, bytes: usize) -> Draft {
    let limit = bytes.saturating_sub(2 * LONGEST_ITEM);
    loop {
        let items = author.dice.range(1, 5_000);
        author.block(items as u32, limit);
        if author.size > limit {
            return author.draft;
        }
    }
}

/// The lines of one item under this heading, with an amount up to `most`.
pub fn item(dice: &mut Dice, day: u32, heading: Heading, most: u64) -> Vec<Vec<u8>> {
    let mut author = Author::new(dice);
    (author.draft.day, author.most) = (day, most);
    author.payment(heading, &mut (0, 0));
    author.draft.lines
}

struct Author<'d> {
    dice: &'d mut Dice,
    draft: Draft,
    /// Bytes of the lines so far.
    size: usize,
    kinds: &'static [u32],
    /// Who is paid; anybody if there is none.
    codes: Vec<u32>,
    /// The largest amount.
    most: u64,
}

impl<'d> Author<'d> {
    fn new(dice: &'d mut Dice) -> Self {
        let code = dice.range(1, 9999) as u32;
        let day = dice.pick(&TRICKY);
        let kinds = if dice.once_in(2) { &PRIORITY[..] } else { &ORDINARY[..] };
        let draft = Draft::new(code, day);
        Author { dice, draft, size: 0, kinds, codes: Vec::new(), most: LARGEST_AMOUNT }
    }

    fn among(dice: &'d mut Dice, codes: &[u32], most: u64) -> Self {
        let mut author = Author::new(dice);
        author.draft.code = author.dice.pick(codes);
        Author { codes: codes.to_vec(), most, ..author }
    }

    fn push(&mut self, lines: Lines) {
        self.size += lines.iter().map(|line| line.len() + 2).sum::<usize>();
        self.draft.lines.extend(lines);
    }

    /// Up to `items` items, fewer if the file would pass the limit, and a 51.
    fn block(&mut self, items: u32, limit: usize) {
        let day = calendar::shift(self.draft.day, -(self.dice.below(11) as i32));
        let start = match self.dice.below(3) {
            0 => 1,
            1 => LARGEST_NUMBER - items + 1,
            _ => self.dice.range(1, u64::from(LARGEST_NUMBER - items)) as u32,
        };
        let mut sums = Sums::default();
        let mut number = start;
        while number < start + items && (number == start || self.size <= limit) {
            let kind = self.dice.pick(self.kinds);
            self.item(kind, day, number, &mut sums[kind as usize / 10]);
            number += 1;
        }
        self.control(day, start, number - 1, &sums);
    }

    fn item(&mut self, kind: u32, day: u32, number: u32, total: &mut (u64, u64)) {
        let mut heading = self.draft.good_heading(kind, number);
        heading.day = day;
        heading.second = self.code();
        if heading.third != 0 {
            heading.third = self.code();
        }
        self.payment(heading, total);
    }

    fn payment(&mut self, heading: Heading, total: &mut (u64, u64)) {
        let kind = heading.kind;
        let amount = self.amount(kind, LARGEST_SUM - total.1);
        *total = (total.0 + 1, total.1 + amount);
        let mut fields = vec![self.amount_field(kind, amount)];
        self.extra_fields(&mut fields);
        if self.dice.once_in(8) {
            // In an ordinary item these only have to read.
            fields.push(vec![b"IN:7 3".to_vec()]);
            fields.push(vec![b"S3:0000001 00000000000000001".to_vec()]);
            fields.push(vec![b"S9:1 7".to_vec()]);
        }
        self.write_item(heading, fields);
    }

    fn write_item(&mut self, heading: Heading, mut fields: Vec<Lines>) {
        self.dice.shuffle(&mut fields);
        self.push(vec![heading.write()]);
        for field in fields {
            self.push(field);
        }
    }

    /// Mostly a participant's code; seven digits are all a heading asks for.
    fn code(&mut self) -> u32 {
        if !self.codes.is_empty() {
            return self.dice.pick(&self.codes);
        }
        let last = if self.dice.once_in(8) { 9_999_999 } else { 9_999 };
        self.dice.range(1, last) as u32
    }

    fn amount(&mut self, kind: u32, left: u64) -> u64 {
        let most = if kind == 32 { 100_000_000_000 } else { LARGEST_AMOUNT };
        let most = most.min(self.most);
        let most = match self.dice.below(10) {
            0 => return most.min(left),
            1 => return 0,
            2 => most,
            _ => most.min(10_000_000),
        };
        self.dice.range(0, most.min(left))
    }

    fn amount_field(&mut self, kind: u32, amount: u64) -> Lines {
        let amount = self.padded(amount, 15);
        let day = self.amount_day(kind);
        let rest = match self.dice.below(4) {
            0 => Vec::new(),
            1 => b" ".to_vec(),
            2 => b" CZK".to_vec(),
            _ => [b" ".to_vec(), self.text(0, 50)].concat(),
        };
        let mut lines = vec![[format!("KC:{amount} {day:08}").into_bytes(), rest].concat()];
        while self.dice.once_in(10) {
            lines.push([b"   ".to_vec(), self.text(0, 50)].concat());
        }
        lines
    }

    /// A day that rule 8 lets stand: the latest one often.
    fn amount_day(&mut self, kind: u32) -> u32 {
        let latest = match kind {
            32 | 33 => calendar::shift(self.draft.day, 30),
            44 | 55 | 96..=98 => 99991231,
            _ => self.draft.day,
        };
        match self.dice.below(4) {
            0 => latest,
            1 => calendar::shift(latest, -(self.dice.below(30) as i32)),
            2 => 10101,
            _ => self.draft.day,
        }
    }

    fn extra_fields(&mut self, fields: &mut Vec<Lines>) {
        for name in ["UD", "UK"] {
            if !self.dice.once_in(4) {
                let field = self.account_field(name);
                fields.push(field);
            }
        }
        for name in ["EC", "AK", "ZK"] {
            if self.dice.once_in(2) {
                let symbol = self.dice.below(10_000_000_000);
                fields.push(vec![format!("{name}:{}", self.padded(symbol, 10)).into_bytes()]);
            }
        }
        for name in ["DI", "KI", "ZP", "AV"] {
            if self.dice.once_in(3) {
                let field = self.text_field(name);
                fields.push(field);
            }
        }
        for name in ["ID", "DO", "00", "9Z", "A0"] {
            if self.dice.once_in(8) {
                let field = self.unread_field(name);
                fields.push(field);
            }
        }
    }

    fn account_field(&mut self, name: &str) -> Lines {
        let prefix = if self.dice.once_in(2) { String::new() } else { self.secured(6) };
        let number = loop {
            let number = self.secured(10);
            if number.bytes().any(|digit| digit != b'0') {
                break number;
            }
        };
        let mut line = format!("{name}:{prefix} {number}").into_bytes();
        if self.dice.once_in(2) {
            line.push(b' ');
            line.extend(self.text(0, 20));
        }
        vec![line]
    }

    /// One to `most` digits that hold modulo 11. The weights are the powers of
    /// two, so doubling and adding from the left gives the same remainder.
    fn secured(&mut self, most: u64) -> String {
        loop {
            let length = self.dice.range(1, most);
            let digits: Vec<u64> = (0..length).map(|_| self.dice.below(10)).collect();
            if digits.iter().fold(0, |rest, digit| (rest * 2 + digit) % 11) == 0 {
                return digits.iter().map(u64::to_string).collect();
            }
        }
    }

    fn text_field(&mut self, name: &str) -> Lines {
        let mut lines = vec![[format!("{name}:").into_bytes(), self.text(1, 35)].concat()];
        for _ in 0..self.dice.below(4) {
            lines.push([b"   ".to_vec(), self.text(0, 35)].concat());
        }
        lines
    }

    fn unread_field(&mut self, name: &str) -> Lines {
        let mut lines = vec![[format!("{name}:").into_bytes(), self.text(0, 60)].concat()];
        while self.dice.once_in(3) && lines.len() < 6 {
            lines.push([b"   ".to_vec(), self.text(0, 60)].concat());
        }
        lines
    }

    fn text(&mut self, least: u64, most: u64) -> Vec<u8> {
        let length = match self.dice.below(4) {
            0 => least,
            1 => most,
            _ => self.dice.range(least, most),
        };
        (0..length).map(|_| self.character()).collect()
    }

    fn character(&mut self) -> u8 {
        loop {
            let byte = self.dice.byte();
            if is_admissible(byte) {
                return byte;
            }
        }
    }

    /// The number, sometimes with leading zeros up to that many digits.
    fn padded(&mut self, value: u64, most: usize) -> String {
        let width = if self.dice.once_in(4) { self.dice.place(most + 1) } else { 0 };
        format!("{value:0width$}")
    }

    fn control(&mut self, day: u32, first: u32, last: u32, sums: &Sums) {
        let follows = last < LARGEST_NUMBER && self.dice.once_in(2);
        let mut heading = self.draft.good_heading(51, if follows { last + 1 } else { 0 });
        heading.day = day;
        let first = self.padded(first.into(), 7);
        let last = self.padded(last.into(), 7);
        let mut fields = vec![vec![format!("IN:{first} {last}").into_bytes()]];
        for (group, &(count, sum)) in sums.iter().enumerate() {
            if count > 0 || self.dice.once_in(6) {
                let (count, sum) = (self.padded(count, 7), self.padded(sum, 17));
                fields.push(vec![format!("S{group}:{count} {sum}").into_bytes()]);
            }
        }
        if self.dice.once_in(4) {
            self.extra_fields(&mut fields);
            // A 51's own KC only has to read (reading 25).
            fields.push(vec![b"KC:1 99999999".to_vec()]);
        }
        self.write_item(heading, fields);
    }
}

#[cfg(test)]
mod tests {
    use super::*;
    use crate::check;

    #[test]
    fn clean_files_have_no_fault() {
        for seed in 0..3_000 {
            let sample = small(&mut Dice::new(seed)).sample();
            assert_eq!(check::refusal(&sample.file, sample.code, sample.day, [0; 3]), None);
            let faults = check::faults(&sample.file, sample.code, sample.day);
            assert_eq!(faults, [], "{}", sample.file.escape_ascii());
        }
    }

    #[test]
    fn large_clean_files_too() {
        for seed in 0..3 {
            let sample = of_size(&mut Dice::new(seed), 1_000_000).sample();
            assert!((980_000..=1_000_000).contains(&sample.file.len()));
            assert_eq!(check::faults(&sample.file, sample.code, sample.day), []);
        }
    }
}
