//! A state of portions in memory to lend, and the reference's beside it: every
//! call is made on both.

use second::portions::{AFTER_CLOSING, Portions, ROOM};
use second::samples::dice::Dice;

use crate::face;
use crate::judge::Judge;
use crate::lent::Lent;
use crate::report;

/// Around the parts.
const BESIDE: u64 = 0xC5C5_C5C5_C5C5_C5C5;

/// The parts of a state apart, each with a margin that must not be touched.
#[derive(Clone, PartialEq)]
struct Parts {
    wide: Lent<u64>,
    length: Lent<u64>,
    narrow: Lent<u32>,
    frame: Lent<u32>,
    pairs: [Lent<u32>; 3],
    stood: Lent<u32>,
    small: Lent<u8>,
    text: Lent<u8>,
}

impl Parts {
    /// Parts that hold these numbers beforehand.
    fn of(number: &mut dyn FnMut() -> u64) -> Self {
        let wide = |it| it;
        let (narrow, byte) = (|it| it as u32, |it| it as u8);
        Parts {
            wide: lent(38, number, wide),
            length: lent(1, number, wide),
            narrow: lent(33, number, narrow),
            frame: lent(8, number, narrow),
            pairs: [(); 3].map(|()| lent(ROOM, number, narrow)),
            stood: lent(1_296, number, narrow),
            small: lent(19, number, byte),
            text: lent(68, number, byte),
        }
    }

    fn lend(&mut self) -> face::Portions<'_> {
        let [lines, rules, offsets] = self.pairs.each_mut().map(Lent::lend_array);
        face::Portions {
            wide: self.wide.lend_array(),
            length: &mut self.length.lend()[0],
            narrow: self.narrow.lend_array(),
            frame: self.frame.lend_array(),
            lines,
            rules,
            offsets,
            stood: self.stood.lend_array(),
            small: self.small.lend_array(),
            text: self.text.lend_array(),
        }
    }

    fn is_framed(&self) -> bool {
        [&self.wide, &self.length].into_iter().all(Lent::is_framed)
            && [&self.narrow, &self.frame, &self.stood].into_iter().all(Lent::is_framed)
            && self.pairs.iter().all(Lent::is_framed)
            && [&self.small, &self.text].into_iter().all(Lent::is_framed)
    }

    /// Changes a number somewhere, to one that no call may have left there.
    fn spoil(&mut self, dice: &mut Dice) {
        let numbers = [0, 1, 2, 257, 1 << 31, 1 << 41, u64::MAX, dice.throw()];
        let number = dice.pick(&numbers);
        let narrow = match dice.below(10) {
            0 | 1 => return self.wide.lend()[dice.place(38)] = number,
            2 => return self.length.lend()[0] = number,
            3 => return self.small.lend()[dice.place(19)] = number as u8,
            4 => return self.text.lend()[dice.place(68)] = number as u8,
            // Its first says whether it is open, and is tried by other groups.
            5 => &mut self.frame.lend()[1..],
            6 => self.narrow.lend(),
            7 => self.stood.lend(),
            _ => self.pairs[dice.place(3)].lend(),
        };
        narrow[dice.place(narrow.len())] = number as u32;
    }

    /// The same but closed.
    fn closed(&self) -> Self {
        let mut parts = self.clone();
        parts.frame.lend()[0] = 0;
        parts
    }
}

/// So many of the numbers, each cut to the width of its part.
fn lent<T: Copy + PartialEq>(
    count: usize,
    number: &mut dyn FnMut() -> u64,
    cut: fn(u64) -> T,
) -> Lent<T> {
    let mut lent = Lent::new(count, cut(BESIDE));
    lent.lend().fill_with(|| cut(number()));
    lent
}

/// Both states, and the calls that were made on them.
#[derive(Clone)]
pub struct State {
    parts: Parts,
    reference: Portions,
    calls: Vec<Call>,
}

/// A call as it is told of; of a portion its first bytes and its length.
#[derive(Clone)]
pub enum Call {
    Open(u32, u32),
    Add(Vec<u8>, usize),
    Close,
}

/// Bytes of a portion that are told.
const TOLD: usize = 1_200;

impl State {
    /// Memory that no opening has made a state.
    pub fn zeros() -> Self {
        State::of(|| 0)
    }

    pub fn noise(dice: &mut Dice) -> Self {
        State::of(|| dice.throw())
    }

    pub fn of(mut number: impl FnMut() -> u64) -> Self {
        State { parts: Parts::of(&mut number), reference: Portions::default(), calls: Vec::new() }
    }

    /// Opens it: a refusal changes nothing, and an opening no pair that is kept.
    pub fn open(&mut self, judge: &mut Judge, code: u32, day: u32) -> bool {
        self.calls.push(Call::Open(code, day));
        let before = self.parts.clone();
        let found = face::portions_open(code, day, self.parts.lend());
        let answer = self.reference.open(code, day);
        let holds = match answer {
            Ok(()) => self.parts.is_framed() && self.parts.pairs == before.pairs,
            Err(_) => self.parts == before,
        };
        self.judge(judge, answer.err().unwrap_or(0), found, holds);
        answer.is_ok()
    }

    pub fn add(&mut self, judge: &mut Judge, portion: &[u8]) {
        self.calls.push(Call::Add(portion[..portion.len().min(TOLD)].to_vec(), portion.len()));
        let answer = self.reference.add(portion);
        let before = answer.is_err().then(|| self.parts.clone());
        let found = face::portions_add(portion, self.parts.lend());
        let holds = before.map_or_else(|| self.parts.is_framed(), |before| self.parts == before);
        self.judge(judge, answer.err().unwrap_or(0), found, holds);
    }

    /// Closes it. The records and the total are those of the reference, places
    /// behind them as they were; a refusal changes but that the state is closed,
    /// and 18 nothing.
    pub fn close(&mut self, judge: &mut Judge) {
        const BEFORE: u64 = 0x3A3A_3A3A_3A3A_3A3A;
        self.calls.push(Call::Close);
        let mut expected = [[BEFORE as u32; ROOM]; 3];
        let answer = self.reference.close(expected.each_mut());
        let before = self.parts.clone();
        let (mut rooms, mut total) = ([0; 3].map(|_| Lent::new(ROOM, BEFORE as u32)), BEFORE);
        let lent = rooms.each_mut().map(Lent::lend_array);
        let found = face::portions_close(self.parts.lend(), lent, &mut total);
        let listed =
            rooms.iter().zip(expected).all(|(room, expected)| room.holds(expected.into_iter()));
        let kept = match answer {
            Ok(_) => self.parts.is_framed() && self.parts.frame.lend()[0] == 0,
            Err(AFTER_CLOSING) => self.parts == before,
            Err(_) => self.parts == before.closed(),
        };
        let holds = listed && kept && total == answer.unwrap_or(BEFORE);
        self.judge(judge, answer.err().unwrap_or(0), found, holds);
    }

    /// Numbers changed in an open state: what it then holds is nobody's promise,
    /// but every call has an answer, 18 changes nothing, no call writes beside
    /// the parts, and after a closing it is closed.
    pub fn spoil(&mut self, judge: &mut Judge, dice: &mut Dice, portion: &[u8]) {
        for _ in 0..dice.range(1, 3) {
            self.parts.spoil(dice);
        }
        for _ in 0..dice.range(1, 3) {
            let before = self.parts.clone();
            let found = face::portions_add(portion, self.parts.lend());
            let holds = match found {
                0 => self.parts.is_framed(),
                _ => found == AFTER_CLOSING && self.parts == before,
            };
            self.any(judge, found, holds);
        }
        let (before, mut total) = (self.parts.clone(), 0);
        let mut rooms = [(); 3].map(|()| Lent::new(ROOM, BESIDE as u32));
        let lent = rooms.each_mut().map(Lent::lend_array);
        let found = face::portions_close(self.parts.lend(), lent, &mut total);
        let holds = rooms.iter().all(Lent::is_framed)
            && match found {
                0 => self.parts.is_framed() && self.parts.frame.lend()[0] == 0,
                3 | 5 | 6 | 9 => self.parts == before.closed(),
                _ => found == AFTER_CLOSING && self.parts == before,
            };
        self.any(judge, found, holds);
    }

    fn any(&self, judge: &mut Judge, found: u32, holds: bool) {
        judge.comparisons += 1;
        if !holds {
            judge.fail(|| report::portions(&self.calls, AFTER_CLOSING, found));
        }
    }

    fn judge(&self, judge: &mut Judge, expected: u32, found: u32, holds: bool) {
        judge.comparisons += 1;
        judge.tally.portion_answer(expected);
        if found != expected || !holds {
            judge.fail(|| report::portions(&self.calls, expected, found));
        }
    }
}
