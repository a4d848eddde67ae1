//! Soups: plausible lines in any order, and bytes in any order.

use super::Sample;
use super::calendar;
use super::dice::Dice;
use super::draft::Draft;
use crate::heading::Heading;

/// The soups' own code and day; little else would ever fit by chance.
const CODE: u32 = 300;
const DAY: u32 = 20240304;

/// One plausible line after another: mostly up to 40, sometimes many more.
pub fn lines(dice: &mut Dice) -> Sample {
    let most = if dice.once_in(40) { 800 } else { 40 };
    let length = dice.range(1, most);
    lines_of(dice, length)
}

pub fn lines_of(dice: &mut Dice, length: u64) -> Sample {
    let mut draft = Draft::new(CODE, DAY);
    for _ in 0..length {
        let line = line(dice);
        draft.line(line);
    }
    draft.ended = !dice.once_in(20);
    draft.sample()
}

/// Every way for the halves of an account to be right or wrong, and a broken one.
const ACCOUNTS: [&str; 7] =
    ["UD: 19", "UK:19 19", "UD: 18", "UK:20 19", "UD:20 18", "UK:20 0", "UD:19"];

fn line(dice: &mut Dice) -> Vec<u8> {
    let text = match dice.below(16) {
        0..=4 => return heading(dice),
        5 => format!("KC:{} {}", dice.below(3), day(dice)),
        6 => format!("IN:{} {}", dice.below(4), dice.below(4)),
        7 | 8 => format!("S{}:{} {}", dice.below(10), dice.below(3), dice.below(4)),
        9 => dice.pick(&ACCOUNTS).to_string(),
        10 => dice.pick(&["EC:1", "EC:", "AK:12345678901", "ZK:0", "ZK:1 "]).to_string(),
        11 => format!("{}:text", dice.pick(&["DI", "KI", "ZP", "AV", "ID", "S9", "00"])),
        12 => dice.pick(&["", "x", "hd:", "  ", "A:", "HD"]).to_string(),
        13 => format!("AV:{}", "x".repeat(dice.range(34, 36) as usize)),
        _ => format!("   {}", "x".repeat(dice.pick(&[0, 1, 35, 36]))),
    };
    text.into_bytes()
}

fn heading(dice: &mut Dice) -> Vec<u8> {
    let kind = dice.pick(&[1, 11, 11, 13, 32, 35, 37, 44, 45, 51, 51, 51, 55, 96, 99]);
    let mut heading = Draft::new(CODE, DAY).good_heading(kind, dice.below(4) as u32);
    if dice.once_in(4) {
        heading.day = day(dice);
    }
    spoil_part(&mut heading, dice);
    let mut text = heading.write();
    match dice.below(16) {
        0 => text.push(b' '),
        1 => text.truncate(53),
        2 => text[10] = b'x',
        _ => {}
    }
    text
}

fn spoil_part(heading: &mut Heading, dice: &mut Dice) {
    match dice.below(16) {
        0 => heading.first = 301,
        1 => heading.second = 0,
        2 => heading.third = 1 - heading.third.min(1),
        3 => heading.output = 1,
        _ => {}
    }
}

fn day(dice: &mut Dice) -> u32 {
    match dice.below(8) {
        0 => 20240230,
        1 => calendar::shift(DAY, dice.range(29, 32) as i32),
        2 => calendar::shift(DAY, -(dice.range(9, 12) as i32)),
        3 => calendar::next(DAY),
        _ => DAY,
    }
}

/// Single bytes, dense in those that cut, start and end lines.
pub fn bytes(dice: &mut Dice) -> Sample {
    let alphabets: [&[u8]; 5] = [
        b"\r\n HD:",
        b"\r\n\r\n\r\n   HD:A0\x7f",
        b"\r\n\r\n :KCSUIN0123456789",
        b"\r\n\r\n ::HHDD\xde\xdf\x80~\x7f",
        b"\r\r\n\nAZ09@[/:a",
    ];
    let alphabet = dice.pick(&alphabets);
    let length = dice.pick(&[4, 20, 60, 200]);
    bytes_of(dice, alphabet, length)
}

pub fn bytes_of(dice: &mut Dice, alphabet: &[u8], length: u64) -> Sample {
    let length = dice.below(length);
    let mut file: Vec<u8> = (0..length).map(|_| dice.pick(alphabet)).collect();
    if !dice.once_in(10) {
        file.push(0x1a);
    }
    Sample { code: CODE, day: DAY, file }
}

/// Pieces of lines, glued together in any order.
pub fn pieces(dice: &mut Dice) -> Sample {
    let pieces: [&[u8]; 24] = [
        b"HD:11 20240304 0000300 0000001 0000710 0000000 0000000",
        b"HD:51 20240304 0000300 0000002 0000710 0000000 0000000",
        b"HD:51 20240304 0000300 0000000 0000710 0000000 0000000\r\n",
        b"HD:",
        b"\r\n",
        b"\r\n",
        b"\r\n",
        b"\r\n",
        b"\r\n",
        b"\r",
        b"\n",
        b"   ",
        b"  ",
        b" ",
        b"KC:1 20240304",
        b"UD: 19",
        b"IN:1 1",
        b"S1:1 1",
        b"AV:",
        b"S9:",
        b"x",
        b"0",
        b"\x7f",
        b":",
    ];
    let length = dice.range(1, 40);
    let mut file: Vec<u8> = (0..length).flat_map(|_| dice.pick(&pieces)).copied().collect();
    file.push(0x1a);
    if dice.once_in(16) {
        let place = dice.place(file.len());
        file.insert(place, 0x1a);
    }
    Sample { code: CODE, day: DAY, file }
}

/// Any bytes at all.
pub fn noise(dice: &mut Dice) -> Sample {
    let length = dice.below(300);
    let mut file: Vec<u8> = (0..length).map(|_| dice.byte()).collect();
    file.push(0x1a);
    Sample { code: CODE, day: DAY, file }
}
