//! The form that takes portions, from document 02, A5: the bytes are collected,
//! and the whole is checked at the closing call.

use crate::check;
use crate::days;

/// "It keeps the first 256 pairs by line and rule".
pub const ROOM: usize = 256;

/// "18, a portion or a second closing call after closing"
pub const AFTER_CLOSING: u32 = 18;

/// One byte more than a file may have: one that is longer still is refused alike.
const KEPT: usize = 10_000_001;

/// A file that comes in portions, or none that is open.
#[derive(Clone, Default)]
pub struct Portions {
    coming: Option<Coming>,
}

#[derive(Clone)]
struct Coming {
    code: u32,
    day: u32,
    bytes: Vec<u8>,
}

impl Portions {
    /// "1 and 2 at opening"; what was open then stays as it stood.
    pub fn open(&mut self, code: u32, day: u32) -> Result<(), u32> {
        if !(1..=9999).contains(&code) {
            return Err(1);
        }
        if !days::is_accounting_day(day) {
            return Err(2);
        }
        self.coming = Some(Coming { code, day, bytes: Vec::new() });
        Ok(())
    }

    pub fn add(&mut self, portion: &[u8]) -> Result<(), u32> {
        let Coming { bytes, .. } = self.coming.as_mut().ok_or(AFTER_CLOSING)?;
        bytes.extend(&portion[..portion.len().min(KEPT - bytes.len())]);
        Ok(())
    }

    /// "after the closing call its pairs, total or refusal equal those of
    /// checking the whole with room for 256". A refused one is a closing call too.
    pub fn close(&mut self, rooms: [&mut [u32; ROOM]; 3]) -> Result<u64, u32> {
        let Coming { code, day, bytes } = self.coming.take().ok_or(AFTER_CLOSING)?;
        check::check(&bytes, code, day, rooms.map(|room| &mut room[..]))
    }
}

#[cfg(test)]
mod tests {
    use super::*;

    const CODE: u32 = 300;
    const DAY: u32 = 20240304;

    /// Untouched places are 7.
    type Answer = (Result<u64, u32>, [[u32; ROOM]; 3]);

    fn close(portions: &mut Portions) -> Answer {
        let mut rooms = [[7; ROOM]; 3];
        let answer = portions.close(rooms.each_mut());
        (answer, rooms)
    }

    fn opened() -> Portions {
        let mut portions = Portions::default();
        assert_eq!(portions.open(CODE, DAY), Ok(()));
        portions
    }

    fn closed(portions: &[&[u8]]) -> Answer {
        let mut coming = opened();
        portions.iter().for_each(|portion| assert_eq!(coming.add(portion), Ok(())));
        close(&mut coming)
    }

    #[test]
    fn every_cutting_in_two() {
        let file = b"HD:\r\nx\r\r\n\n\r\x1a";
        let whole = closed(&[file]);
        // 6 and 16; 1 and 2; 1, 2 and 4.
        assert_eq!(whole.0, Ok(7));
        for cut in 0..=file.len() {
            assert_eq!(closed(&[&file[..cut], b"", &file[cut..]]), whole);
        }
    }

    #[test]
    fn refusals() {
        let refused = |portions: &[&[u8]]| {
            let (answer, rooms) = closed(portions);
            assert_eq!(rooms, [[7; ROOM]; 3]);
            answer.expect_err("is refused")
        };
        assert_eq!(refused(&[]), 5);
        assert_eq!(refused(&[b"", b""]), 5);
        assert_eq!(refused(&[b"x\r", b"\n"]), 5);
        assert_eq!(refused(&[b"", b"", b"\x1a"]), 6);
        assert_eq!(refused(&[b"\x1a", b"\x1a"]), 9);
        assert_eq!(refused(&[b"x\x1a", b"", b"\n"]), 9);
        let half = vec![b'x'; 5_000_000];
        assert_eq!(refused(&[&half, &half]), 5);
        assert_eq!(refused(&[&half, b"\x1a", &half]), 3);
        assert_eq!(refused(&[&half, &half, &half]), 3);
    }

    #[test]
    fn opening() {
        let mut portions = opened();
        assert_eq!(portions.add(b"x"), Ok(()));
        assert_eq!((portions.open(0, 0), portions.open(10_000, DAY)), (Err(1), Err(1)));
        assert_eq!(portions.open(CODE, 20230229), Err(2));
        assert_eq!(portions.add(b"\x1a"), Ok(()));
        assert_eq!(close(&mut portions.clone()).0, Ok(3));
        assert_eq!(portions.open(CODE, DAY), Ok(()));
        assert_eq!(close(&mut portions).0, Err(5));
    }

    #[test]
    fn after_closing() {
        let mut portions = opened();
        for _ in 0..2 {
            assert_eq!(portions.add(b"\x1a"), Ok(()));
            assert_eq!(close(&mut portions).0, Err(6));
            assert_eq!((portions.add(b"x"), portions.add(b"")), (Err(18), Err(18)));
            assert_eq!(close(&mut portions), (Err(18), [[7; ROOM]; 3]));
            assert_eq!(portions.open(0, DAY), Err(1));
            assert_eq!(portions.add(b""), Err(18));
            assert_eq!(portions.open(CODE, DAY), Ok(()));
        }
        assert_eq!(Portions::default().add(b""), Err(18));
    }

    #[test]
    fn the_first_256() {
        let (answer, [lines, rules, offsets]) = closed(&[&b"\r\n".repeat(129), b"\x1a"]);
        assert_eq!(answer, Ok(258));
        assert_eq!((lines[255], rules[255], offsets[255]), (128, 3, 254));
        let (answer, [lines, ..]) = closed(&[&b"\r\n".repeat(127), b"\x1a"]);
        assert_eq!((answer, lines[253], lines[254]), (Ok(254), 127, 7));
    }
}
