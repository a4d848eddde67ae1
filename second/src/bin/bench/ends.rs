//! Reading line ends alone: what every check has to do at least. Ends are found
//! by words of eight bytes, and only a line with a byte other than 20 to 7E is
//! looked up in a table, byte by byte.

use second::characters::is_admissible;

const ONES: u64 = 0x0101_0101_0101_0101;
const HIGH: u64 = ONES * 0x80;
const REST: u64 = ONES * 0x7F;

/// How many lines there are, and how many of them hold an inadmissible byte.
pub fn read(text: &[u8]) -> (usize, usize) {
    let (mut lines, mut bad, mut at) = (0, 0, 0);
    while at < text.len() {
        let (end, is_odd) = line_end(text, at);
        lines += 1;
        if is_odd && !text[at..end].iter().all(|&byte| is_admissible(byte)) {
            bad += 1;
        }
        at = end + 2;
    }
    (lines, bad)
}

/// Where the line at a place ends, and whether a byte other than 20 to 7E stands
/// among those looked at.
fn line_end(text: &[u8], at: usize) -> (usize, bool) {
    let (mut from, mut odd) = (at, 0);
    while let Some(eight) = text[from..].first_chunk() {
        let word = u64::from_le_bytes(*eight);
        let low = word & REST;
        let others = (((low ^ (ONES * 0x0D)) + REST) | word) & HIGH;
        let marks = ((low + ONES) | (ONES * 0x9F - low) | word) & HIGH;
        if others == HIGH {
            odd |= marks;
            from += 8;
            continue;
        }
        let returns = others ^ HIGH;
        odd |= marks & ((returns ^ (returns - 1)) >> 1);
        let place = from + returns.trailing_zeros() as usize / 8;
        if text.get(place + 1) == Some(&b'\n') {
            return (place, odd != 0);
        }
        odd |= 1;
        from = place + 1;
    }
    let rest = text[from..].windows(2).position(|pair| pair == b"\r\n");
    (rest.map_or(text.len(), |end| from + end), true)
}
