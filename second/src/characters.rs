//! Admissible text bytes: 20 to 7E and the 45 letters of 000, 2.1, which
//! document 01 lists by their places in code page 852.

const LETTERS: [u8; 45] = [
    0x81, 0x82, 0x84, 0x85, 0x8E, //
    0x90, 0x91, 0x92, 0x93, 0x94, 0x95, 0x96, 0x99, 0x9A, 0x9B, 0x9C, 0x9F, //
    0xA0, 0xA1, 0xA2, 0xA3, 0xA6, 0xA7, 0xAC, 0xAD, //
    0xB5, 0xB7, //
    0xD2, 0xD4, 0xD5, 0xD6, 0xD8, 0xDE, //
    0xE0, 0xE2, 0xE5, 0xE6, 0xE7, 0xE8, 0xE9, 0xEA, 0xEC, 0xED, //
    0xFC, 0xFD,
];

/// One entry for each byte: rule 1 looks at every byte of a file.
static ADMISSIBLE: [bool; 256] = table();

const fn table() -> [bool; 256] {
    let mut table = [false; 256];
    let mut byte = 0x20;
    while byte <= 0x7E {
        table[byte] = true;
        byte += 1;
    }
    let mut place = 0;
    while place < LETTERS.len() {
        table[LETTERS[place] as usize] = true;
        place += 1;
    }
    table
}

pub fn is_admissible(byte: u8) -> bool {
    ADMISSIBLE[usize::from(byte)]
}

#[cfg(test)]
mod tests {
    use super::*;

    #[test]
    fn both_sides_of_the_mark() {
        assert!(is_admissible(0xDE) && !is_admissible(0xDF));
        assert!(is_admissible(0x7E) && !is_admissible(0x7F));
        assert!(is_admissible(0x20) && !is_admissible(0x1F));
    }

    #[test]
    fn ninety_five_and_forty_five() {
        assert_eq!((0..=255).filter(|&byte| is_admissible(byte)).count(), 95 + 45);
    }
}
