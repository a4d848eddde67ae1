//! The listing program's text, from its standard input.

use std::fmt::Write;

use crate::check;

const LARGEST_INPUT: usize = 65_536;
const ROOM: usize = 256;

/// What the program prints: a listing, or one line `refused K`.
pub fn listing(input: &[u8]) -> String {
    list(input).unwrap_or_else(|number| format!("refused {number}\n"))
}

fn list(input: &[u8]) -> Result<String, u32> {
    if input.len() > LARGEST_INPUT {
        return Err(7);
    }
    let (code, day, file) = job(input).ok_or(8_u32)?;
    let (mut lines, mut rules, mut offsets) = ([0; ROOM], [0; ROOM], [0; ROOM]);
    let total = check::check(file, code, day, [&mut lines, &mut rules, &mut offsets])?;
    let listed = lines.iter().zip(rules).take(total.try_into().unwrap_or(ROOM));
    let mut text = format!("checked {code:04} {day:08}\n");
    for (line, rule) in listed {
        writeln!(text, "line {line} rule {rule}").expect("a string takes all");
    }
    writeln!(text, "faults {total}").expect("a string takes all");
    Ok(text)
}

/// The job line's code and day, and the file after it.
fn job(input: &[u8]) -> Option<(u32, u32, &[u8])> {
    let (code, rest) = input.split_at_checked(4)?;
    let (day, rest) = rest.strip_prefix(b" ")?.split_at_checked(8)?;
    let file = rest.strip_prefix(b"\n")?;
    Some((number(code)?, number(day)?, file))
}

/// The value of up to nine digits.
fn number(digits: &[u8]) -> Option<u32> {
    digits.iter().try_fold(0, |value, byte| {
        byte.is_ascii_digit().then(|| value * 10 + u32::from(byte - b'0'))
    })
}

#[cfg(test)]
mod tests {
    use super::*;

    /// Document 01's worked example.
    #[test]
    fn worked_example() {
        let file = "HD:11 20240304 0000301 0000001 0000710 0000000 0000000\r\n\
                    KC:12500 20240304\r\n\
                    UD: 2000145398\r\n\
                    HD:51 20240304 0000300 0000000 0000999 0000000 0000000\r\n\
                    IN:1 1\r\n\
                    S1:1 12600\r\n\x1a";
        let expected = "checked 0300 20240304\n\
                        line 1 rule 12\n\
                        line 3 rule 23\n\
                        line 4 rule 31\n\
                        faults 3\n";
        let input = format!("0300 20240304\n{file}");
        assert_eq!(listing(input.as_bytes()), expected);
    }

    #[test]
    fn a_full_room_does_not_stop_the_total() {
        let input = format!("0300 20240304\n{}\x1a", "\r\n".repeat(1000));
        let text = listing(input.as_bytes());
        assert_eq!(text.lines().count(), 1 + ROOM + 1);
        assert!(text.contains("\nline 128 rule 3\nfaults 2000\n"));
    }

    #[test]
    fn refusals_of_the_program() {
        let long = |length: usize| {
            let mut input = b"0300 20240304\nHD:\r\n   ".to_vec();
            input.resize(length - 1, b'x');
            input.push(0x1a);
            listing(&input)
        };
        assert_eq!(long(65_537), "refused 7\n");
        assert_eq!(
            long(65_536),
            "checked 0300 20240304\nline 1 rule 6\nline 1 rule 16\nline 2 rule 4\nfaults 3\n"
        );
        for input in
            ["", "0300 20240304", "0300 20240304\r\n\x1a", "300 20240304\n\x1a", "03a0 20240304\n"]
        {
            assert_eq!(listing(input.as_bytes()), "refused 8\n", "{input:?}");
        }
        assert_eq!(listing(b"0000 20240304\n"), "refused 1\n");
        assert_eq!(listing(b"0001 20230229\n"), "refused 2\n");
        assert_eq!(listing(b"0001 20240304\n"), "refused 5\n");
        assert_eq!(listing(b"0001 20240304\n\x1a"), "refused 6\n");
        assert_eq!(
            listing(b"0001 20240304\n\r\n\x1a"),
            "checked 0001 20240304\nline 1 rule 2\nline 1 rule 3\nfaults 2\n"
        );
    }
}
