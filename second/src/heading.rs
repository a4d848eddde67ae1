//! The heading: 54 bytes, all parts of fixed width.

pub const LENGTH: usize = 54;

/// Digits of the seven parts, in order.
const WIDTHS: [usize; 7] = [2, 8, 7, 7, 7, 7, 7];

#[derive(Clone, Copy, Debug, PartialEq, Eq)]
pub struct Heading {
    pub kind: u32,
    pub day: u32,
    pub first: u32,
    pub number: u32,
    pub second: u32,
    pub output: u32,
    pub third: u32,
}

impl Heading {
    /// The heading that a text is, if it is one. The day need not be real and
    /// continuations play no part here (reading 3).
    pub fn read(text: &[u8]) -> Option<Heading> {
        if text.len() != LENGTH {
            return None;
        }
        let mut rest = text.strip_prefix(b"HD:")?;
        let mut parts = [0; WIDTHS.len()];
        for (place, width) in WIDTHS.into_iter().enumerate() {
            if place > 0 {
                rest = rest.strip_prefix(b" ")?;
            }
            let (digits, after) = rest.split_at_checked(width)?;
            parts[place] = number(digits)?;
            rest = after;
        }
        let [kind, day, first, number, second, output, third] = parts;
        Some(Heading { kind, day, first, number, second, output, third })
    }

    /// The text; the values have to fit their digits.
    pub fn write(&self) -> Vec<u8> {
        let Heading { kind, day, first, number, second, output, third } = self;
        let text = format!(
            "HD:{kind:02} {day:08} {first:07} {number:07} {second:07} {output:07} {third:07}"
        );
        text.into_bytes()
    }
}

/// The value of up to nine digits.
fn number(digits: &[u8]) -> Option<u32> {
    digits.iter().try_fold(0, |value, byte| match byte {
        b'0'..=b'9' => Some(value * 10 + u32::from(byte - b'0')),
        _ => None,
    })
}

#[cfg(test)]
mod tests {
    use super::*;

    const TEXT: &[u8] = b"HD:12 20240304 0000300 0000017 0000710 0000005 0000009";

    #[test]
    fn reads_and_writes() {
        let heading = Heading::read(TEXT).unwrap();
        let expected = Heading {
            kind: 12,
            day: 20240304,
            first: 300,
            number: 17,
            second: 710,
            output: 5,
            third: 9,
        };
        assert_eq!(heading, expected);
        assert_eq!(heading.write(), TEXT);
    }

    #[test]
    fn any_other_byte_at_any_place() {
        for place in 0..LENGTH {
            for byte in [b'/', b':', b' ', b'x', b'\n', 0, 255] {
                let mut text = TEXT.to_vec();
                if text[place] != byte {
                    text[place] = byte;
                    assert_eq!(Heading::read(&text), None, "{place} {byte}");
                }
            }
        }
    }

    #[test]
    fn any_other_length() {
        assert_eq!(Heading::read(&TEXT[..53]), None);
        assert_eq!(Heading::read(&[TEXT, b" "].concat()), None);
        assert_eq!(Heading::read(&[TEXT, b"0"].concat()), None);
        assert_eq!(Heading::read(b""), None);
    }
}
