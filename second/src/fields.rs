//! Layouts of fields (000, 3.1, as document 01 fixes them).

use crate::account::{self, Halves};
use crate::lines::Name;

/// What a field says, as far as a rule wants to know.
#[derive(Clone, Copy, Debug, PartialEq, Eq)]
pub enum Reading {
    /// Its layout is broken: rule 6.
    Broken,
    /// KC.
    Amount { amount: u64, day: u32 },
    /// UD and UK, with the answers of the account check.
    Account(Halves),
    /// IN.
    Interval { first: u64, last: u64 },
    /// S0 to S9.
    Sum { count: u64, sum: u64 },
    /// It reads, or is carried unread, and no rule asks for more.
    Other,
}

/// Reads a field from what follows its colon and from its continuations,
/// these without their three spaces.
pub fn read<'a>(
    name: Name,
    value: &[u8],
    continuations: impl Iterator<Item = &'a [u8]>,
) -> Reading {
    match read_value(name, value) {
        Some(reading) if continuations_fit(name, continuations) => reading,
        _ => Reading::Broken,
    }
}

fn read_value(name: Name, value: &[u8]) -> Option<Reading> {
    match &name {
        b"KC" => amount(value),
        b"EC" | b"AK" | b"ZK" => symbol(value),
        b"IN" => interval(value),
        [b'S', b'0'..=b'9'] => sum(value),
        b"UD" | b"UK" => account(value),
        b"DI" | b"KI" | b"ZP" | b"AV" => text(value),
        _ => Some(Reading::Other),
    }
}

fn continuations_fit<'a>(name: Name, mut continuations: impl Iterator<Item = &'a [u8]>) -> bool {
    match &name {
        b"EC" | b"AK" | b"ZK" | b"IN" | [b'S', b'0'..=b'9'] | b"UD" | b"UK" => {
            continuations.next().is_none()
        }
        b"DI" | b"KI" | b"ZP" | b"AV" => {
            let mut left = 3;
            continuations.all(|text| {
                left -= 1;
                left >= 0 && text.len() <= 35
            })
        }
        // KC and unread fields carry any.
        _ => true,
    }
}

/// KC: amount, day, then nothing or a space and a rest.
fn amount(value: &[u8]) -> Option<Reading> {
    let (amount, rest) = digits(value, 1, 15)?;
    let (day, rest) = digits(space(rest)?, 8, 8)?;
    let stands = rest.is_empty() || rest[0] == b' ';
    stands.then_some(Reading::Amount { amount: number(amount), day: number(day) as u32 })
}

/// EC, AK, ZK: one number.
fn symbol(value: &[u8]) -> Option<Reading> {
    let (_, rest) = digits(value, 1, 10)?;
    rest.is_empty().then_some(Reading::Other)
}

/// IN: the first and the last number of a block.
fn interval(value: &[u8]) -> Option<Reading> {
    let (first, rest) = digits(value, 1, 7)?;
    let (last, rest) = digits(space(rest)?, 1, 7)?;
    let reading = Reading::Interval { first: number(first), last: number(last) };
    rest.is_empty().then_some(reading)
}

/// S0 to S9: the count and the sum of a group.
fn sum(value: &[u8]) -> Option<Reading> {
    let (count, rest) = digits(value, 1, 7)?;
    let (sum, rest) = digits(space(rest)?, 1, 17)?;
    let reading = Reading::Sum { count: number(count), sum: number(sum) };
    rest.is_empty().then_some(reading)
}

/// UD, UK: prefix, number, then nothing or a space and a name.
fn account(value: &[u8]) -> Option<Reading> {
    let (prefix, rest) = digits(value, 0, 6)?;
    let (number, rest) = digits(space(rest)?, 1, 10)?;
    let stands = rest.is_empty() || (rest[0] == b' ' && rest.len() <= 1 + 20);
    stands.then(|| Reading::Account(account::halves(prefix, number)))
}

/// DI, KI, ZP, AV: any bytes; rule 1 judges which (reading 10).
fn text(value: &[u8]) -> Option<Reading> {
    (1..=35).contains(&value.len()).then_some(Reading::Other)
}

/// Splits off all leading digits if there are `least` to `most` of them. What
/// follows a number is never a digit, so taking all of them loses nothing.
fn digits(text: &[u8], least: usize, most: usize) -> Option<(&[u8], &[u8])> {
    let length = text.iter().take_while(|byte| byte.is_ascii_digit()).count();
    (least..=most).contains(&length).then(|| text.split_at(length))
}

fn space(text: &[u8]) -> Option<&[u8]> {
    text.strip_prefix(b" ")
}

/// The value of up to nineteen digits.
fn number(digits: &[u8]) -> u64 {
    digits.iter().fold(0, |value, digit| value * 10 + u64::from(digit - b'0'))
}

#[cfg(test)]
mod tests {
    use super::*;
    use crate::account::Number;

    fn alone(name: &[u8; 2], value: &str) -> Reading {
        read(*name, value.as_bytes(), std::iter::empty())
    }

    fn with(name: &[u8; 2], value: &str, continuations: &[&str]) -> Reading {
        read(*name, value.as_bytes(), continuations.iter().map(|text| text.as_bytes()))
    }

    fn breaks(name: &[u8; 2], value: &str) -> bool {
        alone(name, value) == Reading::Broken
    }

    #[test]
    fn amounts() {
        let reading = Reading::Amount { amount: 12500, day: 20240304 };
        for value in ["12500 20240304", "012500 20240304 ", "12500 20240304 CZK  x"] {
            assert_eq!(alone(b"KC", value), reading, "{value}");
        }
        assert_eq!(with(b"KC", "12500 20240304", &["any"; 7]), reading);
        let bad = ["", "1", "1 ", " 20240304", "1  20240304", "1 2024030", "1 202403041"];
        for value in bad {
            assert!(breaks(b"KC", value), "{value}");
        }
        assert!(breaks(b"KC", "1234567890123456 20240304"));
        assert!(!breaks(b"KC", "123456789012345 20240304"));
        assert!(breaks(b"KC", "1 20240304x"));
    }

    #[test]
    fn symbols_intervals_and_sums() {
        assert_eq!(alone(b"EC", "1234567890"), Reading::Other);
        assert!(breaks(b"AK", "12345678901") && breaks(b"ZK", "") && breaks(b"EC", "1 "));
        assert_eq!(alone(b"IN", "1 0000009"), Reading::Interval { first: 1, last: 9 });
        assert!(breaks(b"IN", "1 00000009") && breaks(b"IN", "1") && breaks(b"IN", "1 2 "));
        assert_eq!(alone(b"S6", "0 0"), Reading::Sum { count: 0, sum: 0 });
        let most = "9999999 99999999999999999";
        let reading = Reading::Sum { count: 9_999_999, sum: 99_999_999_999_999_999 };
        assert_eq!(alone(b"S9", most), reading);
        assert!(breaks(b"S8", "1 123456789012345678") && breaks(b"S0", "12345678 1"));
        assert_eq!(with(b"S1", "1 1", &[""]), Reading::Broken);
    }

    #[test]
    fn reading_10_accounts() {
        let good = Reading::Account(Halves { prefix_good: true, number: Number::Good });
        for value in [" 2000145399", "19 2000145399", " 2000145399 ", " 2000145399 \u{7f}name"] {
            assert_eq!(alone(b"UD", value), good, "{value}");
        }
        let zero = Reading::Account(Halves { prefix_good: false, number: Number::Zero });
        assert_eq!(alone(b"UK", "20 0"), zero);
        let bad = ["2000145399", "0000019 19", " 00000000019", "", " ", "19 ", " 19x", "  19"];
        for value in bad {
            assert!(breaks(b"UK", value), "{value}");
        }
        assert_eq!(alone(b"UD", &format!(" 19 {}", "x".repeat(20))), good);
        assert!(breaks(b"UD", &format!(" 19 {}", "x".repeat(21))));
        assert_eq!(with(b"UD", " 19", &[""]), Reading::Broken);
    }

    #[test]
    fn texts() {
        let line = "x".repeat(35);
        let long = "x".repeat(36);
        assert!(!breaks(b"DI", "x") && !breaks(b"KI", &line));
        assert!(breaks(b"ZP", "") && breaks(b"AV", &long));
        assert_eq!(with(b"AV", "x", &["", &line, "   "]), Reading::Other);
        assert_eq!(with(b"AV", "x", &["", &long]), Reading::Broken);
        assert_eq!(with(b"AV", "x", &[""; 4]), Reading::Broken);
    }

    #[test]
    fn reading_12_unread_fields() {
        assert_eq!(with(b"SA", "nonsense", &["any"; 9]), Reading::Other);
        assert_eq!(alone(b"ID", ""), Reading::Other);
    }
}
