//! The account check (002, 3.2; document 02, A4): each part secured by modulo
//! 11, and an answer for each half.

/// Weights from the right.
const WEIGHTS: [u32; 10] = [1, 2, 4, 8, 5, 10, 9, 7, 3, 6];

/// What is answered for the number. The sum of one that is zero is not judged.
#[derive(Clone, Copy, Debug, PartialEq, Eq)]
pub enum Number {
    Good,
    Failing,
    Zero,
}

/// What is answered for each half.
#[derive(Clone, Copy, Debug, PartialEq, Eq)]
pub struct Halves {
    pub prefix_good: bool,
    pub number: Number,
}

impl Halves {
    /// The two answers as numbers: 0 good, 1 failing, 2 zero.
    pub fn numbers(self) -> (u32, u32) {
        let number = match self.number {
            Number::Good => 0,
            Number::Failing => 1,
            Number::Zero => 2,
        };
        (u32::from(!self.prefix_good), number)
    }
}

/// The open job: the answers for the two halves, or refusal 10.
pub fn check(prefix: &[u8], number: &[u8]) -> Result<Halves, u32> {
    let digits = |part: &[u8]| part.iter().all(u8::is_ascii_digit);
    let lengths = prefix.len() <= 6 && (1..=10).contains(&number.len());
    if lengths && digits(prefix) && digits(number) { Ok(halves(prefix, number)) } else { Err(10) }
}

/// The same for parts known to be digits of the right lengths. An empty
/// prefix has the sum 0, so it is good.
pub fn halves(prefix: &[u8], number: &[u8]) -> Halves {
    let holds = |part: &[u8]| weighted_sum(part) % 11 == 0;
    let number = match number {
        _ if number.iter().all(|&digit| digit == b'0') => Number::Zero,
        _ if holds(number) => Number::Good,
        _ => Number::Failing,
    };
    Halves { prefix_good: holds(prefix), number }
}

fn weighted_sum(part: &[u8]) -> u32 {
    let digits = part.iter().rev().map(|&digit| u32::from(digit - b'0'));
    digits.zip(WEIGHTS).map(|(digit, weight)| digit * weight).sum()
}

#[cfg(test)]
mod tests {
    use super::*;

    #[test]
    fn both_sides_of_the_mark() {
        assert_eq!(weighted_sum(b"2000145399"), 121);
        assert_eq!(weighted_sum(b"2000145398"), 120);
        let judged = |prefix: &str, number: &str| {
            check(prefix.as_bytes(), number.as_bytes()).map(Halves::numbers)
        };
        assert_eq!(judged("", "2000145399"), Ok((0, 0)));
        assert_eq!(judged("", "2000145398"), Ok((0, 1)));
        assert_eq!(judged("", "0"), Ok((0, 2)));
        assert_eq!(judged("19", "2000145399"), Ok((0, 0)));
        assert_eq!(judged("20", "2000145399"), Ok((1, 0)));
        assert_eq!(judged("20", "2000145398"), Ok((1, 1)));
        assert_eq!(judged("20", "0000000000"), Ok((1, 2)));
        assert_eq!(judged("000000", "2000145399"), Ok((0, 0)));
        assert_eq!(judged("", "0000000000"), Ok((0, 2)));
    }

    #[test]
    fn weights_are_powers_of_two() {
        let mut power = 1;
        for weight in WEIGHTS {
            assert_eq!(weight, power);
            power = power * 2 % 11;
        }
    }

    #[test]
    fn reading_5_refusals() {
        assert_eq!(check(b"0000019", b"19"), Err(10));
        assert_eq!(check(b"", b"00000000019"), Err(10));
        assert_eq!(check(b"19", b""), Err(10));
        assert_eq!(check(b"1 ", b"19"), Err(10));
        assert_eq!(check(b"", b"1/"), Err(10));
        assert_eq!(check(b"", b"1:"), Err(10));
    }
}
