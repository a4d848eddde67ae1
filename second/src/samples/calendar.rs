//! A calendar that only steps from day to day. It shares nothing with
//! `days.rs`, so that the samples do not repeat a mistake made there.

/// How many days a month has.
fn last_date(year: u32, month: u32) -> u32 {
    match month {
        4 | 6 | 9 | 11 => 30,
        // The last of a hundred years is a leap year only every fourth time.
        2 if year % 100 == 0 && year / 100 % 4 != 0 => 28,
        2 if year % 4 == 0 => 29,
        2 => 28,
        _ => 31,
    }
}

fn parts(day: u32) -> (u32, u32, u32) {
    (day / 10_000, day / 100 % 100, day % 100)
}

pub fn next(day: u32) -> u32 {
    let (year, month, date) = parts(day);
    if date < last_date(year, month) {
        day + 1
    } else if month < 12 {
        year * 10_000 + (month + 1) * 100 + 1
    } else {
        (year + 1) * 10_000 + 101
    }
}

pub fn previous(day: u32) -> u32 {
    let (year, month, date) = parts(day);
    if date > 1 {
        day - 1
    } else if month > 1 {
        year * 10_000 + (month - 1) * 100 + last_date(year, month - 1)
    } else {
        (year - 1) * 10_000 + 1231
    }
}

/// The day that many days later, or earlier if negative.
pub fn shift(day: u32, days: i32) -> u32 {
    let step = if days < 0 { previous } else { next };
    (0..days.abs()).fold(day, |day, _| step(day))
}

/// Accounting days where reckoning on the digits goes wrong, and a plain one.
pub const TRICKY: [u32; 16] = [
    20240304, 20240301, 20240229, 20230301, 20000101, 20000105, 20000301, 20991231, 20991205,
    20250101, 20241231, 20240510, 20240131, 20960229, 20990301, 20240731,
];

#[cfg(test)]
mod tests {
    use super::*;

    #[test]
    fn steps_over_ends() {
        assert_eq!(next(20240228), 20240229);
        assert_eq!(next(20230228), 20230301);
        assert_eq!(next(20991231), 21000101);
        assert_eq!(previous(21000301), 21000228);
        assert_eq!(shift(20240304, -11), 20240222);
        assert_eq!(shift(20240304, 31), 20240404);
        assert_eq!(shift(shift(20000101, -40), 40), 20000101);
    }
}
