//! Days written as eight digits, YYYYMMDD, by the Gregorian calendar.

const MONTHS: [u32; 12] = [31, 28, 31, 30, 31, 30, 31, 31, 30, 31, 30, 31];

/// Year, month and day of the month.
fn parts(day: u32) -> (u32, u32, u32) {
    (day / 10_000, day / 100 % 100, day % 100)
}

fn is_leap(year: u32) -> bool {
    year % 4 == 0 && (year % 100 != 0 || year % 400 == 0)
}

fn month_length(year: u32, month: u32) -> u32 {
    if month == 2 && is_leap(year) { 29 } else { MONTHS[month as usize - 1] }
}

/// A day of the years 0001 to 9999.
pub fn is_real(day: u32) -> bool {
    let (year, month, date) = parts(day);
    (1..=9999).contains(&year)
        && (1..=12).contains(&month)
        && (1..=month_length(year, month)).contains(&date)
}

/// The accounting day's own limits (refusal 2).
pub fn is_accounting_day(day: u32) -> bool {
    is_real(day) && (20000101..=20991231).contains(&day)
}

/// Days since the start of year 0, so that differences can be taken over the
/// ends of months. Only for real days.
fn count(day: u32) -> i64 {
    let (year, month, date) = parts(day);
    let before = year - 1;
    let leap_days = before / 4 - before / 100 + before / 400;
    let months: u32 = (1..month).map(|month| month_length(year, month)).sum();
    i64::from(before * 365 + leap_days + months + date)
}

/// How many days `later` lies after `earlier`; negative if it lies before.
pub fn days_between(earlier: u32, later: u32) -> i64 {
    count(later) - count(earlier)
}

#[cfg(test)]
mod tests {
    use super::*;
    use crate::samples::calendar;

    #[test]
    fn real_days() {
        for day in [20240229, 20000229, 10101, 99991231, 20230228, 4_000_229] {
            assert!(is_real(day), "{day}");
        }
        for day in [20230229, 21000229, 19000229, 1231, 0, 20241301, 20240001, 20240431, 20240100] {
            assert!(!is_real(day), "{day}");
        }
        assert!(!is_real(1_000_000_101), "nine digits are no day");
    }

    #[test]
    fn accounting_days() {
        assert!(is_accounting_day(20000101) && is_accounting_day(20991231));
        assert!(!is_accounting_day(19991231) && !is_accounting_day(21000101));
        assert!(!is_accounting_day(20230229));
    }

    /// The calendar of the samples steps from day to day and knows no count.
    #[test]
    fn the_count_grows_by_one_each_day() {
        let mut day = 10101;
        let mut steps = 0;
        while day != 99991231 {
            let next = calendar::next(day);
            assert!(is_real(day) && days_between(day, next) == 1, "{day} {next}");
            (day, steps) = (next, steps + 1);
        }
        assert_eq!(days_between(10101, 99991231), steps);
        assert_eq!(steps, 3_652_058);
    }

    #[test]
    fn both_sides_of_the_mark() {
        assert_eq!(days_between(20240223, 20240304), 10);
        assert_eq!(days_between(20240222, 20240304), 11);
        assert_eq!(days_between(20240304, 20240403), 30);
        assert_eq!(days_between(20240304, 20240404), 31);
    }
}
