//! Days at their limits: around every accounting day, at the ends of months,
//! and days that do not exist.

use super::{CODE, Edge, draft};
use crate::samples::Sample;
use crate::samples::calendar;
use crate::samples::draft::Draft;

pub fn all() -> Vec<Edge> {
    vec![around_accounting_days(), ends_of_months(), real_days(), accounting_days()]
}

/// Every accounting day there is, with headings 13 days before to 2 after and
/// KC days at the limit of each type.
fn around_accounting_days() -> Edge {
    let mut days = vec![20000101];
    while days[days.len() - 1] != 20991231 {
        days.push(calendar::next(days[days.len() - 1]));
    }
    Edge::new("days around every accounting day", days.len(), move |case| {
        let mut draft = Draft::new(CODE, days[case]);
        let mut number = 1;
        for days_later in -13..=2 {
            item(&mut draft, 11, number, days_later, 0);
            number += 1;
        }
        for (kind, days_later) in limits() {
            item(&mut draft, kind, number, 0, days_later);
            number += 1;
        }
        draft.sample()
    })
}

/// The last KC day that stands for each type, and the first that does not.
fn limits() -> Vec<(u32, i32)> {
    let today = [1, 11, 12, 13, 14, 21, 35, 37, 45].map(|kind| [(kind, 0), (kind, 1)]);
    let a_month = [32, 33].map(|kind| [(kind, 30), (kind, 31)]);
    let any = [44, 55, 96, 97, 98].map(|kind| [(kind, 31), (kind, -400)]);
    [today.concat(), a_month.concat(), any.concat()].concat()
}

fn item(draft: &mut Draft, kind: u32, number: u32, heading_later: i32, amount_later: i32) {
    let mut heading = draft.good_heading(kind, number);
    heading.day = calendar::shift(draft.day, heading_later);
    draft.heading(heading);
    draft.line(format!("KC:1 {:08}", calendar::shift(draft.day, amount_later)));
}

/// Accounting days early in each month, with headings on every number of the
/// month before and of the month itself, days or not.
fn ends_of_months() -> Edge {
    let firsts =
        (2000..2100).flat_map(|year| (1..=12).map(move |month| year * 10_000 + month * 100 + 1));
    let firsts: Vec<u32> = firsts.collect();
    Edge::new("heading days over the ends of months", firsts.len(), move |case| {
        let today = calendar::shift(firsts[case], (case % 11) as i32);
        let mut draft = Draft::new(CODE, today);
        let months = [calendar::previous(firsts[case]) / 100, firsts[case] / 100];
        let dates = months.map(|month| (0..=35).chain([99]).map(move |date| month * 100 + date));
        for (number, day) in (1..).zip(dates.into_iter().flatten()) {
            let mut heading = draft.good_heading(11, number);
            heading.day = day;
            draft.heading(heading);
            draft.line(format!("KC:1 {day:08}"));
        }
        draft.sample()
    })
}

/// Every date of odd and even years in KC, where a 44 only asks for a real one.
fn real_days() -> Edge {
    let years = [
        0, 1, 3, 4, 100, 200, 400, 1000, 1582, 1600, 1700, 1800, 1900, 1999, 2000, 2001, 2004,
        2023, 2024, 2095, 2096, 2099, 2100, 2200, 2400, 9996, 9999,
    ];
    let months: Vec<u32> = (0..=14).chain([20, 99]).collect();
    Edge::new("days real or not", years.len() * months.len(), move |case| {
        let (year, month) = (years[case / months.len()], months[case % months.len()]);
        let mut draft = draft();
        for (number, date) in (1..).zip((0..=33).chain([39, 99])) {
            draft.heading(draft.good_heading(44, number));
            draft.line(format!("KC:1 {year:04}{month:02}{date:02}"));
        }
        draft.sample()
    })
}

/// Every number near a day as the accounting day: refusal 2 or none.
fn accounting_days() -> Edge {
    let mut days = vec![0, 1, 101, 10101, 99991231, 99999999, 100_000_000, 2_000_010_101, u32::MAX];
    for year in 1998..=2101 {
        for month in 0..=13 {
            days.extend((0..=33).map(|date| year * 10_000 + month * 100 + date));
        }
    }
    Edge::new("accounting days real or not", days.len(), move |case| {
        let mut draft = Draft::new(CODE, days[case]);
        draft.line("KC:1");
        Sample { day: days[case], ..draft.sample() }
    })
}
