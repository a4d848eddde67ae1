//! Damage to clean files: at least one mutation aimed at each rule, and some
//! aimed at none. A mutation that finds nothing to damage does nothing.

mod blocks;
mod fields;
mod headings;
mod lines;
mod tools;

use super::dice::Dice;
use super::draft::Draft;

pub struct Mutation {
    /// The rule it is meant to break, at least for some files; 0 for none.
    pub rule: u32,
    pub apply: fn(&mut Draft, &mut Dice),
}

const fn aimed(rule: u32, apply: fn(&mut Draft, &mut Dice)) -> Mutation {
    Mutation { rule, apply }
}

pub static ALL: [Mutation; 51] = [
    aimed(1, lines::bad_byte),
    aimed(1, lines::lone_end),
    aimed(2, lines::stray_line),
    aimed(2, lines::stray_continuation),
    aimed(3, lines::lines_on_top),
    aimed(4, lines::no_last_end),
    aimed(5, fields::repeated_field),
    aimed(6, fields::broken_field),
    aimed(6, fields::broken_heading),
    aimed(6, fields::continued_heading),
    aimed(6, fields::more_continuations),
    aimed(6, fields::longer_line),
    aimed(7, fields::bad_prefix),
    aimed(8, fields::amount_day),
    aimed(9, fields::amount_limit),
    aimed(10, headings::odd_type),
    aimed(11, headings::heading_day),
    aimed(11, headings::days_of_all),
    aimed(12, headings::first_code),
    aimed(13, headings::output_number),
    aimed(14, headings::second_code),
    aimed(14, headings::third_code),
    aimed(15, headings::no_amount),
    aimed(16, blocks::no_last_control),
    aimed(16, blocks::heading_at_end),
    aimed(16, blocks::broken_control),
    aimed(17, blocks::empty_block),
    aimed(18, blocks::other_day),
    aimed(19, blocks::other_number),
    aimed(19, blocks::swapped_headings),
    aimed(20, blocks::other_class),
    aimed(21, blocks::no_interval),
    aimed(21, blocks::other_interval),
    aimed(6, blocks::broken_interval),
    aimed(23, fields::bad_account),
    aimed(24, fields::zero_number),
    aimed(30, blocks::any_sum::<0>),
    aimed(31, blocks::any_sum::<1>),
    aimed(32, blocks::any_sum::<2>),
    aimed(33, blocks::any_sum::<3>),
    aimed(34, blocks::any_sum::<4>),
    aimed(35, blocks::any_sum::<5>),
    aimed(36, blocks::any_sum::<6>),
    aimed(37, blocks::any_sum::<7>),
    aimed(38, blocks::any_sum::<8>),
    aimed(39, blocks::any_sum::<9>),
    aimed(0, lines::leftover),
    aimed(0, lines::missing_line),
    aimed(0, lines::moved_line),
    aimed(0, lines::joined_lines),
    aimed(0, lines::split_line),
];

#[cfg(test)]
mod tests {
    use super::*;
    use crate::check;
    use crate::samples::clean;

    /// Each mutation, alone, breaks the rule it is aimed at for some files.
    #[test]
    fn mutations_hit_what_they_aim_at() {
        for (place, mutation) in ALL.iter().enumerate().filter(|(_, mutation)| mutation.rule > 0) {
            let hits = (0..400).filter(|&seed| {
                let mut dice = Dice::new(seed);
                let mut draft = clean::small(&mut dice);
                (mutation.apply)(&mut draft, &mut dice);
                let sample = draft.sample();
                let faults = check::faults(&sample.file, sample.code, sample.day);
                faults.iter().any(|&(_, rule)| rule == mutation.rule)
            });
            let hits = hits.count();
            assert!(hits >= 20, "mutation {place}, rule {}: {hits} of 400", mutation.rule);
        }
    }
}
