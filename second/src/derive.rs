//! Telling and deriving: the outgoing heading of an input heading, by its outcome and the sender's
//! standing (document 01, and A12 of document 02).

use std::ops::RangeInclusive;

use crate::heading::{Heading, LENGTH};
use crate::rules;
use crate::types;

/// Who sent the item.
const DIRECT: u32 = 1;
const THIRD_PARTY: u32 = 2;

/// The open job that only tells: output type and recipient, or refusals 11 to 14.
pub fn tell(text: &[u8], outcome: u32, standing: u32) -> Result<(u32, u32), u32> {
    let (_, outgoing) = turn(text, outcome, standing)?;
    Ok((outgoing.kind, outgoing.second))
}

/// The open job that writes: 54 bytes, or refusals 11 to 16.
pub fn derive(
    text: &[u8],
    outcome: u32,
    standing: u32,
    number: u32,
    target: &mut [u8],
) -> Result<(), u32> {
    let (kind, outgoing) = turn(text, outcome, standing)?;
    if !numbers(kind).contains(&number) {
        return Err(15);
    }
    let place = target.get_mut(..LENGTH).ok_or(16_u32)?;
    place.copy_from_slice(&Heading { output: number, ..outgoing }.write());
    Ok(())
}

/// The input type, and the outgoing heading but for its number.
fn turn(text: &[u8], outcome: u32, standing: u32) -> Result<(u32, Heading), u32> {
    let heading = Heading::read(text).ok_or(11_u32)?;
    if !is_derivable(&heading) || !may_send(standing, heading.kind) {
        return Err(12);
    }
    if !(1..=7).contains(&outcome) || ![DIRECT, THIRD_PARTY].contains(&standing) {
        return Err(13);
    }
    let kind = outgoing_type(heading.kind, outcome).ok_or(14_u32)?;
    if standing == DIRECT && [5, 69].contains(&kind) {
        return Err(14);
    }
    let [first, second, third] = outgoing_codes(&heading, outcome);
    Ok((heading.kind, Heading { kind, first, second, third, ..heading }))
}

/// A third party sends only 35, 37 and 45.
fn may_send(standing: u32, kind: u32) -> bool {
    standing != THIRD_PARTY || [35, 37, 45].contains(&kind)
}

/// Not a 51, and rules 10, 13 and 14 hold; no other rule counts here.
fn is_derivable(heading: &Heading) -> bool {
    let breaks = rules::rule10(heading) || rules::rule13(heading) || rules::rule14(heading);
    heading.kind != types::CONTROL && !breaks
}

/// Document 01's table, row by row.
fn outgoing_type(kind: u32, outcome: u32) -> Option<u32> {
    let row = match kind {
        1 | 11 | 21 => [kind, 0, 0, 0, 0, 61, 71],
        12 => [12, 0, 0, 0, 0, 62, 72],
        13 => [13, 0, 0, 0, 0, 63, 73],
        14 => [14, 0, 0, 0, 0, 64, 74],
        32 => [32, 0, 0, 0, 0, 0, 82],
        33 => [33, 0, 0, 0, 0, 0, 83],
        55 => [55, 0, 0, 0, 0, 0, 85],
        44 => [44, 0, 0, 0, 0, 0, 84],
        35 => [16, 66, 15, 65, 0, 0, 75],
        37 => [18, 68, 17, 67, 0, 0, 77],
        45 => [26, 66, 25, 65, 5, 69, 75],
        _ => return None,
    };
    // No outgoing type is 00: a zero is the table's dash.
    Some(row[outcome as usize - 1]).filter(|&kind| kind != 0)
}

/// First, second and third code of the outgoing heading.
fn outgoing_codes(heading: &Heading, outcome: u32) -> [u32; 3] {
    let Heading { first, second, third, .. } = *heading;
    match (types::is_trilateral(heading.kind), outcome) {
        (false, 1) | (true, 3 | 4) => [first, second, third],
        (false, _) => [first, first, second],
        (true, 1 | 2) => [first, third, second],
        (true, _) => [second, first, third],
    }
}

/// Output numbers, by input type: three classes (reading 6).
fn numbers(kind: u32) -> RangeInclusive<u32> {
    match kind {
        44 => 9_000_001..=9_999_999,
        _ if types::is_priority(kind) => 5_000_001..=9_000_000,
        _ => 1..=5_000_000,
    }
}

#[cfg(test)]
mod tests {
    use super::*;

    const BILATERAL: &str = "HD:12 20240304 0000300 0000017 0000710 0000000 0000000";
    const TRILATERAL: &str = "HD:35 20240304 0000990 0000001 0000300 0000000 0000710";

    fn derived(text: &str, outcome: u32, number: u32) -> Result<String, u32> {
        derived_for(text, outcome, DIRECT, number)
    }

    fn derived_for(text: &str, outcome: u32, standing: u32, number: u32) -> Result<String, u32> {
        let mut target = [b'.'; 60];
        derive(text.as_bytes(), outcome, standing, number, &mut target)?;
        assert_eq!(target[54..], *b"......");
        Ok(String::from_utf8(target[..54].to_vec()).unwrap())
    }

    fn with_type(text: &str, kind: &str) -> String {
        text.replacen(&text[3..5], kind, 1)
    }

    #[test]
    fn both_sides_of_the_mark() {
        let sent_back = "HD:62 20240304 0000300 0000017 0000300 0000042 0000710";
        assert_eq!(derived(BILATERAL, 6, 42).as_deref(), Ok(sent_back));
        let made = "HD:16 20240304 0000990 0000001 0000710 0000007 0000300";
        assert_eq!(derived(TRILATERAL, 1, 7).as_deref(), Ok(made));
        assert_eq!(derived(TRILATERAL, 5, 7), Err(14));
    }

    #[test]
    fn codes_of_a_trilateral_item() {
        let text = with_type(TRILATERAL, "45");
        let codes = |outcome| derived_for(&text, outcome, THIRD_PARTY, 5_000_001).unwrap();
        let payer = "HD:25 20240304 0000990 0000001 0000300 5000001 0000710";
        assert_eq!(codes(3), payer);
        assert_eq!(codes(4), with_type(payer, "65"));
        let beneficiary = "HD:26 20240304 0000990 0000001 0000710 5000001 0000300";
        assert_eq!(codes(1), beneficiary);
        assert_eq!(codes(2), with_type(beneficiary, "66"));
        let sender = "HD:05 20240304 0000300 0000001 0000990 5000001 0000710";
        assert_eq!(codes(5), sender);
        assert_eq!(codes(6), with_type(sender, "69"));
        assert_eq!(codes(7), with_type(sender, "75"));
    }

    #[test]
    fn codes_of_a_bilateral_item() {
        assert_eq!(derived(BILATERAL, 1, 1).unwrap(), BILATERAL.replacen("0000000", "0000001", 1));
        assert!(derived(BILATERAL, 7, 1).unwrap().starts_with("HD:72 20240304 0000300"));
        for outcome in 2..=5 {
            assert_eq!(derived(BILATERAL, outcome, 1), Err(14));
        }
    }

    #[test]
    fn number_classes() {
        let ends =
            [("11", 1, 5_000_000), ("01", 5_000_001, 9_000_000), ("44", 9_000_001, 9_999_999)];
        for (kind, first, last) in ends {
            let text = with_type(BILATERAL, kind);
            assert_eq!(derived(&text, 1, first - 1), Err(15), "{kind}");
            assert!(derived(&text, 1, first).is_ok() && derived(&text, 1, last).is_ok());
            assert_eq!(derived(&text, 1, last + 1), Err(15), "{kind}");
        }
    }

    #[test]
    fn reading_3_only_rules_10_13_and_14() {
        let strange = "HD:11 99999999 9999999 0000000 9999999 0000000 0000000";
        assert!(derived(strange, 1, 1).is_ok());
        assert_eq!(derived(&with_type(BILATERAL, "00"), 1, 1), Err(12));
        assert_eq!(
            derived("HD:11 20240304 0000300 0000017 0000710 0000001 0000000", 1, 1),
            Err(12)
        );
        assert_eq!(
            derived("HD:11 20240304 0000300 0000017 0000000 0000000 0000000", 1, 1),
            Err(12)
        );
        assert_eq!(
            derived("HD:11 20240304 0000300 0000017 0000710 0000000 0000001", 1, 1),
            Err(12)
        );
        assert_eq!(
            derived("HD:37 20240304 0000300 0000017 0000710 0000000 0000000", 1, 1),
            Err(12)
        );
    }

    #[test]
    fn reading_4_order_of_refusals() {
        assert_eq!(derived(&with_type(BILATERAL, "51"), 9, 0), Err(12));
        assert_eq!(derived(BILATERAL, 9, 0), Err(13));
        assert_eq!(derived(BILATERAL, 2, 0), Err(14));
        assert_eq!(derive(BILATERAL.as_bytes(), 1, 1, 0, &mut []), Err(15));
        assert_eq!(derive(BILATERAL.as_bytes(), 1, 1, 1, &mut [0; 53]), Err(16));
        assert_eq!(derive(&BILATERAL.as_bytes()[..53], 9, 1, 0, &mut []), Err(11));
    }

    #[test]
    fn no_entry_for_96_to_98() {
        for kind in ["96", "97", "98"] {
            let text = with_type(BILATERAL, kind);
            for outcome in 1..=7 {
                assert_eq!(derived(&text, outcome, 1), Err(14), "{kind}");
            }
            assert_eq!(derived(&text, 9, 1), Err(13), "{kind}");
            assert_eq!(tell(text.as_bytes(), 1, THIRD_PARTY), Err(12), "{kind}");
        }
    }

    #[test]
    fn standings() {
        let text = with_type(TRILATERAL, "45");
        assert_eq!(tell(text.as_bytes(), 5, THIRD_PARTY), Ok((5, 990)));
        assert_eq!(tell(text.as_bytes(), 5, DIRECT), Err(14));
        assert_eq!(tell(text.as_bytes(), 6, DIRECT), Err(14));
        assert_eq!(tell(text.as_bytes(), 7, DIRECT), Ok((75, 990)));
        assert_eq!(derived(&text, 5, 0), Err(14));
        assert_eq!(tell(BILATERAL.as_bytes(), 6, DIRECT), Ok((62, 300)));
        assert_eq!(tell(BILATERAL.as_bytes(), 6, THIRD_PARTY), Err(12));
        assert_eq!(tell(BILATERAL.as_bytes(), 9, THIRD_PARTY), Err(12));
        assert_eq!(tell(BILATERAL.as_bytes(), 2, 3), Err(13));
        assert_eq!(tell(TRILATERAL.as_bytes(), 1, 0), Err(13));
    }
}
