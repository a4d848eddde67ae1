//! Writing an output file (document 02, A7 and A12): a worked file, and both sides of each refusal.

use super::{DAY, KC, head, head_with};
use crate::deliver::{Delivery, deliver};

const CERTIS: u32 = 999;
const ROOM: usize = 8_000_000;

/// A slice of lines, each with its CR LF.
fn slice(lines: &[&str]) -> Vec<u8> {
    lines.iter().flat_map(|line| [line.as_bytes(), b"\r\n"].concat()).collect()
}

/// What the bytes give, with outcomes, standings and a start.
fn delivered(
    items: &[u8],
    outcomes: &[u32],
    standings: &[u32],
    start: u32,
) -> Result<Vec<u8>, u32> {
    let delivery = Delivery { items, outcomes, standings, certis: CERTIS, day: DAY, start };
    deliver(&delivery, ROOM)
}

/// The same of lines of direct senders, as the lines of the file; the end mark is its last byte.
fn sent(lines: &[&str], outcomes: &[u32], start: u32) -> Result<Vec<String>, u32> {
    sent_by(lines, outcomes, &vec![1; outcomes.len()], start)
}

fn sent_by(
    lines: &[&str],
    outcomes: &[u32],
    standings: &[u32],
    start: u32,
) -> Result<Vec<String>, u32> {
    let file = delivered(&slice(lines), outcomes, standings, start)?;
    let text = String::from_utf8(file).expect("plain letters");
    let text = text.strip_suffix("\r\n\u{1a}").expect("a last line and the end mark");
    Ok(text.split("\r\n").map(str::to_string).collect())
}

/// The refusal of lines with outcome 1 for each item, from output number 1 on.
fn refusal(lines: &[&str]) -> Option<u32> {
    let items = lines.iter().filter(|line| line.starts_with("HD:")).count();
    sent(lines, &vec![1; items], 1).err()
}

const WORKED: [&str; 7] = [
    "HD:12 20240304 0000300 0000017 0000710 0000000 0000000",
    "KC:12500 20240304",
    "EC:5",
    "AV:x",
    "   y",
    "HD:35 20240304 0000990 0000009 0000820 0000000 0000300",
    "KC:7 20240304",
];

#[test]
fn the_worked_file() {
    let expected = [
        "HD:62 20240304 0000300 0000017 0000300 0000042 0000710",
        "KC:12500 20240304",
        "EC:9999999999",
        "AV:x",
        "   y",
        "HD:16 20240304 0000990 0000009 0000300 0000043 0000820",
        "KC:7 20240304",
        "HD:51 20240304 0000999 0000000 0000300 0000000 0000000",
        "IN:42 43",
        "S1:1 7",
        "S6:1 12500",
    ];
    assert_eq!(sent_by(&WORKED, &[8, 1], &[1, 2], 42).unwrap(), expected);
    let own = sent_by(&WORKED, &[6, 1], &[1, 1], 42).unwrap();
    assert_eq!((own[0].as_str(), own[2].as_str()), (expected[0], "EC:5"));
}

#[test]
fn groups_are_those_of_output_types() {
    let lines = [
        &head_with(11, 1, 2, "0000710"),
        "KC:5 20240304",
        &head(12, 2),
        "KC:0003 20240304",
        &head_with(33, 3, 2, "0000710"),
        "KC:0 20240304",
        &head(55, 9),
        "KC:8 20240304",
    ];
    let file = sent(&lines, &[7, 1, 7, 1], 4_999_997).unwrap();
    assert!(file[0].starts_with("HD:71 ") && file[4].starts_with("HD:83 "));
    assert_eq!(&file[9..], ["IN:4999997 5000000", "S1:1 3", "S5:1 8", "S7:1 5", "S8:1 0"]);
}

#[test]
fn only_the_ec_of_an_8_is_replaced() {
    let ec = |outcome, field: &str| {
        let own = head_with(11, 1, 2, "0000710");
        let lines = [&own, field, KC, &head(11, 2), KC, "EC:7"];
        let file = sent(&lines, &[outcome, 1], 1).unwrap();
        assert_eq!(file[5], "EC:7");
        file[1].clone()
    };
    for outcome in [1, 6, 7] {
        assert_eq!(ec(outcome, "EC:0000000123"), "EC:0000000123");
    }
    for own in ["EC:0", "EC:9999999999", "EC:0000000123"] {
        assert_eq!(ec(8, own), "EC:9999999999");
    }
    assert_eq!(ec(8, "AK:1"), "AK:1");
    assert_eq!(ec(8, "ID:EC:1"), "ID:EC:1");
}

#[test]
fn refusals_1_and_2() {
    let items = slice(&WORKED);
    let good = Delivery {
        items: &items,
        outcomes: &[8, 1],
        standings: &[1, 2],
        certis: CERTIS,
        day: DAY,
        start: 42,
    };
    for (certis, day, refusal) in [(0, 0, 1), (10_000, 0, 1), (1, 20230229, 2), (9999, 0, 2)] {
        let nothing = Delivery { items: b"", certis, day, ..good };
        assert_eq!(deliver(&nothing, 0), Err(refusal));
    }
    for certis in [1, 9999] {
        assert!(deliver(&Delivery { certis, ..good }, ROOM).is_ok());
    }
}

#[test]
fn refusal_30_items() {
    assert_eq!(delivered(b"", &[], &[], 1), Err(30));
    assert_eq!(delivered(b"ZZ:\r\n", &[], &[], 1), Err(30));
    assert_eq!(delivered(b"\x1a", &[], &[], 1), Err(30));
    let many = |count: usize| {
        let item = slice(&[&head(11, 1), KC]);
        delivered(&item.repeat(count), &vec![1; count], &vec![1; count], 1)
    };
    assert_eq!(many(30_001), Err(30));
    let file = many(30_000).unwrap();
    assert!(file.ends_with(b"IN:1 30000\r\nS1:30000 30000\r\n\x1a"));
}

#[test]
fn refusal_30_one_each() {
    let items = slice(&WORKED);
    let with = |outcomes: &[u32], standings: &[u32]| delivered(&items, outcomes, standings, 42);
    assert!(with(&[8, 1], &[1, 2]).is_ok());
    for (outcomes, standings) in [(1, 2), (3, 2), (2, 1), (2, 3), (1, 1), (0, 0), (3, 3)] {
        assert_eq!(with(&vec![1; outcomes], &vec![1; standings]), Err(30));
    }
    // A heading that does not read begins an item too, and so does a 51.
    assert_eq!(sent(&["HD:", &head(11, 1), KC], &[1], 1), Err(30));
    assert_eq!(sent(&["HD:", &head(11, 1), KC], &[1, 1], 1), Err(31));
    assert_eq!(sent(&[&head(11, 1), KC, &head(51, 0)], &[1], 1), Err(30));
    assert_eq!(sent(&[&head(11, 1), KC, &head(51, 0)], &[1, 1], 1), Err(31));
}

#[test]
fn refusal_31_each_rule() {
    let good = head(11, 1);
    let good = good.as_str();
    assert_eq!(refusal(&[good, KC]), None);
    let broken: [&[&str]; 20] = [
        &[good, KC, "AV:\u{7f}"],
        &[good, KC, "x"],
        &[good, KC, ""],
        &["   ", good, KC],
        &["AV:x", good, KC],
        &[good, KC, "EC:1", "EC:1"],
        &[good, "KC:1"],
        &[good, "   ", KC],
        &[good, KC, "UD:20 19"],
        &[good, "KC:1 20240305"],
        &[&head(32, 1), "KC:100000000001 20240304"],
        &[&head(99, 1), KC],
        &[&head_with(11, 1, 1, "20240222"), KC],
        &[&head_with(11, 1, 1, "20240305"), KC],
        &[&head_with(11, 1, 5, "0000001"), KC],
        &[&head_with(11, 1, 4, "0000000"), KC],
        &[&head_with(11, 1, 6, "0000001"), KC],
        &[good],
        &[good, KC, "UD: 18"],
        &[good, KC, "UD: 0"],
    ];
    for lines in broken {
        assert_eq!(refusal(lines), Some(31), "{lines:?}");
    }
    // In a later item as in the first; what stands above a first heading stands in an item there.
    for lines in broken {
        let after = [&[good, KC][..], lines].concat();
        let expected = lines[0].starts_with("HD:").then_some(31);
        assert_eq!(refusal(&after), expected, "{after:?}");
    }
}

#[test]
fn rules_that_are_not_asked() {
    // 12, and those of blocks: numbers, days, and that no 51 closes.
    let lines = [
        &head_with(11, 9, 2, "0000301"),
        KC,
        &head_with(12, 0, 1, "20240223"),
        KC,
        &head(11, 9),
        KC,
        "IN:5 9",
        "S9:7 7",
    ];
    assert_eq!(refusal(&lines), None);
}

#[test]
fn refusal_31_line_ends_and_marks() {
    let good = slice(&[&head(11, 1), KC, "ID:x"]);
    let with = |items: &[u8]| delivered(items, &[1], &[1], 1).err();
    assert_eq!(with(&good), None);
    assert_eq!(with(&good[..good.len() - 2]), Some(31));
    assert_eq!(with(&good[..good.len() - 1]), Some(31));
    assert_eq!(with(&[&good[..], b"\x1a"].concat()), Some(31));
    assert_eq!(with(&[&good[..good.len() - 2], b"\x1a\r\n"].concat()), Some(31));
    assert_eq!(with(&[&good[..], b"\x1a\r\nHD:\r\n"].concat()), Some(30));
}

#[test]
fn refusal_31_deriving() {
    let of = |kind: u32, outcome, standing, start| {
        sent_by(&[&head(kind, 1), KC], &[outcome], &[standing], start).err()
    };
    assert_eq!(of(11, 1, 1, 1), None);
    for outcome in [0, 2, 3, 4, 5, 9, 10, u32::MAX] {
        assert_eq!(of(11, outcome, 1, 1), Some(31));
    }
    for standing in [0, 2, 3, u32::MAX] {
        assert_eq!(of(11, 1, standing, 1), Some(31));
    }
    for kind in [51, 96, 97, 98] {
        assert_eq!(of(kind, 1, 1, 1), Some(31));
    }
    // 8 derives as 6 does: not for a 35, and for a 45 of a third party only.
    assert_eq!((of(11, 8, 1, 1), of(35, 8, 2, 1), of(55, 8, 1, 1)), (None, Some(31), Some(31)));
    assert_eq!((of(45, 8, 2, 5_000_001), of(45, 8, 1, 5_000_001)), (None, Some(31)));
}

#[test]
fn refusal_31_numbers() {
    let from = |kind: u32, start| sent(&[&head(kind, 1), KC, &head(kind, 2), KC], &[1; 2], start);
    let ends = [(11, 1, 5_000_000), (1, 5_000_001, 9_000_000), (44, 9_000_001, 9_999_999)];
    for (kind, first, last) in ends {
        assert_eq!(from(kind, first - 1), Err(31), "{kind}");
        assert!(from(kind, first).is_ok() && from(kind, last - 1).is_ok(), "{kind}");
        assert_eq!(from(kind, last), Err(31), "{kind}");
    }
    assert_eq!((from(11, u32::MAX), from(44, u32::MAX - 1)), (Err(31), Err(31)));
}

#[test]
fn refusal_31_recipients() {
    let to = |first: u32, second: u32| {
        let headings = [first, second].map(|code| head_with(11, 1, 4, &format!("{code:07}")));
        refusal(&[&headings[0], KC, &headings[1], KC])
    };
    assert_eq!((to(1, 1), to(9999, 9999)), (None, None));
    for (first, second) in [(10_000, 10_000), (1, 2), (9999, 10_000), (9_999_999, 1)] {
        assert_eq!(to(first, second), Some(31));
    }
    let returned = |first: &str| sent(&[&head_with(11, 1, 2, first), KC], &[6], 1).err();
    assert_eq!((returned("0000000"), returned("0000001")), (Some(31), None));
    assert_eq!((returned("0009999"), returned("0010000")), (None, Some(31)));
}

#[test]
fn refusal_32() {
    let two = |kinds: [u32; 2], outcomes: [u32; 2], start| {
        let [first, second] = kinds.map(|kind| head_with(kind, 1, 2, "0000710"));
        sent(&[&first, KC, &second, KC], &outcomes, start).err()
    };
    assert_eq!(two([11, 1], [1, 1], 5_000_000), Some(32));
    assert_eq!(two([11, 1], [1, 1], 4_999_999), Some(31));
    assert_eq!(two([11, 21], [7, 6], 5_000_000), Some(32));
    assert_eq!(two([1, 44], [1, 1], 9_000_000), Some(32));
    assert_eq!(two([1, 44], [7, 7], 9_000_000), Some(32));
    assert_eq!(two([44, 1], [1, 1], 9_000_000), Some(31));
    assert_eq!(two([44, 44], [1, 7], 9_000_001), None);
    assert_eq!(two([1, 21], [1, 7], 8_999_999), None);
}

#[test]
fn refusal_33() {
    let with = |last: u64, outcome: u32| {
        let own = head_with(11, 1, 2, "0000710");
        let large = slice(&[&own, "KC:999999999999999 20240304"]).repeat(100);
        let items = [large, slice(&[&own, &format!("KC:{last} {DAY}")])].concat();
        let outcomes = [vec![1; 100], vec![outcome]].concat();
        delivered(&items, &outcomes, &[1; 101], 1)
    };
    let most = with(99, 1).unwrap();
    assert!(most.ends_with(b"IN:1 101\r\nS1:101 99999999999999999\r\n\x1a"));
    assert_eq!(with(100, 1), Err(33));
    assert_eq!(with(999_999_999_999_999, 1), Err(33));
    assert!(with(100, 7).unwrap().ends_with(b"S1:100 99999999999999900\r\nS7:1 100\r\n\x1a"));
}

#[test]
fn refusal_34() {
    let items = slice(&WORKED);
    let delivery = Delivery {
        items: &items,
        outcomes: &[8, 1],
        standings: &[1, 2],
        certis: CERTIS,
        day: DAY,
        start: 42,
    };
    let file = deliver(&delivery, ROOM).unwrap();
    assert_eq!(file.len(), 260);
    assert_eq!(deliver(&delivery, 260).as_ref(), Ok(&file));
    assert_eq!(deliver(&delivery, 259), Err(34));
    assert_eq!(deliver(&delivery, 0), Err(34));
}

#[test]
fn refusals_in_their_order() {
    let large = "KC:999999999999999 20240304";
    let mut lines = slice(&[&head(11, 1), large]).repeat(101);
    assert_eq!(delivered(&lines, &[1; 101], &[1; 101], 5_000_000 - 100), Err(33));
    // A 32 after sums that are too large, then a 31 after both, then a 30.
    lines.extend(slice(&[&head(1, 1), KC]));
    assert_eq!(delivered(&lines, &[1; 102], &[1; 102], 5_000_000 - 100), Err(32));
    lines.extend(slice(&[&head(1, 1), KC, "EC:x"]));
    assert_eq!(delivered(&lines, &[1; 103], &[1; 103], 5_000_000 - 100), Err(31));
    assert_eq!(delivered(&lines, &[1; 103], &[1; 102], 5_000_000 - 100), Err(30));
}
