//! The decisions of docs/DECISIONS.md, one test for each that can be seen in a file.
//! Reading 2 is tested in listing.rs, 3, 4 and 6 in derive.rs, 5 in account.rs.

use super::*;

// Refusals and jobs.

#[test]
fn reading_1_order_of_refusals() {
    let long = vec![b'x'; 10_000_001];
    assert_eq!(refused(&long, 0, 0, [1, 2, 2]), 1);
    assert_eq!(refused(&long, 10_000, DAY, [1, 2, 2]), 1);
    assert_eq!(refused(&long, 1, 19991231, [1, 2, 2]), 2);
    assert_eq!(refused(&long, 1, 21000101, [1, 2, 2]), 2);
    assert_eq!(refused(&long, 9999, 20991231, [1, 2, 2]), 3);
    assert_eq!(refused(&long[..10_000_000], 1, 20000101, [1, 2, 1]), 4);
    assert_eq!(refused(&long[..10_000_000], 1, DAY, [2; 3]), 5);
    assert_eq!(refused(b"", 1, DAY, [2; 3]), 5);
    assert_eq!(refused(b"\x1a", 1, DAY, [2; 3]), 6);
    assert_eq!(refused(b"\x1a\x1a", 1, DAY, [2, 2, 1]), 4);
    assert_eq!(faults_of(b"\r\n\x1a"), [(1, 2), (1, 3)]);
}

#[test]
fn reading_1_leftovers_are_measured() {
    let mut text = file(&[]);
    text.insert(0, b'x');
    text.resize(10_000_001, b'x');
    assert_eq!(refused(&text, 1, DAY, [0; 3]), 3);
    assert_eq!(refused(&text[..10_000_000], 1, DAY, [0; 3]), 9);
}

// Lines and layouts.

#[test]
fn reading_7_only_cr_lf_cuts() {
    assert_eq!(faults_of(b"HD:\nEC:\r\r\n\x1a"), [(1, 1), (1, 6), (1, 16)]);
    assert_eq!(faults_of(b"HD:\r\nEC:1\r\x1a"), [(1, 6), (1, 16), (2, 1), (2, 4), (2, 6)]);
    assert_eq!(faults_of(b"HD:\r\nAV:1\r\x1a"), [(1, 6), (1, 16), (2, 1), (2, 4)]);
}

#[test]
fn reading_8_kinds_and_belonging() {
    assert_eq!(faults(&["", "EC:1", "   ", "   x"]), [(1, 2), (1, 3), (2, 3), (3, 3), (4, 3)]);
    assert_eq!(faults(&["   "]), [(1, 2), (1, 3)]);
    assert_eq!(faults(&["x", "   "]), [(1, 2), (1, 3), (2, 2), (2, 3)]);
    assert_eq!(rules_at(&faults(&[&head(11, 1), ""]), 2), [2]);
}

#[test]
fn reading_9_continued_headings_do_not_read() {
    let control = head(51, 0);
    let lines = [&head(11, 1), KC, &control, "x", "   ", "IN:1 1", "S1:1 1"];
    assert_eq!(faults(&lines), [(1, 16), (3, 6), (4, 2)]);
    assert_eq!(closed(&[&head(11, 1), KC, "EC:1", "", "   "]), [(3, 6), (4, 2)]);
    assert_eq!(closed(&[&head(11, 1), KC, "AV:1", "   ", "   ", "?", "   "]), [(6, 2)]);
    assert_eq!(
        closed(&[&head(11, 1), KC, "AV:1", "   ", "   ", "?", "   ", "   "]),
        [(3, 6), (6, 2)]
    );
}

#[test]
fn reading_10_optional_rests() {
    assert_eq!(closed(&[&head(11, 1), "KC:1 20240304 ", "UD: 19 "]), []);
    assert_eq!(closed(&[&head(11, 1), KC, "UD:19"]), [(3, 6)]);
}

#[test]
fn reading_11_layouts_hold_in_every_item() {
    let above = ["EC:", "EC:", "UD: 18", "KC:1 20240305"];
    let lines = [&above[..], &["HD:"], &above[..3]].concat();
    let below = [(5, 6), (5, 16), (6, 6), (7, 5), (7, 6), (8, 23)];
    assert_eq!(faults(&lines), [&[(1, 3), (2, 3), (3, 3), (4, 3)][..], &below].concat());
}

#[test]
fn reading_12_s9() {
    assert_eq!(closed(&[&head(11, 1), KC, "S9:x", "S9:1 1"]), [(3, 6), (4, 5)]);
    let control = head(51, 0);
    let with = |field| faults(&[&head(11, 1), KC, &control, "IN:1 1", "S1:1 1", field]);
    assert_eq!(with("S9:0 0"), []);
    assert_eq!(with("S9:0 1"), [(3, 39)]);
    assert_eq!(with("S9:1 0"), [(3, 39)]);
    assert_eq!(with("S9:"), [(6, 6)]);
}

#[test]
fn reading_13_kinds() {
    assert_eq!(closed(&[&head(11, 1), KC, "00:", "9Z:", "hd:", "kc:"]), [(5, 2), (6, 2)]);
    assert_eq!(faults(&["HD:x"]), [(1, 6), (1, 16)]);
}

// Rules 5 to 15.

#[test]
fn reading_14_repeats() {
    let lines = [&head(11, 1), KC, "EC:1", "EC:", "ID:", "ID:", "EC:2"];
    assert_eq!(closed(&lines), [(4, 5), (4, 6), (6, 5), (7, 5)]);
    assert_eq!(closed(&["HD:", "EC:1", &head(11, 1), KC, "EC:1"]), [(1, 6)]);
}

#[test]
fn reading_15_only_the_first_stands() {
    let control = head(51, 0);
    let broken = [&head(32, 1), "KC:", "KC:100000000001 20250101", &control, "IN:1 1"];
    assert_eq!(faults(&broken), [(2, 6), (3, 5)]);
    let later = ["IN:", "IN:9 9", "S1:", "S1:9 9", "S3:0 0"];
    let payment = head(11, 1);
    let lines = [&[&payment, KC, &control][..], &later].concat();
    assert_eq!(faults(&lines), [(4, 6), (5, 5), (6, 6), (7, 5)]);
    assert_eq!(rules_at(&faults(&[&head(11, 1), "KC:"]), 1), [16]);
    assert_eq!(rules_at(&faults(&[&head(11, 1)]), 1), [15, 16]);
}

#[test]
fn reading_16_every_account() {
    let lines = [&head(11, 1), KC, "UD: 18", "UD: 18", "UK: 19", "UK: 18"];
    assert_eq!(closed(&lines), [(3, 23), (4, 5), (4, 23), (6, 5), (6, 23)]);
    let control = head(51, 0);
    let lines = [&head(11, 1), KC, &control, "IN:1 1", "S1:1 1", "UD: 18"];
    assert_eq!(faults(&lines), [(6, 23)]);
    let alone = ["UD:20 0", "UK:20 18 NAME"];
    assert_eq!(faults(&alone), [(1, 3), (2, 3)]);
    let continued = [&head(11, 1), KC, "UD:20 0", "   more"];
    assert_eq!(closed(&continued), [(3, 6)]);
}

#[test]
fn reading_17_days_that_need_only_be_real() {
    for kind in [44, 55, 96, 97, 98] {
        assert_eq!(rules_at(&faults(&[&head(kind, 1), "KC:1 99991231"]), 2), []);
        assert_eq!(rules_at(&faults(&[&head(kind, 1), "KC:1 20230229"]), 2), [8]);
        assert_eq!(rules_at(&faults(&[&head(kind, 1), "KC:1 00001231"]), 2), [8]);
        assert_eq!(rules_at(&faults(&[&head(kind, 1), "KC:1 00010101"]), 2), []);
    }
}

#[test]
fn reading_a3_types_96_to_98() {
    let row = [&head(96, 1), KC, &head(97, 2), KC, &head(98, 3), KC, &head(51, 0), "IN:1 3"];
    assert_eq!(faults(&[&row[..], &["S9:3 3"]].concat()), []);
    assert_eq!(faults(&row), [(7, 39)]);
    for kind in 90..=99 {
        let expected: &[u32] = if (96..=98).contains(&kind) { &[16] } else { &[10, 16] };
        assert_eq!(rules_at(&faults(&[&head(kind, 1), KC]), 1), expected);
    }
    assert_eq!(rules_at(&faults(&[&head(96, 1)]), 1), [15, 16]);
    assert_eq!(rules_at(&faults(&[&head_with(97, 1, 6, "0000990"), KC]), 1), [14, 16]);
    assert_eq!(rules_at(&faults(&[&head(21, 1), KC, &head(98, 2), KC]), 3), [20]);
    assert_eq!(rules_at(&faults(&[&head(11, 1), KC, &head(98, 2), KC]), 3), []);
}

#[test]
fn reading_18_other_types() {
    let other = "HD:99 20240302 0000301 0000001 0000000 0000001 0000009";
    let control = head(51, 2);
    let lines = [other, "KC:1 99999999", &control, "IN:1 1"];
    assert_eq!(faults(&lines), [(1, 10), (1, 12), (1, 13), (3, 18)]);
    let lines = [other, &control, "IN:2 1"];
    assert_eq!(rules_at(&faults(&lines), 2), [18, 21]);
    assert_eq!(rules_at(&faults(&[&head_with(99, 0, 1, "20240222")]), 1), [10, 11, 16, 19]);
}

#[test]
fn reading_18_codes_of_a_51() {
    let with =
        |control: &str| rules_at(&faults(&[&head(11, 1), KC, control, "IN:1 1", "S1:1 1"]), 3);
    assert_eq!(with(&head_with(51, 0, 4, "0000000")), [14]);
    assert_eq!(with(&head_with(51, 0, 6, "0000001")), [14]);
}

#[test]
fn rule_14_by_type() {
    let with = |kind, part, text| rules_at(&faults(&[&head_with(kind, 1, part, text), KC]), 1);
    assert_eq!(with(11, 4, "0000000"), [14, 16]);
    assert_eq!(with(11, 6, "0000001"), [14, 16]);
    for kind in [35, 37, 45] {
        assert_eq!(with(kind, 6, "0000000"), [14, 16]);
        assert_eq!(with(kind, 6, "0000001"), [16]);
    }
}

// Blocks.

#[test]
fn reading_19_rows_of_numbers() {
    let with = |numbers: [u32; 3]| {
        let [a, b, c] = numbers.map(|number| head(11, number));
        let interval = format!("IN:{} {}", numbers[0], numbers[2]);
        let control = head(51, 0);
        faults(&[&a, KC, &b, KC, &c, KC, &control, &interval, "S1:3 3"])
    };
    assert_eq!(with([1, 3, 4]), [(3, 19)]);
    assert_eq!(with([5, 6, 7]), []);
    assert_eq!(with([0, 1, 2]), [(1, 19)]);
    assert_eq!(with([1, 0, 1]), [(3, 19)]);
    assert_eq!(with([3, 2, 1]), [(3, 19), (5, 19)]);
    let lines =
        [&head(99, 1), &head(11, 2), KC, "HD:", &head(11, 3), KC, &head(51, 4), "IN:1 3", "S1:2 2"];
    assert_eq!(faults(&lines), [(1, 10), (4, 6)]);
}

#[test]
fn reading_20_numbers_of_a_51() {
    let with =
        |number| rules_at(&faults(&[&head(11, 1), KC, &head(51, number), "IN:1 1", "S1:1 1"]), 3);
    assert_eq!(with(0), []);
    assert_eq!(with(2), []);
    assert_eq!(with(1), [19]);
    assert_eq!(with(3), [19]);
    assert_eq!(faults(&[&head(51, 7), "IN:5 9"]), [(1, 17)]);
    assert_eq!(faults(&["HD:", &head(51, 7), "IN:5 9"]), [(1, 6)]);
}

#[test]
fn reading_21_intervals() {
    let with = |interval: &[&str]| {
        let control = head(51, 0);
        let lines = [&head(11, 5), KC, &head(11, 3), KC, &control];
        rules_at(&faults(&[&lines[..], &["S1:2 2"], interval].concat()), 5)
    };
    assert_eq!(with(&["IN:5 3"]), []);
    assert_eq!(with(&["IN:0000005 3"]), []);
    assert_eq!(with(&["IN:3 5"]), [21]);
    assert_eq!(with(&[]), [21]);
    assert_eq!(with(&["IN:"]), []);
    assert_eq!(faults(&[&head(51, 0)]), [(1, 17), (1, 21)]);
}

#[test]
fn reading_22_rests_and_empty_blocks() {
    let block = [&head(11, 1), KC, &head(51, 0), "IN:1 1", "S1:1 1"];
    let payment = head(11, 1);
    let rest = [&block[..], &["HD:51", &payment, KC]].concat();
    assert_eq!(faults(&rest), [(6, 6), (6, 16)]);
    let control = head(51, 0);
    let empty = [&block[..], &[&control, "IN:1 1"]].concat();
    assert_eq!(faults(&empty), [(6, 17)]);
    let saved = [&block[..], &["HD:51", &control, "IN:1 1"]].concat();
    assert_eq!(faults(&saved), [(6, 6)]);
    assert_eq!(faults(&["EC:1"]), [(1, 3)]);
}

#[test]
fn reading_23_days_of_a_block() {
    let unreal = head_with(11, 1, 1, "20240230");
    let lines = [&unreal, KC, &head_with(51, 0, 1, "20240230"), "IN:1 1", "S1:1 1"];
    assert_eq!(faults(&lines), [(1, 11), (3, 11)]);
    assert_eq!(faults(&[&unreal, KC, &head(51, 0), "IN:1 1", "S1:1 1"]), [(1, 11), (3, 18)]);
    let rest = [&head(11, 1), KC, &head_with(11, 2, 1, "20240303"), KC];
    assert_eq!(faults(&rest), [(1, 16), (3, 18)]);
    let blocks =
        [&head(11, 1), KC, &head(51, 0), "IN:1 1", "S1:1 1", &head_with(12, 9, 1, "20240303"), KC];
    assert_eq!(faults(&blocks), [(6, 16)]);
}

#[test]
fn reading_24_class_of_the_file() {
    let with = |lines: [&str; 3]| {
        let all = faults(&lines);
        all.into_iter().filter(|fault| fault.1 == 20).map(|fault| fault.0).collect::<Vec<_>>()
    };
    let (priority, blocking, ordinary) = (head(21, 1), head(44, 1), head(55, 1));
    assert_eq!(with([&priority, &blocking, &ordinary]), [3]);
    assert_eq!(with([&ordinary, &blocking, &priority]), [2, 3]);
    assert_eq!(with(["HD:01", &ordinary, &priority]), [3]);
    assert_eq!(with([&head(99, 1), &head(51, 1), &priority]), []);
    assert_eq!(with([&priority, &head(51, 1), &ordinary]), [3]);
}

#[test]
fn reading_25_what_is_counted() {
    let bad = "HD:11 20240101 0000301 0000000 0000000 0000001 0000009";
    let control = head(51, 0);
    let with = |sum: &str| rules_at(&faults(&[bad, "KC:5 99999999", &control, "IN:0 0", sum]), 3);
    assert_eq!(with("S1:0001 005"), [18]);
    assert_eq!(with("S1:0 0"), [18, 31]);
    let none = |sum: &str| faults(&[&head(11, 1), "KC:", &control, "IN:1 1", sum]);
    assert_eq!(none("S6:0 0"), [(2, 6)]);
    assert_eq!(none("S6:0 1"), [(2, 6), (3, 36)]);
    assert_eq!(none("S1:1 0"), [(2, 6), (3, 31)]);
    let minus = [&head(11, 1), "KC:5 20240304", &head(13, 2), "KC:3 20240304", &control, "IN:1 2"];
    assert_eq!(faults(&[&minus[..], &["S1:2 8"]].concat()), []);
    assert_eq!(faults(&[&minus[..], &["S1:2 2"]].concat()), [(5, 31)]);
}

#[test]
fn reading_25_the_kc_of_a_51() {
    let control = head(51, 0);
    let block = [&head(11, 1), KC, &control, "IN:1 1", "S1:1 1"];
    assert_eq!(faults(&[&block[..], &["KC:1 99999999"]].concat()), []);
    let twice = [&block[..], &["KC:1 99999999", "KC:"]].concat();
    assert_eq!(faults(&twice), [(7, 5), (7, 6)]);
}

#[test]
fn reading_26_lines_after_a_51_belong_to_it() {
    let control = head(51, 0);
    let block = [&head(11, 1), KC, &control, "IN:1 1", "S1:1 1"];
    let more = [&block[..], &["AV:x", "   y", "IN:1 1", "EC:"]].concat();
    assert_eq!(faults(&more), [(8, 5), (9, 6)]);
}

#[test]
fn a_true_sum_of_ten_to_the_seventeenth_equals_no_sd() {
    let with = |last: &str, stated: &str| {
        let mut lines = Vec::new();
        for number in 1..=101 {
            lines.push(head(55, number));
            let amount = if number == 101 { last } else { "999999999999999" };
            lines.push(format!("KC:{amount} 20240304"));
        }
        lines.extend([head(51, 0), "IN:1 101".into(), format!("S5:101 {stated}")]);
        faults(&lines.iter().map(String::as_str).collect::<Vec<_>>())
    };
    assert_eq!(with("99", "99999999999999999"), []);
    assert_eq!(with("100", "99999999999999999"), [(203, 35)]);
    assert_eq!(with("100", "0"), [(203, 35)]);
    assert_eq!(with("101", "1"), [(203, 35)]);
}
