//! Bytes at their limits: cuts, ends, kinds of lines and characters.

use super::{CODE, DAY, Edge, draft};
use crate::samples::Sample;

pub fn all() -> Vec<Edge> {
    vec![
        short_files(),
        Edge::list("the worked example cut and changed at every byte", example()),
        Edge::list("ends of files", file_ends()),
        Edge::list("kinds of lines", kinds()),
        Edge::list("every character at several places", characters()),
        cuts_at_every_offset(),
        Edge::list("lines of every length up to 140", long_lines()),
    ]
}

fn sample(file: Vec<u8>) -> Sample {
    Sample { code: CODE, day: DAY, file }
}

/// Every file of up to five bytes out of nine, bare and under a heading.
fn short_files() -> Edge {
    const ALPHABET: &[u8; 9] = b"\r\n\x1a HD:A\x7f";
    let most = 5;
    let counts = (0..=most).map(|length| ALPHABET.len().pow(length));
    let count: usize = counts.sum();
    Edge::new("every short file", 2 * count, move |case| {
        let (mut case, under_heading) = (case / 2, case % 2 == 1);
        let mut length = 0;
        while case >= ALPHABET.len().pow(length) {
            case -= ALPHABET.len().pow(length);
            length += 1;
        }
        let mut file = Vec::new();
        if under_heading {
            file.extend(draft().good_heading(51, 1).write());
            file.extend(b"\r\n");
        }
        file.extend((0..length).map(|digit| ALPHABET[case / 9_usize.pow(digit) % 9]));
        if under_heading {
            file.push(0x1a);
        }
        sample(file)
    })
}

/// Document 01's worked example with its account and sum mended, so that only
/// what is done to it counts.
const EXAMPLE: &[u8] = b"HD:11 20240304 0000300 0000001 0000710 0000000 0000000\r\n\
    KC:12500 20240304\r\n\
    UD: 2000145399\r\n\
    DI:name\r\n   street\r\n\
    HD:51 20240304 0000300 0000000 0000999 0000000 0000000\r\n\
    IN:1 1\r\n\
    S1:1 12500\r\n\x1a";

fn example() -> Vec<Sample> {
    let mut samples = vec![sample(EXAMPLE.to_vec())];
    for place in 0..EXAMPLE.len() {
        samples.push(sample([&EXAMPLE[..place], b"\x1a"].concat()));
        samples.push(sample([&EXAMPLE[..place], &EXAMPLE[place + 1..]].concat()));
        for byte in *b"\r\n\x1a :0AH\x7f" {
            samples.push(sample([&EXAMPLE[..place], &[byte], &EXAMPLE[place..]].concat()));
            samples.push(sample([&EXAMPLE[..place], &[byte], &EXAMPLE[place + 1..]].concat()));
        }
        samples.push(sample([&EXAMPLE[..place], b"\r\n", &EXAMPLE[place..]].concat()));
    }
    samples
}

/// What can stand just before the end mark, and behind it (refusal 9).
fn file_ends() -> Vec<Sample> {
    let pieces: [&[u8]; 6] = [b"", b"\r", b"\n", b"x", b"\r\n", b"EC:1"];
    let behind: [&[u8]; 5] = [b"", b"\x1a", b"\n", b"\r\nHD:\r\n\x1a", b"\xff\0"];
    let text = &EXAMPLE[..EXAMPLE.len() - 3];
    let mut samples = Vec::new();
    for case in 0..pieces.len().pow(3) * behind.len() {
        let piece = |digit: u32| pieces[case / 6_usize.pow(digit) % 6];
        let end = [piece(0), piece(1), piece(2)].concat();
        let behind = behind[case / 216];
        samples.push(sample([text, &end, b"\x1a", behind].concat()));
        samples.push(sample([&end, &b"\x1a"[..], behind].concat()));
    }
    samples.push(sample(text.to_vec()));
    samples.push(sample(Vec::new()));
    samples
}

/// Lines that start with any three of some bytes at the edges of A-Z and 0-9.
fn kinds() -> Vec<Sample> {
    let bytes = *b"/09:;@AHDZ[a {\xc8";
    let mut samples = Vec::new();
    for case in 0..bytes.len().pow(2) {
        let start = [bytes[case / bytes.len()], bytes[case % bytes.len()]];
        let mut draft = draft();
        draft.line("EC:1");
        for third in bytes {
            draft.line([&start[..], &[third], b"0"].concat());
            draft.line("   0");
        }
        draft.heading(draft.good_heading(11, 1));
        for third in bytes {
            draft.line([&start[..], &[third]].concat());
            draft.line([&start[..], &[third], b"1"].concat());
        }
        draft.line(start);
        draft.line(&start[..1]);
        samples.push(draft.sample());
    }
    samples
}

fn characters() -> Vec<Sample> {
    let mut samples = Vec::new();
    for byte in 0..=255 {
        let texts: [&[u8]; 8] =
            [b"AV:", b"   ", b"KC:1 20240304 ", b"UD: 19 ", b"ID:", b"x", b"", b"EC:1"];
        for text in texts {
            for behind in [&b""[..], b"x"] {
                let mut draft = draft();
                draft.heading(draft.good_heading(11, 1));
                draft.line("DI:x");
                draft.line([text, &[byte], behind].concat());
                draft.line("EC:1");
                samples.push(draft.sample());
            }
        }
    }
    samples
}

/// Ends, lone CRs and LFs and bad bytes at every offset of a line: a
/// reader that takes many bytes at once meets them at all places of its step.
fn cuts_at_every_offset() -> Edge {
    const CUTS: [&[u8]; 10] = [
        b"\r\n",
        b"\r",
        b"\n",
        b"\r\r\n",
        b"\rx\n",
        b"\n\r",
        b"\r\n\r\n",
        b"\r\n\n",
        b"\x7f",
        b"\xff\r\n",
    ];
    const BEHIND: [usize; 9] = [0, 1, 2, 15, 16, 17, 31, 32, 33];
    const OFFSETS: usize = 80;
    Edge::new("cuts at every offset", CUTS.len() * BEHIND.len() * OFFSETS, |case| {
        let cut = CUTS[case % CUTS.len()];
        let behind = BEHIND[case / CUTS.len() % BEHIND.len()];
        let before = case / CUTS.len() / BEHIND.len();
        let mut file = [draft().good_heading(11, 1).write(), b"\r\nAV:".to_vec()].concat();
        file.extend(b"t".repeat(before));
        file.extend(cut);
        file.extend(b"   t".repeat(behind.div_ceil(4)));
        file.extend(b"\r\nEC:1\r\n\x1a");
        sample(file)
    })
}

/// Every kind of line with every length, filled with digits, spaces or text,
/// and with a bad byte as its last or nowhere.
fn long_lines() -> Vec<Sample> {
    let starts = [
        "HD:",
        "HD:11 20240304 0000300 0000001 0000710 0000000 0000000",
        "KC:1 20240304",
        "KC:",
        "EC:",
        "IN:1 ",
        "S1:1 ",
        "S9:",
        "UD: 19",
        "UK:",
        "UD: 19 ",
        "DI:",
        "AV:",
        "ID:",
        "   ",
        "x",
        " ",
    ];
    let mut samples = Vec::new();
    for start in starts {
        for length in (start.len()..=140).chain(250..=260) {
            for fill in [b'0', b' ', b'x'] {
                let mut line = start.as_bytes().to_vec();
                line.resize(length, fill);
                if length % 4 == 0 {
                    line.pop();
                    line.push(0x7f);
                }
                samples.push(with_line(line));
            }
        }
    }
    samples
}

/// The line under a field and under a heading.
fn with_line(line: Vec<u8>) -> Sample {
    let mut draft = draft();
    draft.heading(draft.good_heading(11, 1));
    draft.line("DI:x");
    draft.line(line.clone());
    draft.heading(draft.good_heading(51, 2));
    draft.line(line);
    draft.line("IN:1 1");
    draft.sample()
}
