//! The proved library behind its C face (include/certis.h): safe wrappers, and
//! the only unsafe code here. Both runners include this file.

use second::deliver::Delivery;

mod raw {
    #[link(name = "certis", kind = "static")]
    unsafe extern "C" {
        pub fn certis_total(
            file: *const u8,
            file_len: usize,
            code: u32,
            day: u32,
            total: *mut u64,
        ) -> u32;

        pub fn certis_check(
            file: *const u8,
            file_len: usize,
            code: u32,
            day: u32,
            lines: *mut u32,
            lines_len: usize,
            rules: *mut u32,
            rules_len: usize,
            offsets: *mut u32,
            offsets_len: usize,
            total: *mut u64,
        ) -> u32;

        pub fn certis_open_portions(
            code: u32,
            day: u32,
            wide: *mut u64,
            length: *mut u64,
            narrow: *mut u32,
            frame: *mut u32,
            stood: *mut u32,
            small: *mut u8,
            text: *mut u8,
        ) -> u32;

        pub fn certis_add_portion(
            bytes: *const u8,
            bytes_len: usize,
            wide: *mut u64,
            length: *mut u64,
            narrow: *mut u32,
            frame: *mut u32,
            lines: *mut u32,
            rules: *mut u32,
            offsets: *mut u32,
            stood: *mut u32,
            small: *mut u8,
            text: *mut u8,
        ) -> u32;

        pub fn certis_close_portions(
            wide: *mut u64,
            length: *mut u64,
            narrow: *mut u32,
            frame: *mut u32,
            lines: *mut u32,
            rules: *mut u32,
            offsets: *mut u32,
            stood: *mut u32,
            small: *mut u8,
            text: *mut u8,
            out_lines: *mut u32,
            out_rules: *mut u32,
            out_offsets: *mut u32,
            total: *mut u64,
        ) -> u32;

        pub fn certis_tell(
            heading: *const u8,
            heading_len: usize,
            outcome: u32,
            standing: u32,
            kind: *mut u32,
            recipient: *mut u32,
        ) -> u32;

        pub fn certis_derive(
            heading: *const u8,
            heading_len: usize,
            outcome: u32,
            standing: u32,
            number: u32,
            target: *mut u8,
            target_len: usize,
        ) -> u32;

        pub fn certis_account(
            prefix: *const u8,
            prefix_len: usize,
            number: *const u8,
            number_len: usize,
            prefix_answer: *mut u32,
            number_answer: *mut u32,
        ) -> u32;

        pub fn certis_sheet_open(codes: *const u32, codes_len: usize, turnovers: *mut i64) -> u32;

        pub fn certis_sheet_post(
            codes: *const u32,
            codes_len: usize,
            turnovers: *mut i64,
            file: *const u8,
            file_len: usize,
            code: u32,
            day: u32,
        ) -> u32;

        pub fn certis_turnover_text(turnover: i64, text: *mut u8) -> usize;

        pub fn certis_register_new(code: u32, target: *mut u8, target_len: usize) -> u32;

        pub fn certis_register_enter(
            register: *const u8,
            register_len: usize,
            file: *const u8,
            file_len: usize,
            code: u32,
            day: u32,
            target: *mut u8,
            target_len: usize,
            written: *mut usize,
        ) -> u32;

        pub fn certis_deliver(
            items: *const u8,
            items_len: usize,
            outcomes: *const u32,
            outcomes_len: usize,
            standings: *const u32,
            standings_len: usize,
            certis: u32,
            day: u32,
            start: u32,
            target: *mut u8,
            target_len: usize,
            written: *mut u64,
        ) -> u32;
    }
}

// Each call lends slices or arrays of Rust: valid for their lengths, not null,
// and those lent for writing overlap nothing else. That is all the header asks
// for.

pub fn total(file: &[u8], code: u32, day: u32, total: &mut u64) -> u32 {
    unsafe { raw::certis_total(file.as_ptr(), file.len(), code, day, total) }
}

/// The slices are those for lines, rules and offsets.
pub fn check(
    file: &[u8],
    code: u32,
    day: u32,
    [lines, rules, offsets]: [&mut [u32]; 3],
    total: &mut u64,
) -> u32 {
    let (lines_len, rules_len, offsets_len) = (lines.len(), rules.len(), offsets.len());
    unsafe {
        raw::certis_check(
            file.as_ptr(),
            file.len(),
            code,
            day,
            lines.as_mut_ptr(),
            lines_len,
            rules.as_mut_ptr(),
            rules_len,
            offsets.as_mut_ptr(),
            offsets_len,
            total,
        )
    }
}

/// The parts of a state of portions, wherever they stand.
pub struct Portions<'a> {
    pub wide: &'a mut [u64; 38],
    pub length: &'a mut u64,
    pub narrow: &'a mut [u32; 33],
    pub frame: &'a mut [u32; 8],
    pub lines: &'a mut [u32; 256],
    pub rules: &'a mut [u32; 256],
    pub offsets: &'a mut [u32; 256],
    pub stood: &'a mut [u32; 1296],
    pub small: &'a mut [u8; 19],
    pub text: &'a mut [u8; 68],
}

pub fn portions_open(code: u32, day: u32, state: Portions) -> u32 {
    unsafe {
        raw::certis_open_portions(
            code,
            day,
            state.wide.as_mut_ptr(),
            state.length,
            state.narrow.as_mut_ptr(),
            state.frame.as_mut_ptr(),
            state.stood.as_mut_ptr(),
            state.small.as_mut_ptr(),
            state.text.as_mut_ptr(),
        )
    }
}

pub fn portions_add(bytes: &[u8], state: Portions) -> u32 {
    unsafe {
        raw::certis_add_portion(
            bytes.as_ptr(),
            bytes.len(),
            state.wide.as_mut_ptr(),
            state.length,
            state.narrow.as_mut_ptr(),
            state.frame.as_mut_ptr(),
            state.lines.as_mut_ptr(),
            state.rules.as_mut_ptr(),
            state.offsets.as_mut_ptr(),
            state.stood.as_mut_ptr(),
            state.small.as_mut_ptr(),
            state.text.as_mut_ptr(),
        )
    }
}

/// The rooms are those for lines, rules and offsets.
pub fn portions_close(
    state: Portions,
    [lines, rules, offsets]: [&mut [u32; 256]; 3],
    total: &mut u64,
) -> u32 {
    unsafe {
        raw::certis_close_portions(
            state.wide.as_mut_ptr(),
            state.length,
            state.narrow.as_mut_ptr(),
            state.frame.as_mut_ptr(),
            state.lines.as_mut_ptr(),
            state.rules.as_mut_ptr(),
            state.offsets.as_mut_ptr(),
            state.stood.as_mut_ptr(),
            state.small.as_mut_ptr(),
            state.text.as_mut_ptr(),
            lines.as_mut_ptr(),
            rules.as_mut_ptr(),
            offsets.as_mut_ptr(),
            total,
        )
    }
}

pub fn tell(
    heading: &[u8],
    outcome: u32,
    standing: u32,
    kind: &mut u32,
    recipient: &mut u32,
) -> u32 {
    unsafe { raw::certis_tell(heading.as_ptr(), heading.len(), outcome, standing, kind, recipient) }
}

pub fn derive(heading: &[u8], outcome: u32, standing: u32, number: u32, target: &mut [u8]) -> u32 {
    let target_len = target.len();
    unsafe {
        raw::certis_derive(
            heading.as_ptr(),
            heading.len(),
            outcome,
            standing,
            number,
            target.as_mut_ptr(),
            target_len,
        )
    }
}

pub fn account(prefix: &[u8], number: &[u8], answers: (&mut u32, &mut u32)) -> u32 {
    unsafe {
        raw::certis_account(
            prefix.as_ptr(),
            prefix.len(),
            number.as_ptr(),
            number.len(),
            answers.0,
            answers.1,
        )
    }
}

pub fn sheet_open(codes: &[u32], turnovers: &mut [i64; 256]) -> u32 {
    unsafe { raw::certis_sheet_open(codes.as_ptr(), codes.len(), turnovers.as_mut_ptr()) }
}

pub fn sheet_post(
    codes: &[u32],
    turnovers: &mut [i64; 256],
    file: &[u8],
    code: u32,
    day: u32,
) -> u32 {
    unsafe {
        raw::certis_sheet_post(
            codes.as_ptr(),
            codes.len(),
            turnovers.as_mut_ptr(),
            file.as_ptr(),
            file.len(),
            code,
            day,
        )
    }
}

pub fn turnover_text(turnover: i64, text: &mut [u8; 20]) -> usize {
    unsafe { raw::certis_turnover_text(turnover, text.as_mut_ptr()) }
}

pub fn register_new(code: u32, target: &mut [u8]) -> u32 {
    unsafe { raw::certis_register_new(code, target.as_mut_ptr(), target.len()) }
}

pub fn register_enter(
    register: &[u8],
    file: &[u8],
    code: u32,
    day: u32,
    target: &mut [u8],
    written: &mut usize,
) -> u32 {
    let target_len = target.len();
    unsafe {
        raw::certis_register_enter(
            register.as_ptr(),
            register.len(),
            file.as_ptr(),
            file.len(),
            code,
            day,
            target.as_mut_ptr(),
            target_len,
            written,
        )
    }
}

pub fn deliver(delivery: &Delivery, target: &mut [u8], written: &mut u64) -> u32 {
    let Delivery { items, outcomes, standings, certis, day, start } = *delivery;
    let target_len = target.len();
    unsafe {
        raw::certis_deliver(
            items.as_ptr(),
            items.len(),
            outcomes.as_ptr(),
            outcomes.len(),
            standings.as_ptr(),
            standings.len(),
            certis,
            day,
            start,
            target.as_mut_ptr(),
            target_len,
            written,
        )
    }
}
