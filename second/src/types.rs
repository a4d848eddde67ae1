//! Item types: which are input types, which class they have, how many sides.

/// The control item that closes a block.
pub const CONTROL: u32 = 51;

const INPUT: [u32; 17] = [1, 11, 12, 13, 14, 21, 32, 33, 35, 37, 44, 45, 51, 55, 96, 97, 98];

pub fn is_input(kind: u32) -> bool {
    INPUT.contains(&kind)
}

/// The types that rules 8, 9, 15, 20 and 30 to 39 speak of.
pub fn is_payment(kind: u32) -> bool {
    is_input(kind) && kind != CONTROL
}

pub fn is_priority(kind: u32) -> bool {
    matches!(kind, 1 | 21 | 44 | 45)
}

/// Sent for a payer and a beneficiary: the third code is in use.
pub fn is_trilateral(kind: u32) -> bool {
    matches!(kind, 35 | 37 | 45)
}

/// Types whose KC day must not be later than the accounting day.
pub fn bars_future(kind: u32) -> bool {
    matches!(kind, 1 | 11 | 12 | 13 | 14 | 21 | 35 | 37 | 45)
}

/// Requests: their KC day may be up to 30 days later.
pub fn is_request(kind: u32) -> bool {
    matches!(kind, 32 | 33)
}
