//! Big-endian numbers, and the heads of fields: a one-byte tag and a two-byte length.

/// Where a field's head stands, and its three bytes.
pub type Head = (usize, [u8; 3]);

pub fn heads_are_right(bytes: &[u8], heads: &[Head]) -> bool {
    heads
        .iter()
        .all(|(at, head)| bytes[*at..*at + 3] == head[..])
}

pub fn u16_at(bytes: &[u8], at: usize) -> u16 {
    u16::from_be_bytes([bytes[at], bytes[at + 1]])
}

pub fn i16_at(bytes: &[u8], at: usize) -> i16 {
    u16_at(bytes, at) as i16
}

pub fn u32_at(bytes: &[u8], at: usize) -> u32 {
    u32::from_be_bytes([bytes[at], bytes[at + 1], bytes[at + 2], bytes[at + 3]])
}

pub fn i32_at(bytes: &[u8], at: usize) -> i32 {
    u32_at(bytes, at) as i32
}
