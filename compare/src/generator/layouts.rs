//! The fields of table, bias file, record, product and state, tag and length, stated apart from the parsers.

pub const TABLE: [(u8, usize); 4] = [(0x10, 37), (0x11, 255), (0x12, 440), (0x14, 660)];

pub const BIAS: [(u8, usize); 1] = [(0x13, 8_448)];

pub const RECORD: [(u8, usize); 6] = [(1, 4), (2, 34), (3, 176), (4, 176), (5, 4_224), (6, 16)];

pub const PRODUCT: [(u8, usize); 4] = [(0x20, 4), (0x21, 22), (0x22, 8_448), (0x23, 220)];

pub const STATE: [(u8, usize); 8] = [
    (0x30, 8),
    (0x31, 1_404),
    (0x32, 5),
    (0x33, 704),
    (0x34, 704),
    (0x35, 480),
    (0x36, 8_451),
    (0x37, 796),
];

/// The positions of all bytes of tags and lengths.
pub fn head_positions(layout: &[(u8, usize)]) -> Vec<usize> {
    let mut positions = Vec::new();
    let mut at = 0;
    for (_, length) in layout {
        positions.extend([at, at + 1, at + 2]);
        at += 3 + length;
    }
    positions
}
