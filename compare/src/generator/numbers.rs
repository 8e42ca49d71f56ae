//! Edge inputs for the smallest parts: divisions, readers of numbers, fields and layouts.

use super::layouts::{head_positions, BIAS, PRODUCT, RECORD, TABLE};
use super::random::Random;

/// A whole number of 64 bits near an end, near 0, near a power of two, or anywhere.
fn edge_number(random: &mut Random) -> i64 {
    let near = random.between(-3, 3);
    match random.below(5) {
        0 => near,
        1 => i64::MAX.saturating_add(near.min(0)),
        2 => i64::MIN.saturating_add(near.max(0)),
        3 => {
            let power = 1i64 << random.below(63);
            if random.once_in(2) {
                power.saturating_add(near)
            } else {
                (-power).saturating_add(near)
            }
        }
        _ => random.next() as i64,
    }
}

/// Halves at the ends of 64 bits: of the ends of a, and of the greatest even b.
const HALVES_AT_ENDS: [(i64, i64); 8] = [
    (i64::MIN + 1, 2),
    (i64::MIN + 3, 2),
    (i64::MAX, 2),
    (i64::MAX - 2, 2),
    (i64::MAX / 2, i64::MAX - 1),
    (-(i64::MAX / 2), i64::MAX - 1),
    (i64::MAX / 2 + 1, i64::MAX - 1),
    (-(i64::MAX / 2) - 1, i64::MAX - 1),
];

/// Pairs (a, b) of 64 bits with b above 0: ends, multiples, one beside them, halves.
pub fn division_pairs(seed: u64, count: usize) -> Vec<(i64, i64)> {
    let mut random = Random::new(seed);
    let mut pairs = vec![
        (0, 1),
        (i64::MIN, 1),
        (i64::MIN, i64::MAX),
        (i64::MAX, i64::MAX),
        (i64::MAX, 1),
        (-1, i64::MAX),
    ];
    pairs.extend(HALVES_AT_ENDS);
    while pairs.len() < count {
        let small = random.between(1, 6);
        let edge = edge_number(&mut random).saturating_abs().max(1);
        let b = random.pick(&[small, edge, edge]);
        let a = match random.below(4) {
            // A whole multiple of b, or one beside it.
            0 => {
                let times = random.between(-1_000, 1_000) as i128;
                (times * b as i128 + random.between(-1, 1) as i128)
                    .clamp(i64::MIN as i128, i64::MAX as i128) as i64
            }
            // A half multiple of b, or one beside it.
            1 => {
                let times = (2 * random.between(-1_000, 1_000) + 1) as i128;
                ((times * b as i128).div_euclid(2) + random.between(-1, 1) as i128)
                    .clamp(i64::MIN as i128, i64::MAX as i128) as i64
            }
            _ => edge_number(&mut random),
        };
        pairs.push((a, b));
    }
    pairs
}

/// Those pairs at which r can be computed with 64 bits: 2a + b and 2b are inside.
pub fn rounding_pairs(seed: u64, count: usize) -> Vec<(i64, i64)> {
    let mut pairs = Vec::new();
    let mut attempt = seed;
    while pairs.len() < count {
        for (a, b) in division_pairs(attempt, count) {
            let inside = 2i64.checked_mul(a).and_then(|twice| twice.checked_add(b));
            if inside.is_some() && 2i64.checked_mul(b).is_some() && pairs.len() < count {
                pairs.push((a, b));
            }
        }
        attempt = attempt.wrapping_add(1);
    }
    pairs
}

/// Eight bytes for the readers of numbers: sign and carry edges, or anything.
pub fn number_bytes(seed: u64) -> [u8; 8] {
    let mut random = Random::new(seed);
    std::array::from_fn(|_| {
        let any = random.next() as u8;
        random.pick(&[0x00, 0x01, 0x7f, 0x80, 0xff, any])
    })
}

/// A question to the field reader.
#[derive(Clone, Debug)]
pub struct FieldCase {
    pub bytes: Vec<u8>,
    pub at: usize,
    pub tag: u8,
    pub length: usize,
}

fn encode_layout(random: &mut Random, layout: &[(u8, usize)]) -> Vec<u8> {
    let mut bytes = Vec::new();
    for (tag, length) in layout {
        bytes.extend([*tag, (length / 256) as u8, (length % 256) as u8]);
        bytes.extend(random.bytes(*length));
    }
    bytes
}

/// One field among other bytes, whole or cut, with the tag or a length byte wrong by one.
pub fn field_case(seed: u64) -> FieldCase {
    let mut random = Random::new(seed);
    let lengths = [0, 1, 2, 34, 255, 256, 257, 440];
    let length = random.pick(&lengths);
    let tag = random.next() as u8;
    let at = random.below(5);
    let mut bytes = random.bytes(at);
    bytes.extend(encode_layout(&mut random, &[(tag, length)]));
    let after = random.below(3);
    bytes.extend(random.bytes(after));
    let mut case = FieldCase {
        bytes,
        at,
        tag,
        length,
    };
    match random.below(6) {
        0 => {
            let changed = at + random.below(3);
            let change = random.pick(&[1, 255]);
            case.bytes[changed] = case.bytes[changed].wrapping_add(change);
        }
        1 => {
            let kept = random.below(case.bytes.len() + 1);
            case.bytes.truncate(kept);
        }
        2 => case.bytes.truncate(at + 3 + length),
        3 => case.length = random.pick(&lengths),
        4 => case.at = random.pick(&[0, at + 1, case.bytes.len(), case.bytes.len() + 7]),
        _ => {}
    }
    case
}

/// Bytes and a layout: right, wrong by one at one byte of a tag or length, or of another length.
pub fn layout_case(seed: u64) -> (Vec<u8>, Vec<(u8, usize)>) {
    let mut random = Random::new(seed);
    let layout = match random.below(5) {
        0 => TABLE.to_vec(),
        1 => RECORD.to_vec(),
        2 => PRODUCT.to_vec(),
        3 => BIAS.to_vec(),
        _ => (0..random.below(4))
            .map(|_| (random.next() as u8, random.below(300)))
            .collect(),
    };
    let mut bytes = encode_layout(&mut random, &layout);
    let positions = head_positions(&layout);
    match random.below(4) {
        0 if !positions.is_empty() => {
            let changed = random.pick(&positions);
            let change = random.pick(&[1, 255]);
            bytes[changed] = bytes[changed].wrapping_add(change);
        }
        1 => {
            bytes.pop();
        }
        2 => bytes.push(0),
        _ => {}
    }
    (bytes, layout)
}
