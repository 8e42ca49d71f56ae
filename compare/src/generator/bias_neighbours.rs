//! Every neighbour of a bias file.

use super::biases::BiasValues;
use super::layouts::{head_positions, BIAS};
use super::neighbour::Neighbour;

/// c0 at the ends of its range, one outside and at the ends of its type, with the answers planned.
pub const C0_EDGES: [(i16, u8); 6] = [
    (-32_768, 3),
    (-4_097, 3),
    (-4_096, 0),
    (4_096, 0),
    (4_097, 3),
    (32_767, 3),
];

/// Every neighbour of an accepted bias file: in each channel c0 and e of some positions at their ends,
/// c0 of each position one outside, each byte of the head wrong by one, and other lengths.
pub fn bias_neighbours(base: &BiasValues) -> Vec<Neighbour> {
    let mut all = Vec::new();
    let mut push = |description: String, bytes: Vec<u8>, answer: u8| {
        all.push(Neighbour {
            description,
            bytes,
            answer,
        })
    };
    let changed = |change: &dyn Fn(&mut BiasValues)| {
        let mut values = base.clone();
        change(&mut values);
        values.encode()
    };
    let right = base.encode();
    push("the bias file itself".to_string(), right.clone(), 0);

    for channel in 0..22 {
        for position in [0, 47, 95] {
            let place = format!("channel {} position {}", channel + 1, position + 1);
            for (c0, answer) in C0_EDGES {
                let bytes = changed(&|bias| bias.pairs[channel][position].c0 = c0);
                push(format!("{place} c0 at {c0}"), bytes, answer);
            }
            for e in [-32_768, -4_097, 4_097, 32_767] {
                let bytes = changed(&|bias| bias.pairs[channel][position].e = e);
                push(format!("{place} e at {e}"), bytes, 0);
            }
        }
        for position in 0..96 {
            let c0 = if position % 2 == 0 { -4_097 } else { 4_097 };
            let bytes = changed(&|bias| bias.pairs[channel][position].c0 = c0);
            let place = format!("channel {} position {}", channel + 1, position + 1);
            push(format!("{place} c0 at {c0}"), bytes, 3);
        }
    }

    let with_head = |head: [u8; 3]| [&head[..], &right[3..]].concat();
    for head in [
        [0x10, 0x21, 0x00],
        [0x13, 0x00, 0x21],
        [0x13, 0x00, 0x00],
        [0x13, 0x21, 0x03],
        [0x00, 0x00, 0x00],
    ] {
        push(format!("head {head:02x?}"), with_head(head), 2);
    }
    for position in head_positions(&BIAS) {
        for change in [1, 255] {
            let mut bytes = right.clone();
            bytes[position] = bytes[position].wrapping_add(change);
            push(format!("byte {position} wrong by one"), bytes.clone(), 2);
            // With a value out of range as well: 2 comes first.
            bytes[3] = 0x7f;
            push(format!("byte {position} wrong, c0 outside"), bytes, 2);
        }
    }
    for length in [0, 1, 2, 3, 7, 384, 1_404, 8_450] {
        push(format!("length {length}"), right[..length].to_vec(), 1);
    }
    for more in [1, 2, 4, 8_451] {
        let mut bytes = right.clone();
        bytes.extend(vec![0; more]);
        push(format!("length {}", bytes.len()), bytes.clone(), 1);
        // With a wrong tag as well: 1 comes first.
        bytes[0] = 0x12;
        push(format!("length {}, tag wrong", bytes.len()), bytes, 1);
    }
    all
}
