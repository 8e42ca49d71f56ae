//! Scan records: values with an encoder, and every neighbour of a record.

use super::layouts::{head_positions, RECORD};
use super::neighbour::Neighbour;

#[derive(Clone, Debug)]
pub struct RecordValues {
    pub number: u32,
    pub pam: u16,
    pub offset: u16,
    pub thermometers: [u16; 15],
    pub warm: [[u16; 4]; 22],
    pub cold: [[u16; 4]; 22],
    pub earth: [[u16; 96]; 22],
    /// KKA, V, W and G.
    pub shelves: [i32; 4],
}

impl RecordValues {
    /// The bench scan.
    pub fn bench() -> RecordValues {
        RecordValues {
            number: 7,
            pam: 20_000,
            offset: 0,
            thermometers: [20_000; 15],
            warm: [[20_000; 4]; 22],
            cold: [[10_000; 4]; 22],
            earth: [[15_000; 96]; 22],
            shelves: [0; 4],
        }
    }

    pub fn encode(&self) -> Vec<u8> {
        let mut bytes = vec![1, 0, 4];
        bytes.extend(self.number.to_be_bytes());
        bytes.extend([2, 0, 34]);
        bytes.extend(self.pam.to_be_bytes());
        bytes.extend(self.offset.to_be_bytes());
        for count in self.thermometers {
            bytes.extend(count.to_be_bytes());
        }
        bytes.extend([3, 0, 176]);
        for count in self.warm.iter().flatten() {
            bytes.extend(count.to_be_bytes());
        }
        bytes.extend([4, 0, 176]);
        for count in self.cold.iter().flatten() {
            bytes.extend(count.to_be_bytes());
        }
        bytes.extend([5, 0x10, 0x80]);
        for count in self.earth.iter().flatten() {
            bytes.extend(count.to_be_bytes());
        }
        bytes.extend([6, 0, 16]);
        for temperature in self.shelves {
            bytes.extend(temperature.to_be_bytes());
        }
        bytes
    }

    /// The values of bytes that `encode` gave.
    pub fn decode(bytes: &[u8]) -> RecordValues {
        let u16_at = |at: usize| u16::from_be_bytes([bytes[at], bytes[at + 1]]);
        let i32_at = |at: usize| i32::from_be_bytes(bytes[at..at + 4].try_into().unwrap());
        RecordValues {
            number: u32::from_be_bytes([bytes[3], bytes[4], bytes[5], bytes[6]]),
            pam: u16_at(10),
            offset: u16_at(12),
            thermometers: std::array::from_fn(|index| u16_at(14 + 2 * index)),
            warm: std::array::from_fn(|channel| {
                std::array::from_fn(|place| u16_at(47 + 8 * channel + 2 * place))
            }),
            cold: std::array::from_fn(|channel| {
                std::array::from_fn(|place| u16_at(226 + 8 * channel + 2 * place))
            }),
            earth: std::array::from_fn(|channel| {
                std::array::from_fn(|place| u16_at(405 + 192 * channel + 2 * place))
            }),
            shelves: std::array::from_fn(|place| i32_at(4_632 + 4 * place)),
        }
    }
}

/// Every neighbour of a record: other numbers, shelf temperatures at ends, each byte of a tag or length wrong
/// by one, and other lengths.
/// The planned answers are those of a first feed with a buffer that is long enough.
pub fn record_neighbours(base: &RecordValues) -> Vec<Neighbour> {
    let right = base.encode();
    let mut all = Vec::new();
    let mut push = |description: String, bytes: Vec<u8>, answer: u8| {
        all.push(Neighbour {
            description,
            bytes,
            answer,
        })
    };
    push("the record itself".to_string(), right.clone(), 0);
    for number in [0, 1, 2_147_483_647, 2_147_483_648, 4_294_967_295] {
        let other = RecordValues {
            number,
            ..base.clone()
        };
        push(format!("number {number}"), other.encode(), 0);
    }
    for temperature in [i32::MIN, -245_761, -245_760, 245_760, 245_761, i32::MAX] {
        for place in 0..4 {
            let mut bytes = right.clone();
            let at = 4_632 + 4 * place;
            bytes[at..at + 4].copy_from_slice(&i32::to_be_bytes(temperature));
            push(format!("shelf {} at {temperature}", place + 1), bytes, 0);
        }
    }
    for position in head_positions(&RECORD) {
        for change in [1, 255] {
            let mut bytes = right.clone();
            bytes[position] = bytes[position].wrapping_add(change);
            push(format!("byte {position} wrong by one"), bytes.clone(), 5);
            bytes.pop();
            push(format!("byte {position} wrong, length 4,647"), bytes, 4);
        }
    }
    // 4,629 is the length of a record without shelf temperatures.
    for length in [0, 1, 2, 3, 7, 44, 1_404, 4_629, 4_632, 4_647] {
        push(format!("length {length}"), right[..length].to_vec(), 4);
    }
    for more in [1, 2, 4_648] {
        let mut bytes = right.clone();
        bytes.extend(vec![0; more]);
        push(format!("length {}", bytes.len()), bytes, 4);
    }
    all
}

#[cfg(test)]
mod tests {
    use super::*;

    #[test]
    fn decoding_undoes_encoding() {
        let mut record = RecordValues::bench();
        record.number = 77;
        record.thermometers[14] = 3;
        record.warm[21][3] = 4;
        record.cold[21][3] = 5;
        record.earth[21][95] = 6;
        record.shelves = [-7, i32::MIN, i32::MAX, 8];
        let bytes = record.encode();
        assert_eq!(bytes.len(), 4_648);
        assert_eq!(RecordValues::decode(&bytes).encode(), bytes);
        assert_eq!(RecordValues::decode(&bytes).earth[21][95], 6);
        assert_eq!(RecordValues::decode(&bytes).shelves, record.shelves);
    }
}
