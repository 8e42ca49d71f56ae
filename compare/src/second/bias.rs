//! The bias file, 8,451 bytes, the operation Opening a bias file, and what scan bias makes of a
//! temperature (equation 30).

use super::bytes::{i16_at, layout_is_right, layout_length, value};
use super::record::SCENES;
use super::rounding::{r, Mixed};
use super::thermometer::inside;

pub const LAYOUT: [(u8, usize); 1] = [(0x13, 8_448)];

/// Ends included. e has no range beyond its 16 bits.
const C0_RANGE: (i128, i128) = (-4_096, 4_096);

/// 1 as a factor of a temperature: factors are in 65,536ths.
const ONE: i128 = 65_536;

/// The scan bias of one channel and position.
#[derive(Clone, Copy, Debug, PartialEq, Eq)]
pub struct Pair {
    pub c0: i128,
    pub e: i128,
}

impl Pair {
    /// B of a T, both in units: r of the whole product, c0 behind it.
    pub fn biased(&self, temperature: i128) -> i128 {
        self.c0 + r((ONE + self.e) * temperature, ONE)
    }

    /// c0 + (1 + e / 65,536) × E, unrounded.
    ///
    /// The whole part and the rest of E are multiplied apart. The denominator is below 2^107 (see
    /// `exact_temperature`) and the factor below 2^17.
    pub fn exact(&self, temperature: Mixed) -> Mixed {
        let factor = ONE + self.e;
        let of_whole = Mixed::new(self.c0, factor * temperature.whole, ONE);
        let of_rest = factor * temperature.numerator;
        Mixed::new(
            of_whole.whole,
            of_whole.numerator * temperature.denominator + of_rest,
            ONE * temperature.denominator,
        )
    }
}

/// An accepted bias file.
#[derive(Clone, Debug)]
pub struct Bias {
    /// As it was opened.
    pub bytes: Vec<u8>,
    /// Channel by channel, position by position.
    pairs: Vec<Pair>,
}

impl Bias {
    /// The pair of the channel and position with these indices from 0.
    pub fn pair(&self, channel: usize, position: usize) -> Pair {
        self.pairs[SCENES * channel + position]
    }
}

/// The values of bytes whose layout is right, in whatever range.
fn read(bytes: &[u8]) -> Bias {
    let pairs = value(bytes, &LAYOUT, 0)
        .chunks(4)
        .map(|pair| Pair {
            c0: i16_at(pair, 0) as i128,
            e: i16_at(pair, 2) as i128,
        })
        .collect();
    Bias {
        bytes: bytes.to_vec(),
        pairs,
    }
}

/// The operation Opening a bias file: the bias file, or the number of the refusal.
pub fn open_bias(bytes: &[u8]) -> Result<Bias, u8> {
    if bytes.len() != layout_length(&LAYOUT) {
        return Err(1);
    }
    if !layout_is_right(bytes, &LAYOUT) {
        return Err(2);
    }
    let bias = read(bytes);
    if !bias.pairs.iter().all(|pair| inside(pair.c0, C0_RANGE)) {
        return Err(3);
    }
    Ok(bias)
}

#[cfg(test)]
mod tests {
    use super::*;
    use crate::generator::bias_neighbours::bias_neighbours;
    use crate::generator::biases::BiasValues;
    use crate::second::rounding::Fraction;
    use crate::second::table::CHANNELS;

    fn answer(bytes: &[u8]) -> u8 {
        open_bias(bytes).err().unwrap_or(0)
    }

    #[test]
    fn a_bias_file_has_8_451_bytes() {
        assert_eq!(layout_length(&LAYOUT), 8_451);
        let zeros = BiasValues::zeros().encode();
        assert_eq!(zeros[..3], [0x13, 0x21, 0x00]);
        assert_eq!(zeros[3..], [0; 8_448]);
        assert_eq!(open_bias(&zeros).unwrap().bytes, zeros);
    }

    #[test]
    fn pairs_stand_channel_by_channel_with_c0_first() {
        let mut bytes = BiasValues::zeros().encode();
        // The first and the last pair, and position 2 of channel 3.
        bytes[3..7].copy_from_slice(&[0x00, 0x01, 0xff, 0xfe]);
        bytes[8_447..].copy_from_slice(&[0xf0, 0x00, 0x80, 0x00]);
        bytes[3 + 384 * 2 + 4..][..4].copy_from_slice(&[0x10, 0x00, 0x7f, 0xff]);
        let bias = open_bias(&bytes).unwrap();
        let pair = |channel: usize, position: usize| {
            let pair = bias.pair(channel, position);
            (pair.c0, pair.e)
        };
        assert_eq!(pair(0, 0), (1, -2));
        assert_eq!(pair(21, 95), (-4_096, -32_768));
        assert_eq!(pair(2, 1), (4_096, 32_767));
        let all = (0..CHANNELS).flat_map(|channel| (0..SCENES).map(move |place| (channel, place)));
        let changed = all.filter(|(channel, place)| pair(*channel, *place) != (0, 0));
        assert_eq!(changed.count(), 3);
    }

    #[test]
    fn the_rows_of_the_worked_example() {
        let rows = [
            (565_394, 0, 0, 37_053_661_184, 565_394),
            (565_395, 4_096, -32_768, 18_526_863_360, 286_794),
            (565_394, -4_096, 32_767, 55_579_926_382, 843_986),
            (565_393, 4_096, -32_768, 18_526_797_824, 286_792),
            (32_768, -1, 1, 2_147_516_416, 32_767),
            (32_768, 1, -1, 2_147_450_880, 32_769),
        ];
        for (temperature, c0, e, product, biased) in rows {
            assert_eq!((65_536 + e) * temperature, product);
            assert_eq!(Pair { c0, e }.biased(temperature), biased);
        }
    }

    #[test]
    fn halves_go_to_the_even_neighbour_at_both_signs_of_e() {
        let biased = |e: i128, temperature: i128| Pair { c0: 0, e }.biased(temperature);
        // Halves of 3 and 5 are 1.5 and 2.5; three quarters of 2 and 6 are 1.5 and 4.5, and five quarters 2.5 and 7.5.
        assert_eq!([biased(-32_768, 3), biased(-32_768, 5)], [2, 2]);
        assert_eq!([biased(-16_384, 2), biased(-16_384, 6)], [2, 4]);
        assert_eq!([biased(16_384, 2), biased(16_384, 6)], [2, 8]);
        // One 65,536th to each side of a half.
        assert_eq!(biased(-1, 32_767), 32_767);
        assert_eq!(biased(-1, 32_769), 32_768);
        assert_eq!(biased(1, 32_767), 32_767);
        assert_eq!(biased(1, 32_769), 32_770);
    }

    #[test]
    fn evenness_is_that_of_the_product_before_c0_is_added() {
        // Half of 565,395 is 282,697.5, and of 565,393 282,696.5.
        for c0 in [-4_095, -1, 0, 1, 4_096] {
            let pair = Pair { c0, e: -32_768 };
            assert_eq!(pair.biased(565_395), 282_698 + c0);
            assert_eq!(pair.biased(565_393), 282_696 + c0);
        }
    }

    #[test]
    fn the_product_is_rounded_whole() {
        // An odd T and the even neighbour of e × T / 65,536 would make the odd one. Of an odd T only the least e
        // gives a half.
        let e = -32_768;
        for (temperature, whole) in [(565_393, 282_696), (565_395, 282_698)] {
            assert_eq!(Pair { c0: 0, e }.biased(temperature), whole);
            assert_eq!(temperature + r(e * temperature, ONE), 282_697);
        }
    }

    #[test]
    fn zeros_change_no_temperature() {
        let none = Pair { c0: 0, e: 0 };
        for temperature in [1, 2, 11_166, 565_394, 1_751_064, 16_777_215] {
            assert_eq!(none.biased(temperature), temperature);
        }
    }

    #[test]
    fn the_ends_of_t_stay_inside_the_f32() {
        let lowest = Pair {
            c0: -4_096,
            e: -32_768,
        };
        assert_eq!(lowest.biased(11_166), 1_487);
        let highest = Pair {
            c0: 4_096,
            e: 32_767,
        };
        assert!(highest.biased(1_751_064) < 2_700_000);
    }

    #[test]
    fn equation_30_is_a_fraction() {
        // c0 = 3, e = -16,384 and E = 7 / 2: 3 + 3/4 × 7/2 = 5 + 5/8.
        let exact = Pair { c0: 3, e: -16_384 }.exact(Mixed::new(0, 7, 2));
        assert_eq!(exact.whole, 5);
        assert_eq!(8 * exact.numerator, 5 * exact.denominator);
    }

    #[test]
    fn equation_30_of_the_longest_fraction_stays_inside() {
        // The greatest D² V and rise of shelf temperatures; E is one part below the greatest T.
        let denominator = 51_136_960_500 * 51_136_960_500 * 65_025 * 491_517;
        let highest = Pair {
            c0: 4_096,
            e: 32_767,
        };
        let exact = highest.exact(Mixed::new(1_751_064, -1, denominator));
        assert_eq!(exact.whole, highest.biased(1_751_064));
        let sixteenths = Fraction {
            numerator: 71,
            denominator: 16,
        };
        // About 4,096 + 2,626,569.28 units.
        for (units, expected) in [(-5, false), (-4, true), (4, true), (5, false)] {
            let is_within = exact.is_within(sixteenths, exact.whole + units);
            assert_eq!(is_within, expected, "{units}");
        }
        assert!(!exact.is_within(sixteenths, 16_777_215));
    }

    #[test]
    fn refusals_1_2_and_3_and_their_accepted_neighbours() {
        let mut seen = [0; 4];
        for neighbour in bias_neighbours(&BiasValues::zeros()) {
            let answer = answer(&neighbour.bytes);
            assert_eq!(answer, neighbour.answer, "{}", neighbour.description);
            seen[answer as usize] += 1;
        }
        assert!(seen.iter().all(|count| *count > 5), "{seen:?}");
    }

    #[test]
    fn the_length_comes_first_then_the_head_then_c0() {
        let right = BiasValues::zeros().encode();
        let longer = [&right[..], &[0]].concat();
        for (bytes, expected) in [
            (&right[..], 0),
            (&right[..8_450], 1),
            (&longer[..], 1),
            (&[][..], 1),
        ] {
            assert_eq!(answer(bytes), expected, "length {}", bytes.len());
        }
        let mut bytes = right.clone();
        bytes[3..5].copy_from_slice(&4_097i16.to_be_bytes());
        assert_eq!(answer(&bytes), 3);
        bytes[0] = 0x12;
        assert_eq!(answer(&bytes), 2);
        bytes.pop();
        assert_eq!(answer(&bytes), 1);
    }

    #[test]
    fn c0_has_a_range_and_e_has_none() {
        for at in [3, 8_447] {
            let with = |c0: i16, e: i16| {
                let mut bytes = BiasValues::zeros().encode();
                bytes[at..at + 2].copy_from_slice(&c0.to_be_bytes());
                bytes[at + 2..at + 4].copy_from_slice(&e.to_be_bytes());
                answer(&bytes)
            };
            for (c0, expected) in [
                (-32_768, 3),
                (-4_097, 3),
                (-4_096, 0),
                (4_096, 0),
                (4_097, 3),
                (32_767, 3),
            ] {
                assert_eq!(with(c0, 0), expected, "c0 {c0}");
            }
            for e in [-32_768, -4_097, 4_097, 32_767] {
                assert_eq!(with(0, e), 0, "e {e}");
            }
        }
    }
}
