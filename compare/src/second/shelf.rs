//! The TNL of a channel for a scan, from the temperature of the channel's shelf in that scan.

use super::record::ScanRecord;
use super::rounding::{r, Fraction};
use super::table::{Shelf, ShelfPair, Table, PAIRS};

/// TNL at a shelf temperature, unrounded: beyond the ends the end value, at a pair its value, and between two
/// pairs the straight line through them, as one fraction.
///
/// A TNL is at most 2^13 and a shelf temperature between two pairs at most 2^19 from each of them.
pub fn unrounded_nonlinearity(pairs: &[ShelfPair; PAIRS], shelf: i128) -> Fraction {
    let value_of = |pair: &ShelfPair| Fraction {
        numerator: pair.nonlinearity,
        denominator: 1,
    };
    let (first, last) = (&pairs[0], &pairs[PAIRS - 1]);
    if shelf < first.temperature {
        return value_of(first);
    }
    if shelf > last.temperature {
        return value_of(last);
    }
    if let Some(at) = pairs.iter().find(|pair| pair.temperature == shelf) {
        return value_of(at);
    }
    let around = |two: &&[ShelfPair]| two[0].temperature < shelf && shelf < two[1].temperature;
    let two = pairs.windows(2).find(around);
    let two = two.expect("strictly rising temperatures leave no other place");
    let (before, behind) = (two[0], two[1]);
    Fraction {
        numerator: before.nonlinearity * (behind.temperature - shelf)
            + behind.nonlinearity * (shelf - before.temperature),
        denominator: behind.temperature - before.temperature,
    }
}

/// TNL at a shelf temperature, rounded once.
pub fn nonlinearity(pairs: &[ShelfPair; PAIRS], shelf: i128) -> i128 {
    let unrounded = unrounded_nonlinearity(pairs, shelf);
    r(unrounded.numerator, unrounded.denominator)
}

/// The pairs of the channel with this index from 0, and the temperature of its shelf in a scan.
fn pairs_and_shelf<'a>(
    table: &'a Table,
    record: &ScanRecord,
    channel: usize,
) -> (&'a [ShelfPair; PAIRS], i128) {
    let shelf = record.shelf_temperature(Shelf::of_channel(channel));
    (&table.channels[channel].shelf_pairs, shelf as i128)
}

/// TNL of a channel for a scan, which looks at the scan's own shelf alone.
pub fn nonlinearity_for_scan(table: &Table, record: &ScanRecord, channel: usize) -> i128 {
    let (pairs, shelf) = pairs_and_shelf(table, record, channel);
    nonlinearity(pairs, shelf)
}

/// The same, unrounded.
pub fn unrounded_nonlinearity_for_scan(
    table: &Table,
    record: &ScanRecord,
    channel: usize,
) -> Fraction {
    let (pairs, shelf) = pairs_and_shelf(table, record, channel);
    unrounded_nonlinearity(pairs, shelf)
}

#[cfg(test)]
mod tests {
    use super::*;
    use crate::generator::records::RecordValues;
    use crate::generator::tables::TableValues;
    use crate::second::table::{open, CHANNELS};

    fn pairs(rows: [(i128, i128); PAIRS]) -> [ShelfPair; PAIRS] {
        rows.map(|(temperature, nonlinearity)| ShelfPair {
            temperature,
            nonlinearity,
        })
    }

    /// TNL at each of these shelf temperatures.
    fn check_rows(rows: [(i128, i128); PAIRS], expected: &[(i128, i128)]) {
        for (shelf, tnl) in expected {
            assert_eq!(nonlinearity(&pairs(rows), *shelf), *tnl, "{shelf}");
        }
    }

    #[test]
    fn beyond_the_ends_the_end_value_is_kept() {
        let rows = [(-100, 7), (-50, 0), (0, 50), (50, 20), (100, -9)];
        let (lowest, highest) = (i32::MIN as i128, i32::MAX as i128);
        let below = [(lowest, 7), (-245_760, 7), (-101, 7), (-100, 7)];
        let above = [(100, -9), (101, -9), (245_760, -9), (highest, -9)];
        check_rows(rows, &below);
        check_rows(rows, &above);
    }

    #[test]
    fn at_a_pair_its_value_and_beside_it_the_line() {
        // 50 a unit up to 0, then 30 a unit down.
        let rows = [(-20, -1_000), (-10, -500), (0, 0), (10, -300), (20, -600)];
        check_rows(
            rows,
            &[
                (-11, -550),
                (-10, -500),
                (-9, -450),
                (-1, -50),
                (0, 0),
                (1, -30),
                (9, -270),
                (10, -300),
                (11, -330),
            ],
        );
    }

    #[test]
    fn halves_go_to_the_even_neighbour_at_both_signs() {
        // A half a unit from 0 to 3, back, and on to -2.
        let rows = [(-6, 0), (0, 3), (6, 0), (10, -2), (16, -5)];
        check_rows(
            rows,
            &[
                // 0.5, 1, 1.5, 2, 2.5.
                (-5, 0),
                (-4, 1),
                (-3, 2),
                (-2, 2),
                (-1, 2),
                // 2.5, 2, 1.5, 1, 0.5.
                (1, 2),
                (2, 2),
                (3, 2),
                (4, 1),
                (5, 0),
                // -0.5, -1, -1.5; then -2.5, -3, -3.5, -4, -4.5.
                (7, 0),
                (8, -1),
                (9, -2),
                (11, -2),
                (12, -3),
                (13, -4),
                (14, -4),
                (15, -4),
            ],
        );
    }

    #[test]
    fn beside_a_half_the_nearest_is_taken() {
        // From -1 to 0 over 1,000 units, and from 0 to 1.
        let rows = [
            (-1_000, -1),
            (0, 0),
            (1_000, 1),
            (2_000, 1),
            (3_000, -8_192),
        ];
        check_rows(
            rows,
            &[
                (-501, -1),
                (-500, 0),
                (-499, 0),
                (499, 0),
                (500, 0),
                (501, 1),
                (1_500, 1),
            ],
        );
        // 1 - 8,193 / 2 = -4,095.5.
        check_rows(rows, &[(2_500, -4_096)]);
    }

    #[test]
    fn pairs_one_unit_apart_and_as_far_apart_as_they_can_be() {
        let near = [(7, -8_192), (8, 8_192), (9, -8_192), (10, 8_192), (11, 0)];
        check_rows(
            near,
            &[
                (6, -8_192),
                (7, -8_192),
                (8, 8_192),
                (9, -8_192),
                (10, 8_192),
                (11, 0),
                (12, 0),
            ],
        );
        // 491,517 units from the fourth to the fifth pair, over which TNL falls by 16,384.
        let far = [
            (-245_760, 1),
            (-245_759, 2),
            (-245_758, 3),
            (-245_757, 8_192),
            (245_760, -8_192),
        ];
        check_rows(
            far,
            &[
                (-245_757, 8_192),
                // 16,384 × 14 / 491,517 is just below a half, 16,384 × 15 / 491,517 just above it.
                (-245_743, 8_192),
                (-245_742, 8_191),
                // Midway lies between 1 and 2.
                (1, 0),
                (2, 0),
                (245_745, -8_191),
                (245_746, -8_192),
                (245_760, -8_192),
            ],
        );
    }

    #[test]
    fn the_unrounded_value_is_one_fraction() {
        let rows = pairs([(0, 5), (7, -2), (10, 0), (11, 9), (12, 1)]);
        let fraction = |shelf: i128| {
            let unrounded = unrounded_nonlinearity(&rows, shelf);
            (unrounded.numerator, unrounded.denominator)
        };
        // (5 × 4 - 2 × 3) / 7.
        assert_eq!(fraction(3), (14, 7));
        assert_eq!(fraction(4), (7, 7));
        assert_eq!(fraction(8), (-4, 3));
        assert_eq!(fraction(7), (-2, 1));
        assert_eq!(fraction(-1), (5, 1));
        assert_eq!(fraction(13), (1, 1));
    }

    #[test]
    fn one_fraction_is_rounded_and_not_an_increment() {
        // From 11 at -9 to -30 at 13. TNL is a half where 41 × (shelf + 9) / 22 is one: at 2, midway, alone.
        let (before, behind) = ((-9, 11), (13, -30));
        let rows = pairs([(-20, 0), before, behind, (14, 0), (15, 0)]);
        for shelf in before.0..=behind.0 {
            let rise = (behind.1 - before.1) * (shelf - before.0);
            let increment = r(rise, behind.0 - before.0);
            let is_same = nonlinearity(&rows, shelf) == before.1 + increment;
            assert_eq!(is_same, shelf != 2, "{shelf}");
        }
        // -9.5: the even neighbour is -10; 11 + r(-20.5) is -9, and -30 + r(20.5) is -10.
        check_rows([(-20, 0), before, behind, (14, 0), (15, 0)], &[(2, -10)]);
    }

    /// A table in which every channel has 100 × its number at -10 and 50 more at 10.
    fn numbered_table() -> Table {
        let mut values = TableValues::bench();
        for (index, channel) in values.channels.iter_mut().enumerate() {
            let level = 100 * (index + 1) as i16;
            for (place, pair) in channel.shelf_pairs.iter_mut().enumerate() {
                pair.temperature = 20 * place as i32 - 10;
                pair.nonlinearity = level + 50 * place.min(1) as i16;
            }
        }
        open(&values.encode()).unwrap()
    }

    #[test]
    fn each_shelf_decides_for_its_channels_alone() {
        let table = numbered_table();
        let with = |shelves: [i32; 4]| {
            let record = RecordValues {
                shelves,
                ..RecordValues::bench()
            };
            let record = ScanRecord::read(&record.encode()).unwrap();
            let all = (0..CHANNELS).map(|channel| nonlinearity_for_scan(&table, &record, channel));
            all.collect::<Vec<i128>>()
        };
        let cold = with([-10; 4]);
        let numbers: Vec<i128> = (1..=22).map(|number| 100 * number).collect();
        assert_eq!(cold, numbers);
        for (shelf, channels) in [(0, 1..=2), (1, 3..=15), (2, 16..=16), (3, 17..=22)] {
            let mut shelves = [-10; 4];
            shelves[shelf] = 10;
            let warmed = with(shelves);
            for number in 1..=22 {
                let more = if channels.contains(&number) { 50 } else { 0 };
                let own = warmed[number as usize - 1];
                assert_eq!(own, 100 * number + more, "channel {number}");
            }
        }
    }
}
