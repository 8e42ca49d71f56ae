//! Channels as a state keeps them of the last accepted scan: values with an encoder, made-up ones at the ends of
//! their ranges, and every neighbour of one.

use super::random::Random;

/// The greatest 12 × Wc × Ww.
const GREATEST_SLOPE: i64 = 780_300;

/// The greatest Ac × Ww.
const GREATEST_BASE: i64 = 51_136_960_500;

/// A channel of 0x37, in range or not.
#[derive(Clone, Copy, Debug, Default, PartialEq, Eq)]
pub struct ChannelValues {
    pub flag: u32,
    /// Tc.
    pub tc: u32,
    /// Tw - Tc.
    pub rise: u32,
    /// TNL.
    pub tnl: i32,
    /// D.
    pub d: u64,
    /// 12 × Wc × Ww.
    pub slope: u32,
    /// Ac × Ww.
    pub base: u64,
}

impl ChannelValues {
    /// With a flag that is not 0, and nothing else.
    pub fn flagged(flag: u32) -> ChannelValues {
        ChannelValues {
            flag,
            ..ChannelValues::default()
        }
    }

    /// 36 bytes.
    pub fn encode(&self) -> Vec<u8> {
        let mut bytes = self.flag.to_be_bytes().to_vec();
        bytes.extend(self.tc.to_be_bytes());
        bytes.extend(self.rise.to_be_bytes());
        bytes.extend(self.tnl.to_be_bytes());
        bytes.extend(self.d.to_be_bytes());
        bytes.extend(self.slope.to_be_bytes());
        bytes.extend(self.base.to_be_bytes());
        bytes
    }

    /// The values of bytes that `encode` gave, whatever is behind them.
    pub fn decode(bytes: &[u8]) -> ChannelValues {
        let four = |at: usize| <[u8; 4]>::try_from(&bytes[at..at + 4]).unwrap();
        let eight = |at: usize| <[u8; 8]>::try_from(&bytes[at..at + 8]).unwrap();
        ChannelValues {
            flag: u32::from_be_bytes(four(0)),
            tc: u32::from_be_bytes(four(4)),
            rise: u32::from_be_bytes(four(8)),
            tnl: i32::from_be_bytes(four(12)),
            d: u64::from_be_bytes(eight(16)),
            slope: u32::from_be_bytes(four(24)),
            base: u64::from_be_bytes(eight(28)),
        }
    }

    /// The greatest D of a channel with this 12 × Wc × Ww.
    fn greatest_d(&self) -> u64 {
        65_535 * self.slope as u64
    }

    /// Whether the first count at which N is not negative is delivered.
    fn delivers(&self) -> bool {
        let (slope, base) = (self.slope as u64, self.base);
        let first = base.div_ceil(slope);
        first <= 65_535 && 4 * (slope * first - base) <= 5 * self.d
    }
}

/// At an end of the range, or anywhere in it.
fn end_or_any(random: &mut Random, low: i64, high: i64) -> i64 {
    let any = random.between(low, high);
    random.pick(&[low, high, any, any])
}

/// A channel with flag 0 whose numbers are at the ends of their ranges, or of some counts from cold to warm, or
/// anywhere.
pub fn channel_in_range(random: &mut Random) -> ChannelValues {
    let any = random.between(1, GREATEST_SLOPE);
    let of_weights = 12 * random.between(1, 65_025);
    let slope = random.pick(&[1, 12, GREATEST_SLOPE, GREATEST_SLOPE, of_weights, any]);
    // What 65,535 counts add to N.
    let most = 65_535 * slope;
    let counts = random.pick(&[20, 1_000, 65_535]);
    let some_counts = slope * random.between(1, counts);
    let any = random.between(1, most);
    let d = random.pick(&[1, most, most, some_counts, some_counts, any]);
    // Mostly some count is delivered.
    let at_count = slope * random.between(0, 65_535);
    let any = random.between(0, most);
    let far = end_or_any(random, 0, GREATEST_BASE);
    let base = random.pick(&[0, 0, most, at_count, at_count, any, far, GREATEST_BASE]);
    ChannelValues {
        flag: 0,
        tc: end_or_any(random, 11_166, 43_934) as u32,
        rise: end_or_any(random, 825_032, 1_357_512) as u32,
        tnl: end_or_any(random, -8_192, 8_192) as i32,
        d: d as u64,
        slope: slope as u32,
        base: base as u64,
    }
}

/// Such a channel that delivers some count.
pub fn delivering_channel(random: &mut Random) -> ChannelValues {
    loop {
        let channel = channel_in_range(random);
        if channel.delivers() {
            return channel;
        }
    }
}

/// A channel in range; one in six has a flag.
pub fn made_up_channel(random: &mut Random) -> ChannelValues {
    if random.once_in(6) {
        ChannelValues::flagged(random.between(1, 4) as u32)
    } else {
        channel_in_range(random)
    }
}

/// Each number of a channel with flag 0 at the ends of its range and beside them.
fn number_edges(own: &ChannelValues) -> Vec<(ChannelValues, bool)> {
    let mut all = Vec::new();
    for (tc, is_right) in [
        (0, false),
        (11_165, false),
        (11_166, true),
        (43_934, true),
        (43_935, false),
        (u32::MAX, false),
    ] {
        all.push((ChannelValues { tc, ..*own }, is_right));
    }
    for (rise, is_right) in [
        (0, false),
        (825_031, false),
        (825_032, true),
        (1_357_512, true),
        (1_357_513, false),
        (u32::MAX, false),
    ] {
        all.push((ChannelValues { rise, ..*own }, is_right));
    }
    for (tnl, is_right) in [
        (i32::MIN, false),
        (-8_193, false),
        (-8_192, true),
        (8_192, true),
        (8_193, false),
        (i32::MAX, false),
    ] {
        all.push((ChannelValues { tnl, ..*own }, is_right));
    }
    for (slope, is_right) in [
        (0, false),
        (1, true),
        (780_300, true),
        (780_301, false),
        (u32::MAX, false),
    ] {
        // D stays in the range that it leaves; 0 leaves none.
        let mut other = ChannelValues { slope, ..*own };
        other.d = own.d.min(other.greatest_d()).max(1);
        all.push((other, is_right));
    }
    let most = own.greatest_d();
    for d in [0, 1, most, most + 1, 1 << 32 | 1, 1 << 63 | 1, u64::MAX] {
        let is_right = 1 <= d && d <= most;
        all.push((ChannelValues { d, ..*own }, is_right));
    }
    for (base, is_right) in [
        (0, true),
        (51_136_960_500, true),
        (51_136_960_501, false),
        (1 << 63, false),
        (u64::MAX, false),
    ] {
        all.push((ChannelValues { base, ..*own }, is_right));
    }
    all
}

/// Flags, alone and with a number beside them.
fn flag_edges(own: &ChannelValues) -> Vec<(ChannelValues, bool)> {
    let mut all = Vec::new();
    for flag in [0, 1, 2, 3, 4, 5, 255, 256, 1 << 24, u32::MAX] {
        let is_flag = (1..=4).contains(&flag);
        all.push((ChannelValues::flagged(flag), is_flag));
        all.push((ChannelValues { flag, ..*own }, flag == 0));
    }
    for number in 1..9 {
        // One of the other eight numbers, as u32, is 1.
        let mut bytes = ChannelValues::flagged(1 + number % 4).encode();
        bytes[4 * number as usize + 3] = 1;
        all.push((ChannelValues::decode(&bytes), false));
    }
    all
}

/// Every neighbour of a channel with flag 0, and whether a state may have it.
pub fn channel_neighbours(own: &ChannelValues) -> Vec<(ChannelValues, bool)> {
    [number_edges(own), flag_edges(own)].concat()
}

#[cfg(test)]
mod tests {
    use super::*;

    #[test]
    fn values_are_decoded_as_they_were_encoded() {
        let mut random = Random::new(8);
        for _ in 0..100 {
            let channel = made_up_channel(&mut random);
            let bytes = channel.encode();
            assert_eq!(bytes.len(), 36);
            assert_eq!(ChannelValues::decode(&bytes), channel);
        }
        let bytes: Vec<u8> = (1..=36).collect();
        assert_eq!(ChannelValues::decode(&bytes).encode(), bytes);
    }

    #[test]
    fn a_channel_has_neighbours_of_both_kinds() {
        let all = channel_neighbours(&channel_in_range(&mut Random::new(9)));
        for kind in [true, false] {
            assert!(all.iter().filter(|(_, is_right)| *is_right == kind).count() > 12);
        }
    }
}
