//! Field 0x37 of a state, the channels of the last accepted scan: why it makes bytes no state, and what an accepted
//! feed leaves there. Positions are counted by hand from the start of the state.

use std::collections::BTreeMap;

use super::counters::Counters;
use super::rules::{self, ScanValues};
use super::shelves::ShelfAndPairs;
use crate::second::record::ScanRecord;
use crate::second::table::{Table, CHANNELS};

fn u32_at(bytes: &[u8], at: usize) -> u32 {
    u32::from_be_bytes(bytes[at..at + 4].try_into().unwrap())
}

fn u64_at(bytes: &[u8], at: usize) -> u64 {
    u64::from_be_bytes(bytes[at..at + 8].try_into().unwrap())
}

/// The first number of 0x37: 1 where channels are kept.
pub fn first_number(state: &[u8]) -> u32 {
    u32_at(state, 11_780)
}

/// What 0x37 has of a channel, in range or not.
#[derive(Clone, Copy, Debug, PartialEq, Eq)]
pub struct KeptChannel {
    pub flag: u32,
    /// Whether a byte behind the flag is not 0.
    has_more: bool,
    /// Tc.
    pub tc: i128,
    /// Tw - Tc.
    pub rise: i128,
    pub tnl: i128,
    pub d: i128,
    /// 12 × Wc × Ww.
    pub slope: i128,
    /// Ac × Ww.
    pub base: i128,
}

impl KeptChannel {
    /// Of the channel with this index from 0.
    pub fn of(state: &[u8], channel: usize) -> KeptChannel {
        let first = 11_784 + 36 * channel;
        let own = &state[first..first + 36];
        KeptChannel {
            flag: u32_at(own, 0),
            has_more: own[4..].iter().any(|byte| *byte != 0),
            tc: u32_at(own, 4) as i128,
            rise: u32_at(own, 8) as i128,
            tnl: u32_at(own, 12) as i32 as i128,
            d: u64_at(own, 16) as i128,
            slope: u32_at(own, 24) as i128,
            base: u64_at(own, 28) as i128,
        }
    }

    /// Each of the six numbers with its range, ends included.
    fn ranged(&self) -> [(&'static str, i128, i128, i128); 6] {
        [
            ("Tc", self.tc, 11_166, 43_934),
            ("Tw - Tc", self.rise, 825_032, 1_357_512),
            ("TNL", self.tnl, -8_192, 8_192),
            ("D", self.d, 1, 65_535 * self.slope),
            ("12 Wc Ww", self.slope, 0, 780_300),
            ("Ac Ww", self.base, 0, 51_136_960_500),
        ]
    }

    /// Why no state keeps this.
    fn reasons(&self) -> Vec<&'static str> {
        match (self.flag, self.has_more) {
            (0, _) => {
                let outside = |(_, number, low, high): &(&str, i128, i128, i128)| {
                    number < low || number > high
                };
                let numbers = self.ranged().into_iter().filter(outside);
                numbers.map(|(name, _, _, _)| name).collect()
            }
            (1..=4, false) => Vec::new(),
            (1..=4, true) => vec!["number beside a flag"],
            _ => vec!["kept flag"],
        }
    }

    /// At which ends its numbers stand, or one beside them.
    pub fn ends(&self) -> Vec<String> {
        let mut all = Vec::new();
        for (name, number, low, high) in self.ranged() {
            // 0 leaves D no range, so that 1 is the least 12 × Wc × Ww that a state keeps.
            let low = if name == "12 Wc Ww" { 1 } else { low };
            let ends = [low - 1, low, high, high + 1];
            // The upper end of D is another in each channel.
            match (ends.iter().position(|end| *end == number), name) {
                (Some(2), "D") => all.push("D at its upper end".to_string()),
                (Some(3), "D") => all.push("D one above its upper end".to_string()),
                (Some(_), name) => all.push(format!("{name} {number}")),
                (None, _) => {}
            }
        }
        all
    }
}

/// Why 0x37 makes bytes no state, each reason stated for itself where it can be.
pub fn reasons(state: &[u8]) -> Vec<&'static str> {
    let mut all = Vec::new();
    if state[11_777..11_780] != [0x37, 3, 28] {
        all.push("head of 0x37");
    }
    match first_number(state) {
        0 if state[11_784..12_576].iter().any(|byte| *byte != 0) => {
            all.push("channel but nothing kept")
        }
        0 => {}
        1 => {
            if state[1_421] != 1 {
                all.push("kept but no scan");
            }
            for channel in 0..CHANNELS {
                all.extend(KeptChannel::of(state, channel).reasons());
            }
        }
        _ => all.push("first number of 0x37"),
    }
    all
}

/// Counts what stands in 0x37.
pub fn count_kept(state: &[u8], counters: &mut Counters) {
    let first = first_number(state);
    if first <= 2 {
        counters.met("first number of 0x37", &first.to_string());
    }
    if first != 1 {
        return;
    }
    // A state has 22 channels, so each class is counted once.
    let mut met: BTreeMap<(&str, String), u64> = BTreeMap::new();
    for channel in 0..CHANNELS {
        let own = KeptChannel::of(state, channel);
        if own.flag <= 5 {
            *met.entry(("kept flag", own.flag.to_string())).or_insert(0) += 1;
        }
        if own.flag == 0 {
            for end in own.ends() {
                *met.entry(("kept number", end)).or_insert(0) += 1;
            }
        }
    }
    for ((group, class), times) in met {
        counters.met_times(group, &class, times);
    }
}

/// Checks a channel of 0x37 after an accepted feed by the sums over its window.
fn check_channel(
    own: &KeptChannel,
    table: &Table,
    record: &ScanRecord,
    channel: usize,
    sums: &rules::Sums,
) -> Result<(), String> {
    let flag = rules::flag(table, channel, sums);
    if own.flag != flag as u32 {
        return Err(format!("flag {}, expected {flag}", own.flag));
    }
    if flag != 0 {
        return match own.has_more {
            true => Err(format!("numbers beside flag {flag}")),
            false => Ok(()),
        };
    }
    let (tc, tw) = rules::cold_and_warm(table, channel, sums);
    let expected = [
        ("Tc", own.tc, tc),
        ("Tw - Tc", own.rise, tw - tc),
        ("D", own.d, rules::difference(sums)),
        (
            "12 Wc Ww",
            own.slope,
            12 * sums.cold_weight * sums.warm_weight,
        ),
        ("Ac Ww", own.base, sums.cold * sums.warm_weight),
    ];
    for (name, number, expected) in expected {
        if number != expected {
            return Err(format!("{name} {number}, expected {expected}"));
        }
    }
    let shelf = ShelfAndPairs::of(&table.bytes, record.bytes(), channel);
    if !shelf.line().is_rounded_to(own.tnl) {
        return Err(format!("TNL {} of {shelf:?}", own.tnl));
    }
    Ok(())
}

/// Checks 0x37 after an accepted feed: 1, and the channels of the record, by the means of the window with the
/// record in it.
pub fn check_kept(
    state: &[u8],
    table: &Table,
    record: &ScanRecord,
    accepted: &BTreeMap<u32, ScanValues>,
) -> Result<(), String> {
    if first_number(state) != 1 {
        return Err("0x37: no channels are kept".to_string());
    }
    for channel in 0..CHANNELS {
        let sums = rules::sums(table, accepted, record.number(), channel);
        let own = KeptChannel::of(state, channel);
        check_channel(&own, table, record, channel, &sums)
            .map_err(|what| format!("0x37, channel {}: {what}", channel + 1))?;
    }
    Ok(())
}

#[cfg(test)]
mod tests {
    use super::*;
    use crate::check::rules::scan_values;
    use crate::generator::biases::BiasValues;
    use crate::generator::records::RecordValues;
    use crate::generator::tables::TableValues;
    use crate::second::acceptance::accepted_samples;
    use crate::second::state;
    use crate::second::table::open;

    /// The bench scan with a flag in channel 2, and the state after it.
    fn fed() -> (RecordValues, Vec<u8>) {
        let mut record = RecordValues::bench();
        record.warm[1] = [0, 0, 900, 900];
        let (table, bias) = (TableValues::bench().encode(), BiasValues::zeros().encode());
        let mut memory = vec![0; 12_576];
        assert_eq!(state::fresh(&table, &bias, &mut memory), 0);
        let answer = state::feed(&mut memory, &record.encode(), &mut vec![0; 8_706]);
        assert_eq!(answer, 0);
        (record, memory)
    }

    #[test]
    fn every_wrong_byte_of_the_channels_is_found() {
        let (record, memory) = fed();
        let table = open(&TableValues::bench().encode()).unwrap();
        let record = ScanRecord::read(&record.encode()).unwrap();
        let values = scan_values(&accepted_samples(&table, &record));
        let accepted = BTreeMap::from([(7, values)]);
        let check = |state: &[u8]| check_kept(state, &table, &record, &accepted);
        assert_eq!(check(&memory), Ok(()));
        assert_eq!(reasons(&memory), [""; 0]);
        for at in 11_780..12_576 {
            let mut wrong = memory.clone();
            wrong[at] ^= 1;
            assert!(check(&wrong).is_err(), "byte {at}");
        }
    }

    #[test]
    fn each_reason_is_told_for_itself() {
        let (_, memory) = fed();
        let with = |changes: &[(usize, &[u8])]| {
            let mut bytes = memory.clone();
            for (at, part) in changes {
                bytes[*at..at + part.len()].copy_from_slice(part);
            }
            reasons(&bytes)
        };
        assert_eq!(with(&[(11_779, &[29])]), ["head of 0x37"]);
        assert_eq!(with(&[(11_783, &[2])]), ["first number of 0x37"]);
        assert_eq!(with(&[(11_783, &[0])]), ["channel but nothing kept"]);
        assert_eq!(with(&[(1_421, &[0])]), ["kept but no scan"]);
        assert_eq!(with(&[(11_823, &[5])]), ["kept flag"]);
        assert_eq!(with(&[(11_855, &[1])]), ["number beside a flag"]);
        // Numbers of channel 1.
        assert_eq!(with(&[(11_788, &[0, 0, 43, 157])]), ["Tc"]);
        assert_eq!(with(&[(11_792, &[0, 0])]), ["Tw - Tc"]);
        assert_eq!(with(&[(11_796, &[0xff, 0xff, 0xdf, 0xff])]), ["TNL"]);
        assert_eq!(with(&[(11_800, &[1])]), ["D"]);
        assert_eq!(with(&[(11_808, &[0, 11, 232, 13])]), ["12 Wc Ww"]);
        assert_eq!(with(&[(11_812, &[0, 0, 0, 12])]), ["Ac Ww"]);
        let flags = &[(11_787, &[1][..]), (11_823, &[0][..])];
        // Channel 2 has no numbers: none is in its range but 12 Wc Ww and Ac Ww.
        assert_eq!(with(flags), ["number beside a flag", "Tc", "Tw - Tc", "D"]);
    }
}
