//! States: values with an encoder, every neighbour of a state, and feeds to states.

use super::bias_neighbours::{bias_neighbours, C0_EDGES};
use super::biases::BiasValues;
use super::kept_channels::{channel_in_range, channel_neighbours, made_up_channel, ChannelValues};
use super::layouts::{head_positions, STATE};
use super::lists::{
    feed_list, first_number, next_number, plan, planned_bytes, random_buffer, Behind, Plan,
};
use super::neighbour::Neighbour;
use super::random::Random;
use super::random_biases::{accepted_bias, base_bias, bias_bytes, refused_bias};
use super::random_tables::{accepted_table, refused_table, table_bytes};
use super::table_neighbours::table_neighbours;
use super::tables::TableValues;
use crate::second::calibrator::Calibrator;
use crate::second::state::{read, write};
use crate::second::table::open;
use crate::second::window::{KeptScan, Start};

/// The fields that keep values by age.
#[derive(Clone, Copy, Debug, PartialEq, Eq)]
pub enum KeptField {
    Warm,
    Cold,
    Thermometers,
}

pub const KEPT_FIELDS: [KeptField; 3] = [KeptField::Warm, KeptField::Cold, KeptField::Thermometers];

impl KeptField {
    /// How many values an age has.
    pub fn width(self) -> usize {
        match self {
            KeptField::Warm | KeptField::Cold => 22,
            KeptField::Thermometers => 15,
        }
    }

    /// Values at the ends of the range and beside them, and whether a state may have them.
    fn edges(self) -> Vec<(u32, bool)> {
        match self {
            KeptField::Warm | KeptField::Cold => vec![
                (0, true),
                (1, true),
                (786_421, true),
                (786_422, false),
                (u32::MAX, false),
            ],
            KeptField::Thermometers => vec![
                (0, true),
                (1, false),
                (873_061, false),
                (873_062, true),
                (1_364_582, true),
                (1_364_583, false),
                (u32::MAX, false),
            ],
        }
    }

    /// A value above 0 in its range.
    fn some_value(self, random: &mut Random) -> u32 {
        let (low, high) = match self {
            KeptField::Warm | KeptField::Cold => (1, 786_421),
            KeptField::Thermometers => (873_062, 1_364_582),
        };
        let any = random.between(low, high);
        random.pick(&[low, high, any, any]) as u32
    }
}

/// The values of a state, in range or not.
#[derive(Clone, Debug)]
pub struct StateValues {
    /// 1,404 bytes.
    pub table: Vec<u8>,
    /// 8,451 bytes.
    pub bias: Vec<u8>,
    /// The first byte of 0x32.
    pub accepted: u8,
    pub number: u32,
    pub warm: [[u32; 22]; 8],
    pub cold: [[u32; 22]; 8],
    pub thermometers: [[u32; 15]; 8],
    /// The first number of 0x37: 1 if channels are kept.
    pub kept: u32,
    pub channels: [ChannelValues; 22],
}

impl StateValues {
    pub fn fresh(table: Vec<u8>, bias: Vec<u8>) -> StateValues {
        StateValues {
            table,
            bias,
            accepted: 0,
            number: 0,
            warm: [[0; 22]; 8],
            cold: [[0; 22]; 8],
            thermometers: [[0; 15]; 8],
            kept: 0,
            channels: [ChannelValues::default(); 22],
        }
    }

    pub fn encode(&self) -> Vec<u8> {
        let mut bytes = vec![0x30, 0, 8];
        bytes.extend(*b"SNDR");
        bytes.extend([0, 0, 0, 6]);
        bytes.extend([0x31, 0x05, 0x7c]);
        bytes.extend(&self.table);
        bytes.extend([0x32, 0, 5]);
        bytes.push(self.accepted);
        bytes.extend(self.number.to_be_bytes());
        bytes.extend([0x33, 0x02, 0xc0]);
        for number in self.warm.iter().flatten() {
            bytes.extend(number.to_be_bytes());
        }
        bytes.extend([0x34, 0x02, 0xc0]);
        for number in self.cold.iter().flatten() {
            bytes.extend(number.to_be_bytes());
        }
        bytes.extend([0x35, 0x01, 0xe0]);
        for number in self.thermometers.iter().flatten() {
            bytes.extend(number.to_be_bytes());
        }
        bytes.extend([0x36, 0x21, 0x03]);
        bytes.extend(&self.bias);
        bytes.extend([0x37, 0x03, 0x1c]);
        bytes.extend(self.kept.to_be_bytes());
        for channel in &self.channels {
            bytes.extend(channel.encode());
        }
        bytes
    }

    /// The values of bytes that `encode` gave, whatever is behind them.
    pub fn decode(bytes: &[u8]) -> StateValues {
        let u32_at = |at: usize| u32::from_be_bytes(bytes[at..at + 4].try_into().unwrap());
        let sides = |first: usize| {
            std::array::from_fn(|age| {
                std::array::from_fn(|channel| u32_at(first + 88 * age + 4 * channel))
            })
        };
        StateValues {
            table: bytes[14..1_418].to_vec(),
            bias: bytes[3_326..11_777].to_vec(),
            accepted: bytes[1_421],
            number: u32_at(1_422),
            warm: sides(1_429),
            cold: sides(2_136),
            thermometers: std::array::from_fn(|age| {
                std::array::from_fn(|index| u32_at(2_843 + 60 * age + 4 * index))
            }),
            kept: u32_at(11_780),
            channels: std::array::from_fn(|channel| {
                ChannelValues::decode(&bytes[11_784 + 36 * channel..])
            }),
        }
    }

    pub fn set(&mut self, field: KeptField, age: usize, index: usize, number: u32) {
        match field {
            KeptField::Warm => self.warm[age][index] = number,
            KeptField::Cold => self.cold[age][index] = number,
            KeptField::Thermometers => self.thermometers[age][index] = number,
        }
    }

    /// Keeps channels of the last accepted scan that no run needs to reach.
    pub fn keep_made_up_channels(&mut self, random: &mut Random) {
        self.kept = 1;
        self.channels = [(); 22].map(|_| made_up_channel(random));
    }
}

/// One feed to a state: any bytes as state, record and buffer.
#[derive(Clone, Debug)]
pub struct StateFeed {
    pub state: Vec<u8>,
    pub record: Vec<u8>,
    pub buffer: Vec<u8>,
}

/// A state that no run needs to reach: any values in range at the ages that its number allows, and any channels of
/// the last accepted scan, or none.
pub fn made_up(random: &mut Random, table: Vec<u8>, bias: Vec<u8>) -> StateValues {
    let mut values = StateValues::fresh(table, bias);
    if random.once_in(8) {
        return values;
    }
    let low = random.between(0, 8) as u32;
    let any = random.next() as u32;
    values.accepted = 1;
    values.number = random.pick(&[low, low, any, any, u32::MAX - low, u32::MAX]);
    // Mostly the warm counts are above the cold ones, so that scenes are delivered.
    let cold_below = random.between(1, 786_421) as u32;
    let any_value = random.once_in(3);
    for age in 0..8 {
        if values.number < age || random.once_in(6) {
            continue;
        }
        for field in KEPT_FIELDS {
            for index in 0..field.width() {
                let mut number = field.some_value(random);
                if !any_value && field == KeptField::Warm {
                    number = number.max(cold_below);
                }
                if !any_value && field == KeptField::Cold {
                    number = number.min(cold_below);
                }
                if !random.once_in(5) {
                    values.set(field, age as usize, index, number);
                }
            }
        }
    }
    if !random.once_in(8) {
        values.keep_made_up_channels(random);
    }
    values
}

/// The bench table for seed 0, else an accepted one.
fn base_table(seed: u64) -> TableValues {
    if seed == 0 {
        TableValues::bench()
    } else {
        accepted_table(seed)
    }
}

/// A feed of a list to the state that the feeds before it left.
fn reached(random: &mut Random) -> StateFeed {
    let mut list = feed_list(random.next());
    let last = list.feeds.pop().expect("a list has feeds");
    let opened = Calibrator::of_files(&list.table, &list.bias);
    let mut calibrator = opened.expect("a list has an accepted table and bias file");
    for feed in list.feeds {
        let mut buffer = feed.buffer;
        calibrator = calibrator.feed(&feed.record, &mut buffer).calibrator;
    }
    StateFeed {
        state: write(&calibrator),
        record: last.record,
        buffer: last.buffer,
    }
}

/// What a made-up state says, for the earth counts of a record that is planned behind it.
fn start_of(values: &StateValues) -> Start {
    let above_0 = |number: &u32, less: i128| match number {
        0 => None,
        number => Some(*number as i128 - less),
    };
    let mut start = Start::default();
    if values.accepted == 1 {
        start.last = Some(values.number);
        for age in 0..8 {
            let sides = |ages: &[[u32; 22]; 8]| ages[age].map(|n| above_0(&n, 1)).to_vec();
            let kept = KeptScan {
                warm: sides(&values.warm),
                cold: sides(&values.cold),
                thermometers: values.thermometers[age].map(|n| above_0(&n, 0)).to_vec(),
            };
            if let Some(number) = values.number.checked_sub(age as u32) {
                start.scans.push((number, kept));
            }
        }
    }
    start
}

fn made_up_feed(random: &mut Random) -> StateFeed {
    let plan: Plan = plan(random);
    let values = made_up(random, plan.table.encode(), plan.bias.encode());
    let table = open(&values.table).expect("a planned table is accepted");
    let number = match values.accepted {
        0 => first_number(random),
        _ => next_number(random, values.number, plan.trouble),
    };
    let behind = Behind {
        table: &table,
        start: start_of(&values),
        roll: Vec::new(),
    };
    StateFeed {
        state: values.encode(),
        record: planned_bytes(random, &plan, &behind, number),
        buffer: random_buffer(random, plan.trouble),
    }
}

/// A state with one change; some stay a state.
pub fn changed(random: &mut Random, state: &[u8]) -> Vec<u8> {
    let mut bytes = state.to_vec();
    match random.below(7) {
        0 => {
            let position = random.below(bytes.len());
            bytes[position] = random.next() as u8;
        }
        1 => {
            let positions = head_positions(&STATE);
            let position = random.pick(&positions);
            bytes[position] = bytes[position].wrapping_add(1);
        }
        2 => {
            let mut values = StateValues::decode(&bytes);
            let field = random.pick(&KEPT_FIELDS);
            let (number, _) = random.pick(&field.edges());
            let (age, index) = (random.below(8), random.below(field.width()));
            values.set(field, age, index, number);
            bytes = values.encode();
        }
        3 => {
            let any = random.below(2_112);
            let pair = random.pick(&[0, 2_111, any]);
            let (c0, _) = random.pick(&C0_EDGES);
            let at = 3_329 + 4 * pair;
            bytes[at..at + 2].copy_from_slice(&c0.to_be_bytes());
        }
        4 => {
            let mut values = StateValues::decode(&bytes);
            let own = channel_in_range(random);
            let (channel, _) = random.pick(&channel_neighbours(&own));
            values.channels[random.below(22)] = channel;
            bytes = values.encode();
        }
        5 => {
            let mut values = StateValues::decode(&bytes);
            values.kept = random.pick(&[0, 1, 2, 1 << 24, u32::MAX]);
            bytes = values.encode();
        }
        _ => {
            let mut values = StateValues::decode(&bytes);
            values.accepted = random.pick(&[0, 1, 2, 255]);
            values.number = random.pick(&[0, 1, 6, 7, values.number]);
            bytes = values.encode();
        }
    }
    bytes
}

/// One feed to a state of a run or to a made-up one; some are wrong, short, or have bytes behind.
pub fn state_feed(seed: u64) -> StateFeed {
    let mut random = Random::new(seed);
    let mut feed = if random.once_in(2) {
        reached(&mut random)
    } else {
        made_up_feed(&mut random)
    };
    if random.once_in(5) {
        feed.state = changed(&mut random, &feed.state);
    }
    if random.once_in(3) {
        let any = random.below(300);
        let more = random.pick(&[1, any]);
        feed.state.extend(random.bytes(more));
    }
    if random.once_in(20) {
        let any = random.below(12_576);
        let length = random.pick(&[0, 3_323, 11_114, 11_777, 12_575, 12_575, any]);
        feed.state.truncate(length);
    }
    feed
}

/// What a fresh state is made of, and memory for it as it is before.
#[derive(Clone, Debug)]
pub struct FreshInput {
    /// Accepted or not.
    pub table: Vec<u8>,
    /// Accepted or not.
    pub bias: Vec<u8>,
    pub memory: Vec<u8>,
}

pub fn fresh_input(seed: u64) -> FreshInput {
    let mut random = Random::new(seed);
    let table = match random.below(9) {
        0..=3 => accepted_table(random.next()).encode(),
        number @ 4..=6 => refused_table(&mut random, number as u8 - 3),
        _ => table_bytes(random.next()),
    };
    let bias = match random.below(9) {
        0..=3 => accepted_bias(random.next()).encode(),
        number @ 4..=6 => refused_bias(&mut random, number as u8 - 3),
        _ => bias_bytes(random.next()),
    };
    let any = random.below(26_000);
    let length = random.pick(&[
        0, 3_323, 11_114, 11_777, 12_575, 12_576, 12_576, 12_576, 12_577, any,
    ]);
    FreshInput {
        table,
        bias,
        memory: random.bytes(length),
    }
}

/// A made-up state with number 7 or more, values at every age, and channels of the last accepted scan.
fn full_state(random: &mut Random, table: &TableValues, bias: &BiasValues) -> StateValues {
    let mut values = StateValues::fresh(table.encode(), bias.encode());
    let any = random.between(7, u32::MAX as i64) as u32;
    values.accepted = 1;
    values.number = random.pick(&[7, any, u32::MAX]);
    for age in 0..8 {
        for field in KEPT_FIELDS {
            for index in 0..field.width() {
                let number = field.some_value(random);
                values.set(field, age, index, number);
            }
        }
    }
    values.keep_made_up_channels(random);
    values
}

/// A state in the layout of an earlier version: version 5 has the layout of today; up to version 4 it keeps no
/// channels, up to version 3 its table has no pairs, and in version 1 there is no bias file.
fn earlier_layout(state: &[u8], version: u8) -> Vec<u8> {
    let mut bytes = state.to_vec();
    bytes[10] = version;
    if version < 5 {
        bytes.truncate(11_777);
    }
    if version < 4 {
        bytes[12..14].copy_from_slice(&[0x02, 0xe5]);
        bytes.drain(755..1_418);
    }
    if version == 1 {
        bytes.truncate(2_660);
    }
    bytes
}

/// Every neighbour of a state in what it keeps of the last accepted scan, and whether it is a state: the first
/// number of 0x37, channels without it, with it but without a scan, and every neighbour of a channel.
fn kept_neighbours(
    random: &mut Random,
    base: &StateValues,
    fresh: &StateValues,
) -> Vec<(String, StateValues, bool)> {
    let mut all = Vec::new();
    for kept in [0, 1, 2, 3, 255, 256, 1 << 16, 1 << 24, 1 << 31, u32::MAX] {
        let mut other = base.clone();
        other.kept = kept;
        all.push((format!("first number of 0x37 {kept}"), other, kept == 1));
        let mut other = fresh.clone();
        other.kept = kept;
        all.push((format!("fresh, 0x37 with {kept} alone"), other, kept == 0));
    }
    let mut nothing_kept = base.clone();
    nothing_kept.kept = 0;
    nothing_kept.channels = fresh.channels;
    all.push(("nothing kept".to_string(), nothing_kept.clone(), true));
    for (accepted, is_state) in [(0, false), (1, true), (2, false), (255, false)] {
        let mut other = fresh.clone();
        other.accepted = accepted;
        other.kept = base.kept;
        other.channels = base.channels;
        all.push((format!("kept, first byte {accepted}"), other, is_state));
    }
    for channel in 0..22 {
        for number in 0..9 {
            let mut bytes = [0; 36];
            bytes[4 * number + random.below(4)] = 1;
            for values in [&nothing_kept, fresh] {
                let mut other = values.clone();
                other.channels[channel] = ChannelValues::decode(&bytes);
                let about = format!("nothing kept, channel {} not 0", channel + 1);
                all.push((about, other, false));
            }
        }
        for (neighbour, is_state) in channel_neighbours(&channel_in_range(random)) {
            let mut other = base.clone();
            other.channels[channel] = neighbour;
            let about = format!("channel {} kept as {neighbour:?}", channel + 1);
            all.push((about, other, is_state));
        }
    }
    all
}

/// Every neighbour of a state: each byte of a tag, a length, the magic number or the version wrong by
/// one, neighbours of its table and of its bias file, the first byte and the number of 0x32, a value at
/// each age with each number from 0 to 8 and with no scan, each value at the ends of its range and beside
/// them, those of the channels kept, other lengths, and the layouts of earlier versions. The planned answer is 254
/// or, for a state, 0.
pub fn state_neighbours(seed: u64) -> Vec<Neighbour> {
    let mut random = Random::new(seed);
    let table = base_table(seed);
    let bias = base_bias(seed);
    let base = full_state(&mut random, &table, &bias);
    let fresh = StateValues::fresh(table.encode(), bias.encode());
    let mut all = Vec::new();
    let mut push = |description: String, bytes: Vec<u8>, is_state: bool| {
        all.push(Neighbour {
            description,
            bytes,
            answer: if is_state { 0 } else { 254 },
        })
    };
    let right = base.encode();
    push("the state itself".to_string(), right.clone(), true);
    push("the fresh state".to_string(), fresh.encode(), true);

    for position in head_positions(&STATE).into_iter().chain(3..11) {
        for change in [1, 255] {
            let mut bytes = right.clone();
            bytes[position] = bytes[position].wrapping_add(change);
            push(format!("byte {position} wrong by one"), bytes, false);
        }
    }
    for front in [
        *b"RDNS\0\0\0\x06",
        *b"SNDR\0\0\0\0",
        *b"SNDR\0\0\0\x01",
        *b"SNDR\0\0\0\x02",
        *b"SNDR\0\0\0\x03",
        *b"SNDR\0\0\0\x04",
        *b"SNDR\0\0\0\x05",
        *b"SNDR\x06\0\0\0",
    ] {
        let mut bytes = right.clone();
        bytes[3..11].copy_from_slice(&front);
        push(format!("front {front:?}"), bytes, false);
    }

    for neighbour in table_neighbours(&table) {
        // There are thousands, so that of most tables only some are taken.
        if neighbour.bytes.len() == 1_404 && (seed == 0 || random.once_in(6)) {
            let mut bytes = right.clone();
            bytes[14..1_418].copy_from_slice(&neighbour.bytes);
            let about = format!("its table: {}", neighbour.description);
            push(about, bytes, neighbour.answer == 0);
        }
    }
    for neighbour in bias_neighbours(&bias) {
        if neighbour.bytes.len() == 8_451 && (seed == 0 || random.once_in(6)) {
            let mut bytes = right.clone();
            bytes[3_326..11_777].copy_from_slice(&neighbour.bytes);
            let about = format!("its bias file: {}", neighbour.description);
            push(about, bytes, neighbour.answer == 0);
        }
    }

    for accepted in [0, 1, 2, 3, 127, 128, 254, 255] {
        let mut other = base.clone();
        other.accepted = accepted;
        push(
            format!("first byte {accepted}"),
            other.encode(),
            accepted == 1,
        );
        let mut other = fresh.clone();
        other.accepted = accepted;
        let about = format!("fresh, first byte {accepted}");
        push(about, other.encode(), accepted <= 1);
        for number in [1, 7, 1 << 8, 1 << 16, 1 << 24, 1 << 31, u32::MAX] {
            other.number = number;
            let about = format!("fresh, first byte {accepted}, number {number}");
            push(about, other.encode(), accepted == 1);
        }
    }

    for field in KEPT_FIELDS {
        for age in 0..8 {
            for index in [0, random.below(field.width()), field.width() - 1] {
                let value = field.some_value(&mut random);
                let about = format!("{field:?} {} of age {age} at {value}", index + 1);
                let mut other = fresh.clone();
                other.set(field, age, index, value);
                push(format!("no scan, {about}"), other.encode(), false);
                other.accepted = 1;
                for number in 0..9 {
                    other.number = number;
                    let is_state = age as u32 <= number;
                    push(
                        format!("number {number}, {about}"),
                        other.encode(),
                        is_state,
                    );
                }
            }
            for index in 0..field.width() {
                for (value, is_state) in field.edges() {
                    let mut other = base.clone();
                    other.set(field, age, index, value);
                    let about = format!("{field:?} {} of age {age} at {value}", index + 1);
                    push(about, other.encode(), is_state);
                }
            }
        }
    }

    for (about, values, is_state) in kept_neighbours(&mut random, &base, &fresh) {
        push(about, values.encode(), is_state);
    }

    for length in [
        0, 1, 1_418, 2_843, 3_322, 3_323, 3_326, 11_114, 11_776, 11_777, 11_780, 11_784, 12_572,
        12_575,
    ] {
        push(format!("length {length}"), right[..length].to_vec(), false);
    }
    for version in [1, 2, 3, 4, 5] {
        let earlier = earlier_layout(&right, version);
        push(format!("version {version}"), earlier.clone(), false);
        let longer = [&earlier[..], &random.bytes(12_576 - earlier.len())].concat();
        push(format!("version {version} and more"), longer, false);
    }
    for more in [1, 2, 12_576] {
        let bytes = [&right[..], &random.bytes(more)].concat();
        push(format!("length {}", bytes.len()), bytes, true);
    }
    all
}

/// A state that a run reached with each byte changed, one at a time.
pub fn changed_bytes(seed: u64) -> impl Iterator<Item = Vec<u8>> {
    let mut random = Random::new(seed);
    let state = loop {
        let state = reached(&mut random).state;
        // A fresh state has few bytes that may change.
        if read(&state).is_some_and(|calibrator| calibrator.last().is_some()) {
            break state;
        }
    };
    (0..state.len()).map(move |position| {
        let any = random.between(1, 255) as u8;
        let mut bytes = state.clone();
        bytes[position] = bytes[position].wrapping_add(random.pick(&[1, 128, 255, any]));
        bytes
    })
}

#[cfg(test)]
mod tests {
    use super::*;

    fn some_state(random: &mut Random) -> Vec<u8> {
        let bias = accepted_bias(random.next()).encode();
        made_up(random, TableValues::bench().encode(), bias).encode()
    }

    #[test]
    fn values_are_decoded_as_they_were_encoded() {
        let mut random = Random::new(3);
        for _ in 0..20 {
            let bytes = some_state(&mut random);
            assert_eq!(bytes.len(), 12_576);
            assert_eq!(StateValues::decode(&bytes).encode(), bytes);
        }
    }

    #[test]
    fn made_up_states_are_states() {
        let mut random = Random::new(4);
        for _ in 0..200 {
            assert!(read(&some_state(&mut random)).is_some());
        }
    }

    #[test]
    fn neighbours_have_their_planned_answers() {
        let mut seen = [0, 0];
        for neighbour in state_neighbours(0) {
            let is_state = read(&neighbour.bytes).is_some();
            let about = &neighbour.description;
            assert_eq!(is_state, neighbour.answer == 0, "{about}");
            seen[usize::from(is_state)] += 1;
        }
        assert!(seen.iter().all(|count| *count > 500), "{seen:?}");
    }
}
