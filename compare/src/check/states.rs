//! Checks of states: what is no state, what a feed leaves of state and buffer, and runs through
//! states. Positions are counted by hand from the start of the state.

use std::collections::BTreeMap;

use super::biases::{count_edges, plain_bias_answer};
use super::counters::Counters;
use super::equations::{accepted_of_state, check_accepted_brackets};
use super::kept_channels::{self, check_kept, count_kept};
use super::lists::refusals;
use super::outcomes::{outcomes, Outcome};
use super::products::check_product;
use super::rules::{scan_values, ScanValues};
use super::samples::kept;
use super::tables::plain_answer;
use crate::generator::lists::{feed_list, Feed, FeedList};
use crate::generator::random::{case_seed, Random};
use crate::generator::records::RecordValues;
use crate::generator::states::{
    changed_bytes, fresh_input, state_feed, state_neighbours, FreshInput, StateFeed, StateValues,
};
use crate::second::acceptance::accepted_samples;
use crate::second::calibrator::{judge, Calibrator};
use crate::second::record::ScanRecord;
use crate::second::state;
use crate::second::table::open;

/// Where the ages of 0x33, 0x34 and 0x35 begin, and how many bytes each has.
const BY_AGE: [(usize, usize); 3] = [(1_429, 88), (2_136, 88), (2_843, 60)];

fn u32_at(bytes: &[u8], at: usize) -> u32 {
    u32::from_be_bytes(bytes[at..at + 4].try_into().unwrap())
}

/// The u32 of an age of one of the three.
fn values_of_age(bytes: &[u8], (first, step): (usize, usize), age: usize) -> Vec<u32> {
    let at = first + step * age;
    let values = bytes[at..at + step].chunks(4);
    values.map(|value| u32_at(value, 0)).collect()
}

/// Why bytes are no state, each reason stated for itself where it can be.
pub fn reasons(bytes: &[u8]) -> Vec<&'static str> {
    if bytes.len() < 12_576 {
        return vec!["fewer bytes"];
    }
    let mut all = kept_channels::reasons(bytes);
    let heads = [
        (0, [0x30, 0, 8]),
        (11, [0x31, 5, 124]),
        (1_418, [0x32, 0, 5]),
        (1_426, [0x33, 2, 192]),
        (2_133, [0x34, 2, 192]),
        (2_840, [0x35, 1, 224]),
    ];
    if heads.iter().any(|(at, head)| bytes[*at..at + 3] != *head) {
        all.push("head");
    }
    if bytes[3_323..3_326] != [0x36, 33, 3] {
        all.push("head of 0x36");
    }
    if bytes[3..7] != *b"SNDR" {
        all.push("magic number");
    }
    if bytes[7..11] != [0, 0, 0, 6] {
        all.push("version");
    }
    match plain_answer(&bytes[14..1_418]) {
        0 => {}
        2 => all.push("table 2"),
        _ => all.push("table 3"),
    }
    match plain_bias_answer(&bytes[3_326..11_777]) {
        0 => {}
        2 => all.push("bias 2"),
        _ => all.push("bias 3"),
    }
    let number = u32_at(bytes, 1_422);
    if bytes[1_421] > 1 {
        all.push("first byte");
    }
    if bytes[1_421] == 0 && number != 0 {
        all.push("number but no scan");
    }
    let kelvin = 873_062..=1_364_582;
    let names = ["warm value", "cold value", "thermometer value"];
    for (which, field) in BY_AGE.into_iter().enumerate() {
        for age in 0..8 {
            let values = values_of_age(bytes, field, age);
            let wrong = |value: &u32| match which {
                2 => *value != 0 && !kelvin.contains(value),
                _ => *value > 786_421,
            };
            if values.iter().any(wrong) {
                all.push(names[which]);
            }
            if values.iter().any(|value| *value != 0) {
                if bytes[1_421] == 0 {
                    all.push("value but no scan");
                } else if age as u64 > number as u64 {
                    all.push("value at an age above the number");
                }
            }
        }
    }
    all.sort();
    all.dedup();
    all
}

/// Counts what stands in the bytes that a function is given as a state.
fn count_state(bytes: &[u8], reasons: &[&str], counters: &mut Counters) {
    match bytes.len() {
        length @ (0 | 3_323 | 11_114 | 11_777 | 12_575 | 12_576 | 12_577) => {
            counters.met("state length", &length.to_string())
        }
        length if length > 12_577 => counters.met("state length", "longer"),
        _ => {}
    }
    // Where one reason alone holds, it decides.
    if let [reason] = reasons {
        counters.met("no state", reason);
    }
    if reasons.len() > 1 {
        counters.met("no state", "more than one");
    }
    if bytes.len() < 12_576 {
        return;
    }
    count_kept(bytes, counters);
    if let version @ 0..=7 = u32_at(bytes, 7) {
        counters.met("version of a state", &version.to_string());
    }
    let bias = &bytes[3_326..11_777];
    count_edges(bias, ["c0 of a state", "e of a state"], counters);
    if let byte @ (0 | 1 | 2 | 255) = bytes[1_421] {
        counters.met("first byte of 0x32", &byte.to_string());
    }
    // A state has hundreds of values, so each class is counted once.
    let mut edges: BTreeMap<(&str, u32), u64> = BTreeMap::new();
    for (which, field) in BY_AGE.into_iter().enumerate() {
        for age in 0..8 {
            for value in values_of_age(bytes, field, age) {
                let group = match (which, value) {
                    (2, 873_061 | 873_062 | 1_364_582 | 1_364_583) => "T of a state",
                    (0 | 1, 1 | 786_421 | 786_422) => "side of a state",
                    _ => continue,
                };
                *edges.entry((group, value)).or_insert(0) += 1;
            }
        }
    }
    for ((group, value), times) in edges {
        counters.met_times(group, &value.to_string(), times);
    }
    let number = u32_at(bytes, 1_422);
    if bytes[1_421] == 1 && number < 8 {
        let present = |age: usize| {
            let fields = BY_AGE.into_iter();
            let mut values = fields.flat_map(|field| values_of_age(bytes, field, age));
            values.any(|value| value != 0)
        };
        let number = number as usize;
        if present(number) {
            counters.met("age of a value", "at the number");
        }
        if number < 7 && present(number + 1) {
            counters.met("age of a value", "one above the number");
        }
    }
}

/// The last accepted number of a state.
fn last_number(state: &[u8]) -> Option<u32> {
    (state[1_421] == 1).then(|| u32_at(state, 1_422))
}

/// What a state says of its scans, by number. A scan with nothing is left out.
fn scans_of(bytes: &[u8]) -> BTreeMap<u32, ScanValues> {
    let mut scans = BTreeMap::new();
    let Some(last) = last_number(bytes) else {
        return scans;
    };
    for age in 0..8 {
        let [warm, cold, kelvin] = BY_AGE.map(|field| values_of_age(bytes, field, age));
        let all = [&warm[..], &cold, &kelvin].concat();
        if all.iter().all(|value| *value == 0) {
            continue;
        }
        let side = |values: Vec<u32>| {
            let scan_value = |value: u32| (value > 0).then(|| value as i128 - 1);
            values.into_iter().map(scan_value).collect()
        };
        let numbered = kelvin.into_iter().enumerate();
        let accepted = numbered.filter(|(_, value)| *value > 0);
        let values = ScanValues {
            warm: side(warm),
            cold: side(cold),
            thermometers: accepted.map(|(i, t)| (i + 1, t as i128)).collect(),
        };
        scans.insert(last - age as u32, values);
    }
    scans
}

/// Checks what an accepted feed left, by the words of section 14 on the bytes before.
fn check_accepted(
    feed: &StateFeed,
    after: &StateOutcome,
    counters: &mut Counters,
) -> Result<(), String> {
    let wrong = |what: &str| Err(format!("accepted: {what}"));
    let before = &feed.state;
    let state = &after.state;
    if state.len() != before.len() || state[12_576..] != before[12_576..] {
        return wrong("bytes behind the state changed");
    }
    let buffer = &after.buffer;
    if buffer.len() != feed.buffer.len() || buffer[8_706..] != feed.buffer[8_706..] {
        return wrong("bytes behind the product changed");
    }
    for stays in [
        0..1_421,
        1_426..1_429,
        2_133..2_136,
        2_840..2_843,
        3_323..11_780,
    ] {
        if state[stays.clone()] != before[stays.clone()] {
            return wrong(&format!("bytes {stays:?} of the state changed"));
        }
    }
    let number = &feed.record[3..7];
    if state[1_421] != 1 || state[1_422..1_426] != *number {
        return wrong("0x32 is not 1 and the number");
    }
    let table = open(&before[14..1_418]).expect("a state has an accepted table");
    let record = ScanRecord::read(&feed.record).expect("the record was accepted");
    let samples = accepted_samples(&table, &record);
    check_accepted_brackets(&table, &record, &samples.thermometers)?;
    let own = kept(&samples);
    let own = [&own[..22], &own[22..44], &own[44..]];
    let ahead = last_number(before).map(|last| (record.number() - last) as u64);
    let class = match ahead {
        None => "first".to_string(),
        Some(ahead @ 1..=8) => ahead.to_string(),
        Some(_) => "more".to_string(),
    };
    counters.met("ahead of a state", &class);
    for value in own[0].iter().chain(own[1]) {
        if let 0 | 1 | 786_421 = value {
            counters.met("side that a record gives", &value.to_string());
        }
    }
    for value in own[2] {
        if let 0 | 873_062 | 1_364_582 = value {
            counters.met("T that a record gives", &value.to_string());
        }
    }
    for (which, field) in BY_AGE.into_iter().enumerate() {
        for age in 0..8 {
            let expected = match ahead {
                _ if age == 0 => own[which].to_vec(),
                Some(ahead) if age as u64 >= ahead => {
                    values_of_age(before, field, age - ahead as usize)
                }
                _ => vec![0; field.1 / 4],
            };
            if values_of_age(state, field, age) != expected {
                return wrong(&format!("age {age} of field 0x{:x}", 0x33 + which));
            }
        }
    }
    let mut scans = scans_of(before);
    scans.insert(record.number(), scan_values(&samples));
    check_kept(state, &table, &record, &scans)?;
    let (bias, product) = (&before[3_326..11_777], &buffer[..8_706]);
    check_product(&table, bias, &record, product, &scans, counters)
}

/// What one feed to a state left.
#[derive(Clone, Debug, PartialEq, Eq)]
pub struct StateOutcome {
    pub answer: u8,
    pub state: Vec<u8>,
    pub buffer: Vec<u8>,
}

/// Feeds a copy of what is given.
pub fn outcome_of(
    feed: &StateFeed,
    function: impl Fn(&mut [u8], &[u8], &mut [u8]) -> u8,
) -> StateOutcome {
    let (mut state, mut buffer) = (feed.state.clone(), feed.buffer.clone());
    let answer = function(&mut state, &feed.record, &mut buffer);
    StateOutcome {
        answer,
        state,
        buffer,
    }
}

/// Feeds a record to a state and checks what it left.
pub fn checked_state_feed(
    feed: &StateFeed,
    counters: &mut Counters,
) -> Result<StateOutcome, String> {
    let reasons = reasons(&feed.state);
    count_state(&feed.state, &reasons, counters);
    let mut all = Vec::new();
    let mut last = None;
    if reasons.is_empty() {
        last = last_number(&feed.state);
    } else {
        all.push(254);
    }
    let given = Feed {
        record: feed.record.clone(),
        buffer: feed.buffer.clone(),
    };
    all.extend(refusals(&given, last));
    let expected = all.first().copied().unwrap_or(0);
    counters.met("state answer", &expected.to_string());
    if let [254, second, ..] = all[..] {
        counters.met("two answers of a state", &format!("254 and {second}"));
    }
    let after = outcome_of(feed, state::feed);
    if after.answer != expected {
        let answer = after.answer;
        return Err(format!("answer {answer}, expected {expected}, {reasons:?}"));
    }
    if expected != 0 {
        if after.state != feed.state || after.buffer != feed.buffer {
            return Err(format!("refused with {expected}, something changed"));
        }
    } else {
        check_accepted(feed, &after, counters)?;
    }
    Ok(after)
}

pub fn check_state_feed(seed: u64, counters: &mut Counters) -> Result<(), String> {
    checked_state_feed(&state_feed(seed), counters).map(drop)
}

/// How bytes are fed to find out whether they are a state: most with an empty record, which a state
/// refuses with 4; a few with a bench scan that a state accepts or refuses with 5, 6 or 7.
pub fn probe(state: &[u8], index: usize) -> StateFeed {
    let mut feed = StateFeed {
        state: state.to_vec(),
        record: Vec::new(),
        buffer: vec![5; 8_707],
    };
    if index % 64 < 4 && state.len() >= 12_576 {
        let last = u32_at(state, 1_422);
        let mut record = RecordValues::bench();
        record.number = last.saturating_add(1 + (index / 64) as u32 % 9);
        if index % 128 < 64 {
            // The ends of scan values, where the table's limits allow them, and under the bench table
            // the ends of T.
            record.warm = [[65_535; 4]; 22];
            record.cold = [[0; 4]; 22];
            let count;
            (record.pam, count) = if index % 256 < 128 {
                (20_009, 15_276)
            } else {
                (20_268, 24_978)
            };
            record.thermometers = [count; 15];
        }
        match index % 64 {
            1 => record.number = last,
            2 => feed.buffer.truncate(8_705),
            _ => {}
        }
        feed.record = record.encode();
        if index % 64 == 3 {
            feed.record[44] = 4;
        }
    }
    feed
}

/// Every neighbour of a state has its planned answer.
pub fn check_state_neighbours(seed: u64, counters: &mut Counters) -> Result<(), String> {
    for (index, neighbour) in state_neighbours(seed).iter().enumerate() {
        let about = |what: String| format!("{}: {what}", neighbour.description);
        let after = checked_state_feed(&probe(&neighbour.bytes, index), counters).map_err(about)?;
        if (after.answer == 254) != (neighbour.answer == 254) {
            let planned = neighbour.answer;
            return Err(about(format!("{}, planned {planned}", after.answer)));
        }
    }
    Ok(())
}

/// Every byte of a state changed, one at a time.
pub fn check_state_bytes(seed: u64, counters: &mut Counters) -> Result<(), String> {
    for (index, state) in changed_bytes(seed).enumerate() {
        checked_state_feed(&probe(&state, index), counters)?;
    }
    Ok(())
}

/// Which answers a fresh state meets, in order: what each is of, and its number.
fn fresh_answers(input: &FreshInput) -> Vec<(&'static str, u8)> {
    let mut all = vec![
        ("table", plain_answer(&input.table)),
        ("bias", plain_bias_answer(&input.bias)),
    ];
    if input.memory.len() < 12_576 {
        all.push(("254", 254));
    }
    all.retain(|(_, number)| *number != 0);
    all
}

/// Counts the answer, and where another order would give another one.
fn count_fresh(all: &[(&str, u8)], counters: &mut Counters) {
    let Some(((of, number), later)) = all.split_first() else {
        counters.met("fresh answer", "0");
        return;
    };
    let class = match *of {
        "254" => "254".to_string(),
        of => format!("{of} {number}"),
    };
    counters.met("fresh answer", &class);
    for (later_of, later_number) in later {
        if later_number != number {
            let class = format!("{class} and {later_of}");
            counters.met("two answers of a fresh state", &class);
        }
    }
}

/// Makes a fresh state in some memory: the answer, and the memory after it.
pub fn checked_fresh(input: &FreshInput, counters: &mut Counters) -> Result<(u8, Vec<u8>), String> {
    let FreshInput {
        table,
        bias,
        memory,
    } = input;
    let all = fresh_answers(input);
    count_fresh(&all, counters);
    let expected = all.first().map_or(0, |(_, number)| *number);
    let mut after = memory.clone();
    let answer = state::fresh(table, bias, &mut after);
    if answer != expected {
        return Err(format!("fresh: {answer}, expected {expected}"));
    }
    let mut left = memory.clone();
    if answer == 0 {
        let state = StateValues::fresh(table.clone(), bias.clone()).encode();
        left[..12_576].copy_from_slice(&state);
    }
    if after != left {
        return Err(format!("fresh: {answer}, the memory is another"));
    }
    Ok((answer, after))
}

pub fn check_fresh(seed: u64, counters: &mut Counters) -> Result<(), String> {
    checked_fresh(&fresh_input(seed), counters).map(drop)
}

/// The two C functions of an implementation that work on states.
#[derive(Clone, Copy)]
pub struct StateFunctions<F, G> {
    /// Table, bias file and state.
    pub fresh: F,
    /// State, record and buffer.
    pub feed: G,
}

/// A state made anew from the records of its window.
fn rebuilt<F, G>(
    list: &FeedList,
    roll: &[ScanRecord],
    functions: &StateFunctions<F, G>,
) -> Result<Vec<u8>, String>
where
    F: Fn(&[u8], &[u8], &mut [u8]) -> u8,
    G: Fn(&mut [u8], &[u8], &mut [u8]) -> u8,
{
    let mut state = vec![3; 12_576];
    let mut answers = vec![(functions.fresh)(&list.table, &list.bias, &mut state)];
    let last = roll.last().map_or(0, ScanRecord::number);
    for record in roll {
        if last - record.number() < 8 {
            let mut buffer = vec![0; 8_706];
            answers.push((functions.feed)(&mut state, record.bytes(), &mut buffer));
        }
    }
    if answers.iter().any(|answer| *answer != 0) {
        return Err(format!("a state is not rebuilt: {answers:?}"));
    }
    Ok(state)
}

/// Feeds a list scan by scan through states. Between two feeds the state stays, is copied, is moved
/// into longer memory with other bytes behind, or is built anew, from its values or from the records
/// of its window. Each T of an accepted scan in its state is bracketed by equation 19.
pub fn run_through_states<F, G>(
    list: &FeedList,
    seed: u64,
    functions: &StateFunctions<F, G>,
    counters: &mut Counters,
) -> Result<Vec<StateOutcome>, String>
where
    F: Fn(&[u8], &[u8], &mut [u8]) -> u8,
    G: Fn(&mut [u8], &[u8], &mut [u8]) -> u8,
{
    let mut random = Random::new(seed);
    let mut memory = random.bytes(12_576);
    if (functions.fresh)(&list.table, &list.bias, &mut memory) != 0 {
        return Err("no fresh state of an accepted table and bias file".to_string());
    }
    let table = open(&list.table).expect("a list has an accepted table");
    let mut roll: Vec<ScanRecord> = Vec::new();
    let mut all = Vec::new();
    for (index, feed) in list.feeds.iter().enumerate() {
        let class = match random.below(5) {
            0 => "stays",
            1 => {
                let copy = memory.clone();
                memory.fill(0xee);
                memory = copy;
                "copied"
            }
            2 => {
                let more = random.below(500);
                memory.truncate(12_576);
                memory.extend(random.bytes(more));
                "moved"
            }
            3 => {
                memory = StateValues::decode(&memory).encode();
                "built from its values"
            }
            _ => {
                let state = rebuilt(list, &roll, functions)?;
                if memory[..12_576] != state {
                    return Err(format!("feed {}: another state rebuilt", index + 1));
                }
                memory = state;
                "built from records"
            }
        };
        counters.met("state between feeds", class);
        let given = StateFeed {
            state: memory,
            record: feed.record.clone(),
            buffer: feed.buffer.clone(),
        };
        let outcome = outcome_of(&given, &functions.feed);
        if let Ok(record) = judge(&roll, &feed.record, feed.buffer.len()) {
            let accepted = accepted_of_state(&outcome.state);
            check_accepted_brackets(&table, &record, &accepted)?;
            roll.push(record);
        }
        memory = outcome.state.clone();
        all.push(outcome);
    }
    Ok(all)
}

/// Whether a run through states left what a list fed at once left.
pub fn same_run(states: &[StateOutcome], at_once: &[Outcome]) -> Result<(), String> {
    if states.len() != at_once.len() {
        return Err("through states: another number of feeds".to_string());
    }
    for (index, (one, other)) in states.iter().zip(at_once).enumerate() {
        if one.answer != other.answer || one.buffer != other.buffer {
            return Err(format!(
                "feed {}: through states, another outcome",
                index + 1
            ));
        }
    }
    Ok(())
}

/// Feeds a list at once and through states, which are those of a calibrator with the whole roll.
pub fn checked_state_run(
    list: &FeedList,
    seed: u64,
    counters: &mut Counters,
) -> Result<Vec<StateOutcome>, String> {
    let functions = StateFunctions {
        fresh: state::fresh,
        feed: state::feed,
    };
    let states = run_through_states(list, seed, &functions, counters)?;
    same_run(&states, &outcomes(list))?;
    let opened = Calibrator::of_files(&list.table, &list.bias);
    let mut calibrator = opened.expect("a list has an accepted table and bias file");
    for (index, (feed, outcome)) in list.feeds.iter().zip(&states).enumerate() {
        let mut buffer = feed.buffer.clone();
        calibrator = calibrator.feed(&feed.record, &mut buffer).calibrator;
        if outcome.state[..12_576] != state::write(&calibrator) {
            return Err(format!("feed {}: not the state of the roll", index + 1));
        }
    }
    counters.met_times("feeds through states", "compared", states.len() as u64);
    Ok(states)
}

pub fn check_state_run(seed: u64, counters: &mut Counters) -> Result<(), String> {
    checked_state_run(&feed_list(seed), case_seed(seed, 1), counters).map(drop)
}
