//! The proved functions, called through the static libraries of the crates `station_c` and `comparison_c`,
//! and the proved programs, against this implementation. Nothing checks the declarations below against
//! the proved source, so they are few.

use std::io::Write;
use std::path::Path;
use std::process::{Command, Stdio};
use std::ptr::{null, null_mut};
use std::sync::atomic::{AtomicU64, Ordering};
use std::thread::{available_parallelism, scope};

use crate::against;
use crate::baseline::Constants;
use crate::check::counters::Counters;
use crate::check::outcomes::Outcome;
use crate::check::run::{seed_of_case, Check};
use crate::check::states::StateFunctions;
use crate::generator::biases::BiasValues;
use crate::generator::laid_out::lay_out;
use crate::generator::layouts::RECORD;
use crate::generator::listings::{FileInput, ListingInput};
use crate::generator::lists::FeedList;
use crate::generator::random::case_seed;
use crate::generator::records::RecordValues;
use crate::generator::tables::TableValues;
use crate::generator::thermometers::ThermometerInput;
use crate::second::product::LENGTH;
use crate::second::state;
use crate::second::station::LaidOut;

extern "C" {
    fn compared_floor_div(a: i64, b: i64) -> i64;
    fn compared_round(a: i64, b: i64) -> i64;
    fn compared_u16(bytes: *const u8, length: usize, at: usize) -> u16;
    fn compared_u32(bytes: *const u8, length: usize, at: usize) -> u32;
    fn compared_i16(bytes: *const u8, length: usize, at: usize) -> i64;
    fn compared_i32(bytes: *const u8, length: usize, at: usize) -> i64;
    fn compared_field(bytes: *const u8, length: usize, at: usize, tag: u8, size: u16) -> usize;
    fn compared_layout(
        bytes: *const u8,
        length: usize,
        tags: *const u8,
        tag_count: usize,
        sizes: *const u16,
        size_count: usize,
    ) -> bool;
    fn compared_kept(
        table: *const u8,
        table_length: usize,
        scan: *const u8,
        scan_length: usize,
        k: usize,
    ) -> u32;
    fn compared_product(
        buffer: *mut u8,
        buffer_length: usize,
        number: u32,
        tc: i64,
        rise: i64,
        tnl: i64,
        d: i64,
        slope: i64,
        base: i64,
        pairs: *const u32,
        pairs_length: usize,
        earth: *const u8,
        earth_length: usize,
    ) -> u32;
}

// Of include/sounder.h.
extern "C" {
    fn sounder_open(table: *const u8, table_length: usize) -> u8;
    fn sounder_open_bias(bias: *const u8, bias_length: usize) -> u8;
    fn sounder_thermometer(
        r_pam: u32,
        r0: u32,
        alpha: u32,
        delta: u32,
        beta: u32,
        pam: u16,
        offset: u16,
        count: u16,
        t: *mut i32,
    ) -> u8;
    fn sounder_feed_all(
        table: *const u8,
        table_length: usize,
        bias: *const u8,
        bias_length: usize,
        records: *const u8,
        records_length: usize,
        record_lengths: *const u32,
        record_count: usize,
        buffers: *mut u8,
        buffers_length: usize,
        buffer_lengths: *const u32,
        buffer_count: usize,
        answers: *mut u8,
        answer_count: usize,
    ) -> u8;
    fn sounder_state_size() -> usize;
    fn sounder_fresh(
        table: *const u8,
        table_length: usize,
        bias: *const u8,
        bias_length: usize,
        state: *mut u8,
        state_length: usize,
    ) -> u8;
    fn sounder_feed(
        state: *mut u8,
        state_length: usize,
        record: *const u8,
        record_length: usize,
        buffer: *mut u8,
        buffer_length: usize,
    ) -> u8;
    fn sounder_count_behind(
        state: *const u8,
        state_length: usize,
        channel: u32,
        wanted: u32,
        count: *mut u16,
    ) -> u8;
}

// Each wrapper tests what the proved function's `requires` asks.

fn floor_div(a: i64, b: i64) -> i64 {
    assert!(b > 0);
    unsafe { compared_floor_div(a, b) }
}

fn round(a: i64, b: i64) -> i64 {
    assert!(b > 0);
    unsafe { compared_round(a, b) }
}

fn numbers(bytes: &[u8], at: usize) -> (u16, i16, u32, i32) {
    assert!(at + 3 < bytes.len());
    let (start, length) = (bytes.as_ptr(), bytes.len());
    let (i16_read, i32_read) = unsafe {
        (
            compared_i16(start, length, at),
            compared_i32(start, length, at),
        )
    };
    (
        unsafe { compared_u16(start, length, at) },
        i16_read.try_into().expect("an i16 is inside 16 bits"),
        unsafe { compared_u32(start, length, at) },
        i32_read.try_into().expect("an i32 is inside 32 bits"),
    )
}

/// The proved reader hands back the empty part for a wrong field, so that of a field of length 0 the
/// layout's test decides. A field that does not fit the bytes is none of the reader's.
fn field(bytes: &[u8], at: usize, tag: u8, length: usize) -> Option<&[u8]> {
    let size: u16 = length.try_into().ok()?;
    let value = bytes.get(at + 3..at + 3 + length)?;
    if length == 0 {
        return layout_is_right(&bytes[at..at + 3], &[(tag, 0)]).then_some(value);
    }
    let found = unsafe { compared_field(bytes.as_ptr(), bytes.len(), at, tag, size) };
    (found == length).then_some(value)
}

/// The proved function is given bytes of the layout's own length.
fn layout_is_right(bytes: &[u8], layout: &[(u8, usize)]) -> bool {
    let size: usize = layout.iter().map(|(_, length)| 3 + length).sum();
    if size != bytes.len() || layout.iter().any(|(_, length)| *length > 65_535) {
        return false;
    }
    let tags: Vec<u8> = layout.iter().map(|(tag, _)| *tag).collect();
    let sizes: Vec<u16> = layout.iter().map(|(_, length)| *length as u16).collect();
    unsafe {
        compared_layout(
            bytes.as_ptr(),
            bytes.len(),
            tags.as_ptr(),
            tags.len(),
            sizes.as_ptr(),
            sizes.len(),
        )
    }
}

/// t, or the number of the refusal, which leaves what t points at as it was.
pub fn thermometer(input: &ThermometerInput) -> Result<i32, u8> {
    const BEFORE: i32 = 1_234_567;
    let mut t = BEFORE;
    let number = unsafe {
        sounder_thermometer(
            input.pam_resistance,
            input.resistance,
            input.alpha,
            input.delta,
            input.beta,
            input.pam,
            input.offset,
            input.count,
            &mut t,
        )
    };
    if number == 0 {
        return Ok(t);
    }
    assert_eq!(t, BEFORE, "a refusal leaves t as it was");
    Err(number)
}

/// 0, or the number of the refusal.
fn open(bytes: &[u8]) -> u8 {
    unsafe { sounder_open(bytes.as_ptr(), bytes.len()) }
}

/// The same of a bias file.
fn open_bias(bytes: &[u8]) -> u8 {
    unsafe { sounder_open_bias(bytes.as_ptr(), bytes.len()) }
}

/// The pairs of an accepted bias file as the writer of a product takes them, channel by channel: for
/// each position 65,536 + e and 65,536 (c0 + 32,768) + 32,767.
#[derive(Clone)]
pub struct Pairs(Vec<u32>);

impl Pairs {
    pub fn of(bias: &[u8]) -> Pairs {
        assert_eq!(open_bias(bias), 0);
        let raised = |at: usize| u16::from_be_bytes([bias[at], bias[at + 1]]) ^ 0x8000;
        let factor = |k: usize| raised(5 + 4 * k) as u32 + 32_768;
        let offset = |k: usize| 65_536 * raised(3 + 4 * k) as u32 + 32_767;
        Pairs((0..2_112).flat_map(|k| [factor(k), offset(k)]).collect())
    }
}

/// The 59 values that a scan keeps of its accepted samples.
fn kept(table: &[u8], scan: &[u8]) -> Vec<u32> {
    (0..59).map(|k| kept_value(table, scan, k)).collect()
}

/// Value k of what a record keeps; all are worked out for it.
pub fn kept_value(table: &[u8], scan: &[u8], k: usize) -> u32 {
    assert!(table.len() == 1_404 && scan.len() == 4_648 && k < 59);
    assert!(layout_is_right(scan, &RECORD));
    unsafe { compared_kept(table.as_ptr(), table.len(), scan.as_ptr(), scan.len(), k) }
}

/// Whether constants are as a channel with flag 0 under an accepted table has them.
fn in_range(k: &Constants) -> bool {
    (11_166..=43_934).contains(&k.tc)
        && (825_032..=1_357_512).contains(&k.rise)
        && (-8_192..=8_192).contains(&k.tnl)
        && (1..=51_136_960_500).contains(&k.d)
        && (0..=780_300).contains(&k.slope)
        && (0..=51_136_960_500).contains(&k.base)
}

/// Writes a product whose channels all have flag 0 and these constants: the count of delivered scenes.
pub fn product(buffer: &mut [u8], number: u32, k: &Constants, pairs: &Pairs, earth: &[u8]) -> u32 {
    assert!(buffer.len() >= LENGTH && earth.len() == 4_224 && in_range(k));
    let (start, length) = (buffer.as_mut_ptr(), buffer.len());
    unsafe {
        compared_product(
            start,
            length,
            number,
            k.tc,
            k.rise,
            k.tnl,
            k.d,
            k.slope,
            k.base,
            pairs.0.as_ptr(),
            pairs.0.len(),
            earth.as_ptr(),
            earth.len(),
        )
    }
}

/// Feeds a list to a fresh calibrator in one call: 0, or the number of the table's refusal, then of the bias
/// file's.
pub fn feed_all(list: &mut LaidOut) -> u8 {
    unsafe {
        sounder_feed_all(
            list.table.as_ptr(),
            list.table.len(),
            list.bias.as_ptr(),
            list.bias.len(),
            list.records.as_ptr(),
            list.records.len(),
            list.record_lengths.as_ptr(),
            list.record_lengths.len(),
            list.buffers.as_mut_ptr(),
            list.buffers.len(),
            list.buffer_lengths.as_ptr(),
            list.buffer_lengths.len(),
            list.answers.as_mut_ptr(),
            list.answers.len(),
        )
    }
}

/// Writes the state of a fresh calibrator: 0, 1 to 3 of the table, then of the bias file, or 254.
pub fn fresh(table: &[u8], bias: &[u8], state: &mut [u8]) -> u8 {
    unsafe {
        sounder_fresh(
            table.as_ptr(),
            table.len(),
            bias.as_ptr(),
            bias.len(),
            state.as_mut_ptr(),
            state.len(),
        )
    }
}

/// Feeds one record to the calibrator of a state: 0, 254, or 4 to 7.
pub fn feed(state: &mut [u8], record: &[u8], buffer: &mut [u8]) -> u8 {
    unsafe {
        sounder_feed(
            state.as_mut_ptr(),
            state.len(),
            record.as_ptr(),
            record.len(),
            buffer.as_mut_ptr(),
            buffer.len(),
        )
    }
}

/// The count behind a wanted T, and 0; or 254, 11, 12 or 253, which leave what stands in its place.
pub fn count_behind(state: &[u8], channel: u32, wanted: u32, count: &mut u16) -> u8 {
    unsafe { sounder_count_behind(state.as_ptr(), state.len(), channel, wanted, count) }
}

/// Bytes behind memory that a function is given, which it must not write.
const BEHIND: [u8; 64] = [0xc3; 64];

/// Calls a function on a copy of some memory with further bytes behind it.
fn with_bytes_behind<T>(memory: &mut [u8], call: impl FnOnce(&mut [u8]) -> T) -> T {
    let length = memory.len();
    let mut copy = [&*memory, &BEHIND].concat();
    let answer = call(&mut copy[..length]);
    assert_eq!(copy[length..], BEHIND, "nothing is written behind memory");
    memory.copy_from_slice(&copy[..length]);
    answer
}

fn guarded_fresh(table: &[u8], bias: &[u8], state: &mut [u8]) -> u8 {
    with_bytes_behind(state, |state| fresh(table, bias, state))
}

fn guarded_feed(state: &mut [u8], record: &[u8], buffer: &mut [u8]) -> u8 {
    with_bytes_behind(state, |state| {
        with_bytes_behind(buffer, |buffer| feed(state, record, buffer))
    })
}

/// A lookup writes nothing but the count.
fn guarded_count_behind(state: &[u8], channel: u32, wanted: u32, count: &mut u16) -> u8 {
    const BESIDE: u16 = 0xc3c3;
    let mut copy = state.to_vec();
    let mut counts = [BESIDE, *count, BESIDE];
    let answer = with_bytes_behind(&mut copy, |state| {
        count_behind(state, channel, wanted, &mut counts[1])
    });
    assert_eq!(copy, state, "a lookup leaves the state as it was");
    let beside = [counts[0], counts[2]];
    assert_eq!(beside, [BESIDE; 2], "nothing is written beside the count");
    *count = counts[1];
    answer
}

fn state_size(_: u64, _: &mut Counters) -> Result<(), String> {
    let size = unsafe { sounder_state_size() };
    if size == state::state_size() {
        return Ok(());
    }
    Err(format!("the size of a state: {size}"))
}

/// Feeds a list without a feed and with room for three answers, under these bytes or null.
fn feed_nothing(table: Option<&[u8]>, bias: Option<&[u8]>, answers: &mut [u8; 3]) -> u8 {
    let start = |bytes: Option<&[u8]>| bytes.map_or(null(), <[u8]>::as_ptr);
    let count = |bytes: Option<&[u8]>| bytes.map_or(0, <[u8]>::len);
    unsafe {
        sounder_feed_all(
            start(table),
            count(table),
            start(bias),
            count(bias),
            null(),
            0,
            null(),
            0,
            null_mut(),
            0,
            null(),
            0,
            answers.as_mut_ptr(),
            answers.len(),
        )
    }
}

/// Null pointers with a count of 0 are empty: an empty table is refused with 1 and so is an empty bias file,
/// under the bench table and bias file no feed is there, no memory has room for a state or is one, for a lookup
/// too, an empty record is refused with 4 and an empty buffer with 7.
fn null_pointers(_: u64, _: &mut Counters) -> Result<(), String> {
    let table = TableValues::bench().encode();
    let bias = BiasValues::zeros().encode();
    let record = RecordValues::bench().encode();
    let room = null_mut();
    let mut count = 40_961;
    let mut answers = [77; 3];
    let mut state = vec![0; state::LENGTH];
    let made = fresh(&table, &bias, &mut state);
    let before = state.clone();
    let memory = (state.as_mut_ptr(), state.len());
    let refused = [
        feed_nothing(None, None, &mut answers),
        feed_nothing(None, Some(&bias), &mut answers),
        feed_nothing(Some(&table), None, &mut answers),
    ];
    let untouched = answers == [77; 3];
    let fed = feed_nothing(Some(&table), Some(&bias), &mut answers);
    let (table, bias) = ((table.as_ptr(), table.len()), (bias.as_ptr(), bias.len()));
    let met = unsafe {
        [
            sounder_open(null(), 0),
            sounder_open_bias(null(), 0),
            sounder_fresh(null(), 0, null(), 0, room, 0),
            sounder_fresh(table.0, table.1, null(), 0, room, 0),
            sounder_fresh(table.0, table.1, bias.0, bias.1, room, 0),
            sounder_feed(room, 0, null(), 0, room, 0),
            sounder_feed(memory.0, memory.1, null(), 0, room, 0),
            sounder_feed(memory.0, memory.1, record.as_ptr(), record.len(), room, 0),
            sounder_count_behind(null(), 0, 0, 565_394, &mut count),
            sounder_count_behind(memory.0, memory.1, 0, 565_394, &mut count),
        ]
    };
    let right = met == [1, 1, 1, 1, 254, 254, 4, 7, 254, 11];
    let right = right && made == 0 && state == before && count == 40_961;
    if right && refused == [1; 3] && untouched && fed == 0 && answers == [255; 3] {
        return Ok(());
    }
    Err(format!(
        "null pointers: {met:?} {made} {refused:?} {fed} {answers:?}"
    ))
}

/// How many feeds of lists have been compared in this run.
static COMPARED_FEEDS: AtomicU64 = AtomicU64::new(0);

/// What each feed of a list left, and counts the feeds.
fn feeds(list: &FeedList) -> Vec<Outcome> {
    COMPARED_FEEDS.fetch_add(list.feeds.len() as u64, Ordering::Relaxed);
    outcomes_at_once(list)
}

/// What each feed of a list left.
fn outcomes_at_once(list: &FeedList) -> Vec<Outcome> {
    let mut laid_out = lay_out(list);
    assert_eq!(feed_all(&mut laid_out), 0, "a list has accepted files");
    let mut rest = &laid_out.buffers[..];
    let mut outcomes = Vec::new();
    for (answer, room) in laid_out.answers.iter().zip(&laid_out.buffer_lengths) {
        let (buffer, after) = rest.split_at(*room as usize);
        rest = after;
        outcomes.push(Outcome {
            answer: *answer,
            buffer: buffer.to_vec(),
        });
    }
    outcomes
}

/// How many runs of the programs were begun.
static RUNS: AtomicU64 = AtomicU64::new(0);

/// Puts what a program finds under a file's name into its folder, which is empty at first.
fn place(folder: &Path, name: &str, file: &FileInput) {
    match file {
        FileInput::Missing => {}
        FileInput::Folder => std::fs::create_dir(folder.join(name)).expect("a temporary folder"),
        FileInput::Bytes(bytes) => {
            std::fs::write(folder.join(name), bytes).expect("a temporary file")
        }
    }
}

/// What a proved program writes to standard output and to standard error, run in a folder of its own.
fn run_program(name: &str, input: &ListingInput) -> (Vec<u8>, String) {
    let program = Path::new(env!("CARGO_MANIFEST_DIR")).join(format!("../target/bin/{name}"));
    let run = RUNS.fetch_add(1, Ordering::Relaxed);
    let folder = std::env::temp_dir().join(format!("{name}-{}-{run}", std::process::id()));
    drop(std::fs::remove_dir_all(&folder));
    std::fs::create_dir_all(&folder).expect("a temporary folder");
    place(&folder, "table.bin", &input.table);
    place(&folder, "bias.bin", &input.bias);
    let mut child = Command::new(program)
        .current_dir(&folder)
        .stdin(Stdio::piped())
        .stdout(Stdio::piped())
        .stderr(Stdio::piped())
        .spawn()
        .expect("the program is built");
    let mut stdin = child.stdin.take().expect("a pipe");
    let bytes = input.input.clone();
    // A refused table or bias file ends the program before it has read its input.
    let writer = std::thread::spawn(move || drop(stdin.write_all(&bytes)));
    let output = child.wait_with_output().expect("the program ends");
    writer.join().expect("the input is written");
    drop(std::fs::remove_dir_all(&folder));
    let errors = String::from_utf8(output.stderr).expect("lines of text");
    (output.stdout, errors)
}

fn listing(input: &ListingInput) -> String {
    let (lines, errors) = run_program("listing", input);
    assert_eq!(errors, "", "the listing writes to standard output alone");
    String::from_utf8(lines).expect("lines of text")
}

fn calibrate(input: &ListingInput) -> (Vec<u8>, String) {
    run_program("calibrate", input)
}

/// The comparisons by the name that `--case` takes, and how many cases of each are run for a thousand.
pub const KINDS: [(&str, Check, u64); 35] = [
    (
        "floor_div",
        |seed, counters| against::divisions(seed, floor_div, counters),
        10,
    ),
    (
        "round",
        |seed, counters| against::roundings(seed, round, counters),
        10,
    ),
    ("numbers", |seed, _| against::numbers(seed, numbers), 200),
    ("field", |seed, _| against::fields(seed, field), 1_000),
    (
        "layout",
        |seed, _| against::layouts(seed, layout_is_right),
        1_000,
    ),
    (
        "thermometer",
        |seed, counters| against::thermometer(seed, thermometer, counters),
        10_000,
    ),
    (
        "table",
        |seed, counters| against::table(seed, open, counters),
        1_000,
    ),
    (
        "neighbours",
        |seed, counters| against::all_table_neighbours(seed, open, counters),
        1,
    ),
    (
        "bias",
        |seed, counters| against::bias(seed, open_bias, counters),
        1_000,
    ),
    (
        "bias_neighbours",
        |seed, counters| against::all_bias_neighbours(seed, open_bias, counters),
        1,
    ),
    (
        "kept",
        |seed, counters| against::kept_values(seed, kept, counters),
        30,
    ),
    (
        "feeds",
        |seed, counters| against::feeds(seed, feeds, counters),
        80,
    ),
    (
        "zeros",
        |seed, counters| against::feeds_under_zeros(seed, outcomes_at_once, counters),
        10,
    ),
    (
        "one_shelf",
        |seed, counters| against::one_shelf(seed, outcomes_at_once, counters),
        5,
    ),
    (
        "halves",
        |seed, counters| against::halves(seed, outcomes_at_once, guarded_feed, counters),
        10,
    ),
    (
        "one_call",
        |seed, counters| against::lists_in_one_call(seed, feed_all, counters),
        20,
    ),
    ("null_pointers", null_pointers, 1),
    (
        "listing",
        |seed, counters| against::listings(seed, listing, counters),
        40,
    ),
    (
        "calibrate",
        |seed, counters| against::calibrations(seed, calibrate, counters),
        40,
    ),
    ("state_size", state_size, 1),
    (
        "fresh",
        |seed, counters| against::fresh_states(seed, guarded_fresh, counters),
        50,
    ),
    (
        "state",
        |seed, counters| against::state_feeds(seed, guarded_feed, counters),
        50,
    ),
    (
        "state_neighbours",
        |seed, counters| against::all_state_neighbours(seed, guarded_feed, counters),
        1,
    ),
    (
        "state_bytes",
        |seed, counters| against::all_state_bytes(seed, guarded_feed, counters),
        1,
    ),
    ("state_run", state_run, 10),
    (
        "six_numbers",
        |seed, counters| against::six_numbers(seed, outcomes_at_once, counters),
        20,
    ),
    (
        "every_count",
        |seed, counters| against::every_count(seed, &state_functions(), counters),
        3,
    ),
    (
        "one_number",
        |seed, counters| against::one_number(seed, outcomes_at_once, counters),
        2,
    ),
    ("lookup_run", lookup_run, 10),
    ("lookup_twins", lookup_twins, 4),
    (
        "lookup",
        |seed, counters| against::lookups(seed, guarded_count_behind, counters),
        30,
    ),
    (
        "lookup_channels",
        |seed, counters| against::lookup_channels(seed, guarded_count_behind, counters),
        1,
    ),
    (
        "lookup_neighbours",
        |seed, counters| against::all_lookup_neighbours(seed, guarded_count_behind, counters),
        1,
    ),
    (
        "lookup_bytes",
        |seed, counters| against::all_lookup_bytes(seed, guarded_count_behind, counters),
        1,
    ),
    (
        "equation",
        |seed, counters| against::equation(seed, thermometer, guarded_feed, counters),
        50,
    ),
];

type Fresh = fn(&[u8], &[u8], &mut [u8]) -> u8;
type FeedState = fn(&mut [u8], &[u8], &mut [u8]) -> u8;

fn state_functions() -> StateFunctions<Fresh, FeedState> {
    StateFunctions {
        fresh: guarded_fresh,
        feed: guarded_feed,
    }
}

/// A list through states, and in one call.
fn state_run(seed: u64, counters: &mut Counters) -> Result<(), String> {
    against::state_runs(seed, &state_functions(), outcomes_at_once, counters)
}

/// A list through states with lookups between its feeds.
fn lookup_run(seed: u64, counters: &mut Counters) -> Result<(), String> {
    against::lookup_runs(seed, &state_functions(), guarded_count_behind, counters)
}

/// The same of two alike lists.
fn lookup_twins(seed: u64, counters: &mut Counters) -> Result<(), String> {
    against::lookup_twins(seed, &state_functions(), guarded_count_behind, counters)
}

/// Runs the cases `first`, `first + step` and so on of a kind, and counts what they met.
fn run_cases(
    (kind, comparison): (&str, Check),
    master: u64,
    cases: u64,
    (first, step): (u64, usize),
) -> Result<Counters, String> {
    let mut met = Counters::new();
    for index in (first..cases).step_by(step) {
        run_case(
            kind,
            comparison,
            seed_of_case(kind, master, index),
            &mut met,
        )?;
    }
    Ok(met)
}

/// Runs every comparison, the cases of a kind side by side; a difference is the error, with the command that
/// repeats it.
pub fn run(seed: u64, thousands: u64, counters: &mut Counters) -> Result<(), String> {
    let workers = available_parallelism().map_or(1, usize::from);
    for (number, (kind, comparison, share)) in KINDS.into_iter().enumerate() {
        let master = case_seed(seed, number as u64);
        let cases = share * thousands;
        let met: Result<Vec<Counters>, String> = scope(|threads| {
            let started: Vec<_> = (0..workers as u64)
                .map(|first| {
                    threads.spawn(move || {
                        run_cases((kind, comparison), master, cases, (first, workers))
                    })
                })
                .collect();
            let ended = started.into_iter().map(|thread| thread.join());
            ended
                .map(|result| result.expect("no case panics"))
                .collect()
        });
        for one in met? {
            counters.add(&one);
        }
        println!("proved {kind}: {cases} cases agree");
    }
    let feeds = COMPARED_FEEDS.load(Ordering::Relaxed);
    println!("feeds compared in lists: {feeds}");
    // In the gate, ten thousand, at least 20,000 feeds are to be compared.
    if feeds < 2_000 * thousands {
        return Err("too few feeds were compared".to_string());
    }
    Ok(())
}

/// Runs one case of a comparison.
pub fn run_case(
    kind: &str,
    comparison: Check,
    seed: u64,
    counters: &mut Counters,
) -> Result<(), String> {
    let repeat = format!("repeat with: tools/compare --case {kind}:{seed}");
    comparison(seed, counters).map_err(|what| format!("failed: {kind} {seed}: {what}\n{repeat}"))
}
