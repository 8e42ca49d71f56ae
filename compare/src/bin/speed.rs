//! Speed of the proved functions, as a ratio to hand-written Rust in the same run.

use std::hint::black_box;
use std::time::Instant;

use compare::baseline;
use compare::generator::laid_out::lay_out;
use compare::generator::lists::{Feed, FeedList};
use compare::generator::random::{case_seed, Random};
use compare::generator::random_biases::any_bias;
use compare::generator::records::RecordValues;
use compare::generator::tables::TableValues;
use compare::generator::thermometers::{thermometer_input, ThermometerInput};
use compare::proved;
use compare::second::product::LENGTH;
use compare::second::state;
use compare::second::station::{self, LaidOut};

/// The least time of several rounds for each of these, in nanoseconds a call. They take turns in each
/// round.
fn least_times(rounds: usize, calls: usize, timed: &mut [&mut dyn FnMut()]) -> Vec<f64> {
    let mut least = vec![f64::MAX; timed.len()];
    for _ in 0..rounds {
        for (least, call) in least.iter_mut().zip(timed.iter_mut()) {
            let began = Instant::now();
            call();
            *least = least.min(began.elapsed().as_nanos() as f64 / calls as f64);
        }
    }
    least
}

/// The proved code, the same by hand and, where it was timed, the second implementation.
const BY_HAND: [&str; 3] = ["proved", "by hand", "second implementation"];

/// Times by these names, and the ratio of the first to the second, with its limit where it has one.
fn report(
    what: &str,
    (unit, unit_nanoseconds): (&str, f64),
    names: &[&str],
    times: &[f64],
    limit: Option<f64>,
) {
    let shown: Vec<String> = names
        .iter()
        .zip(times)
        .map(|(name, time)| format!("{name} {:.2} {unit}", time / unit_nanoseconds))
        .collect();
    let ratio = times[0] / times[1];
    let limit = match limit {
        Some(limit) if ratio > limit => format!(", above its limit {limit}"),
        Some(limit) => format!(", limit {limit}"),
        None => String::new(),
    };
    println!("{what}: {}; ratio {ratio:.3}{limit}", shown.join(", "));
}

const NANOSECONDS: (&str, f64) = ("ns", 1.0);
const MICROSECONDS: (&str, f64) = ("us", 1_000.0);

fn baseline_thermometer(i: &ThermometerInput) -> Result<i32, u8> {
    baseline::thermometer(
        i.pam_resistance,
        i.resistance,
        i.alpha,
        i.delta,
        i.beta,
        i.pam,
        i.offset,
        i.count,
    )
}

fn thermometers() {
    let inputs: Vec<ThermometerInput> = (0..)
        .map(|index| thermometer_input(case_seed(1, index)))
        .filter(|input| baseline_thermometer(input).is_ok())
        .take(2_000)
        .collect();
    let times = least_times(
        300,
        inputs.len(),
        &mut [
            &mut || {
                for input in &inputs {
                    let _ = black_box(proved::thermometer(black_box(input)));
                }
            },
            &mut || {
                for input in &inputs {
                    let _ = black_box(baseline_thermometer(black_box(input)));
                }
            },
        ],
    );
    report("one thermometer", NANOSECONDS, &BY_HAND, &times, Some(0.27));
}

/// The channel of a full window of bench scans with weights 8 to 1.
const CONSTANTS: baseline::Constants = baseline::Constants {
    tc: 11_166,
    rise: 1_107_656,
    tnl: 400,
    d: 155_520_000,
    slope: 15_552,
    base: 155_520_000,
};

/// A bias file with every c0 and e at random.
fn bias_file() -> Vec<u8> {
    any_bias(&mut Random::new(3)).encode()
}

/// The writer of a product alone: every channel has flag 0, and every scene is delivered.
fn products() {
    let mut random = Random::new(2);
    let counts = (0..2_112).map(|_| random.between(10_000, 20_000) as u16);
    let earth: Vec<u8> = counts.flat_map(u16::to_be_bytes).collect();
    let (mut first, mut second) = (vec![0; LENGTH], vec![0; LENGTH]);
    let constants = [CONSTANTS; 22];
    let bytes = bias_file();
    let pairs = proved::Pairs::of(&bytes);
    let bias = baseline::open_bias(&bytes).expect("the bias file is accepted");
    let times = least_times(
        20_000,
        1,
        &mut [
            &mut || {
                black_box(proved::product(
                    &mut first,
                    7,
                    black_box(&CONSTANTS),
                    black_box(&pairs),
                    black_box(&earth),
                ));
            },
            &mut || {
                black_box(baseline::write_product(
                    &mut second,
                    7,
                    &[0; 22],
                    black_box(&constants),
                    black_box(&bias),
                    black_box(&earth),
                ));
            },
        ],
    );
    assert!(first == second, "both writers give the same product");
    report("one product", MICROSECONDS, &BY_HAND, &times, Some(0.55));
}

/// Consecutive bench scans with earth counts at random between the cold and the warm counts and shelf
/// temperatures at random, under the bench table with a weight for each age, a TNL that falls from pair to
/// pair, and a bias file at random: from the eighth scan on the window is full, and every scene is delivered.
fn scans(count: usize) -> FeedList {
    let mut random = Random::new(1);
    let mut table = TableValues::bench();
    table.count_weights = [8, 7, 6, 5, 4, 3, 2, 1];
    table.thermometer_weights = [8, 7, 6, 5, 4, 3, 2, 1];
    table.warm_percentage = 20;
    table.cold_percentage = 20;
    table.thermometer_percentage = 20;
    for channel in &mut table.channels {
        for (pair, tnl) in channel.shelf_pairs.iter_mut().zip([800, 600, 400, 200, 0]) {
            pair.nonlinearity = tnl;
        }
    }
    let mut values = RecordValues::bench();
    let feeds = (1..=count)
        .map(|number| {
            values.number = number as u32;
            values.shelves = [0; 4].map(|_: i32| random.between(-245_760, 245_760) as i32);
            let mut record = values.encode();
            for earth in record[405..4_629].chunks_exact_mut(2) {
                earth.copy_from_slice(&(random.between(10_000, 20_000) as u16).to_be_bytes());
            }
            Feed {
                record,
                buffer: vec![0; LENGTH],
            }
        })
        .collect();
    FeedList {
        table: table.encode(),
        bias: bias_file(),
        feeds,
    }
}

/// Feeds a list by the hand-written calibrator, from the same bytes into buffers laid out alike.
fn baseline_feeds(list: &LaidOut, buffers: &mut [u8]) {
    let table = baseline::open(&list.table).expect("the bench table is accepted");
    let bias = baseline::open_bias(&list.bias).expect("the bias file is accepted");
    let mut calibrator = baseline::Calibrator::fresh(table, bias);
    let (mut scans, mut buffers) = (&list.records[..], buffers);
    for (size, room) in list.record_lengths.iter().zip(&list.buffer_lengths) {
        let (record, later_scans) = scans.split_at(*size as usize);
        let (buffer, later_buffers) = buffers.split_at_mut(*room as usize);
        let _ = black_box(calibrator.feed(record, buffer));
        (scans, buffers) = (later_scans, later_buffers);
    }
}

/// Whole lists. The second implementation computes each product from all records since the first, so
/// it is timed on short lists alone, in a tenth of the rounds.
fn feeds(count: usize, rounds: usize) {
    let mut list = lay_out(&scans(count));
    let by_hand = list.clone();
    let mut second = list.clone();
    let mut buffers = list.buffers.clone();
    let mut times = least_times(
        rounds,
        count,
        &mut [
            &mut || assert_eq!(black_box(proved::feed_all(&mut list)), 0),
            &mut || baseline_feeds(black_box(&by_hand), &mut buffers),
        ],
    );
    assert!(list.answers.iter().all(|answer| *answer == 0));
    assert!(
        list.buffers == buffers,
        "both calibrators give the same products"
    );
    if count <= 1_000 {
        times.extend(least_times(
            rounds.div_ceil(10),
            count,
            &mut [&mut || assert_eq!(black_box(station::feed_all(&mut second)), 0)],
        ));
        assert!(second == list, "so does the second implementation");
    }
    let what = format!("one scan of {count}");
    report(&what, MICROSECONDS, &BY_HAND, &times, Some(0.62));
}

/// Feeds a list one record at a time to a state, which is fresh at first.
fn feeds_of_state(list: &LaidOut, state: &mut [u8], buffers: &mut [u8]) {
    assert_eq!(proved::fresh(&list.table, &list.bias, state), 0);
    let (mut scans, mut buffers) = (&list.records[..], buffers);
    for (size, room) in list.record_lengths.iter().zip(&list.buffer_lengths) {
        let (record, later_scans) = scans.split_at(*size as usize);
        let (buffer, later_buffers) = buffers.split_at_mut(*room as usize);
        assert_eq!(black_box(proved::feed(state, record, buffer)), 0);
        (scans, buffers) = (later_scans, later_buffers);
    }
}

/// What it costs to read and write the state: the same list one record at a time, and in one call.
fn states() {
    const COUNT: usize = 100;
    let mut list = lay_out(&scans(COUNT));
    let one_by_one = list.clone();
    let mut state = vec![0; state::LENGTH];
    let mut buffers = list.buffers.clone();
    let times = least_times(
        300,
        COUNT,
        &mut [
            &mut || feeds_of_state(black_box(&one_by_one), &mut state, &mut buffers),
            &mut || assert_eq!(black_box(proved::feed_all(&mut list)), 0),
        ],
    );
    assert!(list.buffers == buffers, "both give the same products");
    let names = ["through a state", "in one call"];
    report("one feed", MICROSECONDS, &names, &times, Some(1.7));
}

/// What one record adds to the window: its accepted samples, as they are kept.
fn samples() {
    let list = scans(1);
    let record = &list.feeds[0].record;
    let table = baseline::open(&list.table).expect("the bench table is accepted");
    let by_hand = || {
        let (counts, warm, cold) = (&record[10..44], &record[47..223], &record[226..402]);
        baseline::accepted_scan(black_box(&table), counts, warm, cold)
    };
    let last = || proved::kept_value(black_box(&list.table), black_box(record), 58);
    assert_eq!(by_hand().temperatures[14], Some(i64::from(last())));
    let times = least_times(
        20_000,
        1,
        &mut [
            &mut || {
                black_box(last());
            },
            &mut || {
                black_box(by_hand());
            },
        ],
    );
    report("one record's samples", MICROSECONDS, &BY_HAND, &times, None);
}

/// The least that a product costs: each earth count is read, and four bytes are written for it.
fn move_bytes(earth: &[u8], scenes: &mut [u8]) {
    for (place, count) in scenes.chunks_exact_mut(4).zip(earth.chunks_exact(2)) {
        let count = u16::from_be_bytes([count[0], count[1]]);
        place.copy_from_slice(&u32::from(count).to_be_bytes());
    }
}

/// Where the time of a scan goes: the proved code on a list of 100, and its parts alone, in turns.
fn parts() {
    const COUNT: usize = 100;
    let feeds = scans(COUNT);
    let mut list = lay_out(&feeds);
    let record = &feeds.feeds[0].record;
    let earth = &record[405..4_629];
    let pairs = proved::Pairs::of(&feeds.bias);
    let (mut product, mut scenes) = (vec![0; LENGTH], vec![0; 2 * earth.len()]);
    let times = least_times(
        300,
        COUNT,
        &mut [
            &mut || assert_eq!(black_box(proved::feed_all(&mut list)), 0),
            &mut || {
                for _ in 0..COUNT {
                    black_box(proved::kept_value(black_box(&feeds.table), record, 58));
                }
            },
            &mut || {
                for _ in 0..COUNT {
                    let (k, pairs) = black_box((&CONSTANTS, &pairs));
                    black_box(proved::product(&mut product, 7, k, pairs, black_box(earth)));
                }
            },
            &mut || {
                for _ in 0..COUNT {
                    move_bytes(black_box(earth), black_box(&mut scenes));
                }
            },
        ],
    );
    let [scan, samples, writer, bytes] = [0, 1, 2, 3].map(|part: usize| times[part] / 1_000.0);
    let rest = scan - samples - writer;
    println!("of one scan, {scan:.2} us: its samples {samples:.2}, its product {writer:.2}, the rest {rest:.2}; moving its bytes alone {bytes:.2}");
}

fn main() {
    thermometers();
    samples();
    products();
    parts();
    states();
    feeds(100, 300);
    feeds(1_000, 30);
    feeds(10_000, 5);
}
