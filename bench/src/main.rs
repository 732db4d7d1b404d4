//! The benchmark: the proved library beside the reference, in one process and on the same inputs.
//!
//!     LIZKORPE_STATICLIB=folder cargo run --release -p bench

use differential::library::{self, DESK_ROOM, FORMAT_ROOM};
use generate::random::Random;
use generate::steps::{self, Workload};
use generate::texts;
use reference::script::{self, LONGEST_TEXT, MOST_CUES};
use reference::{session, stamp};
use std::hint::black_box;
use std::time::Instant;

const FORMAT_ROUNDS: usize = 501;
const DESK_ROUNDS: usize = 501;
const TURN_ROUNDS: usize = 41;
const TURN_INPUTS: usize = 24;
const STAMP_ROUNDS: usize = 21;
const STAMP_BYTES: usize = 64 << 20;

fn main() {
    let mut random = Random::new(1);
    let many = texts::of_size(&mut random, LONGEST_TEXT, MOST_CUES);
    let few = texts::of_size(&mut random, LONGEST_TEXT, 16);
    let normal = script::format(&many);
    let mut refused = many.clone();
    refused[LONGEST_TEXT - 2] = b'x'; // the last byte before the last LF

    println!("Median of {FORMAT_ROUNDS} rounds ({STAMP_ROUNDS} for the stamp) after a warm-up of a tenth as many; the");
    println!("two sides take turns at going first. Lizkorpe writes to one lent buffer, not cleared between rounds;");
    println!("plain Rust formats into a new vector, and its desk appends to one vector with room for all.\n");
    println!("| workload | plain Rust | Lizkorpe | Lizkorpe / Rust |");
    println!("|---|--:|--:|--:|");
    format_row("read and write 65,536 bytes, 256 different cues", &many);
    format_row("read and write 65,536 bytes, 16 different cues", &few);
    format_row("read and write the normal form of 256 cues", &normal);
    format_row("read 65,536 bytes, last line malformed", &refused);
    stamp_row("stamp of 64 MiB", &random.bytes(STAMP_BYTES));

    println!("\n| the desk, 65,536 bytes | steps | waiting | plain Rust | Lizkorpe | Lizkorpe / Rust | Lizkorpe |");
    println!("|---|--:|--:|--:|--:|--:|--:|");
    for (name, workload) in WORKLOADS {
        desk_row(name, &steps::full(&mut random, workload, LONGEST_TEXT));
    }

    println!(
        "\nA round goes through {TURN_INPUTS} different inputs of a kind ({TURN_ROUNDS} rounds), so that the processor"
    );
    println!("cannot learn the branches of one input by heart.\n");
    println!("| the desk, {TURN_INPUTS} inputs in turn | plain Rust | Lizkorpe | Lizkorpe / Rust |");
    println!("|---|--:|--:|--:|");
    for (name, workload) in WORKLOADS {
        let inputs: Vec<_> = (0..TURN_INPUTS).map(|_| steps::full(&mut random, workload, LONGEST_TEXT)).collect();
        turns_row(name, &inputs);
    }
}

const WORKLOADS: [(&str, Workload); 3] = [
    ("many different cues", Workload::ManyCues),
    ("few cues and much waiting", Workload::Waiting),
    ("a nearly full script", Workload::NearlyFull),
];

/// A row of the desk's table, in nanoseconds for each step; and how many of the steps were told to wait.
fn desk_row(workload: &str, input: &[u8]) {
    let mut buffer = vec![0; DESK_ROOM];
    let mut output = Vec::with_capacity(DESK_ROOM);
    session::append(input, &mut output);
    let length = library::desk(input, &mut buffer);
    assert_eq!(length, output.len() as u64, "{workload}: the lengths differ");
    assert_eq!(buffer[..output.len()], output, "{workload}: the bytes differ");
    let (_, list) = session::read(input).expect("the start is accepted");
    let steps = script::lines(list).count() as f64;
    let waiting = script::lines(&output).filter(|line| line.starts_with(b"refused,8,")).count() as f64;

    let plain = || {
        output.clear();
        session::append(black_box(input), black_box(&mut output));
    };
    let proved = || library::desk(black_box(input), black_box(&mut buffer));
    let (plain, proved) = medians(DESK_ROUNDS, plain, proved);
    let [rust, ours] = [plain, proved].map(|seconds| format!("{:.1} ns/step", seconds * 1e9 / steps));
    let (share, speed) = (100.0 * waiting / steps, steps / proved / 1e6);
    println!(
        "| {workload} | {steps} | {share:.0} % | {rust} | {ours} | {:.2} | {speed:.1} M steps/s |",
        proved / plain
    );
}

/// A row of the second table: all inputs one after the other, in nanoseconds for each step.
fn turns_row(workload: &str, inputs: &[Vec<u8>]) {
    let mut buffer = vec![0; DESK_ROOM];
    let mut output = Vec::with_capacity(DESK_ROOM);
    let mut steps = 0;
    for input in inputs {
        output.clear();
        session::append(input, &mut output);
        let length = library::desk(input, &mut buffer);
        assert_eq!(length, output.len() as u64, "{workload}: the lengths differ");
        assert_eq!(buffer[..output.len()], output, "{workload}: the bytes differ");
        let (_, list) = session::read(input).expect("the start is accepted");
        steps += script::lines(list).count();
    }

    let plain = || {
        for input in inputs {
            output.clear();
            session::append(black_box(input), black_box(&mut output));
        }
    };
    let proved = || {
        for input in inputs {
            black_box(library::desk(black_box(input), black_box(&mut buffer)));
        }
    };
    let (plain, proved) = medians(TURN_ROUNDS, plain, proved);
    let [rust, ours] = [plain, proved].map(|seconds| format!("{:.1} ns/step", seconds * 1e9 / steps as f64));
    println!("| {workload} | {rust} | {ours} | {:.2} |", proved / plain);
}

/// A row of the table, in nanoseconds for each line of the text.
fn format_row(workload: &str, text: &[u8]) {
    let mut buffer = [0; FORMAT_ROOM];
    let expected = script::format(text);
    let length = library::format(text, &mut buffer);
    assert_eq!(length, expected.len() as u64, "{workload}: the lengths differ");
    assert_eq!(buffer[..expected.len()], expected, "{workload}: the bytes differ");

    let plain = || script::format(black_box(text));
    let proved = || library::format(black_box(text), black_box(&mut buffer));
    let (plain, proved) = medians(FORMAT_ROUNDS, plain, proved);
    let lines = text.split_inclusive(|&byte| byte == b'\n').count() as f64;
    let [rust, ours] = [plain, proved].map(|seconds| format!("{:.1} ns/line", seconds * 1e9 / lines));
    println!("| {workload} | {rust} | {ours} | {:.2} |", proved / plain);
}

/// A row of the table, in bytes for each nanosecond.
fn stamp_row(workload: &str, text: &[u8]) {
    assert_eq!(library::checksum(0, text), stamp::stamp(text), "{workload}: the stamps differ");

    let plain = || stamp::stamp(black_box(text));
    let proved = || library::checksum(0, black_box(text));
    let (plain, proved) = medians(STAMP_ROUNDS, plain, proved);
    let [rust, ours] = [plain, proved].map(|seconds| format!("{:.2} GB/s", text.len() as f64 / seconds / 1e9));
    println!("| {workload} | {rust} | {ours} | {:.2} |", proved / plain);
}

/// The median time of each side in seconds.
fn medians<P, Q>(rounds: usize, mut plain: impl FnMut() -> P, mut proved: impl FnMut() -> Q) -> (f64, f64) {
    let warm_up = rounds / 10;
    let (mut plain_times, mut proved_times) = (Vec::new(), Vec::new());
    for round in 0..warm_up + rounds {
        if round % 2 == 0 {
            plain_times.push(seconds(&mut plain));
            proved_times.push(seconds(&mut proved));
        } else {
            proved_times.push(seconds(&mut proved));
            plain_times.push(seconds(&mut plain));
        }
    }
    (median(&mut plain_times[warm_up..]), median(&mut proved_times[warm_up..]))
}

/// The time of one call, with that of dropping its result.
fn seconds<R>(work: &mut impl FnMut() -> R) -> f64 {
    let start = Instant::now();
    drop(black_box(work()));
    start.elapsed().as_secs_f64()
}

fn median(times: &mut [f64]) -> f64 {
    times.sort_by(f64::total_cmp);
    times[times.len() / 2]
}
