//! Times the library beside the plain way over a Squid log, the sample again and again.

use std::time::Instant;

use bench::boundary::NOW;
use bench::store::median;

use crate::plain;

const SAMPLE: &[u8] = include_bytes!("../../../../samples/squid-5.7.log");
const CATALOGUE: u64 = 400;
const LOG_BYTES: usize = 64_000_000;

/// A way to turn a log into the bytes of a trace's part: it gives how many of the buffer's first they are.
type Way = fn(&[u8], &mut Vec<u8>) -> usize;

/// The plain way takes a catalogue, a log and an empty vector, and may give the number of a bad line.
type Plain = fn(u64, &[u8], &mut Vec<u8>) -> Result<(), usize>;

const WAYS: [(&str, Way); 3] = [
    ("library", |log, out| library(log, out)),
    ("split, text", |log, out| {
        plainly(plain::over_text, log, out)
    }),
    ("split, bytes", |log, out| {
        plainly(plain::over_bytes, log, out)
    }),
];

fn library(log: &[u8], out: &mut [u8]) -> usize {
    let answer = NOW.squid_part(CATALOGUE, log, out);
    assert_eq!(answer.number, 0, "the log is refused");
    answer.value as usize
}

fn plainly(way: Plain, log: &[u8], out: &mut Vec<u8>) -> usize {
    out.clear();
    way(CATALOGUE, log, out).expect("the log is good");
    out.len()
}

/// Prints the megabytes a second of each way, or tells which of them differs from the library.
pub fn time_all(runs: u64) -> Result<(), String> {
    let times = LOG_BYTES.div_ceil(SAMPLE.len());
    let log = SAMPLE.repeat(times);
    let mut nanoseconds = [const { Vec::new() }; WAYS.len()];
    // A trace is shorter than its log. Each way has its own buffer for all runs, and none is cleared between them.
    let mut outs: [Vec<u8>; WAYS.len()] = std::array::from_fn(|_| vec![0; log.len()]);
    for _ in 0..runs {
        let mut lengths = [0; WAYS.len()];
        for (at, (_, way)) in WAYS.iter().enumerate() {
            let start = Instant::now();
            lengths[at] = way(&log, &mut outs[at]);
            nanoseconds[at].push(start.elapsed().as_nanos());
        }
        for (at, (name, _)) in WAYS.iter().enumerate() {
            if outs[at][..lengths[at]] != outs[0][..lengths[0]] {
                return Err(format!("{name}: its trace is not the library's"));
            }
        }
    }
    print_table(&log, times, nanoseconds.map(median));
    Ok(())
}

fn print_table(log: &[u8], times: usize, medians: [f64; WAYS.len()]) {
    let megabytes = log.len() as f64 / 1e6;
    println!("\na Squid log of {megabytes:.1} MB, the sample {times} times, to a part of a trace");
    println!("in the last column the library's MB a second by the way's");
    println!("way           MB a second  library/way");
    for ((name, _), nanoseconds) in WAYS.iter().zip(medians) {
        let rate = megabytes * 1e9 / nanoseconds;
        println!("{name:<12} {rate:>12.0} {:>12.2}", nanoseconds / medians[0]);
    }
    println!("traces of all ways agree in every run");
}
