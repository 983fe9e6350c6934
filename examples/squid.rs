//! Writes a Squid native access log as a trace file: squid UNIT POLICY CAPACITY PLACES CATALOGUE < LOG > TRACE
//! Exit status: 0 done, 1 refused by the red card, 2 not tried or not written.
//!
//! rustc -O squid.rs -L target/staticlib -l static=snailstamp

use std::io::{Read, Write};
use std::process::ExitCode;

extern "C" {
    fn snailstamp_squid_file(
        unit: u64,
        policy: u64,
        capacity: u64,
        places: u64,
        catalogue: u64,
        log: *const u8,
        log_length: usize,
        out: *mut u8,
        out_length: usize,
    ) -> u64;
}

const USAGE: &str = "squid UNIT POLICY CAPACITY PLACES CATALOGUE < LOG > TRACE";

/// Five settings have at most this many bytes, and a counted line is longer than its request.
const MOST_SETTINGS: usize = 17;

/// A number of the red card, and the value that comes with it.
struct Refused {
    number: u64,
    value: u64,
}

fn trace(settings: [u64; 5], log: &[u8]) -> Result<Vec<u8>, Refused> {
    let [unit, policy, capacity, places, catalogue] = settings;
    let mut out = vec![0; MOST_SETTINGS + log.len()];
    // Both pointers come with the length of their own slice, and the two do not overlap.
    let answer = unsafe {
        snailstamp_squid_file(
            unit,
            policy,
            capacity,
            places,
            catalogue,
            log.as_ptr(),
            log.len(),
            out.as_mut_ptr(),
            out.len(),
        )
    };
    let (value, number) = (answer / 256, answer % 256);
    if number > 0 {
        return Err(Refused { number, value });
    }
    out.truncate(value as usize);
    Ok(out)
}

fn meaning(refused: &Refused) -> String {
    match refused.number {
        1 => "a setting is out of range: unit 0 to 4294967295, policy 1 or 2, capacity 1 to 1099511627775, \
              places 1 to 4096, catalogue 1 to 32768"
            .into(),
        10 => format!(
            "line {line} has fewer than ten fields, or counts and has a bad number or one out of range; \
             sed -n {line}p shows it",
            line = refused.value
        ),
        _ => "see the red card".into(),
    }
}

fn settings() -> Option<[u64; 5]> {
    let words = std::env::args().skip(1).map(|word| word.parse().ok());
    let numbers: Option<Vec<u64>> = words.collect();
    numbers?.try_into().ok()
}

fn main() -> ExitCode {
    let Some(settings) = settings() else {
        eprintln!("{USAGE}");
        return ExitCode::from(2);
    };
    let mut log = Vec::new();
    if let Err(error) = std::io::stdin().read_to_end(&mut log) {
        eprintln!("squid: the log can't be read: {error}");
        return ExitCode::from(2);
    }
    let trace = match trace(settings, &log) {
        Ok(trace) => trace,
        Err(refused) => {
            eprintln!("refused {}: {}", refused.number, meaning(&refused));
            return ExitCode::from(1);
        }
    };
    let mut out = std::io::stdout();
    if let Err(error) = out.write_all(&trace).and_then(|()| out.flush()) {
        eprintln!("squid: the trace can't be written: {error}");
        return ExitCode::from(2);
    }
    ExitCode::SUCCESS
}
