//! What the model makes of a Squid log, its trace file or the sheet of that:
//! `squid [sheet] UNIT POLICY CAPACITY PLACES CATALOGUE < LOG`.

use std::io::{Read, Write};
use std::process::ExitCode;

use bench::model::red_card::Refusal;
use bench::model::sheet::sheet;
use bench::model::squid::squid_file;
use bench::model::tally::Settings;

/// Bytes that five settings take at most.
const MOST_SETTINGS: usize = 17;

fn main() -> ExitCode {
    let mut words: Vec<String> = std::env::args().skip(1).collect();
    let wants_sheet = words.first().is_some_and(|word| word == "sheet");
    words.drain(..usize::from(wants_sheet));
    let Some(settings) = settings(&words) else {
        eprintln!("squid [sheet] UNIT POLICY CAPACITY PLACES CATALOGUE < LOG");
        return ExitCode::from(2);
    };
    let mut log = Vec::new();
    if let Err(error) = std::io::stdin().read_to_end(&mut log) {
        eprintln!("squid: {error}");
        return ExitCode::FAILURE;
    }
    let bytes = match trace(&settings, &log) {
        Ok(trace) if wants_sheet => sheet(&trace).into_bytes(),
        Ok(trace) => trace,
        Err(refusal) => {
            eprintln!("refused: {refusal:?}");
            return ExitCode::FAILURE;
        }
    };
    match std::io::stdout().write_all(&bytes) {
        Ok(()) => ExitCode::SUCCESS,
        Err(_) => ExitCode::FAILURE,
    }
}

fn settings(words: &[String]) -> Option<Settings> {
    let numbers: Option<Vec<u64>> = words.iter().map(|word| word.parse().ok()).collect();
    let words = <[u64; 5]>::try_from(numbers?).ok()?;
    Some(Settings::from_words(words))
}

fn trace(settings: &Settings, log: &[u8]) -> Result<Vec<u8>, Refusal> {
    // Every counted line is longer than its request.
    let mut out = vec![0; MOST_SETTINGS + log.len()];
    let length = squid_file(settings, log, &mut out)?;
    out.truncate(length);
    Ok(out)
}

#[cfg(test)]
mod tests {
    use super::{sheet, trace};
    use bench::model::run::Run;
    use bench::model::squid::requests;
    use bench::model::tally::{Settings, Tally};

    const LOG: &[u8] = include_bytes!("../../../samples/squid-5.7.log");
    const SHEET: &str = include_str!("../../../samples/squid-5.7.sheet");

    /// The same requests, logged in Squid's native format and with the body's size in place of the bytes sent.
    const NATIVE: &[u8] = include_bytes!("../../../samples/recuts-native.log");
    const BODIES: &[u8] = include_bytes!("../../../samples/recuts-bodies.log");
    const BODIES_SHEET: &str = include_str!("../../../samples/recuts-bodies.sheet");

    /// A box that is too small for two of the files and for most of the others at once.
    const SETTINGS: Settings = Settings {
        unit: 57,
        policy: 2,
        capacity: 48_000,
        places: 6,
        catalogue: 400,
    };

    /// A box that keeps every file.
    const AMPLE: Settings = Settings {
        capacity: 1_000_000,
        places: 512,
        ..SETTINGS
    };

    #[test]
    fn the_sheets_of_the_samples_are_the_models() {
        let small = trace(&SETTINGS, LOG).expect("the sample is good");
        assert_eq!(sheet(&small), SHEET);
        for kind in ["hit ", "admit ", "big ", "low ", "evict ", "stale "] {
            assert!(SHEET.contains(kind), "no {kind}");
        }
        let bodies = trace(&AMPLE, BODIES).expect("the sample is good");
        assert_eq!(sheet(&bodies), BODIES_SHEET);
    }

    /// File numbers of the counted lines, and how many of these have lines of two sizes.
    #[test]
    fn files_and_those_of_two_sizes_are_as_docs_squid_says() {
        let requests = requests(LOG, SETTINGS.catalogue).expect("the sample is good");
        let mut sizes: Vec<(u64, u64)> = requests.iter().map(|r| (r.file, r.size)).collect();
        sizes.sort_unstable();
        sizes.dedup();
        let mut files: Vec<u64> = sizes.iter().map(|&(file, _)| file).collect();
        files.dedup();
        assert_eq!(
            (requests.len(), files.len(), sizes.len()),
            (267, 29, 29 + 15)
        );
    }

    fn replayed(log: &[u8], settings: Settings) -> Tally {
        let mut run = Run::fresh(settings);
        run.serve_all(&requests(log, settings.catalogue).expect("the sample is good"));
        run.tally
    }

    /// Hits, stale copies, admitted, evicted, hit bytes and hit cost.
    fn row(log: &[u8], settings: Settings) -> [u64; 6] {
        let tally = replayed(log, settings);
        let [hits, dropped] = [tally.hits, tally.dropped];
        let [admitted, evicted] = [tally.admitted, tally.evicted];
        let [hit_bytes, hit_cost] = [tally.hit_bytes, tally.hit_cost];
        [hits, dropped, admitted, evicted, hit_bytes, hit_cost]
    }

    #[test]
    fn the_boxes_are_as_docs_squid_says() {
        let first = Settings {
            policy: 1,
            ..SETTINGS
        };
        assert_eq!(row(LOG, SETTINGS), [125, 9, 40, 26, 1_090_134, 218]);
        assert_eq!(row(LOG, first), [115, 5, 150, 142, 1_214_003, 208]);
        assert_eq!(row(LOG, AMPLE), [215, 23, 52, 0, 3_192_865, 428]);
        let ample_first = Settings { policy: 1, ..AMPLE };
        assert_eq!(row(LOG, ample_first), row(LOG, AMPLE));
        assert_eq!(replayed(LOG, AMPLE).bytes_asked, 4_420_332);
    }

    #[test]
    fn one_size_a_cut_gives_squids_own_hits() {
        assert_eq!(row(NATIVE, AMPLE)[..2], [33, 23]);
        assert_eq!(row(BODIES, AMPLE)[..2], [52, 4]);
        let text = std::str::from_utf8(BODIES).expect("a log of plain text");
        assert_eq!(text.matches("TCP_MEM_HIT/200").count(), 52);
    }
}
