//! Writes a class day of one studio as a trace file: `day [SEED] > FILE`.

use std::io::Write;
use std::process::ExitCode;

use bench::model::sheet::SHEET_INPUT;
use bench::model::tally::Settings;
use bench::model::trace::write_number;
use bench::random::Random;

const DEFAULT_SEED: u64 = 7;
const ROUTES: usize = 300;
const CLASSES: u64 = 15;
const BIKES: u64 = 24;

/// A small box: room for many gradient files and a few videos, not for the longest video.
const SETTINGS: Settings = Settings {
    unit: 12,
    policy: 2,
    capacity: 14_000_000,
    places: 400,
    catalogue: 2 * ROUTES as u64,
};

/// What a route is ridden for; a class goes through them in this order.
const CLASS_PLAN: [Part; 6] = [
    Part::WarmUp,
    Part::Interval,
    Part::Climb,
    Part::Interval,
    Part::Climb,
    Part::Interval,
];

#[derive(Clone, Copy)]
enum Part {
    WarmUp,
    Interval,
    Climb,
}

impl Part {
    /// The routes of this part, the most popular first.
    fn routes(self) -> std::ops::Range<usize> {
        match self {
            Part::WarmUp => 0..20,
            Part::Interval => 20..140,
            Part::Climb => 140..ROUTES,
        }
    }

    /// Least and most bytes of the video shown with it.
    fn video_bytes(self) -> (u64, u64) {
        match self {
            Part::WarmUp => (1_500_000, 4_000_000),
            Part::Interval => (2_500_000, 7_000_000),
            Part::Climb => (6_000_000, 16_000_000),
        }
    }
}

/// Bytes a millisecond from the far depot, the near one and the studio's own mirror.
const PACES: [u64; 3] = [500, 1_500, 9_000];

/// A route has a gradient file for the bikes and a video for the screen.
struct Route {
    pace: u64,
    gradient_bytes: u64,
    video_bytes: u64,
}

fn main() -> ExitCode {
    let seed = std::env::args().nth(1).map(|text| text.parse());
    let Ok(seed) = seed.unwrap_or(Ok(DEFAULT_SEED)) else {
        eprintln!("day [SEED]");
        return ExitCode::from(2);
    };
    match std::io::stdout().write_all(&class_day(seed)) {
        Ok(()) => ExitCode::SUCCESS,
        Err(_) => ExitCode::FAILURE,
    }
}

fn class_day(seed: u64) -> Vec<u8> {
    let mut random = Random::new(seed);
    let routes = routes(&mut random);
    let mut bytes = Vec::new();
    for word in SETTINGS.words() {
        write_number(word, &mut bytes);
    }
    for class in 0..CLASSES {
        let riders = riders(&mut random, class);
        for part in CLASS_PLAN {
            let route = popular(&mut random, part.routes());
            ride(&mut random, &mut bytes, route, &routes[route], riders);
        }
    }
    bytes
}

fn routes(random: &mut Random) -> Vec<Route> {
    let parts = [Part::WarmUp, Part::Interval, Part::Climb];
    let each = parts
        .into_iter()
        .flat_map(|part| part.routes().map(move |_| part));
    each.map(|part| {
        let (least, most) = part.video_bytes();
        Route {
            pace: random.pick(&PACES),
            gradient_bytes: random.between(2_000, 48_000),
            video_bytes: random.between(least, most),
        }
    })
    .collect()
}

/// Early and evening classes are full, those about noon are not.
fn riders(random: &mut Random, class: u64) -> u64 {
    let about_noon = (3..CLASSES - 4).contains(&class);
    if about_noon {
        random.between(BIKES / 6, BIKES / 2)
    } else {
        random.between(BIKES / 2, BIKES)
    }
}

/// A route of the range: each is asked for in the measure of 1 by its rank.
fn popular(random: &mut Random, routes: std::ops::Range<usize>) -> usize {
    let total: f64 = (1..=routes.len()).map(|rank| 1.0 / rank as f64).sum();
    let mut height = random.fraction() * total;
    let mut rank = 1;
    while rank < routes.len() && height >= 1.0 / rank as f64 {
        height -= 1.0 / rank as f64;
        rank += 1;
    }
    routes.start + rank - 1
}

/// Every bike asks for the gradient file; the screen asks for the video in their midst.
fn ride(random: &mut Random, bytes: &mut Vec<u8>, route: usize, files: &Route, riders: u64) {
    let screen = random.below(riders);
    for bike in 0..riders {
        if bike == screen {
            ask(random, bytes, 2 * route + 1, files.video_bytes, files.pace);
        }
        ask(random, bytes, 2 * route, files.gradient_bytes, files.pace);
    }
}

/// One request, unless the file would grow past what the program takes.
fn ask(random: &mut Random, bytes: &mut Vec<u8>, file: usize, size: u64, pace: u64) {
    let mut request = Vec::new();
    for number in [file as u64, size, milliseconds(random, size, pace)] {
        write_number(number, &mut request);
    }
    if bytes.len() + request.len() <= SHEET_INPUT {
        bytes.extend(request);
    }
}

/// What a fetch took; one bike in eight has a dead timer and says 0.
fn milliseconds(random: &mut Random, size: u64, pace: u64) -> u64 {
    if random.one_in(8) {
        return 0;
    }
    random.between(15, 60) + size / pace
}

#[cfg(test)]
mod tests {
    use super::{class_day, DEFAULT_SEED};
    use bench::model::sheet::sheet;

    #[test]
    fn the_sample_is_the_day_of_the_default_seed() {
        let sample = include_bytes!("../../../samples/class-day.trace");
        assert_eq!(class_day(DEFAULT_SEED), sample);
    }

    #[test]
    fn every_day_has_a_sheet_with_all_kinds() {
        for seed in 0..20 {
            let text = sheet(&class_day(seed));
            for kind in ["hit ", "admit ", "big ", "low ", "evict "] {
                assert!(text.contains(kind), "seed {seed} has no {kind}");
            }
        }
    }
}
