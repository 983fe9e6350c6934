//! Squid logs line by line: what a good line comes to is known from the making, and so is what makes a bad one bad.

use bench::model::limits::{MOST_COST, MOST_SIZE};
use bench::model::trace::Request;
use bench::random::Random;

/// One line without its line feed, and the request that it counts as, if any.
#[derive(Clone)]
pub struct Line {
    pub bytes: Vec<u8>,
    pub request: Option<Request>,
}

/// The fields of one line, in their order.
type Fields = [Vec<u8>; 10];

const ELAPSED: usize = 1;
const CODE: usize = 3;
const SIZE: usize = 4;
const METHOD: usize = 5;
const URL: usize = 6;

/// Bytes that look like a digit, a space or an end of line and are none, with the ends of the digits.
const ODD: [u8; 16] = [
    b'\t', b'\r', 0, 11, 12, b'+', b'-', b'.', b'/', b':', b'a', 127, 128, 160, 178, 255,
];

/// Any byte but the two that part lines and fields.
fn any_byte(random: &mut Random) -> u8 {
    let any = random.word() as u8;
    let byte = if random.one_in(3) {
        random.pick(&ODD)
    } else {
        any
    };
    match byte {
        b' ' | b'\n' => b'x',
        _ => byte,
    }
}

/// A field that nothing is read from.
fn any_field(random: &mut Random) -> Vec<u8> {
    let usual: [&[u8]; 5] = [b"-", b"127.0.0.1", b"HIER_NONE/-", b"GET", b"/200"];
    if random.one_in(2) {
        return random.pick(&usual).to_vec();
    }
    let length = random.between(1, 6);
    (0..length).map(|_| any_byte(random)).collect()
}

/// A number in digits, at times with zeros in front.
fn digits(random: &mut Random, number: u128) -> Vec<u8> {
    let zeros = random.pick(&[0, 0, 0, 1, 3, 40]);
    format!("{}{number}", "0".repeat(zeros)).into_bytes()
}

/// A number that would be taken for a good one by whoever keeps its lowest bits alone.
fn overflowing(random: &mut Random, good: u64) -> u128 {
    let width = random.pick(&[32, 64, 96, 120]);
    (1 << width) + u128::from(good)
}

/// Text up to a URL's last slash.
fn url_before_number(random: &mut Random) -> Vec<u8> {
    let usual: [&[u8]; 5] = [
        b"http://box:80/routes/",
        b"/",
        b"//",
        b"7/",
        b"http://box/12/",
    ];
    let mut url = random.pick(&usual).to_vec();
    if random.one_in(4) {
        let mut odd = any_field(random);
        odd.extend(url);
        url = odd;
    }
    url
}

/// An elapsed time and the cost that it counts as.
fn elapsed(random: &mut Random) -> (Vec<u8>, u64) {
    let any = random.below(MOST_COST + 1);
    let number = random.pick(&[0, 0, 1, 2, any, any, MOST_COST, MOST_COST + 1, u64::MAX]);
    let text = if random.one_in(8) {
        let long = overflowing(random, number);
        return (digits(random, long), MOST_COST);
    } else {
        digits(random, number.into())
    };
    (text, number.clamp(1, MOST_COST))
}

/// The fields of a counted line, and its request.
fn counted(random: &mut Random, catalogue: u64) -> (Fields, Request) {
    let (elapsed, cost) = elapsed(random);
    let any_size = random.between(1, MOST_SIZE);
    let size = random.pick(&[1, 127, 128, 8_214, any_size, MOST_SIZE]);
    let any_file = random.below(catalogue);
    let file = random.pick(&[0, any_file, any_file, catalogue - 1]);
    let mut fields: Fields = std::array::from_fn(|_| any_field(random));
    fields[ELAPSED] = elapsed;
    fields[CODE] = random
        .pick::<&[u8]>(&[b"TCP_MISS/200", b"/200", b"TCP_HIT/404/200", b"\xff\0/200"])
        .to_vec();
    fields[SIZE] = digits(random, size.into());
    fields[METHOD] = b"GET".to_vec();
    let mut url = url_before_number(random);
    url.extend(digits(random, file.into()));
    fields[URL] = url;
    (fields, Request { file, size, cost })
}

/// Other methods and other ends of `code/status`, the nearest to the right ones among them.
fn skipped(random: &mut Random, catalogue: u64) -> Fields {
    let (mut fields, _) = counted(random, catalogue);
    let methods: [&[u8]; 8] = [
        b"get", b"Get", b"GETS", b"GE", b"HEAD", b"POST", b"GET\r", b"\tGET",
    ];
    let codes: [&[u8]; 9] = [
        b"TCP_MISS/404",
        b"TCP_MISS/0200",
        b"TCP_MISS/2000",
        b"TCP_MISS/20",
        b"TCP_MISS/",
        b"TCP_MISS/200/",
        b"/200\r",
        b"/+200",
        b"200",
    ];
    if random.one_in(2) {
        fields[METHOD] = random.pick(&methods).to_vec();
    } else {
        fields[CODE] = random.pick(&codes).to_vec();
    }
    // Nothing else of a skipped line is judged.
    for at in [ELAPSED, SIZE, URL] {
        if random.one_in(2) {
            fields[at] = any_field(random);
        }
    }
    fields
}

/// One space, or a run of them.
fn spaces(random: &mut Random) -> Vec<u8> {
    vec![b' '; random.pick(&[1, 1, 1, 2, 7])]
}

/// The fields parted by runs of spaces, at times with spaces at the front and the end.
fn spaced(random: &mut Random, fields: &[Vec<u8>]) -> Vec<u8> {
    let mut bytes = Vec::new();
    if random.one_in(6) {
        bytes.extend(spaces(random));
    }
    for (index, field) in fields.iter().enumerate() {
        if index > 0 {
            bytes.extend(spaces(random));
        }
        bytes.extend(field);
    }
    if random.one_in(6) {
        bytes.extend(spaces(random));
    }
    bytes
}

/// As `spaced`, at times with fields behind the tenth.
fn whole_line(random: &mut Random, fields: Fields) -> Vec<u8> {
    let mut fields = fields.to_vec();
    let further = random.pick(&[0, 0, 0, 1, 3]);
    for _ in 0..further {
        fields.push(any_field(random));
    }
    spaced(random, &fields)
}

fn good_line(random: &mut Random, catalogue: u64) -> Line {
    let (fields, request) = if random.one_in(3) {
        (skipped(random, catalogue), None)
    } else {
        let (fields, request) = counted(random, catalogue);
        (fields, Some(request))
    };
    Line {
        bytes: whole_line(random, fields),
        request,
    }
}

pub fn good_lines(random: &mut Random, catalogue: u64, most: u64) -> Vec<Line> {
    let count = random.below(most + 1);
    (0..count).map(|_| good_line(random, catalogue)).collect()
}

/// The lines with their ends, which the last one may lack where it has a byte.
pub fn log_of(random: &mut Random, lines: &[Line]) -> Vec<u8> {
    let mut log = Vec::new();
    for line in lines {
        log.extend(&line.bytes);
        log.push(b'\n');
    }
    let lacks_end = lines.last().is_some_and(|last| !last.bytes.is_empty()) && random.one_in(2);
    if lacks_end {
        log.pop();
    }
    log
}

pub fn requests_of(lines: &[Line]) -> Vec<Request> {
    lines.iter().filter_map(|line| line.request).collect()
}

/// A way for a line to be bad: it makes a line that has this fault and no other.
pub type Fault = fn(&mut Random, u64) -> Vec<u8>;

pub const FAULTS: [(&str, Fault); 14] = [
    ("a blank line", |_, _| Vec::new()),
    ("spaces alone", |random, _| spaces(random)),
    ("a field lacks", lacks_fields),
    ("no slash in the URL", no_slash),
    ("nothing behind the last slash", nothing_behind),
    ("the file is no number", |random, catalogue| {
        no_number(random, catalogue, URL)
    }),
    ("the size is no number", |random, catalogue| {
        no_number(random, catalogue, SIZE)
    }),
    ("the time is no number", |random, catalogue| {
        no_number(random, catalogue, ELAPSED)
    }),
    ("a sign before a number", signed),
    ("a sign alone", sign_alone),
    ("the size is 0", size_0),
    ("the size is too large", large_size),
    ("the file is the catalogue", next_file),
    ("the file is far beyond", far_file),
];

/// A line with any of the faults.
pub fn bad_line(random: &mut Random, catalogue: u64) -> Line {
    let (_, fault) = random.pick(&FAULTS);
    Line {
        bytes: fault(random, catalogue),
        request: None,
    }
}

/// A counted line with its fields changed.
fn changed(random: &mut Random, catalogue: u64, change: fn(&mut Random, &mut Fields)) -> Vec<u8> {
    let (mut fields, _) = counted(random, catalogue);
    change(random, &mut fields);
    whole_line(random, fields)
}

/// Nine fields or fewer, whatever the line would have come to.
fn lacks_fields(random: &mut Random, catalogue: u64) -> Vec<u8> {
    let fields = if random.one_in(2) {
        skipped(random, catalogue)
    } else {
        counted(random, catalogue).0
    };
    let less = random.between(1, 9);
    let left = random.pick(&[9, 9, less]) as usize;
    spaced(random, &fields[..left])
}

fn no_slash(random: &mut Random, catalogue: u64) -> Vec<u8> {
    changed(random, catalogue, |_, fields| {
        fields[URL].retain(|&byte| byte != b'/')
    })
}

fn nothing_behind(random: &mut Random, catalogue: u64) -> Vec<u8> {
    changed(random, catalogue, |_, fields| fields[URL].push(b'/'))
}

/// Where the number of a field begins: behind its last slash, if it has one.
fn number_at(field: &[u8]) -> usize {
    let slash = field.iter().rposition(|&byte| byte == b'/');
    slash.map_or(0, |at| at + 1)
}

/// Puts one byte that is no digit before, into or behind a number.
fn no_number(random: &mut Random, catalogue: u64, field: usize) -> Vec<u8> {
    let (mut fields, _) = counted(random, catalogue);
    let text = &mut fields[field];
    let first = number_at(text);
    let within = first + random.index(text.len() - first);
    let at = random.pick(&[first, within, text.len()]);
    let mut byte = any_byte(random);
    // A slash in a URL only moves where its number begins.
    if byte.is_ascii_digit() || (byte == b'/' && field == URL) {
        byte = random.pick(&[b'\r', b'\t', b':', b'.', 0, 178]);
    }
    text.insert(at, byte);
    whole_line(random, fields)
}

fn signed(random: &mut Random, catalogue: u64) -> Vec<u8> {
    changed(random, catalogue, |random, fields| {
        let text = &mut fields[random.pick(&[ELAPSED, SIZE, URL])];
        text.insert(number_at(text), random.pick(b"+-"));
    })
}

/// No digit at all: Squid itself puts a hyphen where it has nothing to say.
fn sign_alone(random: &mut Random, catalogue: u64) -> Vec<u8> {
    changed(random, catalogue, |random, fields| {
        let at = random.pick(&[ELAPSED, SIZE]);
        fields[at] = random.pick::<&[u8]>(&[b"-", b"+", b"."]).to_vec();
    })
}

fn size_0(random: &mut Random, catalogue: u64) -> Vec<u8> {
    changed(random, catalogue, |random, fields| {
        fields[SIZE] = digits(random, 0)
    })
}

fn large_size(random: &mut Random, catalogue: u64) -> Vec<u8> {
    changed(random, catalogue, |random, fields| {
        let good = random.between(1, MOST_SIZE);
        let long = overflowing(random, good);
        let size = random.pick(&[u128::from(MOST_SIZE) + 1, u64::MAX.into(), long]);
        fields[SIZE] = digits(random, size);
    })
}

/// Puts another file number into a counted line.
fn with_file(random: &mut Random, catalogue: u64, file: u128) -> Vec<u8> {
    let (mut fields, _) = counted(random, catalogue);
    let mut url = url_before_number(random);
    url.extend(digits(random, file));
    fields[URL] = url;
    whole_line(random, fields)
}

fn next_file(random: &mut Random, catalogue: u64) -> Vec<u8> {
    with_file(random, catalogue, catalogue.into())
}

fn far_file(random: &mut Random, catalogue: u64) -> Vec<u8> {
    let good = random.below(catalogue);
    let long = overflowing(random, good);
    let sixteen_bits = u128::from(good) + 65_536;
    let file = random.pick(&[sixteen_bits, u64::MAX.into(), long]);
    with_file(random, catalogue, file)
}
