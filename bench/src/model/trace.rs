//! House numbers, and reading and writing a trace file or a further part of one.

use super::limits::{MOST_COST, MOST_SIZE};
use super::red_card::{require, Refusal};
use super::tally::{catalogue_in_range, setting_in_range, Settings};

const MOST_GROUPS: usize = 6;

#[derive(Clone, Copy, Debug, PartialEq, Eq)]
pub struct Request {
    pub file: u64,
    pub size: u64,
    pub cost: u64,
}

/// Requests as three lists, one entry a request; the file list fixes the count.
#[derive(Clone, Debug, Default, PartialEq, Eq)]
pub struct Lists {
    pub files: Vec<u16>,
    pub sizes: Vec<u32>,
    pub costs: Vec<u16>,
}

impl Lists {
    pub fn shortest(&self) -> usize {
        let others = self.sizes.len().min(self.costs.len());
        self.files.len().min(others)
    }

    pub fn push(&mut self, request: Request) {
        self.files.push(request.file as u16);
        self.sizes.push(request.size as u32);
        self.costs.push(request.cost as u16);
    }

    /// Puts a request over an entry that is there.
    pub fn set(&mut self, index: usize, request: Request) {
        self.files[index] = request.file as u16;
        self.sizes[index] = request.size as u32;
        self.costs[index] = request.cost as u16;
    }

    pub fn request(&self, index: usize) -> Request {
        Request {
            file: self.files[index].into(),
            size: self.sizes[index].into(),
            cost: self.costs[index].into(),
        }
    }
}

pub fn write_number(mut number: u64, bytes: &mut Vec<u8>) {
    while number >= 128 {
        bytes.push((number % 128) as u8 + 128);
        number /= 128;
    }
    bytes.push(number as u8);
}

/// The house number that begins at `at`, and the offset after it.
pub fn read_number(bytes: &[u8], at: usize) -> Result<(u64, usize), Refusal> {
    let mut number = 0;
    for group in 0..MOST_GROUPS {
        let byte = *bytes.get(at + group).ok_or(Refusal::Form(at))?;
        number += u64::from(byte % 128) << (7 * group);
        if byte < 128 {
            let needless = byte == 0 && group > 0;
            require(!needless, Refusal::Form(at))?;
            return Ok((number, at + group + 1));
        }
    }
    Err(Refusal::Form(at))
}

/// The five settings, each judged for form and then range, and the offset after them.
pub fn read_settings(bytes: &[u8]) -> Result<(Settings, usize), Refusal> {
    let mut words = [0; 5];
    let mut at = 0;
    for (field, word) in words.iter_mut().enumerate() {
        (*word, at) = read_number(bytes, at)?;
        require(setting_in_range(field, *word), Refusal::Setting)?;
    }
    Ok((Settings::from_words(words), at))
}

/// The requests from `at` to the end, each field judged for form and then range.
pub fn read_requests(bytes: &[u8], mut at: usize, catalogue: u64) -> Result<Vec<Request>, Refusal> {
    let ranges = [(0, catalogue - 1), (1, MOST_SIZE), (0, MOST_COST)];
    let mut requests = Vec::new();
    while at < bytes.len() {
        let mut fields = [0; 3];
        for (field, (least, most)) in fields.iter_mut().zip(ranges) {
            let (number, after) = read_number(bytes, at)?;
            require((least..=most).contains(&number), Refusal::Range(at))?;
            *field = number;
            at = after;
        }
        let [file, size, cost] = fields;
        requests.push(Request { file, size, cost });
    }
    Ok(requests)
}

/// Reads a file into lent lists; the settings are five words of a lent slice.
pub fn read_file(bytes: &[u8], settings: &mut [u64], lists: &mut Lists) -> Result<usize, Refusal> {
    let (read, at) = read_settings(bytes)?;
    let requests = read_requests(bytes, at, read.catalogue)?;
    let room = settings.len() >= 5 && lists.shortest() >= requests.len();
    require(room, Refusal::Room)?;
    settings[..5].copy_from_slice(&read.words());
    Ok(put(&requests, lists))
}

pub fn read_part(catalogue: u64, bytes: &[u8], lists: &mut Lists) -> Result<usize, Refusal> {
    require(catalogue_in_range(catalogue), Refusal::Setting)?;
    let requests = read_requests(bytes, 0, catalogue)?;
    require(lists.shortest() >= requests.len(), Refusal::Room)?;
    Ok(put(&requests, lists))
}

fn put(requests: &[Request], lists: &mut Lists) -> usize {
    for (index, request) in requests.iter().enumerate() {
        lists.set(index, *request);
    }
    requests.len()
}

pub fn write_file(settings: &Settings, lists: &Lists, out: &mut [u8]) -> Result<usize, Refusal> {
    require(settings.in_range(), Refusal::Setting)?;
    let mut bytes = Vec::new();
    for word in settings.words() {
        write_number(word, &mut bytes);
    }
    write_requests(settings.catalogue, lists, &mut bytes)?;
    put_bytes(&bytes, out)
}

pub fn write_part(catalogue: u64, lists: &Lists, out: &mut [u8]) -> Result<usize, Refusal> {
    require(catalogue_in_range(catalogue), Refusal::Setting)?;
    let mut bytes = Vec::new();
    write_requests(catalogue, lists, &mut bytes)?;
    put_bytes(&bytes, out)
}

fn write_requests(catalogue: u64, lists: &Lists, bytes: &mut Vec<u8>) -> Result<(), Refusal> {
    let count = lists.files.len();
    require(lists.shortest() == count, Refusal::ShortTable)?;
    for index in 0..count {
        let Request { file, size, cost } = lists.request(index);
        let in_range =
            file < catalogue && (1..=MOST_SIZE).contains(&size) && (0..=MOST_COST).contains(&cost);
        require(in_range, Refusal::Range(index))?;
        for field in [file, size, cost] {
            write_number(field, bytes);
        }
    }
    Ok(())
}

/// Puts all the bytes at the start of a lent buffer, or none where they have no room.
pub fn put_bytes(bytes: &[u8], out: &mut [u8]) -> Result<usize, Refusal> {
    require(out.len() >= bytes.len(), Refusal::Room)?;
    out[..bytes.len()].copy_from_slice(bytes);
    Ok(bytes.len())
}
