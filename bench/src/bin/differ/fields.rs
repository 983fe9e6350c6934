//! Traces number by number, some of the numbers badly formed or out of range.

use bench::model::limits::{MOST_COST, MOST_SIZE};
use bench::model::red_card::Refusal;
use bench::model::tally::{Settings, SETTING_RANGES};
use bench::model::trace::{write_number, Request};
use bench::random::Random;

/// One number of a trace as bytes, and what is wrong with it.
pub struct Field {
    bytes: Vec<u8>,
    fault: Option<Fault>,
}

impl Field {
    pub fn good(bytes: Vec<u8>) -> Self {
        Field { bytes, fault: None }
    }
}

#[derive(Clone, Copy)]
enum Fault {
    Form,
    Range,
}

/// Faults come seldom enough that one request has none, one or more.
const FAULT_CHANCES: u64 = 12;

fn field(random: &mut Random, number: u64, outside: u64) -> Field {
    let mut bytes = Vec::new();
    let fault = match random.below(FAULT_CHANCES) {
        0 => Some(Fault::Form),
        1 => Some(Fault::Range),
        _ => None,
    };
    match fault {
        None => write_number(number, &mut bytes),
        Some(Fault::Range) => write_number(outside, &mut bytes),
        Some(Fault::Form) if random.one_in(2) => bytes.extend([129, 129, 129, 129, 129, 129, 1]),
        Some(Fault::Form) => bytes.extend([128, 0]),
    }
    Field { bytes, fault }
}

fn request_fields(random: &mut Random, request: &Request, catalogue: u64) -> Vec<Field> {
    let outside_size = random.pick(&[0, MOST_SIZE + 1]);
    vec![
        field(random, request.file, catalogue),
        field(random, request.size, outside_size),
        field(random, request.cost, MOST_COST + 1),
    ]
}

pub fn setting_fields(random: &mut Random, settings: &Settings) -> Vec<Field> {
    let words = settings.words();
    (0..5)
        .map(|at| field(random, words[at], SETTING_RANGES[at].1 + 1))
        .collect()
}

pub fn all_requests(random: &mut Random, settings: &Settings, requests: &[Request]) -> Vec<Field> {
    requests
        .iter()
        .flat_map(|request| request_fields(random, request, settings.catalogue))
        .collect()
}

pub fn bytes_of(fields: &[Field]) -> Vec<u8> {
    fields
        .iter()
        .flat_map(|field| field.bytes.clone())
        .collect()
}

/// The first fault by place, for fields that begin at an offset.
fn first_fault(fields: &[Field], mut offset: usize) -> Option<(Fault, usize)> {
    for field in fields {
        if let Some(fault) = field.fault {
            return Some((fault, offset));
        }
        offset += field.bytes.len();
    }
    None
}

pub fn setting_fault(fields: &[Field]) -> Option<Refusal> {
    first_fault(fields, 0).map(|(fault, offset)| match fault {
        Fault::Form => Refusal::Form(offset),
        Fault::Range => Refusal::Setting,
    })
}

pub fn request_fault(fields: &[Field], offset: usize) -> Option<Refusal> {
    first_fault(fields, offset).map(|(fault, offset)| match fault {
        Fault::Form => Refusal::Form(offset),
        Fault::Range => Refusal::Range(offset),
    })
}
