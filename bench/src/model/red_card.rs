//! The numbers on the red card, and an answer as the boundary gives it.

#[derive(Clone, Copy, Debug, PartialEq, Eq)]
pub enum Refusal {
    Setting,
    ShortTable,
    /// The offset of the number that is badly formed.
    Form(usize),
    /// Reading, the offset of the number; writing, the index of the request.
    Range(usize),
    RunLimit,
    Room,
    Unsound,
    OtherUnit,
    LongInput,
    /// The number of a log's line, counted from 1.
    BadLine(usize),
    NoRequests,
    /// Bytes asked are past what a double holds exactly.
    Inexact,
}

impl Refusal {
    pub fn number(self) -> u64 {
        match self {
            Refusal::Setting => 1,
            Refusal::ShortTable => 2,
            Refusal::Form(_) => 3,
            Refusal::Range(_) => 4,
            Refusal::RunLimit => 5,
            Refusal::Room => 6,
            Refusal::Unsound => 7,
            Refusal::OtherUnit => 8,
            Refusal::LongInput => 9,
            Refusal::BadLine(_) => 10,
            Refusal::NoRequests => 11,
            Refusal::Inexact => 12,
        }
    }

    fn value(self) -> u64 {
        match self {
            Refusal::Form(at) | Refusal::Range(at) | Refusal::BadLine(at) => at as u64,
            _ => 0,
        }
    }
}

/// The number of the red card, 0 when done, and what comes with it.
#[derive(Clone, Copy, Debug, PartialEq, Eq)]
pub struct Answer {
    pub value: u64,
    pub number: u64,
}

impl Answer {
    pub fn done(value: usize) -> Self {
        Answer {
            value: value as u64,
            number: 0,
        }
    }

    pub fn refused(refusal: Refusal) -> Self {
        Answer {
            value: refusal.value(),
            number: refusal.number(),
        }
    }
}

/// Refuses unless the condition holds.
pub fn require(condition: bool, refusal: Refusal) -> Result<(), Refusal> {
    if condition {
        Ok(())
    } else {
        Err(refusal)
    }
}
