//! Refusals and faults, with their numbers.

/// Why a call is refused. The discriminant is the refusal's number; 5 is only of `cut`, which no file calls.
#[derive(Clone, Copy, Debug, PartialEq, Eq, PartialOrd, Ord)]
pub enum Refusal {
    UnknownTask = 1,
    SheetFull = 2,
    Durations = 3,
    Circle = 4,
    DeadlineRange = 6,
    OtherKind = 7,
    BookRule = 8,
    StepsFull = 9,
    NoOrder = 10,
    NotALine = 11,
    BadSum = 12,
    BadFrame = 13,
    Memory = 14,
    Placed = 15,
    NotReady = 16,
    NoOrderSo = 17,
}

impl Refusal {
    pub fn number(self) -> u8 {
        self as u8
    }
}

/// The number of a call's answer: 0 where it was accepted.
pub fn number(answer: Result<(), Refusal>) -> u8 {
    answer.map_or_else(Refusal::number, |()| 0)
}

/// Where a fault arose.
#[derive(Clone, Copy, Debug, PartialEq, Eq, PartialOrd, Ord)]
pub enum Layer {
    Text = 1,
    Frame = 2,
    Sheet = 3,
    Book = 4,
    Plan = 5,
}

/// Why a file is not loaded, or its sheet has no plan. Lines are counted from 1; 0 means no line.
#[derive(Clone, Copy, Debug, PartialEq, Eq)]
pub struct Fault {
    pub layer: Layer,
    pub cause: Refusal,
    pub line: usize,
}
