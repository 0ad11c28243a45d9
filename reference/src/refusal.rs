//! Answers: what a call returns, and how it is packed into one number.

use std::ops::AddAssign;

/// Why a call was refused. The numbers are those of the paper's table.
#[derive(Clone, Copy, Debug, PartialEq, Eq, PartialOrd, Ord, Hash)]
#[repr(u8)]
pub enum Reason {
    TableShort = 1,
    SizeOutsideLimits = 2,
    TableLength = 3,
    BadNode = 4,
    WrongParty = 5,
    ExposedCall = 6,
    NodeDerivations = 7,
    BufferLength = 8,
    StateNotWellFormed = 9,
    StepOutOfRange = 10,
    KeysPending = 11,
    ResidualDerivations = 12,
    NoSuchChoice = 13,
    GuardFails = 14,
    ExpressionAbsent = 15,
    ClockAtEnd = 16,
    ResidualTooLong = 17,
    KeyNotInSet = 18,
    ScheduleLength = 19,
    AnswersShort = 20,
    NoSuchName = 21,
    ShelfFull = 22,
}

/// How many refusals there are; they count from 1.
pub const REASONS: usize = 22;

impl Reason {
    /// In the order of the numbers.
    pub const ALL: [Reason; REASONS] = [
        Reason::TableShort,
        Reason::SizeOutsideLimits,
        Reason::TableLength,
        Reason::BadNode,
        Reason::WrongParty,
        Reason::ExposedCall,
        Reason::NodeDerivations,
        Reason::BufferLength,
        Reason::StateNotWellFormed,
        Reason::StepOutOfRange,
        Reason::KeysPending,
        Reason::ResidualDerivations,
        Reason::NoSuchChoice,
        Reason::GuardFails,
        Reason::ExpressionAbsent,
        Reason::ClockAtEnd,
        Reason::ResidualTooLong,
        Reason::KeyNotInSet,
        Reason::ScheduleLength,
        Reason::AnswersShort,
        Reason::NoSuchName,
        Reason::ShelfFull,
    ];

    pub fn number(self) -> u8 {
        self as u8
    }
}

/// A refusal with its place: a node, a definition, or 0.
#[derive(Clone, Copy, Debug, PartialEq, Eq, Hash)]
pub struct Refusal {
    pub reason: Reason,
    pub place: u16,
}

impl Refusal {
    pub fn at(reason: Reason, place: u16) -> Refusal {
        Refusal { reason, place }
    }
}

impl From<Reason> for Refusal {
    fn from(reason: Reason) -> Refusal {
        Refusal { reason, place: 0 }
    }
}

pub type Answer<T> = Result<T, Refusal>;

/// How many agents took an entry: those that had none for its key, and those
/// that had an older one.
#[derive(Clone, Copy, Debug, Default, PartialEq, Eq)]
pub struct Counts {
    pub added: u32,
    pub replaced: u32,
}

impl Counts {
    pub fn taken(self) -> u32 {
        self.added + self.replaced
    }
}

impl AddAssign for Counts {
    fn add_assign(&mut self, more: Counts) {
        self.added += more.added;
        self.replaced += more.replaced;
    }
}

/// What a run that is not refused returns.
#[derive(Clone, Copy, Debug, Default, PartialEq, Eq)]
pub struct Totals {
    pub done: u32,
    pub refused: u32,
    pub counts: Counts,
}

impl Totals {
    /// As they stand in a buffer that is lent for them.
    pub fn numbers(&self) -> [u32; 4] {
        let Counts { added, replaced } = self.counts;
        [self.done, self.refused, added, replaced]
    }
}

/// What a done call reports: as one number, and as totals.
pub trait Report {
    fn number(&self) -> u64;
    fn totals(&self) -> Totals;
}

/// Load, save, restore and drop report 0.
impl Report for () {
    fn number(&self) -> u64 {
        0
    }

    fn totals(&self) -> Totals {
        Totals::default()
    }
}

/// A step reports how many agents took the entry.
impl Report for Counts {
    fn number(&self) -> u64 {
        u64::from(self.added) + (u64::from(self.replaced) << 16)
    }

    fn totals(&self) -> Totals {
        Totals {
            counts: *self,
            ..Totals::default()
        }
    }
}

/// A run's totals are not in its number.
impl Report for Totals {
    fn number(&self) -> u64 {
        0
    }

    fn totals(&self) -> Totals {
        *self
    }
}

/// The answer as the C interface gives it: a report, or
/// 2^63 + 65,536 x place + refusal.
pub fn pack<T: Report>(answer: &Answer<T>) -> u64 {
    match answer {
        Ok(report) => report.number(),
        Err(refusal) => {
            (1 << 63) + (u64::from(refusal.place) << 16) + u64::from(refusal.reason.number())
        }
    }
}

/// The answer in words: `done` and the totals, or `refused` and number and place.
pub fn say<T: Report>(answer: &Answer<T>) -> String {
    match answer {
        Ok(report) => {
            let totals = report.totals();
            let [done, refused, added, replaced] = totals.numbers();
            let taken = totals.counts.taken();
            format!("done {done} {refused} {taken} {added} {replaced}")
        }
        Err(refusal) => format!("refused {} {}", refusal.reason.number(), refusal.place),
    }
}

/// What a run leaves in the buffer that is lent for its totals: the first ones,
/// as many as there is room for, each 0 where the run is refused.
pub fn write_totals(answer: &Answer<Totals>, lent: &mut [u32]) {
    let totals = answer.unwrap_or_default();
    for (word, number) in lent.iter_mut().zip(totals.numbers()) {
        *word = number;
    }
}
