//! Answers and refusals of calls, and the record that keeps one.

use super::word::{Core, Mark, Word};

/// Why a call is refused.
#[derive(Clone, Copy, Debug, PartialEq, Eq)]
pub enum Refusal {
    /// The core is not below the number of cores.
    NoCore,
    /// The word is not below the board's size.
    OutsideBoard,
    /// The core waits for a lock.
    Waiting,
    /// A store into a read-only strip.
    ReadOnly,
    /// The strip is locked, and the core does not hold its lock.
    NotHolder,
    /// Another core's access in this phase stands against this one.
    Race { earlier: Core, access: Access },
    /// The core has made all its stores.
    AllowanceSpent,
    /// There is no such lock.
    NoLock,
    /// The core holds a lock already.
    HoldsLock,
    /// The core does not hold this lock.
    NotHeld,
    /// A field of the plan is no mode.
    BadMode,
    /// A phase while a lock is held.
    LockHeld,
    /// The word has an owner.
    Owned,
}

impl Refusal {
    /// The number of the refusal, 1 to 13.
    pub fn number(self) -> u8 {
        match self {
            Refusal::NoCore => 1,
            Refusal::OutsideBoard => 2,
            Refusal::Waiting => 3,
            Refusal::ReadOnly => 4,
            Refusal::NotHolder => 5,
            Refusal::Race { .. } => 6,
            Refusal::AllowanceSpent => 7,
            Refusal::NoLock => 8,
            Refusal::HoldsLock => 9,
            Refusal::NotHeld => 10,
            Refusal::BadMode => 11,
            Refusal::LockHeld => 12,
            Refusal::Owned => 13,
        }
    }
}

/// What an earlier access was.
#[derive(Clone, Copy, Debug, PartialEq, Eq)]
pub enum Access {
    Load,
    Store,
}

/// Where a loaded word came from.
#[derive(Clone, Copy, Debug, PartialEq, Eq)]
pub enum Source {
    /// The core's own copy.
    Own,
    /// The page.
    Page,
    /// The copy of the core that owns the word.
    Owner,
}

/// The seven calls that a job can make.
#[derive(Clone, Copy, Debug, PartialEq, Eq)]
pub enum Kind {
    Load,
    Store,
    Evict,
    Acquire,
    Release,
    Phase,
    Settle,
}

impl Kind {
    /// The letter of the call in jobs and lines.
    pub fn letter(self) -> u8 {
        match self {
            Kind::Load => b'L',
            Kind::Store => b'S',
            Kind::Evict => b'E',
            Kind::Acquire => b'A',
            Kind::Release => b'R',
            Kind::Phase => b'P',
            Kind::Settle => b'T',
        }
    }
}

/// What a call answers.
#[derive(Clone, Copy, Debug, PartialEq, Eq)]
pub enum Answer {
    /// An accepted load.
    Loaded { word: Word, source: Source },
    /// An accepted store.
    Stored { answer: u8, mark: Mark },
    /// Any other accepted call, with its answer or number.
    Done(u16),
    /// A refused call.
    Refused(Refusal),
}

/// One call's answer, with who called what.
#[derive(Clone, Copy, Debug, PartialEq, Eq)]
pub struct AnswerRecord {
    /// The core, or nothing for the conductor.
    pub caller: Option<Core>,
    pub kind: Kind,
    pub answer: Answer,
}

impl AnswerRecord {
    /// A record to fill answer tables with before they are used.
    pub const EMPTY: AnswerRecord =
        AnswerRecord { caller: None, kind: Kind::Settle, answer: Answer::Done(0) };

    /// The number of the caller: 0 to 7, or 8 for the conductor.
    pub fn caller_number(&self) -> u8 {
        self.caller.map_or(8, Core::number)
    }
}
