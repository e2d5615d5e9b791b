//! The reader of jobs. It works in the job's own bytes, and checks them all before the first call.

use super::call::{Call, RECORD, fits};
use super::figures::{FigureFault, Figures};

/// The length of the contents that a job begins with.
pub const CONTENTS: usize = 16;
/// The most records that a job can have.
pub const MOST_RECORDS: usize = 4608;

/// Why a job is refused.
#[derive(Clone, Copy, Debug, PartialEq, Eq)]
pub enum JobFault {
    /// The job is shorter than its contents; it has this length.
    Short { length: usize },
    /// The figures are at fault.
    Figures(FigureFault),
    /// Bytes 6 and 7 are not both zero.
    Reserved,
    /// Too many records, or a length that does not fit their number.
    Length,
    /// The record at this byte is against its layout.
    Record { place: usize },
    /// The answer table has fewer places than the job has records.
    Table,
}

impl JobFault {
    /// The number of the refusal, 19 to 24.
    pub fn number(self) -> u8 {
        match self {
            JobFault::Short { .. } => 19,
            JobFault::Figures(_) => 20,
            JobFault::Reserved => 21,
            JobFault::Length => 22,
            JobFault::Record { .. } => 23,
            JobFault::Table => 24,
        }
    }

    /// The byte place in the job.
    pub fn place(self) -> usize {
        match self {
            JobFault::Short { length } => length,
            JobFault::Figures(fault) => fault.place(),
            JobFault::Reserved => 6,
            JobFault::Length => 12,
            JobFault::Record { place } => place,
            JobFault::Table => 0,
        }
    }

    /// The number of the figure's refusal, or 0.
    pub fn inner(self) -> u8 {
        match self {
            JobFault::Figures(fault) => fault.number(),
            _ => 0,
        }
    }
}

impl From<FigureFault> for JobFault {
    fn from(fault: FigureFault) -> JobFault {
        JobFault::Figures(fault)
    }
}

/// A job that has passed all checks.
#[derive(Clone, Copy)]
pub struct Job<'a> {
    figures: Figures,
    records: &'a [[u8; RECORD]],
}

impl<'a> Job<'a> {
    /// Checks a whole job, and tells the first fault.
    pub fn open(bytes: &'a [u8]) -> Result<Job<'a>, JobFault> {
        let (contents, body) =
            bytes.split_first_chunk::<CONTENTS>().ok_or(JobFault::Short { length: bytes.len() })?;
        let &[n, k, w0, w1, z0, z1, zero0, zero1, a0, a1, a2, a3, r0, r1, r2, r3] = contents;
        let words = u16::from_be_bytes([w0, w1]);
        let strip = u16::from_be_bytes([z0, z1]);
        let allowance = u32::from_be_bytes([a0, a1, a2, a3]);
        let figures = Figures::check(n, k, words, strip, allowance)?;
        if [zero0, zero1] != [0, 0] {
            return Err(JobFault::Reserved);
        }
        let count = u32::from_be_bytes([r0, r1, r2, r3]) as usize;
        if count > MOST_RECORDS || body.len() != RECORD * count {
            return Err(JobFault::Length);
        }
        let (records, _) = body.as_chunks::<RECORD>();
        match records.iter().position(|record| !fits(record)) {
            Some(index) => Err(JobFault::Record { place: CONTENTS + RECORD * index }),
            None => Ok(Job { figures, records }),
        }
    }

    /// The figures of the board.
    pub fn figures(&self) -> Figures {
        self.figures
    }

    /// The number of records.
    pub fn count(&self) -> usize {
        self.records.len()
    }

    /// The calls in order. Every record has been checked.
    pub fn calls(&self) -> impl Iterator<Item = Call> + use<'a> {
        self.records.iter().map(Call::spelled)
    }
}

/// The bytes of a job with these figures and calls.
pub fn encode(figures: Figures, calls: &[Call]) -> Vec<u8> {
    let mut job = Vec::with_capacity(CONTENTS + RECORD * calls.len());
    job.extend([figures.cores(), figures.slots()]);
    job.extend(figures.words().to_be_bytes());
    job.extend(figures.strip().to_be_bytes());
    job.extend([0, 0]);
    job.extend(figures.allowance().to_be_bytes());
    job.extend((calls.len() as u32).to_be_bytes());
    job.extend(calls.iter().flat_map(|call| call.record()));
    job
}
