//! Random jobs of several kinds, lawful ones and others.

use crate::random::Random;
use crate::twin::call::RECORD;
use crate::twin::figures::Figures;
use crate::twin::job::{self, CONTENTS, MOST_RECORDS};
use crate::writer::{Taste, Writer};

/// What a random job is rich in.
#[derive(Clone, Copy, Debug, PartialEq, Eq)]
pub enum JobKind {
    /// All calls, all modes.
    Mixed,
    /// Locks with queues, and loads and stores in locked strips.
    Locks,
    /// Several cores at the same words of written strips.
    Races,
    /// Many phase calls and settles.
    Phases,
    /// Mostly loads.
    Reads,
    /// Calls that are refused for every reason.
    Refusals,
    /// A lawful job with a byte or its length changed.
    Damaged,
    /// Random bytes, or lawful contents with random bytes after them.
    Bytes,
}

impl JobKind {
    /// All kinds.
    pub const ALL: [JobKind; 8] = [
        JobKind::Mixed,
        JobKind::Locks,
        JobKind::Races,
        JobKind::Phases,
        JobKind::Reads,
        JobKind::Refusals,
        JobKind::Damaged,
        JobKind::Bytes,
    ];

    /// The name on the command line and in names of files.
    pub fn name(self) -> &'static str {
        match self {
            JobKind::Mixed => "mixed",
            JobKind::Locks => "locks",
            JobKind::Races => "races",
            JobKind::Phases => "phases",
            JobKind::Reads => "reads",
            JobKind::Refusals => "refusals",
            JobKind::Damaged => "damaged",
            JobKind::Bytes => "bytes",
        }
    }

    /// The kind of this name.
    pub fn from_name(name: &str) -> Option<JobKind> {
        JobKind::ALL.into_iter().find(|kind| kind.name() == name)
    }

    /// How jobs of this kind are written; nothing for those that are made by other means.
    fn taste(self) -> Option<Taste> {
        let mixed = Taste {
            calls: [30, 30, 6, 12, 12, 4, 3],
            modes: [20, 40, 40],
            odd: 3,
            fitting: 75,
            apart: 40,
            bursts: 0,
        };
        Some(match self {
            JobKind::Mixed => mixed,
            JobKind::Locks => Taste { calls: [25, 30, 5, 20, 18, 2, 2], modes: [5, 10, 85], ..mixed },
            JobKind::Races => Taste { calls: [40, 40, 6, 2, 2, 8, 4], modes: [5, 90, 5], apart: 15, ..mixed },
            JobKind::Phases => Taste { calls: [25, 25, 4, 8, 8, 25, 12], bursts: 1, ..mixed },
            JobKind::Reads => Taste { calls: [85, 6, 3, 3, 3, 2, 1], modes: [40, 30, 30], odd: 1, ..mixed },
            JobKind::Refusals => {
                Taste { calls: [20, 25, 5, 20, 20, 10, 2], odd: 25, fitting: 25, apart: 0, ..mixed }
            }
            JobKind::Damaged | JobKind::Bytes => return None,
        })
    }
}

/// A random job of this kind.
pub fn random_job(random: &mut Random, kind: JobKind) -> Vec<u8> {
    match (kind, kind.taste()) {
        (_, Some(taste)) => {
            let figures = random_figures(random, kind == JobKind::Refusals);
            let count = random_count(random);
            job::encode(figures, &Writer::new(random, figures, taste).write(count))
        }
        (JobKind::Damaged, None) => damaged_job(random),
        (_, None) => random_bytes(random),
    }
}

/// Lawful figures, small and large. Where `scarce`, the allowance is often small.
fn random_figures(random: &mut Random, scarce: bool) -> Figures {
    let cores = random.between(1, 8) as u8;
    let slots = match random.below(4) {
        0 => random.between(1, 3),
        1 => random.between(1, 16),
        2 => random.between(1, 64),
        _ => 64,
    } as u8;
    let words = match random.below(6) {
        0 => random.between(1, 8),
        1 | 2 => random.between(4, 64),
        3 => random.between(1, 600),
        4 => random.between(1, 4096),
        _ => 4096,
    };
    let shortest = words.div_ceil(16);
    let strip = match random.below(4) {
        0 | 1 => shortest,
        2 => random.between(shortest, (2 * shortest).min(4096)),
        _ => random.between(shortest, 4096),
    };
    let allowance = match random.below(if scarce { 2 } else { 6 }) {
        0 => random.between(1, 6),
        1 => random.between(1, 60),
        2 => random.between(1, 2000),
        _ => 1_000_000,
    };
    Figures::check(cores, slots, words as u16, strip as u16, allowance)
        .expect("the figures are chosen within their limits")
}

/// A number of records, mostly small, now and then the most there can be.
fn random_count(random: &mut Random) -> usize {
    let count = match random.below(40) {
        0 => random.below(3),
        1..20 => random.between(1, 60),
        20..36 => random.between(20, 400),
        36..39 => random.between(200, 2500),
        _ => MOST_RECORDS as u32,
    };
    count as usize
}

/// A lawful job with something changed. It may still be lawful.
fn damaged_job(random: &mut Random) -> Vec<u8> {
    let kind = random.pick(&[JobKind::Mixed, JobKind::Locks, JobKind::Phases, JobKind::Refusals]);
    let mut job = random_job(random, kind);
    match random.below(9) {
        0 => change_byte(random, &mut job, 0, usize::MAX),
        1 => change_byte(random, &mut job, 0, CONTENTS),
        2 => change_byte(random, &mut job, CONTENTS, usize::MAX),
        3 => {
            let cut = random.between(1, 30) as usize;
            job.truncate(job.len().saturating_sub(cut));
        }
        4 => {
            let more = random.between(1, 30) as usize;
            job.extend(random.bytes(more));
        }
        5 => job.truncate(random.below(17) as usize),
        6 => {
            let count = match random.below(4) {
                0 => 4608,
                1 => 4609,
                2 => random.number() as u32,
                _ => random.below(5000),
            };
            job[12..16].copy_from_slice(&count.to_be_bytes());
        }
        7 => damage_record(random, &mut job),
        _ => {
            let length = random.pick(&[59_920, 59_921, 59_933, 65_535, 65_536, 65_537, 70_000]);
            job.resize(length, 0);
        }
    }
    job
}

/// Gives another value to one byte from `from` to before `to`.
fn change_byte(random: &mut Random, job: &mut [u8], from: usize, to: usize) {
    let to = to.min(job.len());
    if from >= to {
        return;
    }
    let place = random.between(from as u32, to as u32 - 1) as usize;
    job[place] = match random.below(4) {
        0 => job[place].wrapping_add(1),
        1 => job[place].wrapping_sub(1),
        2 => job[place] ^ 1 << random.below(8),
        _ => random.number() as u8,
    };
}

/// Changes one record where the reader looks: letter, caller, or a byte that is often unused.
fn damage_record(random: &mut Random, job: &mut [u8]) {
    let count = (job.len() - CONTENTS) / RECORD;
    if count == 0 {
        return;
    }
    let record = &mut job[CONTENTS + RECORD * random.below(count as u32) as usize..][..RECORD];
    match random.below(5) {
        0 => record[0] = record[0].to_ascii_lowercase(),
        1 => record[0] = random.pick(b"LSEARPTXQ\0 l"),
        2 => record[12] = random.pick(&[0, 7, 8, 9, 255]),
        3 => record[random.between(1, 3) as usize] = random.between(1, 255) as u8,
        _ => record[random.between(4, 11) as usize] = random.between(1, 255) as u8,
    }
}

/// Random bytes; in half of the cases with lawful contents before them and the length that these tell.
fn random_bytes(random: &mut Random) -> Vec<u8> {
    if random.chance(50) {
        let length = random.below(300) as usize;
        return random.bytes(length);
    }
    let figures = random_figures(random, false);
    let count = random.below(6);
    let mut job = job::encode(figures, &[]);
    job[12..16].copy_from_slice(&count.to_be_bytes());
    job.extend(random.bytes(RECORD * count as usize));
    job
}
