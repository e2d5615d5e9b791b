//! Another player, as plain as can be. It is slow, and it shares nothing with the twin, so that the twin's
//! short cuts can be tested against it.

mod model;

use model::Model;

/// A number of big-endian bytes.
fn number(bytes: &[u8]) -> u64 {
    bytes.iter().fold(0, |sum, &byte| sum * 256 + u64::from(byte))
}

/// Tells whether a record is as its letter wants it.
fn is_lawful(record: &[u8]) -> bool {
    let zero = |from: usize, to: usize| record[from..=to].iter().all(|&byte| byte == 0);
    match record[0] {
        b'L' | b'E' => record[12] < 8 && zero(1, 1) && zero(4, 11),
        b'S' => record[12] < 8 && zero(1, 1) && zero(4, 7),
        b'A' | b'R' => record[12] < 8 && zero(2, 11),
        b'P' => record[12] == 8 && zero(1, 3),
        b'T' => record[12] == 8 && zero(1, 11),
        _ => false,
    }
}

/// Number, place and inner number of the first fault of a job.
fn fault(job: &[u8]) -> Option<(u64, usize, u64)> {
    if job.len() < 16 {
        return Some((19, job.len(), 0));
    }
    let (words, strip) = (number(&job[2..4]), number(&job[4..6]));
    let (allowance, count) = (number(&job[8..12]), number(&job[12..16]));
    if job[0] == 0 || job[0] > 8 {
        return Some((20, 0, 14));
    }
    if job[1] == 0 || job[1] > 64 {
        return Some((20, 1, 15));
    }
    if words == 0 || words > 4096 {
        return Some((20, 2, 16));
    }
    if strip == 0 || strip > 4096 || words > 16 * strip {
        return Some((20, 4, 17));
    }
    if allowance == 0 || allowance > 1_000_000 {
        return Some((20, 8, 18));
    }
    if job[6] != 0 || job[7] != 0 {
        return Some((21, 6, 0));
    }
    if count > 4608 || job.len() as u64 != 16 + 13 * count {
        return Some((22, 12, 0));
    }
    (16..job.len()).step_by(13).find(|&at| !is_lawful(&job[at..at + 13])).map(|at| (23, at, 0))
}

/// What playback prints for a job.
pub fn play(job: &[u8]) -> String {
    let job = &job[..job.len().min(65_536)];
    if let Some((number, place, inner)) = fault(job) {
        return format!("refused {number} {place} {inner}\n");
    }
    let figures = (usize::from(job[0]), usize::from(job[1]), number(&job[8..12]));
    let mut model = Model::new(figures, number(&job[2..4]) as usize, number(&job[4..6]) as usize);
    let mut lines = String::new();
    for record in job[16..].chunks(13) {
        let (core, lock) = (usize::from(record[12]), usize::from(record[1]));
        let (place, payload) = (number(&record[2..4]) as usize, number(&record[4..12]));
        let (refusal, small, value, mark) = match record[0] {
            b'L' => model.load(core, place),
            b'S' => model.store(core, place, payload),
            b'E' => model.evict(core, place),
            b'A' => model.acquire(core, lock),
            b'R' => model.release(core, lock),
            b'P' => model.phase(payload),
            _ => model.settle(),
        };
        let letter = char::from(record[0]);
        lines += &format!("{core} {letter} {refusal} {small} {value} {mark}\n");
    }
    lines
}
