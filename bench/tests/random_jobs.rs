//! Random jobs: the twin against the plain player, and against what must hold of every run.

mod plain;

use std::collections::HashSet;

use board_bench::compare::{numbered_job, twin_output};
use board_bench::generate::{JobKind, random_job};
use board_bench::random::Random;
use board_bench::twin::answer::{Answer, AnswerRecord};
use board_bench::twin::call::Call;
use board_bench::twin::job::{Job, MOST_RECORDS, encode};
use board_bench::twin::play_answers;

/// The lawful ones among random jobs of all kinds.
fn lawful_jobs(seed: u64, count: u64) -> impl Iterator<Item = Vec<u8>> {
    (0..count).map(move |index| numbered_job(seed, index).1).filter(|job| Job::open(job).is_ok())
}

/// The calls of a job with their answers.
fn played(job: &[u8]) -> Vec<(Call, Answer)> {
    let mut answers = vec![AnswerRecord::EMPTY; MOST_RECORDS];
    let count = play_answers(job, &mut answers).expect("the job is lawful");
    let calls = Job::open(job).expect("the job is lawful").calls();
    calls.zip(answers[..count].iter().map(|record| record.answer)).collect()
}

#[test]
fn the_plain_player_agrees() {
    for index in 0..4000 {
        let (kind, job) = numbered_job(11, index);
        let twin = String::from_utf8(twin_output(&job)).expect("lines are plain text");
        assert_eq!(twin, plain::play(&job), "job {index}, {}", kind.name());
    }
}

#[test]
fn no_load_is_stale() {
    for job in lawful_jobs(12, 1500) {
        let mut last = vec![(0, 0); 4096];
        for (call, answer) in played(&job) {
            match (call, answer) {
                (Call::Store { place, value, .. }, Answer::Stored { mark, .. }) => {
                    last[usize::from(place)] = (value, mark.number());
                }
                (Call::Load { place, .. }, Answer::Loaded { word, .. }) => {
                    assert_eq!((word.value, word.mark.number()), last[usize::from(place)]);
                }
                _ => {}
            }
        }
    }
}

#[test]
fn marks_count_the_accepted_stores_of_a_core() {
    for job in lawful_jobs(13, 800) {
        let mut counts = [0; 8];
        for (call, answer) in played(&job) {
            if let (Call::Store { core, .. }, Answer::Stored { mark, .. }) = (call, answer) {
                counts[core.index()] += 1;
                assert_eq!(mark.number(), u32::from(core.number()) * 1_048_576 + counts[core.index()]);
            }
        }
    }
}

#[test]
fn lines_and_answers_tell_the_same() {
    for job in lawful_jobs(14, 400) {
        let lines = String::from_utf8(twin_output(&job)).expect("lines are plain text");
        let played = played(&job);
        assert_eq!(lines.lines().count(), played.len());
        for (line, (call, answer)) in lines.lines().zip(played) {
            let refusal = match answer {
                Answer::Refused(refusal) => refusal.number(),
                _ => 0,
            };
            let caller = call.core().map_or(8, |core| core.number());
            let start = format!("{caller} {} {refusal} ", char::from(call.kind().letter()));
            assert!(line.starts_with(&start), "{line}");
        }
    }
}

#[test]
fn a_lawful_job_is_the_encoding_of_what_is_read() {
    for job in lawful_jobs(15, 800) {
        let open = Job::open(&job).expect("the job is lawful");
        assert_eq!(encode(open.figures(), &open.calls().collect::<Vec<_>>()), job);
    }
}

#[test]
fn random_jobs_meet_every_row() {
    let mut refusals = HashSet::new();
    let mut faults = HashSet::new();
    let mut smalls = HashSet::new();
    for index in 0..2000 {
        let lines = String::from_utf8(twin_output(&numbered_job(16, index).1)).expect("plain text");
        for line in lines.lines() {
            let fields: Vec<&str> = line.split(' ').collect();
            match fields[..] {
                ["refused", number, place, inner] => {
                    let place = if number == "20" { place } else { "" };
                    faults.insert(format!("{number} {place} {inner}"));
                }
                [_, letter, "6", _, value, _] => {
                    refusals.insert(format!("{letter} 6 {value}"));
                }
                [_, letter, "0", small, _, _] => {
                    smalls.insert(format!("{letter} {small}"));
                }
                [_, letter, refusal, _, _, _] => {
                    refusals.insert(format!("{letter} {refusal}"));
                }
                _ => panic!("{line}"),
            }
        }
    }
    let rows = [
        "L 1", "L 2", "L 3", "L 5", "L 6 1", "S 1", "S 2", "S 3", "S 4", "S 5", "S 6 0", "S 6 1", "S 7",
        "E 1", "E 2", "A 1", "A 3", "A 8", "A 9", "R 1", "R 3", "R 8", "R 10", "P 11", "P 12",
    ];
    for row in rows {
        assert!(refusals.remove(row), "no call was refused as {row}");
    }
    assert!(refusals.is_empty(), "{refusals:?}");
    for fault in ["19  0", "20 0 14", "20 1 15", "20 2 16", "20 4 17", "20 8 18", "21  0", "22  0", "23  0"] {
        assert!(faults.remove(fault), "no job was refused as {fault}");
    }
    assert!(faults.is_empty(), "{faults:?}");
    for small in ["L 0", "L 1", "L 2", "S 0", "S 1", "S 2", "E 0", "E 1", "E 2", "A 0", "A 1", "R 0", "R 8"] {
        assert!(smalls.contains(small), "no call was answered as {small}");
    }
}

#[test]
fn a_seed_gives_the_same_job_again() {
    for kind in JobKind::ALL {
        assert_eq!(JobKind::from_name(kind.name()), Some(kind));
        let job = random_job(&mut Random::new(5), kind);
        assert_eq!(job, random_job(&mut Random::new(5), kind));
    }
}
