//! Jobs: the sample job, each fault of a job, and the answer table.

use board_bench::compare::twin_output;
use board_bench::twin::answer::{Answer, AnswerRecord, Kind};
use board_bench::twin::call::Call;
use board_bench::twin::figures::Figures;
use board_bench::twin::job::{JobFault, encode};
use board_bench::twin::play_answers;
use board_bench::twin::word::Core::{C0, C1};

/// What playback prints for the sample job.
const SAMPLE_LINES: &str = "\
8 P 0 0 0 0
0 S 0 1 0 1
1 L 6 0 1 0
0 A 0 0 0 0
1 A 0 1 0 0
0 S 0 1 0 2
0 R 0 2 0 0
1 L 0 2 7 2
1 R 0 0 0 0
8 T 0 2 0 0
8 P 0 3 0 0
1 L 0 1 50 1
";

fn sample_job() -> Vec<u8> {
    let figures = Figures::check(2, 4, 8, 4, 10).expect("lawful figures");
    let calls = [
        Call::Phase { plan: 129 },
        Call::Store { core: C0, place: 1, value: 50 },
        Call::Load { core: C1, place: 1 },
        Call::Acquire { core: C0, lock: 0 },
        Call::Acquire { core: C1, lock: 0 },
        Call::Store { core: C0, place: 6, value: 7 },
        Call::Release { core: C0, lock: 0 },
        Call::Load { core: C1, place: 6 },
        Call::Release { core: C1, lock: 0 },
        Call::Settle,
        Call::Phase { plan: 0 },
        Call::Load { core: C1, place: 1 },
    ];
    encode(figures, &calls)
}

fn printed(job: &[u8]) -> String {
    String::from_utf8(twin_output(job)).expect("lines are plain text")
}

/// What is printed for the sample job with these bytes at this place.
fn changed(place: usize, bytes: &[u8]) -> String {
    let mut job = sample_job();
    job[place..place + bytes.len()].copy_from_slice(bytes);
    printed(&job)
}

#[test]
fn the_sample_job_has_172_bytes_and_prints_twelve_lines() {
    let job = sample_job();
    assert_eq!(job.len(), 172);
    assert_eq!(job[..16], [2, 4, 0, 8, 0, 4, 0, 0, 0, 0, 0, 10, 0, 0, 0, 12]);
    assert_eq!(job[81..94], [b'S', 0, 0, 6, 0, 0, 0, 0, 0, 0, 0, 7, 0]);
    assert_eq!(printed(&job), SAMPLE_LINES);
}

#[test]
fn a_job_without_records_prints_nothing() {
    let mut job = sample_job();
    job.truncate(16);
    job[15] = 0;
    assert_eq!(printed(&job), "");
}

#[test]
fn a_job_that_is_too_short_tells_its_length() {
    for length in 0..16 {
        assert_eq!(printed(&sample_job()[..length]), format!("refused 19 {length} 0\n"));
    }
}

#[test]
fn each_figure_at_fault_has_its_place_and_number() {
    for cores in [0, 9, 255] {
        assert_eq!(changed(0, &[cores, 0, 0, 0]), "refused 20 0 14\n");
    }
    for slots in [0, 65, 255] {
        assert_eq!(changed(1, &[slots, 0, 0]), "refused 20 1 15\n");
    }
    for words in [0u16, 4097, 65535] {
        assert_eq!(changed(2, &words.to_be_bytes()), "refused 20 2 16\n");
    }
    for strip in [0u16, 4097, 65535] {
        assert_eq!(changed(4, &strip.to_be_bytes()), "refused 20 4 17\n");
    }
    assert_eq!(changed(2, &65u16.to_be_bytes()), "refused 20 4 17\n", "more than sixteen strips");
    for allowance in [0u32, 1_000_001, u32::MAX] {
        assert_eq!(changed(8, &allowance.to_be_bytes()), "refused 20 8 18\n");
    }
}

#[test]
fn the_reserved_bytes_are_zero() {
    assert_eq!(changed(6, &[1]), "refused 21 6 0\n");
    assert_eq!(changed(7, &[1]), "refused 21 6 0\n");
    assert_eq!(changed(7, &[1, 9]), "refused 20 8 18\n", "the figures come first");
    assert_eq!(changed(7, &[1, 0, 0, 0, 10, 0, 0, 0, 9]), "refused 21 6 0\n", "the length comes later");
}

#[test]
fn the_length_fits_the_number_of_records() {
    for count in [0u32, 11, 13, 4608, 4609, u32::MAX] {
        assert_eq!(changed(12, &count.to_be_bytes()), "refused 22 12 0\n");
    }
    let job = sample_job();
    assert_eq!(printed(&job[..171]), "refused 22 12 0\n");
    assert_eq!(printed(&[&job[..], &[0]].concat()), "refused 22 12 0\n");
    let figures = Figures::check(2, 4, 8, 4, 10).expect("lawful figures");
    assert_eq!(printed(&encode(figures, &[Call::Settle; 4609])), "refused 22 12 0\n");
    assert_eq!(printed(&encode(figures, &[Call::Settle; 4608])), "8 T 0 0 0 0\n".repeat(4608));
}

#[test]
fn a_long_input_is_cut() {
    let mut job = sample_job();
    job.resize(70_000, 0);
    assert_eq!(printed(&job), "refused 22 12 0\n");
}

/// What is printed for a job of a settle and this record.
fn with_record(letter: u8, lock: u8, place: u16, payload: u64, caller: u8) -> String {
    let figures = Figures::check(2, 4, 8, 4, 10).expect("lawful figures");
    let mut job = encode(figures, &[Call::Settle; 2]);
    job[29] = letter;
    job[30] = lock;
    job[31..33].copy_from_slice(&place.to_be_bytes());
    job[33..41].copy_from_slice(&payload.to_be_bytes());
    job[41] = caller;
    printed(&job)
}

#[test]
fn each_letter_has_its_layout() {
    const REFUSED: &str = "refused 23 29 0\n";
    for letter in *b"LE" {
        assert_ne!(with_record(letter, 0, 65535, 0, 7), REFUSED);
        assert_eq!(with_record(letter, 1, 1, 0, 0), REFUSED);
        assert_eq!(with_record(letter, 0, 1, 1, 0), REFUSED);
        assert_eq!(with_record(letter, 0, 1, 1 << 63, 0), REFUSED);
        assert_eq!(with_record(letter, 0, 1, 0, 8), REFUSED);
    }
    assert_ne!(with_record(b'S', 0, 65535, 4_294_967_295, 7), REFUSED);
    assert_eq!(with_record(b'S', 0, 1, 4_294_967_296, 0), REFUSED);
    assert_eq!(with_record(b'S', 1, 1, 0, 0), REFUSED);
    assert_eq!(with_record(b'S', 0, 1, 0, 8), REFUSED);
    for letter in *b"AR" {
        assert_ne!(with_record(letter, 255, 0, 0, 7), REFUSED);
        assert_eq!(with_record(letter, 0, 1, 0, 0), REFUSED);
        assert_eq!(with_record(letter, 0, 256, 0, 0), REFUSED);
        assert_eq!(with_record(letter, 0, 0, 1, 0), REFUSED);
        assert_eq!(with_record(letter, 0, 0, 0, 8), REFUSED);
    }
    assert_ne!(with_record(b'P', 0, 0, u64::MAX, 8), REFUSED);
    for letter in *b"PT" {
        assert_ne!(with_record(letter, 0, 0, 0, 8), REFUSED);
        assert_eq!(with_record(letter, 1, 0, 0, 8), REFUSED);
        assert_eq!(with_record(letter, 0, 1, 0, 8), REFUSED);
        for caller in [0, 7, 9, 15, 16, 24, 255] {
            assert_eq!(with_record(letter, 0, 0, 0, caller), REFUSED);
        }
    }
    assert_eq!(with_record(b'T', 0, 0, 1, 8), REFUSED);
}

#[test]
fn no_other_byte_is_a_letter() {
    for letter in (0..=255).filter(|letter| !b"LSEARPT".contains(letter)) {
        for caller in [0, 8] {
            assert_eq!(with_record(letter, 0, 0, 0, caller), "refused 23 29 0\n");
        }
    }
}

#[test]
fn the_first_record_at_fault_is_told_and_no_call_is_made() {
    assert_eq!(changed(159, b"l"), "refused 23 159 0\n");
    assert_eq!(changed(16, b"Q"), "refused 23 16 0\n");
    let mut job = sample_job();
    (job[42], job[120]) = (0, 0);
    assert_eq!(printed(&job), "refused 23 42 0\n");
}

#[test]
fn ranges_are_the_calls_affair() {
    assert_eq!(with_record(b'L', 0, 0, 0, 7), "8 T 0 0 0 0\n7 L 1 0 0 0\n");
    assert_eq!(with_record(b'L', 0, 8, 0, 1), "8 T 0 0 0 0\n1 L 2 0 0 0\n");
    assert_eq!(with_record(b'A', 9, 0, 0, 1), "8 T 0 0 0 0\n1 A 8 0 0 0\n");
    assert_eq!(with_record(b'P', 0, 0, 2, 8), "8 T 0 0 0 0\n8 P 11 0 0 0\n");
}

#[test]
fn a_short_answer_table_is_refused_and_later_records_stay() {
    let noted = AnswerRecord { caller: Some(C1), kind: Kind::Evict, answer: Answer::Done(77) };
    let mut answers = [noted; 14];
    assert_eq!(play_answers(&sample_job(), &mut answers[..11]), Err(JobFault::Table));
    assert_eq!(JobFault::Table.number(), 24);
    assert_eq!((JobFault::Table.place(), JobFault::Table.inner()), (0, 0));
    assert!(answers.iter().all(|answer| *answer == noted));
    assert_eq!(play_answers(&sample_job(), &mut answers), Ok(12));
    assert!(answers[..12].iter().all(|answer| *answer != noted));
    assert!(answers[12..].iter().all(|answer| *answer == noted));
    let bad = &sample_job()[..20];
    assert_eq!(play_answers(bad, &mut []), Err(JobFault::Length), "the table is looked at last");
}
