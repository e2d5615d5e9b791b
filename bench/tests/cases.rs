//! The ten cases of the rules, and rules that surprise, each on a fresh board.

use board_bench::twin::answer::{Access, Refusal, Source};
use board_bench::twin::bloom::Bloom;
use board_bench::twin::board::Board;
use board_bench::twin::figures::{FigureFault, Figures};
use board_bench::twin::page::{Bank, Table};
use board_bench::twin::word::Core::{C0, C1, C2, C3, C7};
use board_bench::twin::word::{Mark, Word};

type Fresh = Board<Bank<Table>>;

/// A board of these cores and this allowance: 4 slots, 8 words, strips of 4.
fn board(cores: u8, allowance: u32) -> Fresh {
    let figures = Figures::check(cores, 4, 8, 4, allowance).expect("lawful figures");
    Board::open(figures, Bank::over(Table::new()))
}

/// The board of the sample job.
fn sample() -> Fresh {
    board(2, 10)
}

fn word(value: u32, mark: u32) -> Word {
    Word { value, mark: Mark::from_number(mark).expect("a lawful mark") }
}

fn mark(number: u32) -> Mark {
    Mark::from_number(number).expect("a lawful mark")
}

#[test]
fn case_1_a_first_load_is_from_the_page_and_a_second_from_the_copy() {
    let mut board = sample();
    assert_eq!(board.load(C0, 3), Ok((word(0, 0), Source::Page)));
    assert_eq!(board.load(C0, 3), Ok((word(0, 0), Source::Own)));
}

#[test]
fn case_2_the_last_word_loads_and_the_next_is_outside() {
    let mut board = sample();
    assert_eq!(board.load(C0, 7), Ok((word(0, 0), Source::Page)));
    assert_eq!(board.load(C0, 8), Err(Refusal::OutsideBoard));
}

#[test]
fn case_3_a_store_after_another_cores_load_is_a_race() {
    let mut board = sample();
    assert_eq!(board.phase(1), Ok(0));
    assert_eq!(board.load(C0, 2), Ok((word(0, 0), Source::Page)));
    assert_eq!(board.store(C1, 2, 9), Err(Refusal::Race { earlier: C0, access: Access::Load }));
}

#[test]
fn case_4_a_load_displaces_a_registered_word() {
    let mut board = sample();
    assert_eq!(board.phase(1), Ok(0));
    assert_eq!(board.store(C0, 1, 50), Ok((1, mark(1))));
    assert_eq!(board.owned(), 1);
    assert_eq!(board.load(C0, 5), Ok((word(0, 0), Source::Page)));
    assert_eq!(board.owned(), 0);
    assert_eq!(board.peek(1), Ok(word(50, 1)));
}

#[test]
fn case_5_a_store_in_the_next_phase_takes_the_word_from_its_owner() {
    let mut board = sample();
    assert_eq!(board.phase(1), Ok(0));
    assert_eq!(board.store(C0, 1, 50), Ok((1, mark(1))));
    assert_eq!(board.phase(1), Ok(0));
    assert_eq!(board.store(C1, 1, 60), Ok((2, mark(1_048_577))));
    assert_eq!(board.peek(1), Err(Refusal::Owned));
}

#[test]
fn case_6_stores_end_with_the_allowance() {
    let mut board = board(2, 2);
    assert_eq!(board.phase(1), Ok(0));
    assert_eq!(board.store(C0, 1, 50), Ok((1, mark(1))));
    assert_eq!(board.store(C0, 1, 51), Ok((0, mark(2))));
    assert_eq!(board.store(C0, 1, 52), Err(Refusal::AllowanceSpent));
    assert_eq!(board.load(C0, 1), Ok((word(51, 2), Source::Own)));
}

#[test]
fn case_7_lock_7_is_the_last() {
    assert_eq!(sample().acquire(C0, 7), Ok(0));
    assert_eq!(sample().acquire(C0, 8), Err(Refusal::NoLock));
}

#[test]
fn case_8_lawful_and_unlawful_marks() {
    assert_eq!(Mark::from_number(8_340_032), Mark::of_store(C7, 1_000_000));
    assert!(Mark::from_number(8_340_032).is_some());
    assert_eq!(Mark::from_number(8_340_033), None);
    assert_eq!(Mark::from_number(1_048_576), None);
    assert_eq!(Mark::from_number(0), Some(Mark::BLANK));
    assert_eq!(Mark::from_number(8 * 1_048_576 + 1), None);
    assert_eq!(Mark::from_number(u32::MAX), None);
}

#[test]
fn case_9_words_0_and_1_set_three_bits() {
    let mut bloom = Bloom::new();
    bloom.put(C0, 0);
    bloom.put(C0, 1);
    assert_eq!(bloom.fill(C0), 3);
    assert!(bloom.holds(C0, 0) && bloom.holds(C0, 1));
    assert!(!bloom.holds(C0, 257));
    assert!(bloom.holds(C0, 3335), "a surplus word: its bits are those of word 1, the other way round");
    assert!(!bloom.holds(C1, 1));
    bloom.take_in(C1, C0);
    assert!(bloom.holds(C1, 1));
    bloom.clear_all();
    assert_eq!(bloom.fill(C0), 0);
}

#[test]
fn case_10_sixteen_strips_of_four_hold_64_words() {
    assert!(Figures::check(2, 4, 64, 4, 10).is_ok());
    assert_eq!(Figures::check(2, 4, 65, 4, 10), Err(FigureFault::Strip));
}

#[test]
fn the_figures_are_checked_row_by_row() {
    for (cores, slots, words, strip, allowance, fault) in [
        (0, 0, 0, 0, 0, FigureFault::Cores),
        (9, 4, 8, 4, 10, FigureFault::Cores),
        (8, 0, 0, 0, 0, FigureFault::Slots),
        (2, 65, 8, 4, 10, FigureFault::Slots),
        (2, 64, 0, 0, 0, FigureFault::Words),
        (2, 4, 4097, 4096, 10, FigureFault::Words),
        (2, 4, 4096, 0, 0, FigureFault::Strip),
        (2, 4, 4096, 255, 10, FigureFault::Strip),
        (2, 4, 8, 4097, 10, FigureFault::Strip),
        (2, 4, 8, 4096, 0, FigureFault::Allowance),
        (2, 4, 8, 4, 1_000_001, FigureFault::Allowance),
    ] {
        assert_eq!(Figures::check(cores, slots, words, strip, allowance), Err(fault));
    }
    assert!(Figures::check(8, 64, 4096, 256, 1_000_000).is_ok());
    assert!(Figures::check(1, 1, 1, 1, 1).is_ok());
}

#[test]
fn a_store_race_names_the_earliest_load_of_another_core() {
    let mut board = board(4, 10);
    assert_eq!(board.phase(1), Ok(0));
    for core in [C1, C2, C1, C3] {
        assert!(board.load(core, 2).is_ok());
    }
    assert_eq!(board.store(C1, 2, 9), Err(Refusal::Race { earlier: C2, access: Access::Load }));
    assert_eq!(board.store(C0, 2, 9), Err(Refusal::Race { earlier: C1, access: Access::Load }));
    assert_eq!(board.load(C0, 2), Ok((word(0, 0), Source::Page)));
    assert_eq!(board.phase(1), Ok(4));
    assert_eq!(board.store(C1, 2, 9), Ok((1, mark(1_048_577))));
    assert_eq!(board.load(C1, 2), Ok((word(9, 1_048_577), Source::Own)));
    assert_eq!(board.store(C0, 2, 8), Err(Refusal::Race { earlier: C1, access: Access::Store }));
    assert_eq!(board.settle(), 1);
    assert_eq!(board.load(C0, 2), Err(Refusal::Race { earlier: C1, access: Access::Store }));
}

#[test]
fn accesses_of_old_phases_are_forgotten_however_old() {
    for phases in 1..600 {
        let mut board = sample();
        assert_eq!(board.phase(1), Ok(0));
        assert_eq!(board.store(C0, 2, 9), Ok((1, mark(1))));
        assert_eq!(board.load(C1, 2), Err(Refusal::Race { earlier: C0, access: Access::Store }));
        for _ in 0..phases {
            assert_eq!(board.phase(1), Ok(0));
        }
        assert_eq!(board.load(C1, 2), Ok((word(9, 1), Source::Owner)));
    }
}

#[test]
fn the_plan_that_ends_decides_what_is_dropped() {
    let mut board = sample();
    assert!(board.load(C1, 1).is_ok());
    assert_eq!(board.phase(1), Ok(0));
    assert!(board.store(C0, 1, 50).is_ok());
    assert_eq!(board.load(C1, 1), Err(Refusal::Race { earlier: C0, access: Access::Store }));
    assert_eq!(board.phase(0), Ok(1));
    assert_eq!(board.load(C1, 1), Ok((word(50, 1), Source::Owner)));
}

#[test]
fn a_signature_passes_on_what_it_took_in() {
    let mut board = board(3, 10);
    assert_eq!(board.phase(0x8), Ok(0));
    for core in [C0, C1, C2] {
        assert_eq!(board.acquire(core, 0), Ok(u16::from(core != C0)));
    }
    assert_eq!(board.load(C0, 2), Ok((word(0, 0), Source::Page)));
    assert_eq!(board.store(C0, 1, 50), Ok((1, mark(1))));
    assert_eq!(board.load(C1, 1), Err(Refusal::Waiting));
    assert_eq!(board.release(C0, 0), Ok(2));
    assert_eq!(board.store(C1, 2, 60), Ok((1, mark(1_048_577))));
    assert_eq!(board.release(C1, 0), Ok(3));
    assert_eq!(board.release(C2, 0), Ok(0));
    assert_eq!(board.acquire(C0, 0), Ok(0));
    assert_eq!(board.load(C0, 1), Ok((word(50, 1), Source::Own)));
    assert_eq!(board.load(C0, 2), Ok((word(60, 1_048_577), Source::Owner)), "its old copy is not read");
    assert_eq!(board.load(C0, 2), Ok((word(60, 1_048_577), Source::Owner)), "and fetched again each time");
}

#[test]
fn a_phase_forgets_who_released_last() {
    // Words 1 and 3,335 have the same two bits in the Bloom signature.
    let figures = Figures::check(2, 64, 4096, 256, 10).expect("lawful figures");
    let mut board = Board::open(figures, Bank::over(Table::new()));
    let plan = 0x8 | 0x9 << (4 * 13);
    assert_eq!(board.phase(plan), Ok(0));
    assert_eq!(board.acquire(C1, 0), Ok(0));
    assert_eq!(board.release(C1, 0), Ok(0));
    assert_eq!(board.phase(plan), Ok(0));
    assert_eq!(board.acquire(C1, 1), Ok(0));
    assert_eq!(board.store(C1, 3335, 5), Ok((1, mark(1_048_577))));
    assert_eq!(board.acquire(C0, 0), Ok(0));
    assert_eq!(board.load(C0, 1), Ok((word(0, 0), Source::Page)));
    assert_eq!(board.load(C0, 1), Ok((word(0, 0), Source::Own)), "nothing was taken in from core 1");
    assert_eq!(board.release(C1, 1), Ok(0));
    assert_eq!(board.release(C0, 0), Ok(0));
    assert_eq!(board.acquire(C0, 1), Ok(0));
    assert_eq!(board.release(C0, 1), Ok(0));
    assert_eq!(board.acquire(C0, 0), Ok(0));
    assert_eq!(board.load(C0, 1), Ok((word(0, 0), Source::Page)), "word 1 is a surplus word now");
}

#[test]
fn the_order_of_checks() {
    let mut board = board(2, 1);
    assert_eq!(board.load(C2, 4095), Err(Refusal::NoCore));
    assert_eq!(board.release(C0, 3), Err(Refusal::NotHeld));
    assert_eq!(board.acquire(C0, 0), Ok(0));
    assert_eq!(board.acquire(C0, 8), Err(Refusal::NoLock));
    assert_eq!(board.acquire(C0, 0), Err(Refusal::HoldsLock));
    assert_eq!(board.acquire(C0, 1), Err(Refusal::HoldsLock));
    assert_eq!(board.acquire(C1, 0), Ok(1));
    assert_eq!(board.acquire(C1, 9), Err(Refusal::Waiting));
    assert_eq!(board.release(C1, 9), Err(Refusal::Waiting));
    assert_eq!(board.store(C1, 1, 1), Err(Refusal::Waiting));
    assert_eq!(board.evict(C1, 1), Ok(0), "a core that waits may evict");
    assert_eq!(board.phase(5 << 60), Err(Refusal::BadMode));
    assert_eq!(board.phase(1), Err(Refusal::LockHeld));
    assert_eq!(board.release(C0, 0), Ok(2));
    assert_eq!(board.release(C1, 0), Ok(0));
    assert_eq!(board.phase(0x81), Ok(0));
    assert_eq!(board.store(C0, 4, 1), Err(Refusal::NotHolder));
    assert_eq!(board.store(C0, 1, 1), Ok((1, mark(1))));
    assert!(board.load(C1, 2).is_ok());
    assert_eq!(board.store(C0, 2, 1), Err(Refusal::Race { earlier: C1, access: Access::Load }));
    assert_eq!(board.store(C0, 1, 1), Err(Refusal::AllowanceSpent));
    assert_eq!(board.phase(0), Ok(1));
    assert_eq!(board.store(C0, 1, 1), Err(Refusal::ReadOnly));
    assert_eq!(board.peek(8), Err(Refusal::OutsideBoard));
}
