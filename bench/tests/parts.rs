//! The short cuts of the parts, each against the plain way: divisions, plans, the bank.

use board_bench::random::Random;
use board_bench::twin::figures::Divisor;
use board_bench::twin::page::{Bank, PageStore, Table};
use board_bench::twin::plan::{Mode, Plan};
use board_bench::twin::word::Core::C3;
use board_bench::twin::word::{Mark, Word};

#[test]
fn every_division_is_exact() {
    for divisor in 1..=4096 {
        let by = Divisor::new(divisor);
        for place in 0..4096 {
            assert_eq!(by.quotient(place), u32::from(place / divisor));
            assert_eq!(by.remainder(place), u32::from(place % divisor));
        }
    }
}

#[test]
fn each_field_of_a_plan_is_checked() {
    for strip in 0..16 {
        for field in 0..16 {
            for others in [0, u64::MAX, 0x1818_1818_1818_1818, 0x8181_8181_8181_8181] {
                let bits = others & !(15 << (4 * strip)) | field << (4 * strip);
                let mode = match field {
                    0 => Some(Mode::ReadOnly),
                    1 => Some(Mode::Written),
                    2..8 => None,
                    _ => Some(Mode::Locked(field as u8 - 8)),
                };
                assert_eq!(Plan::check(bits).map(|plan| plan.mode(strip)), mode);
            }
        }
    }
}

#[test]
fn banks_over_banks_are_lists() {
    let mut random = Random::new(1);
    let mut bank = Bank::over(Bank::over(Table::new()));
    let mut list = vec![Word::default(); 4096];
    for step in 0..200_000 {
        let place = match random.chance(50) {
            true => random.below(4200) as u16,
            false => (random.below(32) * 128) as u16,
        };
        if random.chance(50) {
            let mark = Mark::of_store(C3, random.between(1, 1_000_000)).expect("a lawful mark");
            let word = Word { value: random.number() as u32, mark };
            let written = list.get_mut(usize::from(place)).map(|old| *old = word);
            assert_eq!(bank.write(place, word), written);
        }
        assert_eq!(bank.read(place), list.get(usize::from(place)).copied());
        if step % 5000 == 0 {
            bank.drain();
            assert!((0..4096).all(|place| bank.below().read(place) == bank.read(place)));
        }
    }
    bank.blank_marks(1000);
    for (place, word) in list.iter().enumerate() {
        let mark = if place < 1000 { Mark::BLANK } else { word.mark };
        assert_eq!(bank.read(place as u16), Some(Word { value: word.value, mark }));
    }
}

#[test]
fn a_bank_holds_a_changed_word_back_until_another_needs_its_slot() {
    let word = |value| Word { value, mark: Mark::BLANK };
    let mut bank = Bank::over(Table::new());
    assert_eq!(bank.write(5, word(1)), Some(()));
    assert_eq!(bank.below().read(5), Some(word(0)));
    assert_eq!(bank.write(5, word(2)), Some(()));
    assert_eq!(bank.below().read(5), Some(word(0)));
    assert_eq!(bank.write(133, word(3)), Some(()));
    assert_eq!(bank.below().read(5), Some(word(2)));
    assert_eq!(bank.below().read(133), Some(word(0)));
    assert_eq!(bank.read(5), Some(word(2)));
    assert_eq!(bank.read(133), Some(word(3)));
    assert_eq!(bank.write(4096, word(4)), None);
    bank.drain();
    assert_eq!(bank.below().read(133), Some(word(3)));
}
