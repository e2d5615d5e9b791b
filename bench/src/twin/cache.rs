//! The cache of one core.

use super::word::{Mark, Word};

/// The most slots that a cache can have.
pub const CACHE_SLOTS: usize = 64;

/// The state of a copy.
#[derive(Clone, Copy, Debug, PartialEq, Eq)]
pub enum State {
    /// No word is kept.
    Invalid,
    /// A word that may be read.
    Valid,
    /// The word that counts: the core is its owner.
    Registered,
}

/// What a slot holds.
#[derive(Clone, Copy)]
pub struct Entry {
    state: State,
    place: u16,
    word: Word,
}

impl Entry {
    /// A place that no board has, so that a look for a word need not ask for the state first.
    const NOWHERE: u16 = u16::MAX;
    /// A slot without a word.
    const EMPTY: Entry =
        Entry { state: State::Invalid, place: Entry::NOWHERE, word: Word { value: 0, mark: Mark::BLANK } };

    /// The state of the copy of this place: a slot that holds another word counts as Invalid.
    pub fn state_for(&self, place: u16) -> State {
        if self.place == place { self.state } else { State::Invalid }
    }

    /// The word that is kept.
    pub fn word(&self) -> Word {
        self.word
    }

    /// The place and the word of a Registered copy.
    pub fn registered(&self) -> Option<(u16, Word)> {
        (self.state == State::Registered).then_some((self.place, self.word))
    }
}

/// The slots of one core. Two masks tell which slots are Valid and which Registered, so that settle
/// and phase visit only those.
pub struct Cache {
    entries: [Entry; CACHE_SLOTS],
    valid: u64,
    registered: u64,
}

impl Cache {
    /// A cache without a word.
    pub const EMPTY: Cache = Cache { entries: [Entry::EMPTY; CACHE_SLOTS], valid: 0, registered: 0 };

    /// What the slot holds.
    pub fn entry(&self, slot: usize) -> &Entry {
        &self.entries[slot]
    }

    /// Fills the slot with a Valid copy.
    pub fn set_valid(&mut self, slot: usize, place: u16, word: Word) {
        self.entries[slot] = Entry { state: State::Valid, place, word };
        self.valid |= 1 << slot;
        self.registered &= !(1 << slot);
    }

    /// Fills the slot with a Registered copy.
    pub fn set_registered(&mut self, slot: usize, place: u16, word: Word) {
        self.entries[slot] = Entry { state: State::Registered, place, word };
        self.valid &= !(1 << slot);
        self.registered |= 1 << slot;
    }

    /// Empties the slot.
    pub fn set_invalid(&mut self, slot: usize) {
        self.entries[slot] = Entry::EMPTY;
        self.valid &= !(1 << slot);
        self.registered &= !(1 << slot);
    }

    /// The number of Registered copies.
    pub fn registered_count(&self) -> u32 {
        self.registered.count_ones()
    }

    /// Makes every Registered copy Valid, after giving its place and word to `write`; tells their number.
    pub fn settle(&mut self, mut write: impl FnMut(u16, Word)) -> u32 {
        for slot in slots_of(self.registered) {
            let entry = &mut self.entries[slot];
            write(entry.place, entry.word);
            entry.state = State::Valid;
        }
        let settled = self.registered.count_ones();
        self.valid |= self.registered;
        self.registered = 0;
        settled
    }

    /// Makes Invalid every Valid copy of a place that `is_dropped` names, and tells their number. Each
    /// copy is written, dropped or not, since no order is in which copies are dropped.
    pub fn drop_valid(&mut self, is_dropped: impl Fn(u16) -> bool) -> u32 {
        let mut dropped = 0;
        for slot in slots_of(self.valid) {
            let entry = &mut self.entries[slot];
            let drops = is_dropped(entry.place);
            entry.state = if drops { State::Invalid } else { State::Valid };
            entry.place = if drops { Entry::NOWHERE } else { entry.place };
            dropped |= u64::from(drops) << slot;
        }
        self.valid &= !dropped;
        dropped.count_ones()
    }
}

/// The places of the bits that are set, in rising order.
fn slots_of(mask: u64) -> impl Iterator<Item = usize> {
    let mut rest = mask;
    std::iter::from_fn(move || {
        if rest == 0 {
            return None;
        }
        let slot = rest.trailing_zeros() as usize;
        rest &= rest - 1;
        Some(slot)
    })
}
