//! Page stores: the table of 4,096 words, and the bank that holds changed words back from a store below.

use super::word::{Mark, Word};

/// The most words that a page can have.
pub const PAGE_WORDS: usize = 4096;
/// The slots of a bank.
pub const BANK_SLOTS: usize = 128;

/// A list of words that can be read and written at a place.
pub trait PageStore {
    /// The number of words, which never changes.
    fn size(&self) -> u16;
    /// The word at `place`, or nothing outside the page.
    fn read(&self, place: u16) -> Option<Word>;
    /// Replaces the word at `place`, or gives nothing outside the page.
    fn write(&mut self, place: u16, word: Word) -> Option<()>;
    /// Gives each word below `size` a blank mark and leaves its value.
    fn blank_marks(&mut self, size: u16);
}

/// A page in a table of its own.
pub struct Table {
    words: [Word; PAGE_WORDS],
}

impl Table {
    /// A table with value 0 and a blank mark everywhere.
    pub fn new() -> Table {
        Table { words: [Word { value: 0, mark: Mark::BLANK }; PAGE_WORDS] }
    }
}

impl Default for Table {
    fn default() -> Table {
        Table::new()
    }
}

impl PageStore for Table {
    fn size(&self) -> u16 {
        PAGE_WORDS as u16
    }

    fn read(&self, place: u16) -> Option<Word> {
        self.words.get(usize::from(place)).copied()
    }

    fn write(&mut self, place: u16, word: Word) -> Option<()> {
        *self.words.get_mut(usize::from(place))? = word;
        Some(())
    }

    fn blank_marks(&mut self, size: u16) {
        for word in self.words.iter_mut().take(usize::from(size)) {
            word.mark = Mark::BLANK;
        }
    }
}

/// A changed word that the store below does not have yet.
#[derive(Clone, Copy)]
struct Changed {
    place: u16,
    word: Word,
}

/// A page store over another one: writes go to 128 slots, and a changed word goes below when another
/// word needs its slot. Word w lies in slot w mod 128. A read fills nothing.
pub struct Bank<P> {
    slots: [Option<Changed>; BANK_SLOTS],
    below: P,
}

impl<P: PageStore> Bank<P> {
    /// A bank with empty slots.
    pub fn over(below: P) -> Bank<P> {
        Bank { slots: [None; BANK_SLOTS], below }
    }

    /// Writes every changed word below and empties all slots.
    pub fn drain(&mut self) {
        for slot in &mut self.slots {
            if let Some(changed) = slot.take() {
                self.below.write(changed.place, changed.word);
            }
        }
    }

    /// The store below, without the changed words.
    pub fn below(&self) -> &P {
        &self.below
    }
}

impl<P: PageStore> PageStore for Bank<P> {
    fn size(&self) -> u16 {
        self.below.size()
    }

    fn read(&self, place: u16) -> Option<Word> {
        match self.slots[usize::from(place) % BANK_SLOTS] {
            Some(changed) if changed.place == place => Some(changed.word),
            _ => self.below.read(place),
        }
    }

    fn write(&mut self, place: u16, word: Word) -> Option<()> {
        if place >= self.size() {
            return None;
        }
        let slot = &mut self.slots[usize::from(place) % BANK_SLOTS];
        match slot.replace(Changed { place, word }) {
            Some(old) if old.place != place => self.below.write(old.place, old.word),
            _ => Some(()),
        }
    }

    fn blank_marks(&mut self, size: u16) {
        for changed in self.slots.iter_mut().flatten().filter(|changed| changed.place < size) {
            changed.word.mark = Mark::BLANK;
        }
        self.below.blank_marks(size);
    }
}
