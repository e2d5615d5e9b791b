//! The board: caches, owners, locks, races and plan over a page and a signature.

use super::answer::{Refusal, Source};
use super::bloom::Bloom;
use super::cache::{Cache, State};
use super::figures::{Divisor, Figures};
use super::locks::{Acquired, Locks};
use super::page::{PAGE_WORDS, PageStore};
use super::plan::{Mode, Plan};
use super::races::Races;
use super::word::{Core, Mark, Word};

/// A cache controller over a page store, with the Bloom signature. A refused call changes nothing.
pub struct Board<P> {
    cores: u8,
    size: u16,
    allowance: u32,
    by_strip: Divisor,
    by_slot: Divisor,
    plan: Plan,
    counts: [u32; 8],
    locks: Locks,
    signature: Bloom,
    caches: [Cache; 8],
    owners: [Option<Core>; PAGE_WORDS],
    races: Races,
    page: P,
}

impl<P: PageStore> Board<P> {
    /// A board over this page: its words below the size get a blank mark, caches are empty, locks are
    /// free, and every strip is read-only.
    pub fn open(figures: Figures, mut page: P) -> Board<P> {
        let size = figures.words().min(page.size());
        page.blank_marks(size);
        Board {
            cores: figures.cores(),
            size,
            allowance: figures.allowance(),
            by_strip: Divisor::new(figures.strip()),
            by_slot: Divisor::new(u16::from(figures.slots())),
            plan: Plan::READ_ONLY,
            counts: [0; 8],
            locks: Locks::new(),
            signature: Bloom::new(),
            caches: [Cache::EMPTY; 8],
            owners: [None; PAGE_WORDS],
            races: Races::new(),
            page,
        }
    }

    /// Gives the word at `place` to the core, with where it came from.
    pub fn load(&mut self, core: Core, place: u16) -> Result<(Word, Source), Refusal> {
        self.check_core(core)?;
        self.check_place(place)?;
        self.check_awake(core)?;
        let mode = self.mode_at(place);
        match mode {
            Mode::ReadOnly => {}
            Mode::Written => self.races.load(core, place)?,
            Mode::Locked(lock) => self.check_holder(core, lock)?,
        }
        let slot = self.slot_of(place);
        let entry = self.caches[core.index()].entry(slot);
        match entry.state_for(place) {
            State::Registered => return Ok((entry.word(), Source::Own)),
            State::Valid if !self.is_suspect(core, place, mode) => {
                return Ok((entry.word(), Source::Own));
            }
            State::Valid => {}
            State::Invalid => self.make_way(core, slot),
        }
        let (word, source) = self.fetch(place, slot);
        self.caches[core.index()].set_valid(slot, place, word);
        Ok((word, source))
    }

    /// Stores a value at `place` and makes the core its owner. The answer is 0 where the core was owner
    /// already, 2 where another core was, else 1; the mark is the new one.
    pub fn store(&mut self, core: Core, place: u16, value: u32) -> Result<(u8, Mark), Refusal> {
        self.check_core(core)?;
        self.check_place(place)?;
        self.check_awake(core)?;
        let mode = self.mode_at(place);
        match mode {
            Mode::ReadOnly => return Err(Refusal::ReadOnly),
            Mode::Written => self.races.check_store(core, place)?,
            Mode::Locked(lock) => self.check_holder(core, lock)?,
        }
        let mark = self.next_mark(core)?;
        match mode {
            Mode::Written => self.races.store(core, place),
            Mode::Locked(_) => self.signature.put(core, place),
            Mode::ReadOnly => {}
        }
        Ok((self.register(core, place, Word { value, mark }), mark))
    }

    /// Gives up the core's copy of a word: 2 for a Registered one, which is written to the page, 1 for a
    /// Valid one, else 0.
    pub fn evict(&mut self, core: Core, place: u16) -> Result<u16, Refusal> {
        self.check_core(core)?;
        self.check_place(place)?;
        let slot = self.slot_of(place);
        let answer = match self.caches[core.index()].entry(slot).state_for(place) {
            State::Registered => {
                self.make_way(core, slot);
                2
            }
            State::Valid => 1,
            State::Invalid => return Ok(0),
        };
        self.caches[core.index()].set_invalid(slot);
        Ok(answer)
    }

    /// Asks for a lock: 0 where it is granted, 1 where the core has to wait.
    pub fn acquire(&mut self, core: Core, lock: u8) -> Result<u16, Refusal> {
        self.check_core(core)?;
        match self.locks.acquire(core, lock)? {
            Acquired::Granted { last } => {
                if let Some(last) = last {
                    self.signature.take_in(core, last);
                }
                Ok(0)
            }
            Acquired::Queued => Ok(1),
        }
    }

    /// Gives a lock back. The answer is 0, or the core that has it now + 1.
    pub fn release(&mut self, core: Core, lock: u8) -> Result<u16, Refusal> {
        self.check_core(core)?;
        match self.locks.release(core, lock)? {
            Some(next) => {
                self.signature.take_in(next, core);
                Ok(u16::from(next.number()) + 1)
            }
            None => Ok(0),
        }
    }

    /// Begins a phase with this plan. The answer is the number of copies that are dropped: the Valid
    /// ones whose strip was written or locked in the phase that ends.
    pub fn phase(&mut self, bits: u64) -> Result<u16, Refusal> {
        let next = Plan::check(bits).ok_or(Refusal::BadMode)?;
        if self.locks.any_held() {
            return Err(Refusal::LockHeld);
        }
        let (ended, by_strip) = (self.plan, self.by_strip);
        let mut dropped = 0;
        if !ended.is_read_only() {
            let is_dropped = |place| ended.mode(by_strip.quotient(place)) != Mode::ReadOnly;
            dropped = self.caches.iter_mut().map(|cache| cache.drop_valid(is_dropped)).sum();
        }
        self.signature.clear_all();
        self.locks.forget_releasers();
        self.races.begin_phase();
        self.plan = next;
        Ok(dropped as u16)
    }

    /// Writes every Registered copy to the page and makes it Valid. The answer is their number.
    pub fn settle(&mut self) -> u16 {
        let Board { caches, owners, page, .. } = self;
        let settled: u32 = caches
            .iter_mut()
            .map(|cache| {
                cache.settle(|place, word| {
                    write_inside(page, place, word);
                    owners[usize::from(place)] = None;
                })
            })
            .sum();
        settled as u16
    }

    /// The page's word at a place that has no owner.
    pub fn peek(&self, place: u16) -> Result<Word, Refusal> {
        self.check_place(place)?;
        match self.owners[usize::from(place)] {
            Some(_) => Err(Refusal::Owned),
            None => Ok(read_inside(&self.page, place)),
        }
    }

    /// The number of words that have an owner.
    pub fn owned(&self) -> u16 {
        self.caches.iter().map(|cache| cache.registered_count() as u16).sum()
    }

    fn check_core(&self, core: Core) -> Result<(), Refusal> {
        if core.number() < self.cores { Ok(()) } else { Err(Refusal::NoCore) }
    }

    fn check_place(&self, place: u16) -> Result<(), Refusal> {
        if place < self.size { Ok(()) } else { Err(Refusal::OutsideBoard) }
    }

    fn check_awake(&self, core: Core) -> Result<(), Refusal> {
        if self.locks.waits(core) { Err(Refusal::Waiting) } else { Ok(()) }
    }

    fn check_holder(&self, core: Core, lock: u8) -> Result<(), Refusal> {
        if self.locks.holds(core, lock) { Ok(()) } else { Err(Refusal::NotHolder) }
    }

    /// Counts a store of the core and gives its mark, unless the core has made all its stores.
    fn next_mark(&mut self, core: Core) -> Result<Mark, Refusal> {
        let count = &mut self.counts[core.index()];
        if *count >= self.allowance {
            return Err(Refusal::AllowanceSpent);
        }
        let mark = Mark::of_store(core, *count + 1).ok_or(Refusal::AllowanceSpent)?;
        *count += 1;
        Ok(mark)
    }

    fn mode_at(&self, place: u16) -> Mode {
        self.plan.mode(self.by_strip.quotient(place))
    }

    fn slot_of(&self, place: u16) -> usize {
        self.by_slot.remainder(place) as usize
    }

    /// Tells whether a Valid copy must be fetched again: the strip is locked, and the core's signature
    /// holds the word.
    fn is_suspect(&self, core: Core, place: u16, mode: Mode) -> bool {
        matches!(mode, Mode::Locked(_)) && self.signature.holds(core, place)
    }

    /// The word that counts: its owner's copy, or without an owner the page's word.
    fn fetch(&self, place: u16, slot: usize) -> (Word, Source) {
        match self.owners[usize::from(place)] {
            Some(owner) => (self.caches[owner.index()].entry(slot).word(), Source::Owner),
            None => (read_inside(&self.page, place), Source::Page),
        }
    }

    /// If the slot's word is Registered, writes it to the page and takes its owner away. What the slot
    /// holds then is left to the caller.
    fn make_way(&mut self, core: Core, slot: usize) {
        if let Some((place, word)) = self.caches[core.index()].entry(slot).registered() {
            write_inside(&mut self.page, place, word);
            self.owners[usize::from(place)] = None;
        }
    }

    /// Makes the core's copy Registered with this word, and the core its owner.
    fn register(&mut self, core: Core, place: u16, word: Word) -> u8 {
        let slot = self.slot_of(place);
        let answer = match self.caches[core.index()].entry(slot).state_for(place) {
            State::Registered => 0,
            State::Valid => self.claim(core, place, slot),
            State::Invalid => {
                self.make_way(core, slot);
                self.claim(core, place, slot)
            }
        };
        self.caches[core.index()].set_registered(slot, place, word);
        answer
    }

    /// Makes the core owner. The answer is 2 where another core was, whose copy becomes Invalid, else 1.
    fn claim(&mut self, core: Core, place: u16, slot: usize) -> u8 {
        match self.owners[usize::from(place)].replace(core) {
            Some(other) => {
                self.caches[other.index()].set_invalid(slot);
                2
            }
            None => 1,
        }
    }
}

/// Reads the page at a place that is below the board's size, so inside the page.
fn read_inside(page: &impl PageStore, place: u16) -> Word {
    page.read(place).unwrap_or_default()
}

/// Writes the page at a place that is below the board's size, so inside the page.
fn write_inside(page: &mut impl PageStore, place: u16, word: Word) {
    let written = page.write(place, word);
    debug_assert!(written.is_some(), "a cached place is inside the page");
}
