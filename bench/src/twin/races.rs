//! The memory of a phase's accesses in written strips, from which races are found.

use super::answer::{Access, Refusal};
use super::page::PAGE_WORDS;
use super::word::Core;

/// What is remembered of one word. It counts only where the stamp is that of the phase in force.
///
/// One core at most can have stored the word in a phase, since another core's store would be a race.
/// The earliest load by a core other than any given one is the first load, or else the first load by
/// a core other than the first loader. So these three cores are enough.
#[derive(Clone, Copy)]
struct Accesses {
    stamp: u8,
    storer: Option<Core>,
    first_loader: Option<Core>,
    other_loader: Option<Core>,
}

impl Accesses {
    /// No accesses, with a stamp that no phase has.
    const NEVER: Accesses = Accesses { stamp: 0, storer: None, first_loader: None, other_loader: None };

    /// The accesses of the phase with this stamp.
    fn in_phase(self, stamp: u8) -> Accesses {
        if self.stamp == stamp { self } else { Accesses { stamp, ..Accesses::NEVER } }
    }
}

/// The accesses of the phase in force. A new phase gets a new stamp, so that nothing has to be
/// cleared; when all stamps are used up, everything is cleared once.
pub struct Races {
    stamp: u8,
    words: [Accesses; PAGE_WORDS],
}

impl Races {
    /// A first phase without an access.
    pub fn new() -> Races {
        Races { stamp: 1, words: [Accesses::NEVER; PAGE_WORDS] }
    }

    /// Begins a phase without an access.
    pub fn begin_phase(&mut self) {
        self.stamp = match self.stamp.checked_add(1) {
            Some(stamp) => stamp,
            None => {
                self.words = [Accesses::NEVER; PAGE_WORDS];
                1
            }
        };
    }

    /// Remembers a load, or refuses it as a race.
    pub fn load(&mut self, core: Core, place: u16) -> Result<(), Refusal> {
        let word = &mut self.words[usize::from(place)];
        let seen = word.in_phase(self.stamp);
        if let Some(earlier) = seen.storer.filter(|&storer| storer != core) {
            return Err(Refusal::Race { earlier, access: Access::Store });
        }
        let first = seen.first_loader.unwrap_or(core);
        let other = if first == core { seen.other_loader } else { seen.other_loader.or(Some(core)) };
        *word = Accesses { first_loader: Some(first), other_loader: other, ..seen };
        Ok(())
    }

    /// Refuses a store that is a race. Remembers nothing.
    pub fn check_store(&self, core: Core, place: u16) -> Result<(), Refusal> {
        let seen = self.words[usize::from(place)].in_phase(self.stamp);
        let by_another = |earlier: Option<Core>| earlier.filter(|&earlier| earlier != core);
        if let Some(earlier) = by_another(seen.storer) {
            return Err(Refusal::Race { earlier, access: Access::Store });
        }
        match by_another(seen.first_loader).or(by_another(seen.other_loader)) {
            Some(earlier) => Err(Refusal::Race { earlier, access: Access::Load }),
            None => Ok(()),
        }
    }

    /// Remembers a store that is no race.
    pub fn store(&mut self, core: Core, place: u16) {
        let word = &mut self.words[usize::from(place)];
        *word = Accesses { storer: Some(core), ..word.in_phase(self.stamp) };
    }
}

impl Default for Races {
    fn default() -> Races {
        Races::new()
    }
}
