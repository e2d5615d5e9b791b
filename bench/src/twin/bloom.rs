//! The Bloom signature: for each core a set of words in 256 bits, which may hold words that nobody put.

use super::word::Core;

/// Four times 64 bits for each core. A word has two bits and is in when both are set.
pub struct Bloom {
    bits: [[u64; 4]; 8],
}

/// The two bits of a word.
fn bits_of(place: u16) -> (usize, usize) {
    let word = usize::from(place);
    (word % 256, (word / 16 + 7 * word) % 256)
}

impl Bloom {
    /// A signature of eight empty sets.
    pub fn new() -> Bloom {
        Bloom { bits: [[0; 4]; 8] }
    }

    /// Tells whether the word is in the core's set.
    pub fn holds(&self, core: Core, place: u16) -> bool {
        let row = &self.bits[core.index()];
        let is_set = |bit: usize| row[bit / 64] >> (bit % 64) & 1 == 1;
        let (first, second) = bits_of(place);
        is_set(first) && is_set(second)
    }

    /// Puts the word in the core's set.
    pub fn put(&mut self, core: Core, place: u16) {
        let row = &mut self.bits[core.index()];
        let (first, second) = bits_of(place);
        row[first / 64] |= 1 << (first % 64);
        row[second / 64] |= 1 << (second % 64);
    }

    /// Adds all words of the set of `from` to the set of `core`.
    pub fn take_in(&mut self, core: Core, from: Core) {
        let other = self.bits[from.index()];
        for (mine, theirs) in self.bits[core.index()].iter_mut().zip(other) {
            *mine |= theirs;
        }
    }

    /// Empties the sets of all eight cores.
    pub fn clear_all(&mut self) {
        self.bits = [[0; 4]; 8];
    }

    /// The number of bits that are set for the core.
    pub fn fill(&self, core: Core) -> u32 {
        self.bits[core.index()].iter().map(|part| part.count_ones()).sum()
    }
}

impl Default for Bloom {
    fn default() -> Bloom {
        Bloom::new()
    }
}
