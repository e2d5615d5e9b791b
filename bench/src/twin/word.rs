//! Words, marks and cores.

/// One of the eight cores that a board can have. A board of n cores uses the first n of them.
#[derive(Clone, Copy, Debug, PartialEq, Eq)]
#[repr(u8)]
pub enum Core {
    C0,
    C1,
    C2,
    C3,
    C4,
    C5,
    C6,
    C7,
}

impl Core {
    /// All cores, in rising order.
    pub const ALL: [Core; 8] =
        [Core::C0, Core::C1, Core::C2, Core::C3, Core::C4, Core::C5, Core::C6, Core::C7];

    /// The core of this number, or nothing above 7.
    pub fn from_number(number: u8) -> Option<Core> {
        (number < 8).then(|| Core::from_low_bits(number))
    }

    /// The core of the number that the three lowest bits are.
    pub fn from_low_bits(number: u8) -> Core {
        match number & 7 {
            0 => Core::C0,
            1 => Core::C1,
            2 => Core::C2,
            3 => Core::C3,
            4 => Core::C4,
            5 => Core::C5,
            6 => Core::C6,
            _ => Core::C7,
        }
    }

    /// 0 to 7.
    pub fn number(self) -> u8 {
        self as u8
    }

    /// The number as an index of a table with one place for each core.
    pub fn index(self) -> usize {
        self as usize
    }
}

/// Which store wrote a word: blank, or a core and the number of its store. No other mark can be made.
#[derive(Clone, Copy, Debug, Default, PartialEq, Eq)]
pub struct Mark(u32);

impl Mark {
    /// The mark of a word that no core has stored since the board was opened.
    pub const BLANK: Mark = Mark(0);
    /// The most stores that a core can make on one board.
    pub const STORES: u32 = 1_000_000;
    /// What one core adds to the number of a mark.
    const PER_CORE: u32 = 1_048_576;

    /// The mark of this core's store number `count`, which is 1 to 1,000,000.
    pub fn of_store(core: Core, count: u32) -> Option<Mark> {
        (1..=Mark::STORES).contains(&count).then(|| Mark(u32::from(core.number()) * Mark::PER_CORE + count))
    }

    /// The mark of this number, or nothing where the number is no mark.
    pub fn from_number(number: u32) -> Option<Mark> {
        if number == 0 {
            return Some(Mark::BLANK);
        }
        let core = Core::from_number(u8::try_from(number / Mark::PER_CORE).ok()?)?;
        Mark::of_store(core, number % Mark::PER_CORE)
    }

    /// 0 for blank, else core × 1,048,576 + count.
    pub fn number(self) -> u32 {
        self.0
    }
}

/// A value of 32 bits and the mark of the store that wrote it.
#[derive(Clone, Copy, Debug, Default, PartialEq, Eq)]
pub struct Word {
    pub value: u32,
    pub mark: Mark,
}
