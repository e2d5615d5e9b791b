//! The five figures of a board, and the divisions by them.

/// The five numbers of a board, checked.
#[derive(Clone, Copy, Debug, PartialEq, Eq)]
pub struct Figures {
    cores: u8,
    slots: u8,
    words: u16,
    strip: u16,
    allowance: u32,
}

/// The first figure that is at fault.
#[derive(Clone, Copy, Debug, PartialEq, Eq)]
pub enum FigureFault {
    Cores,
    Slots,
    Words,
    Strip,
    Allowance,
}

impl FigureFault {
    /// The number of the refusal, 14 to 18.
    pub fn number(self) -> u8 {
        match self {
            FigureFault::Cores => 14,
            FigureFault::Slots => 15,
            FigureFault::Words => 16,
            FigureFault::Strip => 17,
            FigureFault::Allowance => 18,
        }
    }

    /// Where the figure stands in a job.
    pub fn place(self) -> usize {
        match self {
            FigureFault::Cores => 0,
            FigureFault::Slots => 1,
            FigureFault::Words => 2,
            FigureFault::Strip => 4,
            FigureFault::Allowance => 8,
        }
    }
}

impl Figures {
    /// Checks the figures row by row, and tells the first that is at fault.
    pub fn check(
        cores: u8,
        slots: u8,
        words: u16,
        strip: u16,
        allowance: u32,
    ) -> Result<Figures, FigureFault> {
        if !(1..=8).contains(&cores) {
            return Err(FigureFault::Cores);
        }
        if !(1..=64).contains(&slots) {
            return Err(FigureFault::Slots);
        }
        if !(1..=4096).contains(&words) {
            return Err(FigureFault::Words);
        }
        if !(1..=4096).contains(&strip) || u32::from(words) > 16 * u32::from(strip) {
            return Err(FigureFault::Strip);
        }
        if !(1..=1_000_000).contains(&allowance) {
            return Err(FigureFault::Allowance);
        }
        Ok(Figures { cores, slots, words, strip, allowance })
    }

    /// How many cores the board has, 1 to 8.
    pub fn cores(self) -> u8 {
        self.cores
    }

    /// How many slots each core's cache has, 1 to 64.
    pub fn slots(self) -> u8 {
        self.slots
    }

    /// How many words the board has, 1 to 4,096.
    pub fn words(self) -> u16 {
        self.words
    }

    /// How many neighbouring words share one mode.
    pub fn strip(self) -> u16 {
        self.strip
    }

    /// How many stores each core may make.
    pub fn allowance(self) -> u32 {
        self.allowance
    }
}

/// Division of places by a number that does not change, done by a multiplication. For places and
/// divisors up to 4,096 it is exact; a test tries them all.
#[derive(Clone, Copy)]
pub struct Divisor {
    divisor: u32,
    factor: u64,
}

impl Divisor {
    const SHIFT: u32 = 24;

    /// A divisor from 1 to 4,096.
    pub fn new(divisor: u16) -> Divisor {
        Divisor { divisor: u32::from(divisor), factor: (1 << Divisor::SHIFT) / u64::from(divisor) + 1 }
    }

    /// How often the divisor goes into `place`.
    pub fn quotient(self, place: u16) -> u32 {
        ((u64::from(place) * self.factor) >> Divisor::SHIFT) as u32
    }

    /// What is left of `place`.
    pub fn remainder(self, place: u16) -> u32 {
        u32::from(place) - self.quotient(place) * self.divisor
    }
}
