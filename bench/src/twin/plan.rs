//! Plans: the modes of the sixteen strips in 64 bits.

/// What may be done in a strip.
#[derive(Clone, Copy, Debug, PartialEq, Eq)]
pub enum Mode {
    /// Every core may load, nobody may store.
    ReadOnly,
    /// Every core may load and store, without a race.
    Written,
    /// Only the holder of this lock may load and store.
    Locked(u8),
}

/// A plan whose sixteen fields are all modes.
#[derive(Clone, Copy, Debug, PartialEq, Eq)]
pub struct Plan(u64);

impl Plan {
    /// The plan of the opening: every strip is read-only.
    pub const READ_ONLY: Plan = Plan(0);
    /// The lowest bit of each of the sixteen fields.
    const LOWEST: u64 = 0x1111_1111_1111_1111;

    /// The plan of these bits, or nothing where one of the fields is 2 to 7.
    pub fn check(bits: u64) -> Option<Plan> {
        let two_to_seven = (bits >> 1 | bits >> 2) & !(bits >> 3) & Plan::LOWEST;
        (two_to_seven == 0).then_some(Plan(bits))
    }

    /// The mode of a strip from 0 to 15.
    pub fn mode(self, strip: u32) -> Mode {
        match self.0 >> (4 * strip) & 15 {
            0 => Mode::ReadOnly,
            1 => Mode::Written,
            bits => Mode::Locked(bits as u8 & 7),
        }
    }

    /// Tells whether every strip is read-only.
    pub fn is_read_only(self) -> bool {
        self.0 == 0
    }
}
