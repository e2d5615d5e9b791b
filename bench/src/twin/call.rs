//! Calls, and the records that spell them.

use super::answer::Kind;
use super::word::Core;

/// The length of a record.
pub const RECORD: usize = 13;

/// One call of a job.
#[derive(Clone, Copy, Debug, PartialEq, Eq)]
pub enum Call {
    Load { core: Core, place: u16 },
    Store { core: Core, place: u16, value: u32 },
    Evict { core: Core, place: u16 },
    Acquire { core: Core, lock: u8 },
    Release { core: Core, lock: u8 },
    Phase { plan: u64 },
    Settle,
}

impl Call {
    /// The call that a record spells, or nothing where the record is against its layout.
    pub fn read(record: &[u8; RECORD]) -> Option<Call> {
        fits(record).then(|| Call::spelled(record))
    }

    /// The call that a record spells which fits its layout. Of others it gives some call.
    pub fn spelled(record: &[u8; RECORD]) -> Call {
        let &[letter, lock, hi, lo, p0, p1, p2, p3, p4, p5, p6, p7, caller] = record;
        let core = Core::from_low_bits(caller);
        let place = u16::from_be_bytes([hi, lo]);
        let payload = u64::from_be_bytes([p0, p1, p2, p3, p4, p5, p6, p7]);
        match letter {
            b'L' => Call::Load { core, place },
            b'S' => Call::Store { core, place, value: payload as u32 },
            b'E' => Call::Evict { core, place },
            b'A' => Call::Acquire { core, lock },
            b'R' => Call::Release { core, lock },
            b'P' => Call::Phase { plan: payload },
            _ => Call::Settle,
        }
    }

    /// The record that spells the call.
    pub fn record(self) -> [u8; RECORD] {
        let (lock, place, payload) = match self {
            Call::Load { place, .. } | Call::Evict { place, .. } => (0, place, 0),
            Call::Store { place, value, .. } => (0, place, u64::from(value)),
            Call::Acquire { lock, .. } | Call::Release { lock, .. } => (lock, 0, 0),
            Call::Phase { plan } => (0, 0, plan),
            Call::Settle => (0, 0, 0),
        };
        let mut record = [0; RECORD];
        record[0] = self.kind().letter();
        record[1] = lock;
        record[2..4].copy_from_slice(&place.to_be_bytes());
        record[4..12].copy_from_slice(&payload.to_be_bytes());
        record[12] = self.core().map_or(8, Core::number);
        record
    }

    /// Which of the seven calls it is.
    pub fn kind(self) -> Kind {
        match self {
            Call::Load { .. } => Kind::Load,
            Call::Store { .. } => Kind::Store,
            Call::Evict { .. } => Kind::Evict,
            Call::Acquire { .. } => Kind::Acquire,
            Call::Release { .. } => Kind::Release,
            Call::Phase { .. } => Kind::Phase,
            Call::Settle => Kind::Settle,
        }
    }

    /// The core that calls, or nothing for the conductor.
    pub fn core(self) -> Option<Core> {
        match self {
            Call::Load { core, .. }
            | Call::Store { core, .. }
            | Call::Evict { core, .. }
            | Call::Acquire { core, .. }
            | Call::Release { core, .. } => Some(core),
            Call::Phase { .. } | Call::Settle => None,
        }
    }
}

/// What the records of one letter may hold. A job is checked by a table of these, since a branch on
/// letters that follow no order would be foreseen badly.
#[derive(Clone, Copy)]
struct Layout {
    /// The bits of the lock, the word and the payload that may be set.
    lock: u8,
    place: u16,
    payload: u64,
    /// One bit for each lawful caller.
    callers: u16,
}

impl Layout {
    const CORES: u16 = 0xff;
    const CONDUCTOR: u16 = 0x100;
    /// No caller is lawful: the layout of bytes that are no letter.
    const NONE: Layout = Layout { lock: 0, place: 0, payload: 0, callers: 0 };
}

/// The layouts by letter.
static LAYOUTS: [Layout; 256] = {
    let access = Layout { place: u16::MAX, callers: Layout::CORES, ..Layout::NONE };
    let locking = Layout { lock: u8::MAX, callers: Layout::CORES, ..Layout::NONE };
    let conducting = Layout { callers: Layout::CONDUCTOR, ..Layout::NONE };
    let mut all = [Layout::NONE; 256];
    all[b'L' as usize] = access;
    all[b'S' as usize] = Layout { payload: u32::MAX as u64, ..access };
    all[b'E' as usize] = access;
    all[b'A' as usize] = locking;
    all[b'R' as usize] = locking;
    all[b'P' as usize] = Layout { payload: u64::MAX, ..conducting };
    all[b'T' as usize] = conducting;
    all
};

/// Tells whether the record is as its letter wants it.
pub fn fits(record: &[u8; RECORD]) -> bool {
    let &[letter, lock, hi, lo, p0, p1, p2, p3, p4, p5, p6, p7, caller] = record;
    let layout = &LAYOUTS[usize::from(letter)];
    let place = u16::from_be_bytes([hi, lo]);
    let payload = u64::from_be_bytes([p0, p1, p2, p3, p4, p5, p6, p7]);
    let unlawful =
        u64::from(lock & !layout.lock) | u64::from(place & !layout.place) | payload & !layout.payload;
    unlawful == 0 && caller < 16 && layout.callers >> caller & 1 == 1
}
