//! The eight locks: who holds each, who waits for it, and who released it last.

use super::answer::Refusal;
use super::word::Core;

/// The number of locks.
pub const LOCKS: usize = 8;

/// What a core has to do with locks. It holds or waits for at most one.
#[derive(Clone, Copy, Debug, PartialEq, Eq)]
pub enum Standing {
    Apart,
    Holds(u8),
    Waits,
}

/// What an accepted acquire did.
#[derive(Clone, Copy, Debug, PartialEq, Eq)]
pub enum Acquired {
    /// The lock was free. The last releaser is told if there is one.
    Granted { last: Option<Core> },
    /// The lock is held, and the core was queued last.
    Queued,
}

/// Cores that wait for one lock, the first first. Each waits once, so seven places are enough, and
/// eight make the places of the ring simple.
#[derive(Clone, Copy)]
struct Queue {
    cores: [Core; 8],
    first: u8,
    length: u8,
}

impl Queue {
    const EMPTY: Queue = Queue { cores: [Core::C0; 8], first: 0, length: 0 };

    fn push(&mut self, core: Core) {
        self.cores[usize::from(self.first + self.length) % 8] = core;
        self.length += 1;
    }

    fn pop(&mut self) -> Option<Core> {
        if self.length == 0 {
            return None;
        }
        let core = self.cores[usize::from(self.first)];
        self.first = (self.first + 1) % 8;
        self.length -= 1;
        Some(core)
    }
}

#[derive(Clone, Copy)]
struct Lock {
    is_held: bool,
    last: Option<Core>,
    queue: Queue,
}

/// All locks of a board.
pub struct Locks {
    locks: [Lock; LOCKS],
    standings: [Standing; 8],
    held: u8,
}

impl Locks {
    /// Eight free locks that nobody has released.
    pub fn new() -> Locks {
        let free = Lock { is_held: false, last: None, queue: Queue::EMPTY };
        Locks { locks: [free; LOCKS], standings: [Standing::Apart; 8], held: 0 }
    }

    /// What the core holds or waits for.
    pub fn standing(&self, core: Core) -> Standing {
        self.standings[core.index()]
    }

    /// Tells whether the core waits for a lock.
    pub fn waits(&self, core: Core) -> bool {
        self.standing(core) == Standing::Waits
    }

    /// Tells whether the core holds this lock.
    pub fn holds(&self, core: Core, lock: u8) -> bool {
        self.standing(core) == Standing::Holds(lock)
    }

    /// Tells whether any lock is held.
    pub fn any_held(&self) -> bool {
        self.held > 0
    }

    /// Gives the core a free lock, or queues the core for a held one.
    pub fn acquire(&mut self, core: Core, number: u8) -> Result<Acquired, Refusal> {
        let standing = self.standing(core);
        if standing == Standing::Waits {
            return Err(Refusal::Waiting);
        }
        let lock = self.locks.get_mut(usize::from(number)).ok_or(Refusal::NoLock)?;
        if standing != Standing::Apart {
            return Err(Refusal::HoldsLock);
        }
        if lock.is_held {
            lock.queue.push(core);
            self.standings[core.index()] = Standing::Waits;
            return Ok(Acquired::Queued);
        }
        lock.is_held = true;
        self.held += 1;
        self.standings[core.index()] = Standing::Holds(number);
        Ok(Acquired::Granted { last: lock.last })
    }

    /// Passes the core's lock to the first that waits for it and tells who that is; frees it if nobody
    /// waits.
    pub fn release(&mut self, core: Core, number: u8) -> Result<Option<Core>, Refusal> {
        let standing = self.standing(core);
        if standing == Standing::Waits {
            return Err(Refusal::Waiting);
        }
        let lock = self.locks.get_mut(usize::from(number)).ok_or(Refusal::NoLock)?;
        if standing != Standing::Holds(number) {
            return Err(Refusal::NotHeld);
        }
        lock.last = Some(core);
        self.standings[core.index()] = Standing::Apart;
        let next = lock.queue.pop();
        match next {
            Some(next) => self.standings[next.index()] = Standing::Holds(number),
            None => {
                lock.is_held = false;
                self.held -= 1;
            }
        }
        Ok(next)
    }

    /// Forgets who released each lock last.
    pub fn forget_releasers(&mut self) {
        for lock in &mut self.locks {
            lock.last = None;
        }
    }
}

impl Default for Locks {
    fn default() -> Locks {
        Locks::new()
    }
}
