//! The writer of random calls. It follows the plan and the locks, so that most calls fit them.

use crate::random::Random;
use crate::twin::answer::Kind;
use crate::twin::bloom::Bloom;
use crate::twin::call::Call;
use crate::twin::figures::Figures;
use crate::twin::locks::{Locks, Standing};
use crate::twin::plan::{Mode, Plan};
use crate::twin::word::Core;

/// How often the writer does what.
#[derive(Clone, Copy)]
pub struct Taste {
    /// Weights of load, store, evict, acquire, release, phase and settle.
    pub calls: [u32; 7],
    /// Weights of strips that are read-only, written and locked.
    pub modes: [u32; 3],
    /// In how many of 100 numbers one out of range is chosen.
    pub odd: u32,
    /// In how many of 100 calls core and lock are chosen so that the call is likely accepted.
    pub fitting: u32,
    /// In how many of 100 accesses of written strips the core is chosen by the word, so that no two
    /// cores meet.
    pub apart: u32,
    /// In how many of 100 phases some hundred phases without an access follow, so that what is kept of
    /// old phases grows old.
    pub bursts: u32,
}

/// Writes calls for a board of these figures.
pub struct Writer<'a> {
    random: &'a mut Random,
    figures: Figures,
    taste: Taste,
    favourites: Vec<u16>,
    plan: Plan,
    locks: Locks,
    calls: Vec<Call>,
}

impl<'a> Writer<'a> {
    /// A writer whose loads and stores are mostly of a few favourite words.
    pub fn new(random: &'a mut Random, figures: Figures, taste: Taste) -> Writer<'a> {
        let most = random.pick(&[2, 6, 12, 40]);
        let count = random.between(1, most);
        let words = u32::from(figures.words());
        let mut favourites: Vec<u16> = (0..count).map(|_| random.below(words) as u16).collect();
        if random.chance(40) {
            favourites.extend(surplus_words(random, &favourites, figures.words()));
        }
        Writer::with_favourites(random, figures, taste, favourites)
    }

    /// A writer whose loads and stores are mostly of these words.
    pub fn with_favourites(
        random: &'a mut Random,
        figures: Figures,
        taste: Taste,
        favourites: Vec<u16>,
    ) -> Writer<'a> {
        let (plan, locks) = (Plan::READ_ONLY, Locks::new());
        Writer { random, figures, taste, favourites, plan, locks, calls: Vec::new() }
    }

    /// Writes this many calls. The first is mostly a phase call, since before it nobody may store.
    pub fn write(mut self, count: usize) -> Vec<Call> {
        if self.random.chance(90) {
            self.phase();
        }
        while self.calls.len() < count {
            self.write_some();
        }
        self.calls.truncate(count);
        self.calls
    }

    /// Writes one call, and before it those that make it fit.
    fn write_some(&mut self) {
        const KINDS: [Kind; 7] =
            [Kind::Load, Kind::Store, Kind::Evict, Kind::Acquire, Kind::Release, Kind::Phase, Kind::Settle];
        match KINDS[self.random.weighted(&self.taste.calls)] {
            Kind::Load => {
                let (core, place) = self.access(false);
                self.add(Call::Load { core, place });
            }
            Kind::Store => {
                let (core, place) = self.access(true);
                let value = self.value();
                self.add(Call::Store { core, place, value });
            }
            Kind::Evict => {
                let (core, place) = (self.core(), self.place());
                self.add(Call::Evict { core, place });
            }
            Kind::Acquire => self.acquire(),
            Kind::Release => self.release(),
            Kind::Phase => self.phase(),
            Kind::Settle => self.add(Call::Settle),
        }
    }

    /// Adds a call and follows what it does to plan and locks.
    fn add(&mut self, call: Call) {
        let is_core = call.core().is_none_or(|core| core.number() < self.figures.cores());
        match call {
            Call::Acquire { core, lock } if is_core => drop(self.locks.acquire(core, lock)),
            Call::Release { core, lock } if is_core => drop(self.locks.release(core, lock)),
            Call::Phase { plan } if !self.locks.any_held() => {
                self.plan = Plan::check(plan).unwrap_or(self.plan);
            }
            _ => {}
        }
        self.calls.push(call);
    }

    /// A core and a word for a load or a store.
    fn access(&mut self, is_store: bool) -> (Core, u16) {
        let (mut core, mut place) = (self.core(), self.place());
        if !self.random.chance(self.taste.fitting) {
            return (core, place);
        }
        for _ in 0..4 {
            if is_store && self.mode_at(place) == Mode::ReadOnly {
                place = self.place();
            }
        }
        match self.mode_at(place) {
            Mode::ReadOnly => {}
            Mode::Written => {
                if self.random.chance(self.taste.apart) {
                    core = self.core_of(u32::from(place) % u32::from(self.figures.cores()));
                }
            }
            Mode::Locked(lock) => core = self.holder_or_new(lock, core),
        }
        (core, place)
    }

    /// The holder of the lock; if nobody holds it, the core acquires it first where it can.
    fn holder_or_new(&mut self, lock: u8, core: Core) -> Core {
        if let Some(holder) = self.cores().find(|&core| self.locks.holds(core, lock)) {
            return holder;
        }
        match self.locks.standing(core) {
            Standing::Apart => {}
            Standing::Holds(other) => self.add(Call::Release { core, lock: other }),
            Standing::Waits => return core,
        }
        self.add(Call::Acquire { core, lock });
        core
    }

    /// Asks for a lock, mostly one that the plan names, mostly by a core that may.
    fn acquire(&mut self) {
        let mut core = self.core();
        if self.random.chance(self.taste.fitting) {
            core = self.find(core, |locks, core| locks.standing(core) == Standing::Apart);
        }
        let place = self.place();
        let lock = match self.mode_at(place) {
            Mode::Locked(lock) if self.random.chance(80) => lock,
            _ if self.is_odd() => self.random.pick(&[8, 9, 15, 16, 128, 255]),
            _ => self.random.below(8) as u8,
        };
        self.add(Call::Acquire { core, lock });
    }

    /// Gives a lock back, mostly by its holder.
    fn release(&mut self) {
        let mut core = self.core();
        if self.random.chance(self.taste.fitting) {
            core = self.find(core, |locks, core| matches!(locks.standing(core), Standing::Holds(_)));
        }
        let lock = match self.locks.standing(core) {
            Standing::Holds(lock) if self.random.chance(90) => lock,
            _ if self.is_odd() => self.random.pick(&[8, 9, 15, 16, 128, 255]),
            _ => self.random.below(8) as u8,
        };
        self.add(Call::Release { core, lock });
    }

    /// Begins a phase, mostly after all locks are given back.
    fn phase(&mut self) {
        if self.random.chance(self.taste.fitting) {
            for core in Core::ALL.into_iter().cycle().take(64) {
                if let Standing::Holds(lock) = self.locks.standing(core) {
                    self.add(Call::Release { core, lock });
                }
            }
        }
        let count = match self.random.chance(self.taste.bursts) {
            true => self.random.between(250, 260),
            false => 1,
        };
        for _ in 0..count {
            let plan = self.random_plan();
            self.add(Call::Phase { plan });
        }
    }

    /// Sixteen fields; now and then one of them is no mode.
    fn random_plan(&mut self) -> u64 {
        let most = self.random.pick(&[1, 2, 8]);
        let mut plan = 0;
        for _ in 0..16 {
            let field = match self.random.weighted(&self.taste.modes) {
                0 => 0,
                1 => 1,
                _ => 8 + self.random.below(most),
            };
            plan = plan << 4 | u64::from(field);
        }
        if self.is_odd() {
            let (strip, mode) = (self.random.below(16), self.random.between(2, 7));
            plan = plan & !(15 << (4 * strip)) | u64::from(mode) << (4 * strip);
        }
        plan
    }

    fn mode_at(&self, place: u16) -> Mode {
        self.plan.mode(u32::from(place / self.figures.strip()).min(15))
    }

    fn cores(&self) -> impl Iterator<Item = Core> + use<> {
        Core::ALL.into_iter().take(usize::from(self.figures.cores()))
    }

    fn core_of(&self, number: u32) -> Core {
        Core::ALL[number as usize % 8]
    }

    /// A random core, rarely one that the board does not have.
    fn core(&mut self) -> Core {
        let number = match self.is_odd() {
            true => self.random.below(8),
            false => self.random.below(u32::from(self.figures.cores())),
        };
        let core = self.core_of(number);
        match self.random.chance(self.taste.fitting) {
            true => self.find(core, |locks, core| !locks.waits(core)),
            false => core,
        }
    }

    /// The next core from this one on that is as wanted; this one if there is none.
    fn find(&self, core: Core, is_wanted: impl Fn(&Locks, Core) -> bool) -> Core {
        let cores = u32::from(self.figures.cores());
        if u32::from(core.number()) >= cores {
            return core;
        }
        (0..cores)
            .map(|step| self.core_of((u32::from(core.number()) + step) % cores))
            .find(|&core| is_wanted(&self.locks, core))
            .unwrap_or(core)
    }

    /// A word, mostly a favourite, rarely one that the board does not have.
    fn place(&mut self) -> u16 {
        let words = self.figures.words();
        if self.is_odd() {
            return match self.random.below(3) {
                0 => words,
                1 => words.saturating_add(self.random.below(40) as u16),
                _ => self.random.number() as u16,
            };
        }
        match self.random.chance(85) {
            true => self.random.pick(&self.favourites),
            false => self.random.below(u32::from(words)) as u16,
        }
    }

    fn value(&mut self) -> u32 {
        match self.random.below(4) {
            0 => self.random.below(10),
            1 => self.random.pick(&[0, 9, 10, 99, 100, 4_294_967_295, 1_000_000_000, 999_999_999]),
            _ => self.random.number() as u32,
        }
    }

    fn is_odd(&mut self) -> bool {
        self.random.chance(self.taste.odd)
    }
}

/// Some words that a Bloom signature holds without a put, once these have been put.
fn surplus_words(random: &mut Random, put: &[u16], words: u16) -> Vec<u16> {
    let mut bloom = Bloom::new();
    put.iter().for_each(|&place| bloom.put(Core::C0, place));
    let surplus: Vec<u16> =
        (0..words).filter(|&place| bloom.holds(Core::C0, place) && !put.contains(&place)).collect();
    match surplus.is_empty() {
        true => Vec::new(),
        false => put.iter().map(|_| random.pick(&surplus)).collect(),
    }
}
