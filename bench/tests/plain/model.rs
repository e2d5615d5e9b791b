//! The board of the plain player: lists, maps and whole numbers, every rule spelled out.

use std::collections::HashMap;

#[derive(Clone, Copy, PartialEq)]
enum State {
    Valid,
    Registered,
}

#[derive(Clone, Copy)]
struct Copied {
    state: State,
    place: usize,
    word: (u64, u64),
}

#[derive(Clone, Default)]
struct Lock {
    holder: Option<usize>,
    queue: Vec<usize>,
    last: Option<usize>,
}

/// Refusal, small answer, value, mark.
pub type Numbers = (u64, u64, u64, u64);

pub struct Model {
    cores: usize,
    slots: usize,
    words: usize,
    strip: usize,
    allowance: u64,
    page: Vec<(u64, u64)>,
    copies: HashMap<(usize, usize), Copied>,
    sets: Vec<[bool; 256]>,
    locks: Vec<Lock>,
    accesses: Vec<(usize, usize, bool)>,
    counts: Vec<u64>,
    plan: u64,
}

fn refused(number: u64) -> Numbers {
    (number, 0, 0, 0)
}

fn done(number: u64) -> Numbers {
    (0, number, 0, 0)
}

impl Model {
    /// A fresh board of these cores, slots and allowance, words and strip length.
    pub fn new((cores, slots, allowance): (usize, usize, u64), words: usize, strip: usize) -> Model {
        Model {
            cores,
            slots,
            words,
            strip,
            allowance,
            page: vec![(0, 0); 4096],
            copies: HashMap::new(),
            sets: vec![[false; 256]; 8],
            locks: vec![Lock::default(); 8],
            accesses: Vec::new(),
            counts: vec![0; 8],
            plan: 0,
        }
    }

    fn mode(&self, place: usize) -> u64 {
        self.plan >> (4 * (place / self.strip)) & 15
    }

    fn waits(&self, core: usize) -> bool {
        self.locks.iter().any(|lock| lock.queue.contains(&core))
    }

    fn copy(&self, core: usize, place: usize) -> Option<Copied> {
        self.copies.get(&(core, place % self.slots)).copied().filter(|copy| copy.place == place)
    }

    fn owner(&self, place: usize) -> Option<usize> {
        (0..self.cores)
            .find(|&core| self.copy(core, place).is_some_and(|copy| copy.state == State::Registered))
    }

    fn bits(place: usize) -> [usize; 2] {
        [place % 256, (place / 16 + 7 * place) % 256]
    }

    /// The other core's store or earliest load that an access meets.
    fn race(&self, core: usize, place: usize, is_store: bool) -> Option<Numbers> {
        if self.mode(place) != 1 {
            return None;
        }
        let others: Vec<_> =
            self.accesses.iter().filter(|access| access.0 != core && access.1 == place).collect();
        if let Some(store) = others.iter().find(|access| access.2) {
            return Some((6, store.0 as u64, 1, 0));
        }
        let load = others.first().filter(|_| is_store)?;
        Some((6, load.0 as u64, 0, 0))
    }

    /// Rows 1 to 6 of load and store.
    fn barred(&self, core: usize, place: usize, is_store: bool) -> Option<Numbers> {
        if core >= self.cores {
            return Some(refused(1));
        }
        if place >= self.words {
            return Some(refused(2));
        }
        if self.waits(core) {
            return Some(refused(3));
        }
        let mode = self.mode(place);
        if is_store && mode == 0 {
            return Some(refused(4));
        }
        if mode >= 8 && self.locks[mode as usize - 8].holder != Some(core) {
            return Some(refused(5));
        }
        self.race(core, place, is_store)
    }

    /// Before a word fills a slot that holds another word, a Registered one is written to the page.
    fn make_way(&mut self, core: usize, place: usize) {
        let slot = (core, place % self.slots);
        if let Some(old) = self.copies.get(&slot).copied().filter(|old| old.place != place) {
            if old.state == State::Registered {
                self.page[old.place] = old.word;
            }
            self.copies.remove(&slot);
        }
    }

    pub fn load(&mut self, core: usize, place: usize) -> Numbers {
        if let Some(numbers) = self.barred(core, place, false) {
            return numbers;
        }
        self.accesses.push((core, place, false));
        let suspect = self.mode(place) >= 8 && Model::bits(place).iter().all(|&bit| self.sets[core][bit]);
        let fit = self.copy(core, place).filter(|copy| copy.state == State::Registered || !suspect);
        if let Some(copy) = fit {
            return (0, 0, copy.word.0, copy.word.1);
        }
        self.make_way(core, place);
        let (word, source) = match self.owner(place) {
            Some(owner) => (self.copy(owner, place).unwrap().word, 2),
            None => (self.page[place], 1),
        };
        let copy = Copied { state: State::Valid, place, word };
        self.copies.insert((core, place % self.slots), copy);
        (0, source, word.0, word.1)
    }

    pub fn store(&mut self, core: usize, place: usize, value: u64) -> Numbers {
        if let Some(numbers) = self.barred(core, place, true) {
            return numbers;
        }
        if self.counts[core] >= self.allowance {
            return refused(7);
        }
        self.counts[core] += 1;
        let mark = core as u64 * 1_048_576 + self.counts[core];
        self.accesses.push((core, place, true));
        if self.mode(place) >= 8 {
            for bit in Model::bits(place) {
                self.sets[core][bit] = true;
            }
        }
        self.make_way(core, place);
        let answer = match self.owner(place) {
            Some(owner) if owner == core => 0,
            Some(owner) => {
                self.copies.remove(&(owner, place % self.slots));
                2
            }
            None => 1,
        };
        let copy = Copied { state: State::Registered, place, word: (value, mark) };
        self.copies.insert((core, place % self.slots), copy);
        (0, answer, 0, mark)
    }

    pub fn evict(&mut self, core: usize, place: usize) -> Numbers {
        if core >= self.cores {
            return refused(1);
        }
        if place >= self.words {
            return refused(2);
        }
        let Some(copy) = self.copy(core, place) else {
            return done(0);
        };
        self.copies.remove(&(core, place % self.slots));
        if copy.state == State::Registered {
            self.page[place] = copy.word;
            return done(2);
        }
        done(1)
    }

    fn take_in(&mut self, core: usize, from: usize) {
        for bit in 0..256 {
            self.sets[core][bit] |= self.sets[from][bit];
        }
    }

    pub fn acquire(&mut self, core: usize, lock: usize) -> Numbers {
        if core >= self.cores {
            return refused(1);
        }
        if self.waits(core) {
            return refused(3);
        }
        if lock > 7 {
            return refused(8);
        }
        if self.locks.iter().any(|lock| lock.holder == Some(core)) {
            return refused(9);
        }
        if self.locks[lock].holder.is_some() {
            self.locks[lock].queue.push(core);
            return done(1);
        }
        self.locks[lock].holder = Some(core);
        if let Some(last) = self.locks[lock].last {
            self.take_in(core, last);
        }
        done(0)
    }

    pub fn release(&mut self, core: usize, lock: usize) -> Numbers {
        if core >= self.cores {
            return refused(1);
        }
        if self.waits(core) {
            return refused(3);
        }
        if lock > 7 {
            return refused(8);
        }
        if self.locks[lock].holder != Some(core) {
            return refused(10);
        }
        self.locks[lock].last = Some(core);
        self.locks[lock].holder = None;
        if self.locks[lock].queue.is_empty() {
            return done(0);
        }
        let next = self.locks[lock].queue.remove(0);
        self.locks[lock].holder = Some(next);
        self.take_in(next, core);
        done(next as u64 + 1)
    }

    pub fn phase(&mut self, plan: u64) -> Numbers {
        if (0..16).any(|strip| (2..8).contains(&(plan >> (4 * strip) & 15))) {
            return refused(11);
        }
        if self.locks.iter().any(|lock| lock.holder.is_some()) {
            return refused(12);
        }
        let before = self.copies.len();
        let (ended, strip) = (self.plan, self.strip);
        self.copies.retain(|_, copy| {
            copy.state == State::Registered || ended >> (4 * (copy.place / strip)) & 15 == 0
        });
        self.sets = vec![[false; 256]; 8];
        self.locks.iter_mut().for_each(|lock| lock.last = None);
        self.accesses.clear();
        self.plan = plan;
        done((before - self.copies.len()) as u64)
    }

    pub fn settle(&mut self) -> Numbers {
        let mut settled = 0;
        for copy in self.copies.values_mut().filter(|copy| copy.state == State::Registered) {
            self.page[copy.place] = copy.word;
            copy.state = State::Valid;
            settled += 1;
        }
        done(settled)
    }
}
