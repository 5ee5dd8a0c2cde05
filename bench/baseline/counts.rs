//! Reference counts of frames, of which each core keeps its own part (Refcache of the RadixVM paper, EuroSys 2013).
use std::collections::VecDeque;

const PLACES: usize = 64;
const DELTA_LIMIT: i64 = 1 << 40;

#[derive(Clone, Copy, Default)]
struct Count {
    global: i64,
    is_queued: bool,
    is_dirty: bool,
}

#[derive(Clone, Copy, Default)]
struct Entry {
    object: u32,
    delta: i64,
}

/// One core's entries by the object's number modulo 64, and the objects that it reviews with their epochs.
struct CoreCounts {
    entries: [Entry; PLACES],
    /// A bit for each place that has an entry.
    taken: u64,
    queue: VecDeque<(u32, u64)>,
}

pub struct Counts {
    objects: Vec<Count>,
    cores: Vec<CoreCounts>,
    epoch: u64,
    /// A bit for each core that flushed in this epoch.
    flushed: u64,
}

impl CoreCounts {
    /// The entry of the least object.
    fn least(&self) -> Option<u32> {
        let mut rest = self.taken;
        let mut least = None;
        while rest != 0 {
            let object = self.entries[rest.trailing_zeros() as usize].object;
            least = Some(least.map_or(object, |other: u32| other.min(object)));
            rest &= rest - 1;
        }
        least
    }
}

impl Counts {
    pub fn new(cores: usize, objects: usize) -> Counts {
        let core = || CoreCounts {
            entries: [Entry::default(); PLACES],
            taken: 0,
            queue: VecDeque::new(),
        };
        Counts {
            objects: vec![Count::default(); objects],
            cores: (0..cores).map(|_| core()).collect(),
            epoch: 0,
            flushed: 0,
        }
    }

    pub fn begin(&mut self, object: u32, count: i64) {
        self.objects[object as usize].global = count;
    }

    /// Moves the entry in a place into the global count; an object whose count is 0 then is reviewed later.
    fn evict(&mut self, core: usize, place: usize) {
        let part = &mut self.cores[core];
        let Entry { object, delta } = part.entries[place];
        part.taken &= !(1 << place);
        let count = &mut self.objects[object as usize];
        count.global += delta;
        if count.global != 0 {
            return;
        }
        if count.is_queued {
            count.is_dirty = true;
        } else {
            count.is_queued = true;
            count.is_dirty = false;
            part.queue.push_back((object, self.epoch));
        }
    }

    /// Counts an object up.
    pub fn inc(&mut self, core: usize, object: u32) {
        self.change(core, object, 1);
    }

    /// Counts an object down.
    pub fn dec(&mut self, core: usize, object: u32) {
        self.change(core, object, -1);
    }

    fn change(&mut self, core: usize, object: u32, by: i64) {
        let place = object as usize % PLACES;
        let part = &self.cores[core];
        let there = part.entries[place];
        let is_full = there.object != object || there.delta == by * DELTA_LIMIT;
        if part.taken & 1 << place != 0 && is_full {
            self.evict(core, place);
        }
        let part = &mut self.cores[core];
        if part.taken & 1 << place == 0 {
            part.taken |= 1 << place;
            part.entries[place] = Entry { object, delta: 0 };
        }
        part.entries[place].delta += by;
    }

    /// Evicts the entry of the core's least object, or else marks the core; the last to be marked ends the epoch. Tells
    /// whether anything was done.
    pub fn flush(&mut self, core: usize) -> bool {
        if let Some(object) = self.cores[core].least() {
            self.evict(core, object as usize % PLACES);
            return true;
        }
        if self.flushed & 1 << core != 0 {
            return false;
        }
        self.flushed |= 1 << core;
        if self.flushed.count_ones() as usize == self.cores.len() {
            self.flushed = 0;
            self.epoch += 1;
        }
        true
    }

    /// Looks at the object that the core queued first, if that was two epochs ago: none where there is none, else the object
    /// if it isn't used any more.
    pub fn review(&mut self, core: usize) -> Option<Option<u32>> {
        let queue = &mut self.cores[core].queue;
        let &(object, since) = queue.front()?;
        if self.epoch < since + 2 {
            return None;
        }
        queue.pop_front();
        let count = &mut self.objects[object as usize];
        if count.global == 0 && count.is_dirty {
            count.is_dirty = false;
            queue.push_back((object, self.epoch));
            return Some(None);
        }
        count.is_queued = false;
        Some((count.global == 0).then_some(object))
    }
}
