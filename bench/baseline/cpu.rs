//! One core's page tables of four levels (Intel SDM volume 3A), and its TLB of 64 translations, the oldest filled of which
//! goes where there is no room.
use crate::baseline::request::{Access, Prot};

const WRITE: u64 = 1 << 1;
const NO_EXECUTE: u64 = 1 << 63;

fn entry_word(frame: u32, prot: Prot) -> u64 {
    let no_execute = if prot.exec { 0 } else { NO_EXECUTE };
    u64::from(frame) << 12 | 5 | u64::from(prot.write) << 1 | no_execute
}

fn permits(word: u64, access: Access) -> bool {
    match access {
        Access::Load => true,
        Access::Store(_) => word & WRITE != 0,
        Access::Fetch => word & NO_EXECUTE == 0,
    }
}

fn frame_of(word: u64) -> u32 {
    (word >> 12) as u32
}

// ---- tables

/// A table and those below it. The pages that it covers have numbers from 0 on.
trait Table {
    const PAGES: u64;
    fn new() -> Box<Self>;
    fn get(&self, page: u64) -> u64;
    fn set(&mut self, page: u64, word: u64);
    fn clear(&mut self, first: u64, end: u64);
}

struct Leaf([u64; 512]);
struct Inner<C>([Option<Box<C>>; 512]);

impl Table for Leaf {
    const PAGES: u64 = 512;

    fn new() -> Box<Self> {
        Box::new(Leaf([0; 512]))
    }

    fn get(&self, page: u64) -> u64 {
        self.0[page as usize]
    }

    fn set(&mut self, page: u64, word: u64) {
        self.0[page as usize] = word;
    }

    fn clear(&mut self, first: u64, end: u64) {
        self.0[first as usize..end as usize].fill(0);
    }
}

impl<C: Table> Table for Inner<C> {
    const PAGES: u64 = 512 * C::PAGES;

    fn new() -> Box<Self> {
        Box::new(Inner([const { None }; 512]))
    }

    fn get(&self, page: u64) -> u64 {
        match &self.0[(page / C::PAGES) as usize] {
            Some(table) => table.get(page % C::PAGES),
            None => 0,
        }
    }

    fn set(&mut self, page: u64, word: u64) {
        self.0[(page / C::PAGES) as usize]
            .get_or_insert_with(C::new)
            .set(page % C::PAGES, word);
    }

    fn clear(&mut self, first: u64, end: u64) {
        let from = first / C::PAGES;
        let to = end.div_ceil(C::PAGES);
        for (i, table) in (from..to).zip(&mut self.0[from as usize..to as usize]) {
            if let Some(table) = table {
                let start = i * C::PAGES;
                table.clear(first.saturating_sub(start), (end - start).min(C::PAGES));
            }
        }
    }
}

// ---- the TLB

const PLACES: usize = 64;
const BUCKETS: usize = 128;
const NONE: u8 = PLACES as u8;

#[derive(Clone, Copy, Default)]
struct Entry {
    page: u64,
    word: u64,
    /// The next in the bucket, or the next free place.
    next: u8,
    older: u8,
    newer: u8,
}

/// Translations by a hash of their pages, and in the order in which they were filled.
struct Tlb {
    entries: [Entry; PLACES],
    buckets: [u8; BUCKETS],
    free: u8,
    oldest: u8,
    newest: u8,
}

fn bucket(page: u64) -> usize {
    ((page ^ page >> 7 ^ page >> 14) % BUCKETS as u64) as usize
}

impl Tlb {
    fn new() -> Tlb {
        let mut entries = [Entry::default(); PLACES];
        for (i, entry) in entries.iter_mut().enumerate() {
            entry.next = i as u8 + 1;
        }
        Tlb {
            entries,
            buckets: [NONE; BUCKETS],
            free: 0,
            oldest: NONE,
            newest: NONE,
        }
    }

    fn find(&self, page: u64) -> Option<u8> {
        let mut at = self.buckets[bucket(page)];
        while at != NONE {
            let entry = &self.entries[at as usize];
            if entry.page == page {
                return Some(at);
            }
            at = entry.next;
        }
        None
    }

    /// Takes in the translation of a page that has none.
    fn fill(&mut self, page: u64, word: u64) {
        if self.free == NONE {
            self.remove(self.oldest);
        }
        let at = self.free;
        let head = &mut self.buckets[bucket(page)];
        self.free = self.entries[at as usize].next;
        self.entries[at as usize] = Entry {
            page,
            word,
            next: *head,
            older: self.newest,
            newer: NONE,
        };
        *head = at;
        match self.newest {
            NONE => self.oldest = at,
            newest => self.entries[newest as usize].newer = at,
        }
        self.newest = at;
    }

    fn remove(&mut self, at: u8) {
        let Entry {
            page,
            next,
            older,
            newer,
            ..
        } = self.entries[at as usize];
        let head = &mut self.buckets[bucket(page)];
        if *head == at {
            *head = next;
        } else {
            let mut before = *head as usize;
            while self.entries[before].next != at {
                before = self.entries[before].next as usize;
            }
            self.entries[before].next = next;
        }
        match older {
            NONE => self.oldest = newer,
            older => self.entries[older as usize].newer = newer,
        }
        match newer {
            NONE => self.newest = older,
            newer => self.entries[newer as usize].older = older,
        }
        self.entries[at as usize].next = self.free;
        self.free = at;
    }

    fn drop_page(&mut self, page: u64) -> bool {
        let found = self.find(page);
        if let Some(at) = found {
            self.remove(at);
        }
        found.is_some()
    }

    fn invalidate(&mut self, first: u64, end: u64) {
        if end - first < PLACES as u64 {
            for page in first..end {
                self.drop_page(page);
            }
            return;
        }
        let mut at = self.oldest;
        while at != NONE {
            let entry = self.entries[at as usize];
            if (first..end).contains(&entry.page) {
                self.remove(at);
            }
            at = entry.newer;
        }
    }
}

// ---- the core

pub struct Cpu {
    root: Box<Inner<Inner<Inner<Leaf>>>>,
    tlb: Tlb,
}

impl Cpu {
    pub fn new() -> Cpu {
        Cpu {
            root: Inner::new(),
            tlb: Tlb::new(),
        }
    }

    /// The frame of the access, or none where it faults. A miss that the tables serve fills the TLB; a fault drops the
    /// page's translation from it.
    pub fn translate(&mut self, page: u64, access: Access) -> Option<u32> {
        if let Some(at) = self.tlb.find(page) {
            let word = self.tlb.entries[at as usize].word;
            if permits(word, access) {
                return Some(frame_of(word));
            }
            self.tlb.remove(at);
            return None;
        }
        let word = self.root.get(page);
        if word == 0 || !permits(word, access) {
            return None;
        }
        self.tlb.fill(page, word);
        Some(frame_of(word))
    }

    pub fn install(&mut self, page: u64, frame: u32, prot: Prot) {
        self.root.set(page, entry_word(frame, prot));
    }

    /// Fills the TLB without an access; tells whether it did.
    pub fn walk(&mut self, page: u64) -> bool {
        if self.tlb.find(page).is_some() {
            return false;
        }
        let word = self.root.get(page);
        if word != 0 {
            self.tlb.fill(page, word);
        }
        word != 0
    }

    /// Drops the page's translation from the TLB; tells whether there was one.
    pub fn evict(&mut self, page: u64) -> bool {
        self.tlb.drop_page(page)
    }

    pub fn clear_tables(&mut self, first: u64, end: u64) {
        self.root.clear(first, end);
    }

    pub fn invalidate(&mut self, first: u64, end: u64) {
        self.tlb.invalidate(first, end);
    }
}
