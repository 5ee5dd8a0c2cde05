//! Plain Rust programs that the parts are measured against: one page locked and unlocked among many slots; of a radix tree,
//! a page looked up, a page changed, ranges looked through, and ranges changed; room found in a map of runs; translations
//! that the TLB has, anywhere, at each of its ends and where they share its sets, and ones that it fills; the table entries of
//! a large range dropped; bytes of frames, filled frames and copied ones; and references counted, flushed and reviewed. Tables
//! and TLB are those of the plain machine, bench/baseline.rs. Standard library alone.
//! Build: `rustc --edition 2021 -C opt-level=3 bench/pieces.rs`.
#[allow(dead_code)]
mod baseline {
    pub mod cpu;
    pub mod request;
}

use baseline::cpu::Cpu;
use baseline::request::{Access, Prot};
use std::collections::{BTreeMap, VecDeque};
use std::hint::black_box;
use std::time::{Duration, Instant};

const READ_WRITE: Prot = Prot { read: true, write: true, exec: false };

// ---- slots

#[derive(Clone, Copy)]
#[allow(dead_code)]
enum Back {
    Anon,
    Shared { file: u32, page: u64 },
    Private { file: u32, page: u64 },
}

#[derive(Clone, Copy)]
#[allow(dead_code)]
struct Info {
    back: Back,
    prot: Prot,
    frame: Option<u32>,
    cores: u64,
}

/// The pages from its key up to `end`.
struct Slot {
    end: u64,
    owner: Option<u8>,
    #[allow(dead_code)]
    info: Option<Info>,
}

struct Slots {
    by_start: BTreeMap<u64, Slot>,
}

impl Slots {
    /// Every other page from 16 on is mapped, and each page between two of them is a slot too.
    fn filled(pages: u64) -> Slots {
        let info = Info { back: Back::Anon, prot: READ_WRITE, frame: None, cores: 0 };
        let mut by_start = BTreeMap::new();
        by_start.insert(1, Slot { end: 16, owner: None, info: None });
        for place in 0..pages {
            let page = 16 + 2 * place;
            by_start.insert(page, Slot { end: page + 1, owner: None, info: Some(info) });
            let end = if place + 1 < pages { page + 2 } else { 1 << 35 };
            by_start.insert(page + 1, Slot { end, owner: None, info: None });
        }
        Slots { by_start }
    }

    /// Who holds the page.
    fn owner(&self, page: u64) -> Option<u8> {
        let (_, slot) = self.by_start.range(..=page).next_back()?;
        slot.owner
    }

    /// Locks the slot of the page if it lies from the page up to `end` and is free, and answers its end.
    fn lock(&mut self, core: u8, page: u64, end: u64) -> Option<u64> {
        let (start, slot) = self.by_start.range_mut(..=page).next_back()?;
        if slot.owner.is_some() || *start < page || end < slot.end {
            return None;
        }
        slot.owner = Some(core);
        Some(slot.end)
    }

    /// Unlocks the slot of the page, and answers its end.
    fn unlock(&mut self, core: u8, page: u64) -> Option<u64> {
        let (_, slot) = self.by_start.range_mut(..=page).next_back()?;
        if slot.owner != Some(core) {
            return None;
        }
        slot.owner = None;
        Some(slot.end)
    }
}

fn slots(pages: u64, rounds: u64) -> Duration {
    let mut map = Slots::filled(pages);
    let core = black_box(1);
    let mut place = 0;
    let mut locked = 0u64;
    let start = Instant::now();
    for _ in 0..rounds {
        place = (place + 30_011) % pages;
        let page = 16 + 2 * place;
        if map.owner(page).is_none() && map.lock(core, page, page + 1).is_some() && map.unlock(core, page).is_some() {
            locked += 1;
        }
    }
    let took = start.elapsed();
    assert_eq!(locked, rounds);
    took
}

// ---- the radix tree

#[derive(Clone, Copy)]
struct Meta {
    back: Back,
    prot: Prot,
}

impl Meta {
    fn advanced(self, by: u64) -> Meta {
        let back = match self.back {
            Back::Anon => Back::Anon,
            Back::Shared { file, page } => Back::Shared { file, page: page + by },
            Back::Private { file, page } => Back::Private { file, page: page + by },
        };
        Meta { back, ..self }
    }
}

#[derive(Clone, Copy)]
enum Content {
    Empty,
    Folded(Meta),
    #[allow(dead_code)]
    Leaf(Info),
}

impl Content {
    fn cores(&self) -> u64 {
        match self {
            Content::Leaf(info) => info.cores,
            Content::Empty | Content::Folded(_) => 0,
        }
    }

    /// What the page `by` pages after the slot's first has.
    fn from(self, by: u64) -> Content {
        match self {
            Content::Empty => Content::Empty,
            Content::Folded(meta) => Content::Folded(meta.advanced(by)),
            Content::Leaf(info) => {
                let meta = Meta { back: info.back, prot: info.prot }.advanced(by);
                Content::Leaf(Info { back: meta.back, ..info })
            }
        }
    }
}

#[derive(Clone, Copy)]
struct State {
    content: Content,
    owner: Option<u8>,
}

enum TreeSlot {
    Own(State),
    Child(Box<Node>),
}

struct Node {
    level: u8,
    slots: Vec<TreeSlot>,
}

impl Node {
    fn divided(level: u8, state: State) -> Node {
        let width = 1 << (9 * level);
        let part = |k: u64| State { content: state.content.from(k * width), ..state };
        Node { level, slots: (0..512).map(|k| TreeSlot::Own(part(k))).collect() }
    }

    /// The slot that has the page, how many of its pages lie before the page, and how many it has.
    fn find(&self, page: u64) -> (&State, u64, u64) {
        let width = 1 << (9 * self.level);
        match &self.slots[(page / width) as usize] {
            TreeSlot::Own(state) => (state, page % width, width),
            TreeSlot::Child(node) => node.find(page % width),
        }
    }

    fn find_mut(&mut self, page: u64) -> (&mut State, u64, u64) {
        let width = 1 << (9 * self.level);
        match &mut self.slots[(page / width) as usize] {
            TreeSlot::Own(state) => (state, page % width, width),
            TreeSlot::Child(node) => node.find_mut(page % width),
        }
    }

    /// The cores that are recorded on the pages from `first` up to `end`.
    fn recorded(&self, first: u64, end: u64) -> u64 {
        let width = 1 << (9 * self.level);
        let mut cores = 0;
        for k in first / width..=(end - 1) / width {
            let start = k * width;
            cores |= match &self.slots[k as usize] {
                TreeSlot::Own(state) => state.content.cores(),
                TreeSlot::Child(node) => node.recorded(first.max(start) - start, end.min(start + width) - start),
            };
        }
        cores
    }

    /// Finds `n` unmapped pages from `first` up to `end`; `open` is where the free pages begin that come before `first`.
    /// The node's first page is `base`; answers the run, or where the free pages begin that come before `end`.
    fn free_run(&self, base: u64, first: u64, end: u64, n: u64, open: u64) -> Result<u64, u64> {
        let width = 1 << (9 * self.level);
        let mut open = open;
        for k in first / width..=(end - 1) / width {
            let start = k * width;
            let to = end.min(start + width);
            match &self.slots[k as usize] {
                TreeSlot::Own(state) => {
                    if !matches!(state.content, Content::Empty) {
                        open = base + to;
                    } else if n <= base + to - open {
                        return Ok(open);
                    }
                }
                TreeSlot::Child(node) => {
                    match node.free_run(base + start, first.max(start) - start, to - start, n, open) {
                        Ok(found) => return Ok(found),
                        Err(still) => open = still,
                    }
                }
            }
        }
        Err(open)
    }

    /// Changes the slots from `first` up to `end`, whose edges no slot crosses, each by its distance from the range's first.
    fn edit(&mut self, first: u64, end: u64, by: u64, change: &impl Fn(&mut Content, u64)) {
        let width = 1 << (9 * self.level);
        for k in first / width..=(end - 1) / width {
            let start = k * width;
            match &mut self.slots[k as usize] {
                TreeSlot::Own(state) => change(&mut state.content, by + start - first),
                TreeSlot::Child(node) => {
                    let low = first.max(start);
                    node.edit(low - start, end.min(start + width) - start, by + low - first, change);
                }
            }
        }
    }

    fn expand(&mut self, page: u64) {
        let level = self.level;
        let width = 1 << (9 * level);
        match &mut self.slots[(page / width) as usize] {
            TreeSlot::Child(node) => node.expand(page % width),
            slot @ TreeSlot::Own(_) => {
                if let TreeSlot::Own(state) = *slot {
                    *slot = TreeSlot::Child(Box::new(Node::divided(level - 1, state)));
                }
            }
        }
    }
}

struct Tree {
    root: Node,
}

impl Tree {
    /// Every other page from 16 on is mapped, and each page between two of them is a slot too.
    fn filled(pages: u64) -> Tree {
        let none = State { content: Content::Empty, owner: None };
        let mut tree = Tree { root: Node::divided(3, none) };
        for place in 0..pages {
            while !tree.lock(1, 16 + 2 * place) {}
            tree.set(16 + 2 * place);
            tree.unlock(16 + 2 * place);
        }
        tree
    }

    fn page(&self, page: u64) -> Option<Info> {
        let (state, offset, _) = self.root.find(page);
        match state.content.from(offset) {
            Content::Empty => None,
            Content::Folded(meta) => Some(Info { back: meta.back, prot: meta.prot, frame: None, cores: 0 }),
            Content::Leaf(info) => Some(info),
        }
    }

    /// Locks the page where it is free and a slot of its own; else expands its slot.
    fn lock(&mut self, core: u8, page: u64) -> bool {
        let (state, _, width) = self.root.find_mut(page);
        if state.owner.is_some() {
            return false;
        }
        if width > 1 {
            self.root.expand(page);
            return false;
        }
        state.owner = Some(core);
        true
    }

    fn set(&mut self, page: u64) {
        let (state, _, _) = self.root.find_mut(page);
        state.content = Content::Folded(Meta { back: Back::Anon, prot: READ_WRITE });
    }

    fn clear(&mut self, page: u64) {
        let (state, _, _) = self.root.find_mut(page);
        state.content = Content::Empty;
    }

    fn unlock(&mut self, page: u64) {
        let (state, _, _) = self.root.find_mut(page);
        state.owner = None;
    }
}

fn look_ups(pages: u64, rounds: u64) -> Duration {
    let tree = Tree::filled(pages);
    let mut place = 0;
    let mut found = 0u64;
    let start = Instant::now();
    for _ in 0..rounds {
        place = (place + 30_011) % pages;
        if black_box(tree.page(16 + 2 * place)).is_some() {
            found += 1;
        }
    }
    let took = start.elapsed();
    assert_eq!(found, rounds);
    took
}

fn changes(pages: u64, rounds: u64) -> Duration {
    let mut tree = Tree::filled(pages);
    let core = black_box(1);
    let mut place = 0;
    let mut locked = 0u64;
    let start = Instant::now();
    for _ in 0..rounds {
        place = (place + 30_011) % pages;
        let page = 17 + 2 * place;
        if tree.lock(core, page) {
            if tree.page(page).is_none() {
                tree.set(page);
                tree.clear(page);
            }
            tree.unlock(page);
            locked += 1;
        }
    }
    let took = start.elapsed();
    assert_eq!(locked, rounds);
    took
}

/// How many pages a range has.
const SPAN: u64 = 4096;

/// Looks for two neighbouring free pages, and for recorded cores, in ranges of single pages; neither is there.
fn scans(pages: u64, rounds: u64) -> Duration {
    let tree = Tree::filled(pages);
    let mut place = 0;
    let mut none = 0u64;
    let start = Instant::now();
    for _ in 0..rounds {
        place = (place + 30_011) % (pages - SPAN / 2);
        let first = 16 + 2 * place;
        let free = tree.root.free_run(0, first, first + SPAN, 2, first);
        if black_box(free).is_err() && black_box(tree.root.recorded(first, first + SPAN)) == 0 {
            none += 1;
        }
    }
    let took = start.elapsed();
    assert_eq!(none, rounds);
    took
}

/// Maps and unmaps a range of single pages.
fn edits(pages: u64, rounds: u64) -> Duration {
    let mut tree = Tree::filled(pages);
    let (first, end) = black_box((16, 16 + SPAN));
    let start = Instant::now();
    for _ in 0..rounds {
        let meta = black_box(Meta { back: Back::Anon, prot: READ_WRITE });
        tree.root.edit(first, end, 0, &|content, by| *content = Content::Folded(meta.advanced(by)));
        tree.root.edit(first, end, 0, &|content, _| *content = Content::Empty);
    }
    let took = start.elapsed();
    assert!(tree.page(first).is_none());
    took
}

// ---- room in a map of mapped runs

/// The mapped pages from its key up to `end`. A mapping of many pages is one run.
struct Mapped {
    end: u64,
    #[allow(dead_code)]
    info: Info,
}

struct Mappings {
    by_start: BTreeMap<u64, Mapped>,
}

impl Mappings {
    /// So many mappings of `width` pages, one from each `step` pages to the next.
    fn filled(first: u64, count: u64, width: u64, step: u64) -> Mappings {
        let info = Info { back: Back::Anon, prot: READ_WRITE, frame: None, cores: 0 };
        let run = |k: u64| (first + k * step, Mapped { end: first + k * step + width, info });
        Mappings { by_start: (0..count).map(run).collect() }
    }

    /// The least start of `n` free pages from `first` up to `end`.
    fn free_run(&self, first: u64, end: u64, n: u64) -> Option<u64> {
        let mut open = match self.by_start.range(..first).next_back() {
            Some((_, run)) => run.end.max(first),
            None => first,
        };
        for (start, run) in self.by_start.range(first..end) {
            if open + n <= *start {
                return Some(open);
            }
            open = run.end;
        }
        (open + n <= end).then_some(open)
    }
}

/// Looks for 2 to 16 free pages, which are found at this page.
fn finds(map: &Mappings, first: u64, end: u64, room: u64, rounds: u64) -> Duration {
    let mut found = 0u64;
    let start = Instant::now();
    for round in 0..rounds {
        if black_box(map).free_run(first, end, 2 + round % 15) == Some(room) {
            found += 1;
        }
    }
    let took = start.elapsed();
    assert_eq!(found, rounds);
    took
}

/// In a window that begins with one mapping of twice so many pages.
fn room(pages: u64, rounds: u64) -> Duration {
    let (first, end) = black_box((0x800_0000, 0x1000_0000));
    finds(&Mappings::filled(first, 1, 2 * pages, 0), first, end, first + 2 * pages, rounds)
}

/// After twice so many mappings of one page, between which there is one free page each.
fn gaps(pages: u64, rounds: u64) -> Duration {
    let (first, end) = black_box((16, 0x800_0000));
    finds(&Mappings::filled(first, 2 * pages, 1, 2), first, end, first + 4 * pages - 1, rounds)
}

// ---- tables and TLB

/// 64 pages by their places, no two of which share a set of the TLB: the translations of one hash, which are looked through one
/// after another.
fn apart(place: u64) -> u64 {
    4096 + 8 * place
}

/// 64 pages of which eight share a set.
fn in_eight_sets(place: u64) -> u64 {
    4096 + place % 8 + (place / 8) * (1 << 32)
}

/// 64 pages that share a set.
fn in_one_set(place: u64) -> u64 {
    4096 + (place % 8) * (1 << 29) + (place / 8) * (1 << 32)
}

/// Loads of 64 pages, which the TLB has, from the first place on, each so many places after the last one, modulo their number.
fn hits(rounds: u64, page: impl Fn(u64) -> u64, first: u64, stride: u64) -> Duration {
    let mut cpu = Cpu::new();
    for place in 0..64 {
        cpu.install(page(place), place as u32 + 1, READ_WRITE);
        cpu.translate(page(place), Access::Load);
    }
    let (mut place, stride) = black_box((first, stride));
    let mut hits = 0u64;
    let mut sum = 0u64;
    let start = Instant::now();
    for _ in 0..rounds {
        place = (place + stride) % 64;
        if let Some(frame) = cpu.translate(page(place), Access::Load) {
            hits += 1;
            sum = sum.wrapping_add(u64::from(frame));
        }
    }
    let took = start.elapsed();
    assert_eq!(hits, rounds);
    assert!((0..64).all(|place| cpu.evict(page(place))));
    black_box(sum);
    took
}

/// Loads of so many pages in turn, more than the TLB has, so that each went from it before it is loaded again.
fn misses(rounds: u64, pages: u64) -> Duration {
    let pages = black_box(pages);
    let mut cpu = Cpu::new();
    for place in 0..pages {
        cpu.install(apart(place), place as u32 + 1, READ_WRITE);
    }
    let mut place = 0;
    let mut fills = 0u64;
    let mut sum = 0u64;
    let start = Instant::now();
    for _ in 0..rounds {
        place = if place + 1 < pages { place + 1 } else { 0 };
        if let Some(frame) = cpu.translate(apart(place), Access::Load) {
            fills += 1;
            sum = sum.wrapping_add(u64::from(frame));
        }
    }
    let took = start.elapsed();
    assert_eq!(fills, rounds);
    black_box(sum);
    took
}

fn clears(rounds: u64) -> Duration {
    let mut cpu = Cpu::new();
    let (first, end) = black_box((1 << 27, 1 << 28));
    let mut took = Duration::ZERO;
    for _ in 0..rounds {
        for place in 0..10 {
            cpu.install(first + 13_421_772 * place, place as u32, READ_WRITE);
        }
        let start = Instant::now();
        cpu.clear_tables(first, end);
        took += start.elapsed();
    }
    assert_eq!(cpu.translate(first, Access::Load), None);
    took
}

// ---- frames

const FRAMES: u32 = 1024;

/// Frames that get a page when they are first written to.
struct Frames {
    places: Vec<Option<u32>>,
    pages: Vec<[u8; 4096]>,
}

impl Frames {
    /// So many frames, each of which was written to.
    fn written() -> Frames {
        let mut frames = Frames {
            places: vec![None; FRAMES as usize],
            pages: Vec::with_capacity(FRAMES as usize),
        };
        for frame in 0..FRAMES {
            frames.set_byte(frame, 0, 1);
        }
        frames
    }

    fn byte(&self, frame: u32, offset: usize) -> u8 {
        match self.places[frame as usize] {
            Some(at) => self.pages[at as usize][offset],
            None => 0,
        }
    }

    fn add(&mut self, frame: u32, page: [u8; 4096]) {
        self.places[frame as usize] = Some(self.pages.len() as u32);
        self.pages.push(page);
    }

    fn set_byte(&mut self, frame: u32, offset: usize, byte: u8) {
        match self.places[frame as usize] {
            Some(at) => self.pages[at as usize][offset] = byte,
            None => {
                let mut page = [0; 4096];
                page[offset] = byte;
                self.add(frame, page);
            }
        }
    }

    fn fill(&mut self, frame: u32, bytes: &[u8]) {
        match self.places[frame as usize] {
            Some(at) => {
                let page = &mut self.pages[at as usize];
                page[..bytes.len()].copy_from_slice(bytes);
                page[bytes.len()..].fill(0);
            }
            None => {
                let mut page = [0; 4096];
                page[..bytes.len()].copy_from_slice(bytes);
                self.add(frame, page);
            }
        }
    }

    /// Both frames were written to.
    fn copy(&mut self, from: u32, to: u32) {
        if let (Some(from), Some(to)) = (self.places[from as usize], self.places[to as usize]) {
            self.pages.copy_within(from as usize..from as usize + 1, to as usize);
        }
    }
}

/// Sets a byte of a frame, and reads one of another.
fn bytes(rounds: u64) -> Duration {
    let mut frames = Frames::written();
    let mut frame = 0;
    let mut sum = 0u64;
    let start = Instant::now();
    for _ in 0..rounds {
        frame = (frame + 389) % FRAMES;
        frames.set_byte(frame, 7, frame as u8);
        sum = sum.wrapping_add(u64::from(frames.byte(FRAMES - 1 - frame, 0)));
    }
    let took = start.elapsed();
    black_box(sum);
    took
}

/// Gives a frame 3000 bytes, and zeros after them.
fn fills(rounds: u64) -> Duration {
    let mut frames = Frames::written();
    let from = black_box([7u8; 3000]);
    let mut frame = 0;
    let start = Instant::now();
    for _ in 0..rounds {
        frame = (frame + 389) % FRAMES;
        frames.fill(frame, &from);
    }
    let took = start.elapsed();
    black_box(frames.byte(frame, 7));
    took
}

/// Copies a frame to another.
fn copies(rounds: u64) -> Duration {
    let mut frames = Frames::written();
    let mut frame = 0;
    let start = Instant::now();
    for _ in 0..rounds {
        frame = (frame + 389) % FRAMES;
        frames.copy(frame, FRAMES - 1 - frame);
    }
    let took = start.elapsed();
    black_box(frames.byte(frame, 7));
    took
}

// ---- reference counts

#[derive(Clone, Copy)]
struct Entry {
    object: u32,
    delta: i64,
}

#[derive(Clone, Copy, Default)]
struct Count {
    global: i64,
    is_queued: bool,
    is_dirty: bool,
}

/// One core's entries by the object's number modulo 64, and its review queue.
struct CoreCounts {
    places: [Option<Entry>; 64],
    queue: VecDeque<(u32, u64)>,
}

impl CoreCounts {
    fn new(objects: usize) -> CoreCounts {
        CoreCounts { places: [None; 64], queue: VecDeque::with_capacity(objects + 1) }
    }

    /// Adds to the delta of an object, where no other stands in its place and its delta is small. Tells whether it did.
    fn count(&mut self, object: u32, by: i64) -> bool {
        let place = &mut self.places[object as usize % 64];
        let delta = match *place {
            None => 0,
            Some(entry) if entry.object == object && (entry.delta + by).abs() <= 1 << 40 => entry.delta,
            Some(_) => return false,
        };
        *place = Some(Entry { object, delta: delta + by });
        true
    }

    fn least(&self) -> Option<u32> {
        self.places.iter().flatten().map(|entry| entry.object).min()
    }

    /// Evicts the entry of the least object, which is queued where its count is then 0.
    fn flush(&mut self, counts: &mut [Count], epoch: u64) -> bool {
        let Some(object) = self.least() else {
            return false;
        };
        let Some(entry) = self.places[object as usize % 64].take() else {
            return false;
        };
        let count = &mut counts[object as usize];
        count.global += entry.delta;
        if count.global == 0 {
            if count.is_queued {
                count.is_dirty = true;
            } else {
                (count.is_queued, count.is_dirty) = (true, false);
                self.queue.push_back((object, epoch));
            }
        }
        true
    }

    /// Looks at the front of the queue; tells whether it was freed.
    fn review(&mut self, counts: &mut [Count], epoch: u64) -> bool {
        let Some(&(object, since)) = self.queue.front() else {
            return false;
        };
        if epoch < 2 || epoch - 2 < since {
            return false;
        }
        self.queue.pop_front();
        let count = &mut counts[object as usize];
        if count.global != 0 {
            count.is_queued = false;
            return false;
        }
        if !count.is_dirty {
            count.is_queued = false;
            return true;
        }
        count.is_dirty = false;
        self.queue.push_back((object, epoch));
        false
    }
}

const OBJECTS: u32 = 64;

/// Counts an object up, and down again.
fn counts(rounds: u64) -> Duration {
    let mut core = CoreCounts::new(OBJECTS as usize);
    let mut object = 0;
    let mut counted = 0u64;
    let start = Instant::now();
    for _ in 0..rounds {
        object = (object + 37) % OBJECTS;
        if core.count(object, 1) && core.count(object, -1) {
            counted += 1;
        }
    }
    let took = start.elapsed();
    assert_eq!(counted, rounds);
    black_box(core.least());
    took
}

/// Counts an object up and down, flushes it, and reviews it two epochs later.
fn flushes(rounds: u64) -> Duration {
    let mut core = CoreCounts::new(OBJECTS as usize);
    let mut globals = [Count::default(); OBJECTS as usize];
    let mut object = 0;
    let mut freed = 0u64;
    let start = Instant::now();
    for round in 0..rounds {
        object = (object + 37) % OBJECTS;
        if core.count(object, 1) && core.count(object, -1) && core.flush(&mut globals, round) {
            if core.review(&mut globals, round + 2) {
                freed += 1;
            }
        }
    }
    let took = start.elapsed();
    assert_eq!(freed, rounds);
    took
}

fn main() {
    let (took, rounds) = match std::env::args().nth(1).as_deref() {
        Some("slots") => (slots(50_000, 5_000_000), 5_000_000),
        Some("look") => (look_ups(50_000, 10_000_000), 10_000_000),
        Some("tree") => (changes(50_000, 5_000_000), 5_000_000),
        Some("scan") => (scans(50_000, 5_000), 5_000),
        Some("edit") => (edits(50_000, 2_000), 2_000),
        Some("room") => (room(50_000, 1_000_000), 1_000_000),
        Some("gaps") => (gaps(50_000, 1_000), 1_000),
        Some("hit") => (hits(50_000_000, apart, 0, 37), 50_000_000),
        Some("oldest") => (hits(50_000_000, apart, 0, 0), 50_000_000),
        Some("newest") => (hits(50_000_000, apart, 63, 0), 50_000_000),
        Some("shared") => (hits(20_000_000, in_eight_sets, 0, 37), 20_000_000),
        Some("one_set") => (hits(5_000_000, in_one_set, 0, 37), 5_000_000),
        Some("miss") => (misses(5_000_000, 65), 5_000_000),
        Some("thousand") => (misses(5_000_000, 1_000), 5_000_000),
        Some("clear") => (clears(20_000), 20_000),
        Some("byte") => (bytes(20_000_000), 20_000_000),
        Some("fill") => (fills(1_000_000), 1_000_000),
        Some("copy") => (copies(1_000_000), 1_000_000),
        Some("count") => (counts(20_000_000), 20_000_000),
        Some("flush") => (flushes(5_000_000), 5_000_000),
        _ => return println!("usage: pieces WORD, where WORD is one of those in bench/pieces.sh"),
    };
    println!("{:.1}", took.as_nanos() as f64 / rounds as f64);
}
