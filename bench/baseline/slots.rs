//! The slots of pages that cores lock: a radix tree of four levels of 512 slots. A slot of many pages is divided when a part
//! of it is locked.
use crate::baseline::request::Prot;

/// What backs a page: zero bytes, or a file. A page's number and `from` are, wrapping, the number of its page of the file.
#[derive(Clone, Copy, PartialEq, Eq)]
pub enum Back {
    Anon,
    Shared { file: usize, from: u64 },
    Private { file: usize, from: u64 },
}

#[derive(Clone, Copy)]
pub struct Page {
    pub prot: Prot,
    pub back: Back,
    pub frame: Option<u32>,
    /// The cores that may have a translation of the page, a bit for each.
    pub cores: u64,
}

#[derive(Clone, Copy)]
pub struct State {
    pub page: Option<Page>,
    pub owner: Option<u8>,
}

enum Slot {
    Own(State),
    Child(Box<Node>),
}

struct Node {
    /// Each slot has 2 to the power of this many pages.
    shift: u32,
    slots: [Slot; 512],
}

/// Another core holds the slot of this page.
pub struct Held {
    pub page: u64,
    pub owner: u8,
}

impl Node {
    fn new(shift: u32, state: State) -> Node {
        Node {
            shift,
            slots: std::array::from_fn(|_| Slot::Own(state)),
        }
    }

    /// The places of the slots that have a page from `first` up to `end`, all of which are below the node.
    fn places(&self, first: u64, end: u64) -> std::ops::RangeInclusive<usize> {
        let place = |page: u64| (page >> self.shift) as usize % 512;
        place(first)..=place(end - 1)
    }

    /// Locks the pages from `first` up to `end`, slot by slot from left to right. `base` is the node's first page.
    fn lock(&mut self, base: u64, first: u64, end: u64, core: u8) -> Result<(), Held> {
        for k in self.places(first, end) {
            let start = base + ((k as u64) << self.shift);
            let stop = start + (1 << self.shift);
            let (from, to) = (first.max(start), end.min(stop));
            let slot = &mut self.slots[k];
            if let Slot::Own(state) = slot {
                if let Some(owner) = state.owner {
                    return Err(Held { page: from, owner });
                }
                if from == start && to == stop {
                    state.owner = Some(core);
                    continue;
                }
                *slot = Slot::Child(Box::new(Node::new(self.shift - 9, *state)));
            }
            if let Slot::Child(node) = slot {
                node.lock(start, from, to, core)?;
            }
        }
        Ok(())
    }

    /// Acts on the slots of the pages from `first` up to `end`, from left to right.
    fn each(&mut self, base: u64, first: u64, end: u64, act: &mut impl FnMut(&mut State)) {
        for k in self.places(first, end) {
            match &mut self.slots[k] {
                Slot::Own(state) => act(state),
                Slot::Child(node) => {
                    let start = base + ((k as u64) << self.shift);
                    let stop = start + (1 << self.shift);
                    node.each(start, first.max(start), end.min(stop), act);
                }
            }
        }
    }

    /// The first of so many free pages in a row, from `first` up to `end`. `run` is where the free pages before them begin.
    fn room(&self, base: u64, first: u64, end: u64, count: u64, run: &mut u64) -> Option<u64> {
        for k in self.places(first, end) {
            let start = base + ((k as u64) << self.shift);
            let stop = start + (1 << self.shift);
            let (from, to) = (first.max(start), end.min(stop));
            match &self.slots[k] {
                Slot::Own(state) if state.page.is_some() => *run = to,
                Slot::Own(_) if to - *run >= count => return Some(*run),
                Slot::Own(_) => {}
                Slot::Child(node) => {
                    if let Some(found) = node.room(start, from, to, count, run) {
                        return Some(found);
                    }
                }
            }
        }
        None
    }

    /// Shows the mapped slots, from left to right, with their pages.
    fn each_mapped(&self, base: u64, act: &mut impl FnMut(u64, u64, &Page)) {
        for (k, slot) in (0u64..).zip(&self.slots) {
            let start = base + (k << self.shift);
            match slot {
                Slot::Own(State {
                    page: Some(page), ..
                }) => act(start, start + (1 << self.shift), page),
                Slot::Own(_) => {}
                Slot::Child(node) => node.each_mapped(start, act),
            }
        }
    }
}

pub struct Slots {
    root: Node,
}

impl Slots {
    pub fn new() -> Slots {
        Slots {
            root: Node::new(
                27,
                State {
                    page: None,
                    owner: None,
                },
            ),
        }
    }

    /// Locks the pages from `first` up to `end`; what comes before a held slot stays locked.
    pub fn lock(&mut self, first: u64, end: u64, core: u8) -> Result<(), Held> {
        self.root.lock(0, first, end, core)
    }

    pub fn unlock(&mut self, first: u64, end: u64) {
        self.each(first, end, |state| state.owner = None);
    }

    pub fn each(&mut self, first: u64, end: u64, mut act: impl FnMut(&mut State)) {
        self.root.each(0, first, end, &mut act);
    }

    /// The first of so many free pages in a row, from `first` up to `end`.
    pub fn room(&self, first: u64, end: u64, count: u64) -> Option<u64> {
        self.root.room(0, first, end, count, &mut { first })
    }

    /// Shows the mapped slots, from left to right, with their pages.
    pub fn each_mapped(&self, mut act: impl FnMut(u64, u64, &Page)) {
        self.root.each_mapped(0, &mut act);
    }

    /// The core that holds the page's slot.
    pub fn owner(&self, page: u64) -> Option<u8> {
        let mut node = &self.root;
        loop {
            match &node.slots[(page >> node.shift) as usize % 512] {
                Slot::Own(state) => return state.owner,
                Slot::Child(child) => node = child,
            }
        }
    }

    /// The page's state, once the page is a slot of its own.
    pub fn page(&mut self, page: u64) -> &mut State {
        let mut node = &mut self.root;
        loop {
            let shift = node.shift;
            let slot = &mut node.slots[(page >> shift) as usize % 512];
            if let (Slot::Own(state), true) = (&*slot, shift > 0) {
                *slot = Slot::Child(Box::new(Node::new(shift - 9, *state)));
            }
            match slot {
                Slot::Own(state) => return state,
                Slot::Child(child) => node = child,
            }
        }
    }
}
