//! The list of mappings: neighbouring pages with the same rights, whose backing goes on, are one.
use crate::baseline::request::Prot;
use crate::baseline::slots::{Back, Page, Slots};

const PAGE_SIZE: u64 = 4096;

/// The offset is that of the first page.
pub enum Backing {
    Anon,
    Shared { file: usize, offset: u64 },
    Private { file: usize, offset: u64 },
}

/// A line of the list: the addresses from `start` up to `end`.
pub struct Mapping {
    pub start: u64,
    pub end: u64,
    pub prot: Prot,
    pub backing: Backing,
}

/// Pages from `first` up to `end`.
struct Run {
    first: u64,
    end: u64,
    prot: Prot,
    back: Back,
}

impl Run {
    /// Since a page's number and its backing's `from` give its page of the file, backing goes on where `from` stays.
    fn goes_on(&self, first: u64, page: &Page) -> bool {
        self.end == first && self.prot == page.prot && self.back == page.back
    }

    fn mapping(&self) -> Mapping {
        let offset = |from: u64| self.first.wrapping_add(from) * PAGE_SIZE;
        Mapping {
            start: self.first * PAGE_SIZE,
            end: self.end * PAGE_SIZE,
            prot: self.prot,
            backing: match self.back {
                Back::Anon => Backing::Anon,
                Back::Shared { file, from } => Backing::Shared {
                    file,
                    offset: offset(from),
                },
                Back::Private { file, from } => Backing::Private {
                    file,
                    offset: offset(from),
                },
            },
        }
    }
}

/// All mappings, in order of addresses.
pub fn maps(slots: &Slots) -> Vec<Mapping> {
    let mut lines = Vec::new();
    let mut run: Option<Run> = None;
    slots.each_mapped(|first, end, page| match &mut run {
        Some(run) if run.goes_on(first, page) => run.end = end,
        _ => {
            let next = Run {
                first,
                end,
                prot: page.prot,
                back: page.back,
            };
            lines.extend(run.replace(next).map(|run| run.mapping()));
        }
    });
    lines.extend(run.map(|run| run.mapping()));
    lines
}
