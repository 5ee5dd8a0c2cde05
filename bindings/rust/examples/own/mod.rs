//! A page-table walker of one's own, of one core: four levels of 512 entries, as in Intel SDM volume 3A, 4-level paging, with
//! random calls for it. The examples `walker` and `beside` compare it with the library.
use radixvm::{Errno, Flags, Prot, Reply, Request};

pub const CALLS: usize = 20_000;
pub const PAGES: u64 = 64;
pub const PAGE: u64 = 4096;
/// The pages lie on both sides of an edge of each level.
pub const BASE: u64 = (0x7_f000_0000 - PAGES / 2) * PAGE;

/// A mapped page, whose bytes are made at its first access that is allowed.
pub struct Page {
    pub prot: Prot,
    pub bytes: Option<Box<[u8; 4096]>>,
}

/// A table of one level: the last one has pages, the others have tables.
pub enum Entry {
    Nothing,
    Table(Vec<Entry>),
    Page(Page),
}

pub fn new_table() -> Vec<Entry> {
    (0..512).map(|_| Entry::Nothing).collect()
}

/// The entry of the address's page; the tables above it are made where they aren't there.
pub fn walk(root: &mut Vec<Entry>, at: u64) -> &mut Entry {
    let mut table = root;
    for level in [3, 2, 1] {
        let entry = &mut table[(at >> (12 + 9 * level)) as usize & 511];
        if let Entry::Nothing = entry {
            *entry = Entry::Table(new_table());
        }
        let Entry::Table(below) = entry else { unreachable!("only the last level has pages") };
        table = below;
    }
    &mut table[(at >> 12) as usize & 511]
}

fn pages(at: u64, len: u64) -> impl Iterator<Item = u64> {
    (at..at + len).step_by(PAGE as usize)
}

/// The byte at the address, if its page is mapped and may be used so.
fn byte_at(root: &mut Vec<Entry>, at: u64, may: fn(&Prot) -> bool) -> Result<&mut u8, Reply> {
    match walk(root, at) {
        Entry::Page(page) if may(&page.prot) => Ok(&mut page.bytes.get_or_insert_with(|| Box::new([0; 4096]))[at as usize & 4095]),
        Entry::Page(_) => Err(Reply::AccErr),
        _ => Err(Reply::MapErr),
    }
}

fn protect(root: &mut Vec<Entry>, addr: u64, len: u64, prot: Prot) -> Reply {
    if !pages(addr, len).all(|at| matches!(walk(root, at), Entry::Page(_))) {
        return Reply::Refused(Errno::Enomem);
    }
    for at in pages(addr, len) {
        if let Entry::Page(page) = walk(root, at) {
            page.prot = prot;
        }
    }
    Reply::Done
}

/// What the walker answers.
pub fn answer(root: &mut Vec<Entry>, request: Request) -> Reply {
    let answered = match request {
        Request::Mmap { addr, len, prot, .. } => {
            pages(addr, len).for_each(|at| *walk(root, at) = Entry::Page(Page { prot, bytes: None }));
            Ok(Reply::Mapped(addr))
        }
        Request::Munmap { addr, len } => {
            pages(addr, len).for_each(|at| *walk(root, at) = Entry::Nothing);
            Ok(Reply::Done)
        }
        Request::Mprotect { addr, len, prot } => Ok(protect(root, addr, len, prot)),
        Request::Load { addr } => byte_at(root, addr, |prot| prot.read || prot.write || prot.exec).map(|byte| Reply::Byte(*byte)),
        Request::Fetch { addr } => byte_at(root, addr, |prot| prot.exec).map(|byte| Reply::Byte(*byte)),
        Request::Store { addr, byte } => byte_at(root, addr, |prot| prot.write).map(|place| {
            *place = byte;
            Reply::Done
        }),
    };
    answered.unwrap_or_else(|fault| fault)
}

/// Numbers that look random, the same for the same seed.
pub struct Random(pub u64);

impl Random {
    fn below(&mut self, limit: u64) -> u64 {
        self.0 = self.0.wrapping_mul(6364136223846793005).wrapping_add(1442695040888963407);
        (self.0 >> 33) % limit
    }

    pub fn call(&mut self) -> Request {
        let kind = self.below(10);
        let first = self.below(PAGES);
        let len = (1 + self.below((PAGES - first).min(5))) * PAGE;
        let bits = self.below(8);
        let prot = Prot { read: bits & 1 != 0, write: bits & 2 != 0, exec: bits & 4 != 0 };
        let flags = Flags { private: true, fixed: true, anonymous: true, ..Flags::default() };
        let addr = BASE + first * PAGE;
        let place = addr + self.below(3) * 2047;
        match kind {
            0 | 1 => Request::Mmap { addr, len, prot, flags, file: 0, off: 0 },
            2 => Request::Munmap { addr, len },
            3 => Request::Mprotect { addr, len, prot },
            4 | 5 => Request::Load { addr: place },
            6..=8 => Request::Store { addr: place, byte: self.below(256) as u8 },
            _ => Request::Fetch { addr: place },
        }
    }
}
