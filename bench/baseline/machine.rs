//! The machine: cores that share one space, the calls that they are in, and what they wait for.
use crate::baseline::counts::Counts;
use crate::baseline::cpu::Cpu;
use crate::baseline::files::File;
use crate::baseline::frames::Frames;
use crate::baseline::maps::{self, Mapping};
use crate::baseline::request::{Access, Action, Flags, Prot, Request};
use crate::baseline::slots::{Back, Page, Slots, State};
use std::collections::VecDeque;

const PAGE_SIZE: u64 = 4096;
const PAGE_END: u64 = 1 << 35;

#[derive(Clone, Copy, Debug, PartialEq, Eq)]
pub enum Outcome {
    Step,
    Idle,
    Full,
    WaitSlot(u8),
    WaitAcks(u64),
    Mapped(u64),
    Done,
    Byte(u8),
    Refused(&'static str),
}

#[derive(Clone, Copy)]
struct Range {
    first: u64,
    end: u64,
}

#[derive(Clone, Copy)]
enum Change {
    Put(Prot, Back),
    Clear,
    Protect(Prot),
}

#[derive(Clone, Copy)]
struct Touch {
    page: u64,
    offset: usize,
    access: Access,
}

/// Where a call stands that isn't answered yet.
enum Call {
    Begun(Request),
    /// The access faulted, and its page is to be locked.
    Fault(Touch),
    /// The pages from the cursor on are to be locked.
    Lock {
        range: Range,
        cursor: u64,
        change: Change,
    },
    /// The other cores are to drop their translations.
    Acks {
        range: Range,
        change: Change,
    },
    /// The private page is to get a copy in this frame once the other cores have dropped their translations.
    Copy {
        touch: Touch,
        frame: u32,
    },
}

/// A core asks another one to drop its translations of a range.
struct Message {
    from: usize,
    range: Range,
    is_cleared: bool,
}

struct Core {
    cpu: Cpu,
    call: Option<Call>,
    inbox: VecDeque<Message>,
    /// The cores that still have its message, a bit for each.
    awaited: u64,
}

pub struct Machine {
    cores: Vec<Core>,
    slots: Slots,
    frames: Frames,
    counts: Counts,
    files: Vec<File>,
    calls_left: u64,
}

/// The pages of a range of bytes, if all are valid.
fn pages(addr: u64, len: u64) -> Option<Range> {
    let first = addr / PAGE_SIZE;
    let end = (addr as u128 + len as u128).div_ceil(PAGE_SIZE as u128);
    (first >= 1 && end <= PAGE_END as u128).then_some(Range {
        first,
        end: end as u64,
    })
}

fn allows(prot: Prot, access: Access) -> bool {
    match access {
        Access::Load => prot.read || prot.write || prot.exec,
        Access::Store(_) => prot.write,
        Access::Fetch => prot.exec,
    }
}

fn is_shared_file(back: Back) -> Option<usize> {
    match back {
        Back::Shared { file, .. } => Some(file),
        Back::Anon | Back::Private { .. } => None,
    }
}

fn check_munmap(addr: u64, len: u64) -> Result<Range, &'static str> {
    if len == 0 || addr % PAGE_SIZE != 0 {
        return Err("einval");
    }
    pages(addr, len).ok_or("einval")
}

/// No range where nothing is to be changed.
fn check_mprotect(addr: u64, len: u64) -> Result<Option<Range>, &'static str> {
    if addr % PAGE_SIZE != 0 {
        return Err("einval");
    }
    if len == 0 {
        return Ok(None);
    }
    pages(addr, len).map(Some).ok_or("enomem")
}

impl Machine {
    pub fn new(cores: usize, frames: usize, calls: u64) -> Machine {
        let core = || Core {
            cpu: Cpu::new(),
            call: None,
            inbox: VecDeque::new(),
            awaited: 0,
        };
        Machine {
            cores: (0..cores).map(|_| core()).collect(),
            slots: Slots::new(),
            frames: Frames::new(frames),
            counts: Counts::new(cores, frames),
            files: Vec::new(),
            calls_left: calls,
        }
    }

    /// Whether the core has a call that isn't answered.
    pub fn has_call(&self, core: usize) -> bool {
        self.cores.get(core).is_some_and(|core| core.call.is_some())
    }

    /// Opens a file, whose number is the next one.
    pub fn open(&mut self, file: File) {
        self.files.push(file);
    }

    pub fn act(&mut self, core: usize, action: Action) -> Outcome {
        if core >= self.cores.len() {
            return Outcome::Idle;
        }
        let did = match action {
            Action::Now(request) => return self.now(core, request),
            Action::Call(request) => return self.call(core, request),
            Action::Go | Action::Finish => return self.finish(core),
            Action::Take => self.take(core),
            Action::Walk { addr } => {
                let page = addr / PAGE_SIZE;
                page < PAGE_END && self.cores[core].cpu.walk(page)
            }
            Action::Evict { addr } => self.cores[core].cpu.evict(addr / PAGE_SIZE),
            Action::Flush => self.counts.flush(core),
            Action::Review => self.review(core),
        };
        if did {
            Outcome::Step
        } else {
            Outcome::Idle
        }
    }

    // ---- calls

    /// Why no call can begin.
    fn refusal(&self, core: usize) -> Option<Outcome> {
        if self.cores[core].call.is_some() {
            Some(Outcome::Idle)
        } else if self.calls_left == 0 {
            Some(Outcome::Full)
        } else {
            None
        }
    }

    fn call(&mut self, core: usize, request: Request) -> Outcome {
        if let Some(refusal) = self.refusal(core) {
            return refusal;
        }
        self.calls_left -= 1;
        self.cores[core].call = Some(Call::Begun(request));
        Outcome::Step
    }

    fn now(&mut self, core: usize, request: Request) -> Outcome {
        if let Some(refusal) = self.refusal(core) {
            return refusal;
        }
        self.calls_left -= 1;
        self.start(core, request)
    }

    /// The core's call goes on until it is answered or has to wait.
    fn finish(&mut self, core: usize) -> Outcome {
        match self.cores[core].call.take() {
            None => Outcome::Idle,
            Some(Call::Begun(request)) => self.start(core, request),
            Some(Call::Fault(touch)) => self.fault(core, touch),
            Some(Call::Lock {
                range,
                cursor,
                change,
            }) => self.lock(core, range, cursor, change),
            Some(Call::Acks { range, change }) => self.commit(core, range, change),
            Some(Call::Copy { touch, frame }) => self.copy(core, touch, frame),
        }
    }

    fn start(&mut self, core: usize, request: Request) -> Outcome {
        let checked = match request {
            Request::Access { addr, access } => {
                let (page, offset) = (addr / PAGE_SIZE, (addr % PAGE_SIZE) as usize);
                return self.access(
                    core,
                    Touch {
                        page,
                        offset,
                        access,
                    },
                );
            }
            Request::Mmap {
                addr,
                len,
                prot,
                flags,
                file,
                off,
            } => self
                .check_mmap(core, addr, len, prot, flags, file, off)
                .map(|(range, back)| (range, Change::Put(prot, back))),
            Request::Munmap { addr, len } => {
                check_munmap(addr, len).map(|range| (range, Change::Clear))
            }
            Request::Mprotect { addr, len, prot } => match check_mprotect(addr, len) {
                Ok(None) => return Outcome::Done,
                Ok(Some(range)) => Ok((range, Change::Protect(prot))),
                Err(refused) => Err(refused),
            },
        };
        match checked {
            Ok((range, change)) => self.lock(core, range, range.first, change),
            Err(refused) => Outcome::Refused(refused),
        }
    }

    #[allow(clippy::too_many_arguments)]
    fn check_mmap(
        &self,
        core: usize,
        addr: u64,
        len: u64,
        prot: Prot,
        flags: Flags,
        file: u64,
        off: u64,
    ) -> Result<(Range, Back), &'static str> {
        if len == 0
            || flags.private == flags.shared
            || (!flags.anon && off % PAGE_SIZE != 0)
            || (flags.fixed && addr % PAGE_SIZE != 0)
        {
            return Err("einval");
        }
        if flags.fixed && pages(addr, len).is_none() {
            return Err("enomem");
        }
        let range = || {
            if flags.fixed {
                pages(addr, len)
            } else {
                self.place(core, addr, len)
            }
            .ok_or("enomem")
        };
        if flags.anon {
            return Ok((range()?, Back::Anon));
        }
        let number = usize::try_from(file).map_err(|_| "ebadf")?;
        let open = self.files.get(number).ok_or("ebadf")?;
        if off as u128 + len as u128 > 1 << 47 {
            return Err("eoverflow");
        }
        if !open.can_read || (flags.shared && prot.write && !open.can_write) {
            return Err("eacces");
        }
        let range = range()?;
        let from = (off / PAGE_SIZE).wrapping_sub(range.first);
        let back = if flags.shared {
            Back::Shared { file: number, from }
        } else {
            Back::Private { file: number, from }
        };
        Ok((range, back))
    }

    /// Where a mapping goes without MAP_FIXED: to its hint, if that is free, else to the first room of the core's window.
    fn place(&self, core: usize, addr: u64, len: u64) -> Option<Range> {
        let (hint, count) = (addr / PAGE_SIZE, len.div_ceil(PAGE_SIZE));
        let range = |first| Range {
            first,
            end: first + count,
        };
        if let Some(hinted) = pages(hint * PAGE_SIZE, count.checked_mul(PAGE_SIZE)?) {
            if self.slots.room(hinted.first, hinted.end, count).is_some() {
                return Some(hinted);
            }
        }
        let window = (core as u64 + 1) << 27;
        self.slots.room(window, window + (1 << 27), count).map(range)
    }

    // ---- changes of ranges

    fn lock(&mut self, core: usize, range: Range, cursor: u64, change: Change) -> Outcome {
        if let Err(held) = self.slots.lock(cursor, range.end, core as u8) {
            self.cores[core].call = Some(Call::Lock {
                range,
                cursor: held.page,
                change,
            });
            return Outcome::WaitSlot(held.owner);
        }
        let mut recorded = 0;
        let mut is_mapped = true;
        let mut is_read_only = false;
        let files = &self.files;
        self.slots
            .each(range.first, range.end, |state| match &state.page {
                Some(page) => {
                    recorded |= page.cores;
                    is_read_only |=
                        is_shared_file(page.back).is_some_and(|file| !files[file].can_write);
                }
                None => is_mapped = false,
            });
        if let Change::Protect(prot) = change {
            if !is_mapped {
                self.slots.unlock(range.first, range.end);
                return Outcome::Refused("enomem");
            }
            if prot.write && is_read_only {
                self.slots.unlock(range.first, range.end);
                return Outcome::Refused("eacces");
            }
        }
        self.shoot(core, range, recorded);
        self.commit(core, range, change)
    }

    /// The core drops its own translations, and asks the other recorded cores to drop theirs.
    fn shoot(&mut self, core: usize, range: Range, recorded: u64) {
        let cpu = &mut self.cores[core].cpu;
        cpu.clear_tables(range.first, range.end);
        cpu.invalidate(range.first, range.end);
        let awaited = recorded & !(1 << core);
        self.cores[core].awaited = awaited;
        let mut rest = awaited;
        while rest != 0 {
            let message = Message {
                from: core,
                range,
                is_cleared: false,
            };
            self.cores[rest.trailing_zeros() as usize]
                .inbox
                .push_back(message);
            rest &= rest - 1;
        }
    }

    fn commit(&mut self, core: usize, range: Range, change: Change) -> Outcome {
        let awaited = self.cores[core].awaited;
        if awaited != 0 {
            self.cores[core].call = Some(Call::Acks { range, change });
            return Outcome::WaitAcks(awaited);
        }
        let Range { first, end } = range;
        let counts = &mut self.counts;
        match change {
            Change::Put(prot, back) => {
                let page = Some(Page {
                    prot,
                    back,
                    frame: None,
                    cores: 0,
                });
                self.slots
                    .each(first, end, |state| replace(counts, core, state, page));
            }
            Change::Clear => self
                .slots
                .each(first, end, |state| replace(counts, core, state, None)),
            Change::Protect(prot) => self.slots.each(first, end, |state| {
                if let Some(page) = &mut state.page {
                    page.prot = prot;
                    page.cores = 0;
                }
                state.owner = None;
            }),
        }
        match change {
            Change::Put(..) => Outcome::Mapped(first * PAGE_SIZE),
            Change::Clear | Change::Protect(_) => Outcome::Done,
        }
    }

    /// The core acts on its oldest message: its tables at the first take, its TLB at the second.
    fn take(&mut self, core: usize) -> bool {
        let Core { cpu, inbox, .. } = &mut self.cores[core];
        let Some(message) = inbox.front_mut() else {
            return false;
        };
        let Message {
            from,
            range,
            is_cleared,
        } = *message;
        if !is_cleared {
            message.is_cleared = true;
            cpu.clear_tables(range.first, range.end);
            return true;
        }
        inbox.pop_front();
        cpu.invalidate(range.first, range.end);
        self.cores[from].awaited &= !(1 << core);
        true
    }

    // ---- accesses

    fn access(&mut self, core: usize, touch: Touch) -> Outcome {
        if touch.page == 0 || touch.page >= PAGE_END {
            return Outcome::Refused("segv maperr");
        }
        match self.cores[core].cpu.translate(touch.page, touch.access) {
            Some(frame) => self.reach(touch, frame),
            None => self.fault(core, touch),
        }
    }

    fn reach(&mut self, touch: Touch, frame: u32) -> Outcome {
        match touch.access {
            Access::Load | Access::Fetch => Outcome::Byte(self.frames.byte(frame, touch.offset)),
            Access::Store(byte) => {
                self.frames.set_byte(frame, touch.offset, byte);
                Outcome::Done
            }
        }
    }

    /// The page gets a frame if it has none, the core's tables get the page, and the access is tried again. Nothing else
    /// happens between the look at the page's slot and the end of the fault, so the slot itself isn't locked.
    fn fault(&mut self, core: usize, touch: Touch) -> Outcome {
        if let Some(owner) = self.slots.owner(touch.page) {
            self.cores[core].call = Some(Call::Fault(touch));
            return Outcome::WaitSlot(owner);
        }
        let state = self.slots.page(touch.page);
        let Some(page) = &mut state.page else {
            return Outcome::Refused("segv maperr");
        };
        if !allows(page.prot, touch.access) {
            return Outcome::Refused("segv accerr");
        }
        let is_store = matches!(touch.access, Access::Store(_));
        let place = match page.back {
            Back::Anon => None,
            Back::Shared { file, from } => Some((file, touch.page.wrapping_add(from), false)),
            Back::Private { file, from } => Some((file, touch.page.wrapping_add(from), is_store)),
        };
        if let Some((file, at, _)) = place {
            if !self.files[file].has_page(at) {
                return Outcome::Refused("bus");
            }
        }
        if let (Some(shown), Some((file, at, true))) = (page.frame, place) {
            if self.files[file].cached(at) == Some(shown) {
                return self.detach(core, touch);
            }
        }
        if page.frame.is_none() {
            let frame = match place {
                None => {
                    let Some(frame) = self.frames.take_least() else {
                        return Outcome::Refused("noframe");
                    };
                    self.counts.begin(frame, 1);
                    frame
                }
                Some((file, at, is_copied)) => match self.files[file].cached(at) {
                    Some(cached) if !is_copied => {
                        self.counts.inc(core, cached);
                        cached
                    }
                    cached => {
                        let Some(frame) = self.frames.take_least() else {
                            return Outcome::Refused("noframe");
                        };
                        match cached {
                            Some(cached) => self.frames.copy(cached, frame),
                            None => self.frames.fill(frame, self.files[file].page(at)),
                        }
                        if !is_copied {
                            self.files[file].set_cached(at, frame);
                        }
                        self.counts.begin(frame, if is_copied { 1 } else { 2 });
                        frame
                    }
                },
            };
            page.frame = Some(frame);
        }
        self.install(core, touch)
    }

    /// The core's tables get the page, without the right to write while a private page shows its file's.
    fn install(&mut self, core: usize, touch: Touch) -> Outcome {
        let state = self.slots.page(touch.page);
        if let Some(Page {
            prot,
            back,
            frame: Some(frame),
            cores,
        }) = &mut state.page
        {
            let mut prot = *prot;
            if let Back::Private { file, from } = *back {
                let at = touch.page.wrapping_add(from);
                prot.write &= self.files[file].cached(at) != Some(*frame);
            }
            *cores |= 1 << core;
            self.cores[core].cpu.install(touch.page, *frame, prot);
        }
        self.access(core, touch)
    }

    /// A private page that shows its file's is to get a copy: first all cores drop their translations of it.
    fn detach(&mut self, core: usize, touch: Touch) -> Outcome {
        let Some(frame) = self.frames.take_least() else {
            return Outcome::Refused("noframe");
        };
        let state = self.slots.page(touch.page);
        state.owner = Some(core as u8);
        let recorded = state.page.map_or(0, |page| page.cores);
        let range = Range {
            first: touch.page,
            end: touch.page + 1,
        };
        self.shoot(core, range, recorded);
        self.copy(core, touch, frame)
    }

    fn copy(&mut self, core: usize, touch: Touch, frame: u32) -> Outcome {
        let awaited = self.cores[core].awaited;
        if awaited != 0 {
            self.cores[core].call = Some(Call::Copy { touch, frame });
            return Outcome::WaitAcks(awaited);
        }
        let state = self.slots.page(touch.page);
        state.owner = None;
        if let Some(page) = &mut state.page {
            if let Some(shown) = page.frame {
                self.frames.copy(shown, frame);
                self.counts.dec(core, shown);
            }
            self.counts.begin(frame, 1);
            page.frame = Some(frame);
            page.cores = 0;
        }
        self.install(core, touch)
    }

    /// All mappings, in order of addresses.
    pub fn maps(&self) -> Vec<Mapping> {
        maps::maps(&self.slots)
    }

    fn review(&mut self, core: usize) -> bool {
        let reviewed = self.counts.review(core);
        if let Some(Some(frame)) = reviewed {
            self.frames.give(frame);
        }
        reviewed.is_some()
    }
}

/// Gives a held slot another mapping or none, counts its frame down, and lets it go.
fn replace(counts: &mut Counts, core: usize, state: &mut State, page: Option<Page>) {
    if let Some(frame) = state.page.and_then(|page| page.frame) {
        counts.dec(core, frame);
    }
    *state = State { page, owner: None };
}
