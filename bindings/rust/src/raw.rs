//! The structs and codes of `include/radixvm.h`.
use crate::{Access, Aside, Ask, Back, Drop, Entry, Filled, Errno, Error, Event, Flags, Line, Mode, Outcome, Prot, Reply, Request, Setup, Stopped, StoppedCalls, Touched};
use std::ptr;

#[repr(C)]
struct RawSetup {
    cores: u64,
    frames: u64,
    calls: u64,
    log: u32,
}

#[repr(C)]
struct RawFile {
    mode: u32,
    start: u64,
    len: u64,
}

#[repr(C)]
#[derive(Clone, Copy, Default)]
pub struct RawEvent {
    kind: u32,
    core: u32,
    at: u64,
    len: u64,
    file: u64,
    off: u64,
    prot: u32,
    flags: u32,
    byte: u32,
}

#[repr(C)]
#[derive(Clone, Copy, Default)]
struct RawOutcome {
    kind: u32,
    value: u64,
}

#[repr(C)]
struct RawDone {
    status: u32,
    count: u64,
}

/// A machine that is kept, as C holds it: the library's pointer, null where there is none.
#[repr(C)]
pub struct Place {
    at: *mut u8,
}

// SAFETY: `crates/radixvm_c` proves that what it points to may go to another thread.
unsafe impl Send for Place {}

/// A seat, as C holds it: the library's pointer, null where there is none.
#[repr(C)]
pub struct SeatPlace {
    at: *mut u8,
}

// SAFETY: as above; a call has it by `&mut`.
unsafe impl Send for SeatPlace {}

#[repr(C)]
#[derive(Clone, Copy, Default)]
struct RawLine {
    first: u64,
    end: u64,
    page: u64,
    file: u32,
    back: u32,
    prot: u32,
}

#[repr(C)]
#[derive(Clone, Copy, Default)]
struct RawEntry {
    kind: u32,
    core: u32,
    step: u64,
    call: u64,
    page: u64,
    asked: RawEvent,
    reply: RawOutcome,
}

#[repr(C)]
#[derive(Clone, Copy, Default)]
struct RawFilled {
    word: u64,
    page: u64,
    frame: u32,
    fill: u32,
    from: u64,
    file: u32,
}

#[repr(C)]
#[derive(Clone, Copy, Default)]
struct RawDrop {
    first: u64,
    end: u64,
    what: u32,
    from: u32,
}

type Batch = unsafe extern "C" fn(
    *const RawSetup, *const RawFile, usize, *const u8, usize, *const RawEvent, usize, *mut RawOutcome, usize,
) -> RawDone;

extern "C" {
    fn radixvm_version() -> u32;
    fn radixvm_run_batch(
        setup: *const RawSetup, files: *const RawFile, file_count: usize, bytes: *const u8, byte_count: usize,
        events: *const RawEvent, event_count: usize, outcomes: *mut RawOutcome, room: usize,
    ) -> RawDone;
    fn radixvm_calls_batch(
        setup: *const RawSetup, files: *const RawFile, file_count: usize, bytes: *const u8, byte_count: usize,
        events: *const RawEvent, event_count: usize, outcomes: *mut RawOutcome, room: usize,
    ) -> RawDone;
    fn radixvm_new_held(
        setup: *const RawSetup, files: *const RawFile, file_count: usize, bytes: *const u8, byte_count: usize, machine: *mut Place,
    ) -> RawDone;
    fn radixvm_free_held(machine: *mut Place);
    fn radixvm_step_held(machine: *mut Place, event: *const RawEvent, outcome: *mut RawOutcome) -> u32;
    fn radixvm_call_held(machine: *mut Place, event: *const RawEvent, outcome: *mut RawOutcome) -> u32;
    fn radixvm_run_held(
        machine: *mut Place, events: *const RawEvent, event_count: usize, outcomes: *mut RawOutcome, room: usize,
    ) -> RawDone;
    fn radixvm_calls_held(
        machine: *mut Place, events: *const RawEvent, event_count: usize, outcomes: *mut RawOutcome, room: usize,
    ) -> RawDone;
    fn radixvm_cores_held(machine: *const Place) -> u64;
    fn radixvm_entry_held(machine: *const Place, core: u32, page: u64, word: *mut u64) -> u32;
    fn radixvm_maps_held(machine: *const Place, lines: *mut RawLine, room: usize) -> RawDone;
    fn radixvm_log_held(machine: *const Place, entries: *mut RawEntry, room: usize) -> RawDone;
    fn radixvm_touch_held(
        machine: *mut Place, core: u32, at: u64, kind: u32, outcome: *mut RawOutcome, filled: *mut RawFilled,
    ) -> u32;
    fn radixvm_change_held(machine: *mut Place, event: *const RawEvent, outcome: *mut RawOutcome, own: *mut RawDrop) -> u32;
    fn radixvm_go_on_held(
        machine: *mut Place, core: u32, outcome: *mut RawOutcome, filled: *mut RawFilled, own: *mut RawDrop,
    ) -> u32;
    fn radixvm_take_held(machine: *mut Place, core: u32, told: *mut RawDrop) -> u32;
    fn radixvm_reclaim_held(machine: *mut Place, frames: *mut u64) -> u32;
    fn radixvm_share_held(machine: *mut Place, seat: *mut SeatPlace) -> u32;
    fn radixvm_split_seat(first: *mut SeatPlace, other: *mut SeatPlace) -> u32;
    fn radixvm_try_seat(seat: *mut SeatPlace, event: *const RawEvent, outcome: *mut RawOutcome) -> u32;
    fn radixvm_calls_seat(
        seat: *mut SeatPlace, events: *const RawEvent, event_count: usize, outcomes: *mut RawOutcome, room: usize,
    ) -> RawDone;
    fn radixvm_return_seat(first: *mut SeatPlace, other: *mut SeatPlace) -> u32;
    fn radixvm_unshare_seat(seat: *mut SeatPlace, machine: *mut Place) -> u32;
    fn radixvm_free_seat(seat: *mut SeatPlace);
}

/// What is added to a kind that is one step in a batch of calls.
const BEGIN: u32 = 64;

/// As what a batch is taken.
pub enum Way {
    Events,
    Calls,
}

pub fn version() -> u32 {
    // SAFETY: it reads nothing.
    unsafe { radixvm_version() }
}

fn of_prot(prot: Prot) -> u32 {
    u32::from(prot.read) | u32::from(prot.write) << 1 | u32::from(prot.exec) << 2
}

fn of_flags(flags: Flags) -> u32 {
    u32::from(flags.shared) | u32::from(flags.private) << 1 | u32::from(flags.fixed) << 4 | u32::from(flags.anonymous) << 5
}

fn of_request(core: u32, request: &Request) -> RawEvent {
    let none = RawEvent { core, ..RawEvent::default() };
    match *request {
        Request::Mmap { addr, len, prot, flags, file, off } => {
            RawEvent { kind: 1, at: addr, len, file, off, prot: of_prot(prot), flags: of_flags(flags), ..none }
        }
        Request::Munmap { addr, len } => RawEvent { kind: 2, at: addr, len, ..none },
        Request::Mprotect { addr, len, prot } => RawEvent { kind: 3, at: addr, len, prot: of_prot(prot), ..none },
        Request::Load { addr } => RawEvent { kind: 4, at: addr, ..none },
        Request::Store { addr, byte } => RawEvent { kind: 5, at: addr, byte: u32::from(byte), ..none },
        Request::Fetch { addr } => RawEvent { kind: 6, at: addr, ..none },
    }
}

pub fn of_event(event: &Event) -> RawEvent {
    let of = |kind, core, at| RawEvent { kind, core, at, ..RawEvent::default() };
    match *event {
        Event::Call(core, ref request) => of_request(core, request),
        Event::Go(core) => of(7, core, 0),
        Event::Frame(core, frame) => of(8, core, frame),
        Event::Guess(core, page) => of(9, core, page),
        Event::Whole(core) => of(10, core, 0),
        Event::Take(core) => of(11, core, 0),
        Event::Walk(core, page) => of(12, core, page),
        Event::Evict(core, page) => of(13, core, page),
        Event::Flush(core) => of(14, core, 0),
        Event::Review(core) => of(15, core, 0),
        Event::Fold(page) => of(16, 0, page),
        Event::GiveUp(core) => of(17, core, 0),
    }
}

pub fn of_ask(ask: &Ask) -> RawEvent {
    match *ask {
        Ask::Call(core, ref request) => of_request(core, request),
        Ask::Finish(core) => RawEvent { kind: 18, core, ..RawEvent::default() },
        Ask::Step(ref event) => {
            let raw = of_event(event);
            RawEvent { kind: raw.kind + BEGIN, ..raw }
        }
    }
}

fn prot_of(bits: u32) -> Prot {
    Prot { read: bits & 1 != 0, write: bits & 2 != 0, exec: bits & 4 != 0 }
}

fn flags_of(bits: u32) -> Flags {
    Flags { shared: bits & 1 != 0, private: bits & 2 != 0, fixed: bits & 16 != 0, anonymous: bits & 32 != 0 }
}

fn request_of(raw: &RawEvent) -> Option<Request> {
    let RawEvent { at: addr, len, .. } = *raw;
    let prot = prot_of(raw.prot);
    Some(match raw.kind {
        1 => Request::Mmap { addr, len, prot, flags: flags_of(raw.flags), file: raw.file, off: raw.off },
        2 => Request::Munmap { addr, len },
        3 => Request::Mprotect { addr, len, prot },
        4 => Request::Load { addr },
        5 => Request::Store { addr, byte: raw.byte as u8 },
        6 => Request::Fetch { addr },
        _ => return None,
    })
}

fn errno_of(value: u64) -> Option<Errno> {
    Some(match value {
        9 => Errno::Ebadf,
        12 => Errno::Enomem,
        13 => Errno::Eacces,
        22 => Errno::Einval,
        75 => Errno::Eoverflow,
        _ => return None,
    })
}

fn outcome_of(raw: &RawOutcome) -> Option<Outcome> {
    Some(match raw.kind {
        1 => Outcome::Stepped,
        2 => Outcome::WaitsForSlot(raw.value as u32),
        3 => Outcome::WaitsForAcks(raw.value),
        4 => Outcome::Idle,
        5 => Outcome::Full,
        6 => Outcome::Replied(Reply::Mapped(raw.value)),
        7 => Outcome::Replied(Reply::Done),
        8 => Outcome::Replied(Reply::Byte(raw.value as u8)),
        9 => Outcome::Replied(Reply::Refused(errno_of(raw.value)?)),
        10 => Outcome::Replied(Reply::MapErr),
        11 => Outcome::Replied(Reply::AccErr),
        12 => Outcome::Replied(Reply::Bus),
        13 => Outcome::Replied(Reply::NoFrame),
        14 => Outcome::Replied(Reply::NoMemory),
        15 => Outcome::Stuck,
        _ => return None,
    })
}

fn error_of(status: u32, at: usize) -> Error {
    match status {
        1 => Error::BadEvent { at },
        2 => Error::OutOfMemory { at },
        4 => Error::TooLong,
        9 => Error::Absent,
        10 => Error::NoLog,
        11 => Error::BadCores,
        12 => Error::BadFrames,
        13 => Error::TooManyFiles,
        14 => Error::FileTooLong,
        15 => Error::BadCalls,
        16 => Error::NoMachine,
        17 => Error::Busy,
        18 => Error::InFlight,
        20 => Error::Full,
        code => Error::UnknownCode(code),
    }
}

/// The setup, its files, and their bytes.
fn of_setup(setup: &Setup) -> (RawSetup, Vec<RawFile>, Vec<u8>) {
    let mut bytes = Vec::new();
    let mut files = Vec::new();
    for file in &setup.files {
        let mode = match file.mode {
            Mode::Read => 1,
            Mode::Write => 2,
            Mode::ReadWrite => 3,
        };
        files.push(RawFile { mode, start: bytes.len() as u64, len: file.bytes.len() as u64 });
        bytes.extend_from_slice(&file.bytes);
    }
    (RawSetup { cores: setup.cores, frames: setup.frames, calls: setup.calls, log: u32::from(setup.log) }, files, bytes)
}

/// What a batch with these outcomes came to.
fn ended(done: &RawDone, told: &[RawOutcome]) -> Result<Vec<Outcome>, Stopped> {
    let count = if done.status <= 2 { done.count as usize } else { 0 };
    let outcomes: Option<Vec<_>> = told[..count].iter().map(outcome_of).collect();
    match (done.status, outcomes) {
        (0, Some(outcomes)) => Ok(outcomes),
        (status, Some(outcomes)) => Err(Stopped { outcomes, error: error_of(status, done.count as usize) }),
        (_, None) => Err(Stopped { outcomes: Vec::new(), error: Error::UnknownCode(u32::MAX) }),
    }
}

pub fn batch(setup: &Setup, raws: &[RawEvent], way: Way) -> Result<Vec<Outcome>, Stopped> {
    let (raw_setup, files, bytes) = of_setup(setup);
    let mut told = vec![RawOutcome::default(); raws.len()];
    let run: Batch = match way {
        Way::Events => radixvm_run_batch,
        Way::Calls => radixvm_calls_batch,
    };
    // SAFETY: each pointer is a slice's with its length, so it isn't null, and what is written overlaps nothing else.
    let done = unsafe {
        run(
            &raw_setup, files.as_ptr(), files.len(), bytes.as_ptr(), bytes.len(), raws.as_ptr(), raws.len(), told.as_mut_ptr(), told.len(),
        )
    };
    ended(&done, &told)
}

fn filled_of(raw: &RawFilled) -> Option<Filled> {
    Some(match raw.fill {
        0 => Filled::Ready,
        1 => Filled::Zero,
        2 => Filled::Frame(raw.from as u32),
        3 => Filled::File { file: raw.file, page: raw.from },
        _ => return None,
    })
}

fn drop_of(raw: &RawDrop) -> Option<Drop> {
    let pages = raw.first..raw.end;
    match raw.what {
        1 => Some(Drop::Tables { pages, from: raw.from }),
        2 => Some(Drop::Tlb { pages, from: raw.from }),
        3 => Some(Drop::Own { pages }),
        _ => None,
    }
}

/// The outcome of a call that memory wasn't refused to, and none of one that it was.
fn outcome_with(status: u32, told: &RawOutcome) -> Result<Option<Outcome>, Error> {
    match (status, outcome_of(told)) {
        (0, Some(outcome)) => Ok(Some(outcome)),
        (2, _) => Ok(None),
        (0, None) => Err(Error::UnknownCode(told.kind)),
        (status, _) => Err(error_of(status, 0)),
    }
}

fn touched_of(status: u32, told: &RawOutcome, raw: &RawFilled) -> Result<Touched, Error> {
    let outcome = outcome_with(status, told)?;
    let fill = filled_of(raw).ok_or(Error::UnknownCode(raw.fill))?;
    Ok(Touched { outcome, word: raw.word, page: raw.page, frame: raw.frame, fill })
}

impl Place {
    pub fn touch(&mut self, core: u32, at: u64, access: Access) -> Result<Touched, Error> {
        let kind = match access {
            Access::Load => 4,
            Access::Store => 5,
            Access::Fetch => 6,
        };
        let (mut told, mut raw) = (RawOutcome::default(), RawFilled::default());
        // SAFETY: the place is the library's own, and all are references.
        let status = unsafe { radixvm_touch_held(self, core, at, kind, &mut told, &mut raw) };
        touched_of(status, &told, &raw)
    }

    pub fn change(&mut self, core: u32, request: &Request) -> Result<(Option<Outcome>, Option<Drop>), Error> {
        let (mut told, mut own) = (RawOutcome::default(), RawDrop::default());
        // SAFETY: as above.
        let status = unsafe { radixvm_change_held(self, &of_request(core, request), &mut told, &mut own) };
        Ok((outcome_with(status, &told)?, drop_of(&own)))
    }

    pub fn go_on(&mut self, core: u32) -> Result<(Touched, Option<Drop>), Error> {
        let (mut told, mut raw, mut own) = (RawOutcome::default(), RawFilled::default(), RawDrop::default());
        // SAFETY: as above.
        let status = unsafe { radixvm_go_on_held(self, core, &mut told, &mut raw, &mut own) };
        Ok((touched_of(status, &told, &raw)?, drop_of(&own)))
    }

    pub fn take(&mut self, core: u32) -> Result<Option<Drop>, Error> {
        let mut told = RawDrop::default();
        // SAFETY: as above.
        let status = unsafe { radixvm_take_held(self, core, &mut told) };
        if status == 0 {
            Ok(drop_of(&told))
        } else {
            Err(error_of(status, 0))
        }
    }

    pub fn reclaim(&mut self) -> Result<u64, Error> {
        let mut frames = 0;
        // SAFETY: as above.
        let status = unsafe { radixvm_reclaim_held(self, &mut frames) };
        if status == 0 {
            Ok(frames)
        } else {
            Err(error_of(status, 0))
        }
    }

    pub fn new(setup: &Setup) -> Result<Place, Error> {
        let (raw_setup, files, bytes) = of_setup(setup);
        let mut place = Place { at: ptr::null_mut() };
        // SAFETY: as above; the place has no machine.
        let done = unsafe { radixvm_new_held(&raw_setup, files.as_ptr(), files.len(), bytes.as_ptr(), bytes.len(), &mut place) };
        if done.status == 0 {
            Ok(place)
        } else {
            Err(error_of(done.status, done.count as usize))
        }
    }

    pub fn one(&mut self, raw: &RawEvent, way: Way) -> Result<Outcome, Error> {
        let mut told = RawOutcome::default();
        // SAFETY: the place is the library's own, and all three are references.
        let status = unsafe {
            match way {
                Way::Events => radixvm_step_held(self, raw, &mut told),
                Way::Calls => radixvm_call_held(self, raw, &mut told),
            }
        };
        match status {
            0 => outcome_of(&told).ok_or(Error::UnknownCode(told.kind)),
            status => Err(error_of(status, 0)),
        }
    }

    pub fn many(&mut self, raws: &[RawEvent], way: Way) -> Result<Vec<Outcome>, Stopped> {
        let mut told = vec![RawOutcome::default(); raws.len()];
        // SAFETY: as above; each pointer is a slice's with its length.
        let done = unsafe {
            match way {
                Way::Events => radixvm_run_held(self, raws.as_ptr(), raws.len(), told.as_mut_ptr(), told.len()),
                Way::Calls => radixvm_calls_held(self, raws.as_ptr(), raws.len(), told.as_mut_ptr(), told.len()),
            }
        };
        ended(&done, &told)
    }

    pub fn cores(&self) -> u64 {
        // SAFETY: the place is the library's own.
        unsafe { radixvm_cores_held(self) }
    }

    pub fn entry(&self, core: u32, page: u64) -> Result<u64, Error> {
        let mut word = 0;
        // SAFETY: as above.
        match unsafe { radixvm_entry_held(self, core, page, &mut word) } {
            0 => Ok(word),
            status => Err(error_of(status, 0)),
        }
    }

    pub fn maps(&self) -> Result<Vec<Line>, Error> {
        let mut told = vec![RawLine::default(); 64];
        loop {
            // SAFETY: as above; the pointer is a slice's with its length.
            let done = unsafe { radixvm_maps_held(self, told.as_mut_ptr(), told.len()) };
            let count = done.count as usize;
            match done.status {
                0 if count <= told.len() => return told[..count].iter().map(line_of).collect(),
                0 => told = vec![RawLine::default(); count],
                status => return Err(error_of(status, 0)),
            }
        }
    }
}

impl Place {
    pub fn log(&self) -> Result<Vec<Entry>, Error> {
        let mut told = Vec::new();
        loop {
            // SAFETY: as above; the pointer is a slice's with its length.
            let done = unsafe { radixvm_log_held(self, told.as_mut_ptr(), told.len()) };
            let count = done.count as usize;
            match done.status {
                0 if count <= told.len() => return told[..count].iter().map(entry_of).collect(),
                0 => told = vec![RawEntry::default(); count],
                status => return Err(error_of(status, 0)),
            }
        }
    }
}

impl std::ops::Drop for Place {
    fn drop(&mut self) {
        // SAFETY: as above; nothing has a copy of it.
        unsafe { radixvm_free_held(self) }
    }
}

impl SeatPlace {
    fn empty() -> SeatPlace {
        SeatPlace { at: ptr::null_mut() }
    }

    /// The first seat of the machine, whose place is left empty; or the machine as it was.
    pub fn share(mut machine: Place) -> Result<SeatPlace, (Place, Error)> {
        let mut seat = SeatPlace::empty();
        // SAFETY: both places are the library's own, and the seat's is empty.
        match unsafe { radixvm_share_held(&mut machine, &mut seat) } {
            0 => Ok(seat),
            status => Err((machine, error_of(status, 0))),
        }
    }

    /// One more seat, of the last core that has none.
    pub fn split(&mut self) -> Result<SeatPlace, Error> {
        let mut other = SeatPlace::empty();
        // SAFETY: as above.
        match unsafe { radixvm_split_seat(self, &mut other) } {
            0 => Ok(other),
            status => Err(error_of(status, 0)),
        }
    }

    fn try_one(&mut self, raw: &RawEvent) -> Result<Outcome, Error> {
        let mut told = RawOutcome::default();
        // SAFETY: the place is the library's own, and all three are references.
        match unsafe { radixvm_try_seat(self, raw, &mut told) } {
            0 => outcome_of(&told).ok_or(Error::UnknownCode(told.kind)),
            status => Err(error_of(status, 0)),
        }
    }

    pub fn try_call(&mut self, request: &Request) -> Result<Outcome, Error> {
        self.try_one(&of_request(0, request))
    }

    pub fn try_aside(&mut self, aside: &Aside) -> Result<Outcome, Error> {
        self.try_one(&of_event(&aside.event()))
    }

    /// Calls one after another. At an error the replies of those that were made come with it.
    pub fn try_calls(&mut self, requests: &[Request]) -> Result<Vec<Reply>, StoppedCalls> {
        let raws: Vec<_> = requests.iter().map(|request| of_request(0, request)).collect();
        let mut told = vec![RawOutcome::default(); raws.len()];
        // SAFETY: the place is the library's own; each pointer is a slice's with its length, and what is written overlaps nothing else.
        let done = unsafe { radixvm_calls_seat(self, raws.as_ptr(), raws.len(), told.as_mut_ptr(), told.len()) };
        let replied = |raw| match outcome_of(raw) {
            Some(Outcome::Replied(reply)) => Some(reply),
            _ => None,
        };
        let replies: Option<Vec<_>> = told[..done.count as usize].iter().map(replied).collect();
        match (done.status, replies) {
            (0, Some(replies)) => Ok(replies),
            (status, Some(replies)) => Err(StoppedCalls { error: error_of(status, replies.len().saturating_sub(1)), replies }),
            (_, None) => Err(StoppedCalls { error: Error::UnknownCode(u32::MAX), replies: Vec::new() }),
        }
    }

    /// The other seat's core is done. Both are of one machine.
    pub fn take_in(&mut self, mut other: SeatPlace) {
        // SAFETY: as above; the caller has both of one machine.
        unsafe { radixvm_return_seat(self, &mut other) };
    }

    /// The machine, if there is no other seat.
    pub fn unshare(mut self) -> Result<Place, SeatPlace> {
        let mut machine = Place { at: ptr::null_mut() };
        // SAFETY: as above; the machine's place is empty.
        match unsafe { radixvm_unshare_seat(&mut self, &mut machine) } {
            0 => Ok(machine),
            _ => Err(self),
        }
    }
}

impl std::ops::Drop for SeatPlace {
    fn drop(&mut self) {
        // SAFETY: as above; nothing has a copy of it.
        unsafe { radixvm_free_seat(self) }
    }
}

fn line_of(raw: &RawLine) -> Result<Line, Error> {
    let (file, page) = (raw.file, raw.page);
    let back = match raw.back {
        0 => Back::Zeros,
        1 => Back::Shared { file, page },
        2 => Back::Private { file, page },
        code => return Err(Error::UnknownCode(code)),
    };
    Ok(Line { pages: raw.first..raw.end, prot: prot_of(raw.prot), back })
}

fn entry_of(raw: &RawEntry) -> Result<Entry, Error> {
    let RawEntry { step, call, core, page, .. } = *raw;
    match (raw.kind, request_of(&raw.asked), outcome_of(&raw.reply)) {
        (1, Some(request), Some(Outcome::Replied(reply))) => Ok(Entry::Replied { step, call, core, request, reply }),
        (2, _, _) => Ok(Entry::Copied { step, call, page }),
        (code, _, _) => Err(Error::UnknownCode(code)),
    }
}
