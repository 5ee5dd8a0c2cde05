//! One virtual address space that 1 to 64 modelled cores share, from `libradixvm.a`, whose contracts are proved
//! (`crates/radixvm_c`). This crate isn't: it turns its own types into the structs of `include/radixvm.h`, and back.
//!
//! A batch makes a new machine, gives it what is asked for, and hands back what each came to. A [`Machine`] is kept, and takes
//! events and calls as they come. [`Space::share`] gives each thread a [`Seat`] of it, which makes the calls of one
//! core while other threads make theirs.
//!
//! ```
//! use radixvm::{calls, Ask, Flags, Outcome, Prot, Reply, Request, Setup};
//!
//! let setup = Setup::new(1, 4, 100);
//! let flags = Flags { private: true, fixed: true, anonymous: true, ..Flags::default() };
//! let prot = Prot { read: true, write: true, exec: false };
//! let told = calls(&setup, &[
//!     Ask::Call(0, Request::Mmap { addr: 0x10000, len: 4096, prot, flags, file: 0, off: 0 }),
//!     Ask::Call(0, Request::Store { addr: 0x10004, byte: 41 }),
//!     Ask::Call(0, Request::Load { addr: 0x10004 }),
//! ])?;
//! assert_eq!(told, [Outcome::Replied(Reply::Mapped(0x10000)), Outcome::Replied(Reply::Done), Outcome::Replied(Reply::Byte(41))]);
//! # Ok::<(), radixvm::Stopped>(())
//! ```
use std::fmt;
use std::ops::Range;

mod machine;
mod raw;
mod seat;

pub use machine::Machine;
pub use seat::{Aside, Seat, Space, StoppedCalls, Unshared};

/// For what a file is open.
#[derive(Clone, Copy, Debug, PartialEq, Eq)]
pub enum Mode {
    Read,
    Write,
    ReadWrite,
}

/// A file that is open from the start, by its place in [`Setup::files`]: at most 1,048,576 bytes.
#[derive(Clone, Debug, PartialEq, Eq)]
pub struct File {
    pub mode: Mode,
    pub bytes: Vec<u8>,
}

/// What a machine has: 1 to 64 cores, at most 65,536 frames of 4,096 bytes and 16 files, and 2^40 calls, or 1,048,576 where its
/// log is kept.
#[derive(Clone, Debug, PartialEq, Eq)]
pub struct Setup {
    pub cores: u64,
    pub frames: u64,
    pub calls: u64,
    pub files: Vec<File>,
    /// Whether a [`Machine`] keeps its log, so that [`Machine::log`] tells it.
    pub log: bool,
}

impl Setup {
    /// So many cores, frames and calls, no files and no log.
    pub fn new(cores: u64, frames: u64, calls: u64) -> Setup {
        Setup { cores, frames, calls, files: Vec::new(), log: false }
    }

    /// The same with one more file, whose number is how many there were.
    ///
    /// ```
    /// use radixvm::{Mode, Setup};
    ///
    /// let setup = Setup::new(1, 4, 100).with_file(Mode::Read, vec![7]).with_log();
    /// assert_eq!((setup.files.len(), setup.log), (1, true));
    /// ```
    pub fn with_file(mut self, mode: Mode, bytes: Vec<u8>) -> Setup {
        self.files.push(File { mode, bytes });
        self
    }

    /// The same with a log.
    pub fn with_log(self) -> Setup {
        Setup { log: true, ..self }
    }
}

/// What may be done with a page; none of them is `PROT_NONE`.
#[derive(Clone, Copy, Debug, Default, PartialEq, Eq)]
pub struct Prot {
    pub read: bool,
    pub write: bool,
    pub exec: bool,
}

/// The flags of a mapping.
#[derive(Clone, Copy, Debug, Default, PartialEq, Eq)]
pub struct Flags {
    pub shared: bool,
    pub private: bool,
    pub fixed: bool,
    pub anonymous: bool,
}

/// A call of POSIX.1-2017, or an access of one byte. Addresses, lengths and offsets are bytes, and any may be given.
#[derive(Clone, Copy, Debug, PartialEq, Eq)]
pub enum Request {
    Mmap { addr: u64, len: u64, prot: Prot, flags: Flags, file: u64, off: u64 },
    Munmap { addr: u64, len: u64 },
    Mprotect { addr: u64, len: u64, prot: Prot },
    Load { addr: u64 },
    Store { addr: u64, byte: u8 },
    Fetch { addr: u64 },
}

/// One step, of the core that is named first. Pages are addresses divided by 4,096.
#[derive(Clone, Copy, Debug, PartialEq, Eq)]
pub enum Event {
    /// The core begins a call.
    Call(u32, Request),
    /// Its call goes one step on.
    Go(u32),
    /// Its call takes this frame.
    Frame(u32, u64),
    /// Its call guesses that there is room from this page on.
    Guess(u32, u64),
    /// Its call takes its whole window.
    Whole(u32),
    /// The core acts on the oldest message of its inbox.
    Take(u32),
    /// Its TLB gets the translation of this page from its tables.
    Walk(u32, u64),
    /// Its TLB drops the translation of this page.
    Evict(u32, u64),
    /// It flushes one of its counts, or ends its part of the epoch.
    Flush(u32),
    /// It reviews the front of its queue.
    Review(u32),
    /// Slots are joined at this page. It has no core.
    Fold(u64),
    /// Its call is cancelled, as if memory were short.
    GiveUp(u32),
}

/// What a batch of calls is asked for.
#[derive(Clone, Copy, Debug, PartialEq, Eq)]
pub enum Ask {
    /// A whole call of the core, to its end or until it waits for another core.
    Call(u32, Request),
    /// The rest of the core's call, after a wait.
    Finish(u32),
    /// One event.
    Step(Event),
}

/// Why a call was refused, by the names of `<errno.h>`.
#[derive(Clone, Copy, Debug, PartialEq, Eq)]
pub enum Errno {
    Ebadf,
    Enomem,
    Eacces,
    Einval,
    Eoverflow,
}

/// The answer to a request.
#[derive(Clone, Copy, Debug, PartialEq, Eq)]
pub enum Reply {
    /// Mapped from this address on.
    Mapped(u64),
    /// Unmapped, protected or stored.
    Done,
    /// The byte that was loaded or fetched.
    Byte(u8),
    /// The call was refused, and changed nothing.
    Refused(Errno),
    /// `SIGSEGV`: nothing is mapped there.
    MapErr,
    /// `SIGSEGV`: the protection forbids it.
    AccErr,
    /// `SIGBUS`: past the end of the file.
    Bus,
    /// No frame was free.
    NoFrame,
    /// The call was cancelled: by [`Event::GiveUp`], or since a seat was refused memory.
    NoMemory,
}

/// What an event, or a call, came to.
#[derive(Clone, Copy, Debug, PartialEq, Eq)]
pub enum Outcome {
    /// A step was made.
    Stepped,
    /// This core holds a slot of the call's pages.
    WaitsForSlot(u32),
    /// These cores are to take a message; bit `c` is core `c`.
    WaitsForAcks(u64),
    /// The event isn't possible now.
    Idle,
    /// The limit of calls or of events is reached; of `reclaim`, that of epochs.
    Full,
    /// A call was answered.
    Replied(Reply),
    /// Each of 2^40 steps was made, and the call isn't at its end.
    Stuck,
}

/// What backs neighbouring pages. A file's pages are counted from 0, and `page` is the one that backs the first of them.
#[derive(Clone, Copy, Debug, PartialEq, Eq)]
pub enum Back {
    /// Zero bytes.
    Zeros,
    /// The file's own pages.
    Shared { file: u32, page: u64 },
    /// Copies of the file's pages.
    Private { file: u32, page: u64 },
}

/// Neighbouring pages with the same protection, whose backing goes on from page to page.
#[derive(Clone, Debug, PartialEq, Eq)]
pub struct Line {
    pub pages: Range<u64>,
    pub prot: Prot,
    pub back: Back,
}

/// An entry of the log. Events and calls that began are numbered from 1; `step` is the event that made the entry.
#[derive(Clone, Copy, Debug, PartialEq, Eq)]
pub enum Entry {
    /// The core's call was given this reply.
    Replied { step: u64, call: u64, core: u32, request: Request, reply: Reply },
    /// The private page, which showed its file until then, got a copy of its own, for the store that the call is.
    Copied { step: u64, call: u64, page: u64 },
}

/// Why a batch ended early, or why a single event, whose `at` is 0, had no outcome.
#[derive(Clone, Copy, Debug, PartialEq, Eq)]
pub enum Error {
    /// This event has a core above 63.
    BadEvent { at: usize },
    /// Memory was refused to this event.
    OutOfMemory { at: usize },
    /// The machine has no such core, or no page has this number.
    Absent,
    /// The machine keeps no log.
    NoLog,
    /// There are more than 2^32 events, or bytes of files.
    TooLong,
    /// There is no core, or there are more than 64.
    BadCores,
    /// There are more than 65,536 frames.
    BadFrames,
    /// There are more than 16 files.
    TooManyFiles,
    /// A file has more than 1,048,576 bytes.
    FileTooLong,
    /// More than 2^40 calls are asked for, or than 1,048,576 with a log.
    BadCalls,
    /// Memory was refused to the new machine.
    NoMachine,
    /// Another seat is in a call, and nothing was done.
    Busy,
    /// A core has a call that isn't at its end.
    InFlight,
    /// The limit of calls or of events is reached; of `reclaim`, that of epochs.
    Full,
    /// The library answered a code that isn't in its header, which this crate is for.
    UnknownCode(u32),
}

impl fmt::Display for Error {
    fn fmt(&self, f: &mut fmt::Formatter<'_>) -> fmt::Result {
        match self {
            Error::BadEvent { at } => write!(f, "event {at} has a core above 63"),
            Error::OutOfMemory { at } => write!(f, "memory was refused to event {at}"),
            Error::Absent => write!(f, "no such core, or no such page"),
            Error::NoLog => write!(f, "the machine keeps no log"),
            Error::TooLong => write!(f, "more than 2^32 events, or bytes of files"),
            Error::BadCores => write!(f, "not 1 to 64 cores"),
            Error::BadFrames => write!(f, "more than 65536 frames"),
            Error::TooManyFiles => write!(f, "more than 16 files"),
            Error::FileTooLong => write!(f, "a file of more than 1048576 bytes"),
            Error::BadCalls => write!(f, "more than 2^40 calls, or than 1048576 with a log"),
            Error::NoMachine => write!(f, "memory was refused to the new machine"),
            Error::Busy => write!(f, "another seat is in a call"),
            Error::InFlight => write!(f, "a core has a call that isn't at its end"),
            Error::Full => write!(f, "the limit of calls or of events is reached"),
            Error::UnknownCode(code) => write!(f, "the library answered {code}, which its header doesn't have"),
        }
    }
}

impl std::error::Error for Error {}

/// A batch that ended early: what the events before came to, and why.
#[derive(Clone, Debug, PartialEq, Eq)]
pub struct Stopped {
    pub outcomes: Vec<Outcome>,
    pub error: Error,
}

impl fmt::Display for Stopped {
    fn fmt(&self, f: &mut fmt::Formatter<'_>) -> fmt::Result {
        write!(f, "{}, after {} outcomes", self.error, self.outcomes.len())
    }
}

impl std::error::Error for Stopped {}

/// An access.
#[derive(Clone, Copy, Debug, PartialEq, Eq)]
pub enum Access {
    Load,
    Store,
    Fetch,
}

/// Where the bytes of a touched page's frame are to come from, before the page's entry is installed.
#[derive(Clone, Copy, Debug, PartialEq, Eq)]
pub enum Filled {
    /// The frame has them already, or the page has no frame.
    Ready,
    /// They are all 0.
    Zero,
    /// They are copied from this frame.
    Frame(u32),
    /// They are copied from this page of a file, as it was opened, with 0 after the file's end.
    File { file: u32, page: u64 },
}

/// What a page fault comes to.
#[derive(Clone, Copy, Debug, PartialEq, Eq)]
pub struct Touched {
    /// The outcome of its call; none where memory was refused to a step. Then make the fill, and go on by [`Machine::go_on`].
    pub outcome: Option<Outcome>,
    /// The core's entry of the page, as [`Machine::entry`] tells it; 0 where it has none.
    pub word: u64,
    /// The page.
    pub page: u64,
    /// Its frame; 0 where it has none.
    pub frame: u32,
    /// The fill that is due.
    pub fill: Filled,
}

/// Pages of which a core is to drop its real translations.
#[derive(Clone, Debug, PartialEq, Eq)]
pub enum Drop {
    /// Clear their words and flush the real TLB, now. The call of the core `from` asks for it.
    Tables { pages: Range<u64>, from: u32 },
    /// This take was the acknowledgement: nothing of them may be left.
    Tlb { pages: Range<u64>, from: u32 },
    /// Clear and flush, before the core runs its program again. Its own call drops them.
    Own { pages: Range<u64> },
}

/// The version of the library's codes and structs.
pub fn version() -> u32 {
    raw::version()
}

/// Takes the events, one after another, on a new machine.
///
/// ```
/// use radixvm::{run, Event, Outcome, Reply, Request, Setup};
///
/// let setup = Setup::new(1, 0, 1);
/// let events = [Event::Call(0, Request::Load { addr: 0 }), Event::Go(0), Event::Go(0), Event::Go(0)];
/// assert_eq!(run(&setup, &events)?, [Outcome::Stepped, Outcome::Stepped, Outcome::Replied(Reply::MapErr), Outcome::Idle]);
/// # Ok::<(), radixvm::Stopped>(())
/// ```
pub fn run(setup: &Setup, events: &[Event]) -> Result<Vec<Outcome>, Stopped> {
    let raws: Vec<_> = events.iter().map(raw::of_event).collect();
    raw::batch(setup, &raws, raw::Way::Events)
}

/// Makes the calls, each to its end or until it waits, and the events between them, on a new machine.
///
/// ```
/// use radixvm::{calls, Ask, Error, Outcome, Reply, Request, Setup};
///
/// let setup = Setup::new(1, 0, 1);
/// let stopped = calls(&setup, &[Ask::Call(0, Request::Load { addr: 0 }), Ask::Finish(64)]).unwrap_err();
/// assert_eq!(stopped.outcomes, [Outcome::Replied(Reply::MapErr)]);
/// assert_eq!(stopped.error, Error::BadEvent { at: 1 });
/// assert_eq!(calls(&Setup { cores: 65, ..setup }, &[]).unwrap_err().error, Error::BadCores);
/// ```
pub fn calls(setup: &Setup, asks: &[Ask]) -> Result<Vec<Outcome>, Stopped> {
    let raws: Vec<_> = asks.iter().map(raw::of_ask).collect();
    raw::batch(setup, &raws, raw::Way::Calls)
}
