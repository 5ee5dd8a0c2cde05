//! A machine that is kept.
use crate::raw::{of_ask, of_event, Place, Way};
use crate::{Access, Ask, Drop, Entry, Error, Event, Line, Outcome, Request, Setup, Stopped, Touched};
use std::fmt;

/// A machine that takes events and calls as they come, and is freed when it is dropped. It may go to another thread, and isn't
/// two threads' at once: it is `Send`, and not `Sync`. [`Space::share`](crate::Space::share) lets threads call it side by side.
///
/// ```
/// use radixvm::{Flags, Machine, Outcome, Prot, Reply, Request, Setup};
///
/// let mut machine = Machine::new(&Setup::new(1, 4, 100))?;
/// let flags = Flags { private: true, fixed: true, anonymous: true, ..Flags::default() };
/// let prot = Prot { read: true, write: true, exec: false };
/// machine.call(0, Request::Mmap { addr: 0x10000, len: 4096, prot, flags, file: 0, off: 0 })?;
/// machine.call(0, Request::Store { addr: 0x10004, byte: 41 })?;
/// assert_eq!(machine.call(0, Request::Load { addr: 0x10004 })?, Outcome::Replied(Reply::Byte(41)));
/// # Ok::<(), radixvm::Error>(())
/// ```
///
/// ```
/// use radixvm::{Machine, Outcome, Reply, Request, Setup};
///
/// let mut machine = Machine::new(&Setup::new(1, 4, 100))?;
/// let request = Request::Load { addr: 0x10000 };
/// let (machine, outcome) = std::thread::spawn(move || {
///     let outcome = machine.call(0, request);
///     (machine, outcome)
/// }).join().unwrap();
/// assert_eq!(outcome?, Outcome::Replied(Reply::MapErr));
/// assert_eq!(format!("{machine:?}"), "Machine { cores: 1, .. }");
/// # Ok::<(), radixvm::Error>(())
/// ```
///
/// ```compile_fail
/// fn is_sync<T: Sync>() {}
/// is_sync::<radixvm::Machine>();
/// ```
pub struct Machine {
    pub(crate) place: Place,
}

impl fmt::Debug for Machine {
    fn fmt(&self, f: &mut fmt::Formatter<'_>) -> fmt::Result {
        f.debug_struct("Machine").field("cores", &self.cores()).finish_non_exhaustive()
    }
}

impl Machine {
    /// A new machine.
    ///
    /// ```
    /// use radixvm::{Error, Machine, Setup};
    ///
    /// let setup = Setup::new(65, 4, 100);
    /// assert_eq!(Machine::new(&setup).err(), Some(Error::BadCores));
    /// ```
    pub fn new(setup: &Setup) -> Result<Machine, Error> {
        Ok(Machine { place: Place::new(setup)? })
    }

    /// Takes one event. At an error nothing changes.
    ///
    /// ```
    /// use radixvm::{Error, Event, Machine, Outcome, Setup};
    ///
    /// let mut machine = Machine::new(&Setup::new(1, 4, 100))?;
    /// assert_eq!(machine.step(&Event::Go(0))?, Outcome::Idle);
    /// assert_eq!(machine.step(&Event::Go(64)), Err(Error::BadEvent { at: 0 }));
    /// # Ok::<(), radixvm::Error>(())
    /// ```
    pub fn step(&mut self, event: &Event) -> Result<Outcome, Error> {
        self.place.one(&of_event(event), Way::Events)
    }

    /// Begins a call of the core, and makes no step of it.
    pub fn begin(&mut self, core: u32, request: Request) -> Result<Outcome, Error> {
        self.step(&Event::Call(core, request))
    }

    /// Makes a call of the core, to its end or until it waits for another core. Where memory is refused some of its steps may
    /// have been made, and [`Machine::finish`] goes on.
    pub fn call(&mut self, core: u32, request: Request) -> Result<Outcome, Error> {
        self.place.one(&of_ask(&Ask::Call(core, request)), Way::Calls)
    }

    /// Makes the rest of the core's call, after a wait or a begin, or when it was refused memory.
    ///
    /// ```
    /// use radixvm::{Machine, Outcome, Reply, Request, Setup};
    ///
    /// let mut machine = Machine::new(&Setup::new(2, 4, 100))?;
    /// assert_eq!(machine.begin(1, Request::Munmap { addr: 0x10000, len: 4096 })?, Outcome::Stepped);
    /// assert_eq!(machine.call(0, Request::Load { addr: 0x10000 })?, Outcome::Replied(Reply::MapErr));
    /// assert_eq!(machine.finish(1)?, Outcome::Replied(Reply::Done));
    /// # Ok::<(), radixvm::Error>(())
    /// ```
    pub fn finish(&mut self, core: u32) -> Result<Outcome, Error> {
        self.place.one(&of_ask(&Ask::Finish(core)), Way::Calls)
    }

    /// Takes the events, as [`run`](crate::run) does, from where the machine is.
    pub fn run(&mut self, events: &[Event]) -> Result<Vec<Outcome>, Stopped> {
        let raws: Vec<_> = events.iter().map(of_event).collect();
        self.place.many(&raws, Way::Events)
    }

    /// Makes the calls, as [`calls`](crate::calls) does, from where the machine is.
    ///
    /// ```
    /// use radixvm::{Ask, Event, Machine, Outcome, Reply, Request, Setup};
    ///
    /// let mut machine = Machine::new(&Setup::new(1, 4, 100))?;
    /// let load = Request::Load { addr: 0x10000 };
    /// assert_eq!(machine.run(&[Event::Call(0, load)]).unwrap(), [Outcome::Stepped]);
    /// let told = machine.calls(&[Ask::Finish(0), Ask::Call(0, load)]).unwrap();
    /// assert_eq!(told, [Outcome::Replied(Reply::MapErr), Outcome::Replied(Reply::MapErr)]);
    /// # Ok::<(), radixvm::Error>(())
    /// ```
    pub fn calls(&mut self, asks: &[Ask]) -> Result<Vec<Outcome>, Stopped> {
        let raws: Vec<_> = asks.iter().map(of_ask).collect();
        self.place.many(&raws, Way::Calls)
    }

    /// A page fault of the core, whose accesses real page tables translate: what the page has now, and the fill that is due. The
    /// duties of the caller are in `include/radixvm.h`, under "A real MMU".
    ///
    /// ```
    /// use radixvm::{Access, Drop, Filled, Flags, Machine, Outcome, Prot, Reply, Request, Setup};
    /// use std::collections::HashMap;
    ///
    /// // two cores' page tables, and the bytes of frames
    /// let mut words = [HashMap::new(), HashMap::new()];
    /// let mut frames = vec![[1u8; 4096]; 4];
    /// let mut machine = Machine::new(&Setup::new(2, 4, 100))?;
    /// let flags = Flags { private: true, fixed: true, anonymous: true, ..Flags::default() };
    /// let prot = Prot { read: true, write: true, exec: false };
    /// let mmap = Request::Mmap { addr: 0x10000, len: 4096, prot, flags, file: 0, off: 0 };
    /// assert_eq!(machine.change(0, mmap)?.0, Some(Outcome::Replied(Reply::Mapped(0x10000))));
    ///
    /// // a core's fault: the fill is made, and then the word is installed
    /// for core in [0, 1] {
    ///     let touched = machine.touch(core, 0x10004, Access::Store)?;
    ///     assert_eq!(touched.outcome, Some(Outcome::Replied(Reply::Done)));
    ///     assert_eq!(touched.fill, if core == 0 { Filled::Zero } else { Filled::Ready });
    ///     if touched.fill == Filled::Zero {
    ///         frames[touched.frame as usize] = [0; 4096];
    ///     }
    ///     words[core as usize].insert(touched.page, touched.word);
    /// }
    ///
    /// // a change drops its own core's words at once, and waits for the other's
    /// let (outcome, own) = machine.change(0, Request::Munmap { addr: 0x10000, len: 4096 })?;
    /// assert_eq!(outcome, Some(Outcome::WaitsForAcks(2)));
    /// assert_eq!(own, Some(Drop::Own { pages: 16..17 }));
    /// words[0].remove(&16);
    ///
    /// // the other core's interrupt: it clears and flushes between the two takes
    /// assert_eq!(machine.take(1)?, Some(Drop::Tables { pages: 16..17, from: 0 }));
    /// words[1].remove(&16);
    /// assert_eq!(machine.take(1)?, Some(Drop::Tlb { pages: 16..17, from: 0 }));
    /// assert_eq!(machine.take(1)?, None);
    /// let (ended, own) = machine.go_on(0)?;
    /// assert_eq!((ended.outcome, own), (Some(Outcome::Replied(Reply::Done)), None));
    /// # Ok::<(), radixvm::Error>(())
    /// ```
    pub fn touch(&mut self, core: u32, at: u64, access: Access) -> Result<Touched, Error> {
        self.place.touch(core, at, access)
    }

    /// An mmap, a munmap or an mprotect of the core, to its end or until it waits, and the pages that the core itself is to drop.
    /// The outcome is none where memory was refused to a step.
    pub fn change(&mut self, core: u32, request: Request) -> Result<(Option<Outcome>, Option<Drop>), Error> {
        self.place.change(core, &request)
    }

    /// Goes on with the core's touch or change, to its end or until it waits.
    pub fn go_on(&mut self, core: u32) -> Result<(Touched, Option<Drop>), Error> {
        self.place.go_on(core)
    }

    /// The core does what the oldest message of its inbox asks. Returns that, or none if there is no message.
    pub fn take(&mut self, core: u32) -> Result<Option<Drop>, Error> {
        self.place.take(core)
    }

    /// Brings back each frame that no page has, that caches no page of a file and that no call has taken: how many came back.
    ///
    /// ```
    /// use radixvm::{Access, Flags, Machine, Outcome, Prot, Reply, Request, Setup};
    ///
    /// let mut machine = Machine::new(&Setup::new(1, 1, 100))?;
    /// let flags = Flags { private: true, fixed: true, anonymous: true, ..Flags::default() };
    /// let prot = Prot { read: true, write: true, exec: false };
    /// for _ in 0..3 {
    ///     machine.change(0, Request::Mmap { addr: 0x10000, len: 4096, prot, flags, file: 0, off: 0 })?;
    ///     assert_eq!(machine.touch(0, 0x10000, Access::Store)?.outcome, Some(Outcome::Replied(Reply::Done)));
    ///     machine.change(0, Request::Munmap { addr: 0x10000, len: 4096 })?;
    ///     assert_eq!(machine.reclaim()?, 1);
    /// }
    /// # Ok::<(), radixvm::Error>(())
    /// ```
    pub fn reclaim(&mut self) -> Result<u64, Error> {
        self.place.reclaim()
    }

    /// How many cores it has.
    pub fn cores(&self) -> u64 {
        self.place.cores()
    }

    /// The entry that the core's page tables have for the page, as the hardware reads it; 0 where they have none.
    ///
    /// ```
    /// use radixvm::{Error, Machine, Setup};
    ///
    /// let mut machine = Machine::new(&Setup::new(2, 4, 100))?;
    /// assert_eq!(machine.entry(1, 16)?, 0);
    /// assert_eq!(machine.cores(), 2);
    /// assert_eq!(machine.entry(2, 16), Err(Error::Absent));
    /// assert_eq!(machine.entry(0, 0), Err(Error::Absent));
    /// # Ok::<(), radixvm::Error>(())
    /// ```
    pub fn entry(&self, core: u32, page: u64) -> Result<u64, Error> {
        self.place.entry(core, page)
    }

    /// All mappings, in order of pages.
    ///
    /// ```
    /// use radixvm::{Back, Flags, Line, Machine, Mode, Prot, Request, Setup};
    ///
    /// let mut machine = Machine::new(&Setup::new(1, 4, 100).with_file(Mode::ReadWrite, vec![7; 8192]))?;
    /// let flags = Flags { shared: true, fixed: true, ..Flags::default() };
    /// let prot = Prot { read: true, ..Prot::default() };
    /// machine.call(0, Request::Mmap { addr: 0x10000, len: 4096, prot, flags, file: 0, off: 4096 })?;
    /// assert_eq!(machine.maps()?, [Line { pages: 16..17, prot, back: Back::Shared { file: 0, page: 1 } }]);
    /// # Ok::<(), radixvm::Error>(())
    /// ```
    pub fn maps(&self) -> Result<Vec<Line>, Error> {
        self.place.maps()
    }

    /// The log, from its first entry on: each call's reply, in the order in which a plain page map would answer.
    ///
    /// ```
    /// use radixvm::{Entry, Error, Machine, Reply, Request, Setup};
    ///
    /// let mut machine = Machine::new(&Setup::new(2, 4, 100).with_log())?;
    /// let request = Request::Load { addr: 0x10000 };
    /// machine.call(1, request)?;
    /// assert_eq!(machine.log()?, [Entry::Replied { step: 8, call: 1, core: 1, request, reply: Reply::MapErr }]);
    /// assert_eq!(Machine::new(&Setup::new(2, 4, 100))?.log(), Err(Error::NoLog));
    /// # Ok::<(), radixvm::Error>(())
    /// ```
    pub fn log(&self) -> Result<Vec<Entry>, Error> {
        self.place.log()
    }
}
