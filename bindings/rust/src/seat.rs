//! A machine that threads share.
use crate::raw::SeatPlace;
use crate::{Error, Event, Machine, Outcome, Reply, Request};
use std::error;
use std::fmt;
use std::sync::Arc;
use std::{hint, thread};

/// How often a call pauses before it lets other threads go first.
const PAUSES: u32 = 10;

/// Where a machine becomes that of several threads: [`Space::share`]. It lives as long as one of its seats.
pub struct Space;

/// The right to call as one core. Seats of one machine may be in different threads, each in one at a time: a seat is `Send`, and not
/// `Sync`. What is proved (`crates/radixvm_c`), for every schedule: the seats get the replies of a plain page map, in
/// one order that has each seat's calls in the order in which it made them. It isn't said that a call ever finds the machine free, but
/// the only seat of a machine of one core always does.
///
/// A seat that is dropped gives its core up: nobody else gets it, and its calls stay in the log. The last one takes the machine with it.
///
/// ```compile_fail
/// fn is_sync<T: Sync>() {}
/// is_sync::<radixvm::Seat>();
/// ```
pub struct Seat {
    place: SeatPlace,
    core: u32,
    /// All seats of one machine have it, and nobody else. It is dropped after the place, so that as many seats as it has owners are
    /// all that are left.
    of: Arc<()>,
}

/// A machine that wasn't shared, as it was, and why: a core has a call that isn't at its end, or there was no memory.
#[derive(Debug)]
pub struct Unshared {
    pub machine: Machine,
    pub error: Error,
}

impl fmt::Display for Unshared {
    fn fmt(&self, f: &mut fmt::Formatter<'_>) -> fmt::Result {
        write!(f, "not shared: {}", self.error)
    }
}

impl error::Error for Unshared {}

/// What a core does that is no call.
#[derive(Clone, Copy, Debug, PartialEq, Eq)]
pub enum Aside {
    /// Its TLB gets the page's translation from its tables.
    Walk(u64),
    /// Its TLB drops its translation of the page.
    Evict(u64),
    /// It flushes one of its counts, or ends its part of the epoch.
    Flush,
    /// It reviews the front of its queue.
    Review,
    /// Slots are joined at the page.
    Fold(u64),
}

impl Aside {
    /// The event that it is; a seat's core is its own.
    pub(crate) fn event(&self) -> Event {
        match *self {
            Aside::Walk(page) => Event::Walk(0, page),
            Aside::Evict(page) => Event::Evict(0, page),
            Aside::Flush => Event::Flush(0),
            Aside::Review => Event::Review(0),
            Aside::Fold(page) => Event::Fold(page),
        }
    }
}

/// Calls that weren't all made: the replies of the first ones that were, and why. The last of them is [`Reply::NoMemory`] where the error
/// is [`Error::OutOfMemory`].
#[derive(Clone, Debug, PartialEq, Eq)]
pub struct StoppedCalls {
    pub replies: Vec<Reply>,
    pub error: Error,
}

impl fmt::Display for StoppedCalls {
    fn fmt(&self, f: &mut fmt::Formatter<'_>) -> fmt::Result {
        write!(f, "{}, after {} replies", self.error, self.replies.len())
    }
}

impl error::Error for StoppedCalls {}

/// Waits before the next try, as `radixvm_relax` of the header: 16 pauses, then twice as many each time, up to 128; at last it lets
/// other threads go first.
fn relax(tries: u32) {
    if tries < PAUSES {
        (0..16 << tries.min(3)).for_each(|_| hint::spin_loop());
    } else {
        thread::yield_now();
    }
}

/// Tries until the machine is free.
fn until_free<T, E>(mut turn: impl FnMut() -> Result<T, E>, is_busy: impl Fn(&E) -> bool) -> Result<T, E> {
    let mut tries = 0;
    loop {
        match turn() {
            Err(error) if is_busy(&error) => relax(tries),
            told => return told,
        }
        tries = PAUSES.min(tries + 1);
    }
}

impl Space {
    /// A seat for each core, in their order. At an error the machine is as it was.
    ///
    /// ```
    /// use radixvm::{Error, Flags, Machine, Prot, Reply, Request, Seat, Setup, Space};
    /// use std::thread;
    ///
    /// let machine = Machine::new(&Setup::new(4, 64, 10_000).with_log())?;
    /// let mut seats = Space::share(machine).map_err(|unshared| unshared.error)?;
    /// let flags = Flags { private: true, fixed: true, anonymous: true, ..Flags::default() };
    /// let prot = Prot { read: true, write: true, exec: false };
    /// seats[0].call(Request::Mmap { addr: 0x10000, len: 4 * 4096, prot, flags, file: 0, off: 0 })?;
    /// let threads: Vec<_> = seats.into_iter().map(|mut seat| thread::spawn(move || {
    ///     let addr = 0x10000 + 4096 * u64::from(seat.core());
    ///     let byte = seat.core() as u8;
    ///     seat.call(Request::Store { addr, byte }).unwrap();
    ///     assert_eq!(seat.call(Request::Load { addr }), Ok(Reply::Byte(byte)));
    ///     seat
    /// })).collect();
    /// let seats = threads.into_iter().map(|thread| thread.join().unwrap()).collect();
    /// let machine = Seat::gather(seats).unwrap();
    /// assert_eq!(machine.log()?.len(), 9);
    /// # Ok::<(), Error>(())
    /// ```
    ///
    /// ```
    /// use radixvm::{Error, Machine, Request, Setup, Space};
    ///
    /// let mut machine = Machine::new(&Setup::new(1, 4, 100))?;
    /// machine.begin(0, Request::Load { addr: 0x10000 })?;
    /// let mut unshared = Space::share(machine).unwrap_err();
    /// assert_eq!(unshared.error, Error::InFlight);
    /// unshared.machine.finish(0)?;
    /// assert!(Space::share(unshared.machine).is_ok());
    /// # Ok::<(), Error>(())
    /// ```
    pub fn share(machine: Machine) -> Result<Vec<Seat>, Unshared> {
        let cores = machine.cores() as u32;
        let of = Arc::new(());
        let first = match SeatPlace::share(machine.place) {
            Ok(place) => Seat { place, core: 0, of },
            Err((place, error)) => return Err(Unshared { machine: Machine { place }, error }),
        };
        let mut seats = vec![first];
        for core in (1..cores).rev() {
            match seats[0].split(core) {
                Ok(seat) => seats.push(seat),
                Err(error) => return Err(Unshared { machine: Seat::gather(seats).expect("no seat is elsewhere"), error }),
            }
        }
        seats.sort_by_key(|seat| seat.core);
        Ok(seats)
    }
}

impl Seat {
    fn split(&mut self, core: u32) -> Result<Seat, Error> {
        let place = self.place.split()?;
        Ok(Seat { place, core, of: Arc::clone(&self.of) })
    }

    /// The number of its core.
    pub fn core(&self) -> u32 {
        self.core
    }

    /// A whole call of this core, or [`Error::Busy`] where another seat is in one, and then nothing was done. At [`Error::Full`] the
    /// machine's limit of calls or of events is reached.
    ///
    /// ```
    /// use radixvm::{Error, Machine, Reply, Request, Setup, Space};
    ///
    /// let mut seats = Space::share(Machine::new(&Setup::new(1, 4, 1))?).unwrap();
    /// assert_eq!(seats[0].try_call(Request::Load { addr: 0x10000 }), Ok(Reply::MapErr));
    /// assert_eq!(seats[0].try_call(Request::Load { addr: 0x10000 }), Err(Error::Full));
    /// # Ok::<(), Error>(())
    /// ```
    pub fn try_call(&mut self, request: Request) -> Result<Reply, Error> {
        match self.place.try_call(&request)? {
            Outcome::Replied(reply) => Ok(reply),
            _ => Err(Error::Full),
        }
    }

    /// The same, tried until it isn't [`Error::Busy`]: it pauses, and then lets other threads go first.
    pub fn call(&mut self, request: Request) -> Result<Reply, Error> {
        until_free(|| self.try_call(request), |error| *error == Error::Busy)
    }

    /// Whole calls of this core, one after another, with no call of another seat between them, which makes short calls cheaper; or
    /// [`Error::Busy`] where another seat is in a call, and then nothing was done. It stops after a call that memory was refused to, and
    /// at [`Error::Full`]. The others wait as long as all of the calls take.
    ///
    /// ```
    /// use radixvm::{Error, Machine, Reply, Request, Setup, Space};
    ///
    /// let mut seats = Space::share(Machine::new(&Setup::new(1, 4, 3))?).unwrap();
    /// let load = Request::Load { addr: 0x10000 };
    /// assert_eq!(seats[0].try_calls(&[load, load]), Ok(vec![Reply::MapErr; 2]));
    /// let stopped = seats[0].try_calls(&[load, load]).unwrap_err();
    /// assert_eq!((stopped.replies, stopped.error), (vec![Reply::MapErr], Error::Full));
    /// # Ok::<(), Error>(())
    /// ```
    pub fn try_calls(&mut self, requests: &[Request]) -> Result<Vec<Reply>, StoppedCalls> {
        self.place.try_calls(requests)
    }

    /// The same, tried until it isn't [`Error::Busy`].
    pub fn calls(&mut self, requests: &[Request]) -> Result<Vec<Reply>, StoppedCalls> {
        until_free(|| self.try_calls(requests), |stopped| stopped.error == Error::Busy)
    }

    /// What this core does that is no call: [`Outcome::Stepped`], [`Outcome::Idle`] where there was nothing to do, or [`Outcome::Full`] at
    /// the limit of events. The log stays as it is. [`Error::Busy`]: another seat is in a call, and nothing was done.
    pub fn try_aside(&mut self, aside: Aside) -> Result<Outcome, Error> {
        self.place.try_aside(&aside)
    }

    /// The same, tried until it isn't [`Error::Busy`].
    ///
    /// ```
    /// use radixvm::{Aside, Machine, Outcome, Setup, Space};
    ///
    /// let mut seats = Space::share(Machine::new(&Setup::new(1, 4, 1))?).unwrap();
    /// assert_eq!(seats[0].aside(Aside::Evict(16)), Ok(Outcome::Idle));
    /// assert_eq!(seats[0].aside(Aside::Flush), Ok(Outcome::Stepped));
    /// # Ok::<(), radixvm::Error>(())
    /// ```
    pub fn aside(&mut self, aside: Aside) -> Result<Outcome, Error> {
        until_free(|| self.try_aside(aside), |error| *error == Error::Busy)
    }

    /// The machine of these seats, which have to be all that are left of it; else they are handed back.
    ///
    /// ```
    /// use radixvm::{Machine, Seat, Setup, Space};
    ///
    /// let mut seats = Space::share(Machine::new(&Setup::new(3, 4, 1))?).unwrap();
    /// let last = seats.pop().unwrap();
    /// let seats = Seat::gather(seats).unwrap_err();
    /// assert_eq!(seats.len(), 2);
    /// drop(last);
    /// assert_eq!(Seat::gather(seats).unwrap().cores(), 3);
    /// assert!(Seat::gather(Vec::new()).is_err());
    /// # Ok::<(), radixvm::Error>(())
    /// ```
    ///
    /// Seats of two machines aren't those of one:
    ///
    /// ```
    /// use radixvm::{Machine, Seat, Setup, Space};
    ///
    /// let setup = Setup::new(1, 4, 1);
    /// let mut seats = Space::share(Machine::new(&setup)?).unwrap();
    /// seats.extend(Space::share(Machine::new(&setup)?).unwrap());
    /// assert!(Seat::gather(seats).is_err());
    /// # Ok::<(), radixvm::Error>(())
    /// ```
    pub fn gather(mut seats: Vec<Seat>) -> Result<Machine, Vec<Seat>> {
        let all = seats.first().is_some_and(|first| {
            seats.iter().all(|seat| Arc::ptr_eq(&seat.of, &first.of)) && Arc::strong_count(&first.of) == seats.len()
        });
        if !all {
            return Err(seats);
        }
        let Some(mut first) = seats.pop() else {
            return Err(seats);
        };
        for seat in seats {
            first.place.take_in(seat.place);
        }
        let Seat { place, core, of } = first;
        place.unshare().map(|place| Machine { place }).map_err(|place| vec![Seat { place, core, of }])
    }
}

impl fmt::Debug for Seat {
    fn fmt(&self, f: &mut fmt::Formatter<'_>) -> fmt::Result {
        f.debug_struct("Seat").field("core", &self.core).finish_non_exhaustive()
    }
}
