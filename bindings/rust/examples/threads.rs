//! Random calls of threads that share a machine. Each notes its own calls and replies; the machine's log has, core by core, just
//! these, and a new machine that is asked for the log's calls in their order gives the same replies.
//! `cargo run --example threads [SEED [THREADS [CALLS]]]` ends with status 1 at a difference.
use radixvm::{Aside, Entry, Event, Flags, Machine, Mode, Outcome, Prot, Reply, Request, Seat, Setup, Space};
use std::error::Error;
use std::process::ExitCode;
use std::thread;

const PAGE: u64 = 4096;
const FRAMES: u64 = 512;

struct Random(u64);

impl Random {
    fn below(&mut self, n: u64) -> u64 {
        self.0 = self.0.wrapping_mul(6_364_136_223_846_793_005).wrapping_add(1_442_695_040_888_963_407);
        (self.0 >> 33) % n
    }

    fn prot(&mut self) -> Prot {
        let bits = if self.below(3) == 0 { self.below(8) } else { 7 };
        Prot { read: bits & 1 != 0, write: bits & 2 != 0, exec: bits & 4 != 0 }
    }

    /// A call of few pages, so that threads meet.
    fn call(&mut self) -> Request {
        let (addr, len) = (PAGE * (510 + self.below(12)), PAGE * (1 + self.below(3)));
        match self.below(16) {
            0 | 1 => {
                let private = self.below(6) != 0;
                let flags = Flags { private, shared: !private, fixed: self.below(4) != 0, anonymous: self.below(2) == 0 };
                Request::Mmap { addr, len, prot: self.prot(), flags, file: 0, off: PAGE * self.below(4) }
            }
            2 => Request::Munmap { addr, len },
            3 => Request::Mprotect { addr, len, prot: self.prot() },
            4..=8 => Request::Load { addr },
            9..=13 => Request::Store { addr, byte: self.below(256) as u8 },
            _ => Request::Fetch { addr },
        }
    }
}

/// A core's calls and what they were told.
type Noted = Vec<(Request, Reply)>;

/// Calls one by one and in lists, with steps beside them.
fn work(seat: &mut Seat, seed: u64, calls: usize) -> Noted {
    let mut random = Random(seed);
    let mut noted = Vec::new();
    while noted.len() < calls {
        let count = if random.below(3) == 0 { 1 + random.below(16) as usize } else { 1 };
        let requests: Vec<_> = (0..count.min(calls - noted.len())).map(|_| random.call()).collect();
        let replies = match requests[..] {
            [request] => vec![seat.call(request).expect("the limits are far")],
            _ => seat.calls(&requests).expect("the limits are far"),
        };
        noted.extend(requests.into_iter().zip(replies));
        let aside = [Aside::Walk(512), Aside::Evict(511), Aside::Flush, Aside::Review, Aside::Fold(510)][random.below(5) as usize];
        let told = seat.aside(aside).expect("the limits are far");
        assert!(matches!(told, Outcome::Stepped | Outcome::Idle));
    }
    noted
}

/// A whole call, for which the cores that it waits for take what they are told.
fn lone_call(machine: &mut Machine, core: u32, request: Request) -> Result<Outcome, radixvm::Error> {
    let told = machine.call(core, request)?;
    let Outcome::WaitsForAcks(cores) = told else {
        return Ok(told);
    };
    for other in (0..64).filter(|other| cores >> other & 1 == 1) {
        machine.step(&Event::Take(other))?;
        machine.step(&Event::Take(other))?;
    }
    machine.finish(core)
}

/// The core whose calls in the log aren't those that it noted, or the entry that is replied another way.
fn difference(log: &[Entry], noted: &[Noted], setup: &Setup) -> Result<Option<String>, radixvm::Error> {
    let replied = |core| {
        let of_core = move |entry: &Entry| match *entry {
            Entry::Replied { core: by, request, reply, .. } if by == core => Some((request, reply)),
            _ => None,
        };
        log.iter().filter_map(of_core)
    };
    for (core, noted) in noted.iter().enumerate() {
        if !replied(core as u32).eq(noted.iter().copied()) {
            return Ok(Some(format!("core {core} noted other calls than the log has")));
        }
    }
    let mut machine = Machine::new(setup)?;
    for entry in log {
        if let Entry::Replied { core, request, reply, call, .. } = *entry {
            let told = lone_call(&mut machine, core, request)?;
            if told != Outcome::Replied(reply) {
                return Ok(Some(format!("call {call} is replied another way: {told:?}, not {reply:?}")));
            }
        }
    }
    Ok(None)
}

fn main() -> Result<ExitCode, Box<dyn Error>> {
    let mut words = std::env::args().skip(1);
    let mut number = |due: u64| words.next().map_or(Ok(due), |word| word.parse());
    let (seed, threads, calls) = (number(1)?, number(4)?, number(2000)? as usize);
    let bytes = (0..3 * PAGE).map(|at| at as u8).collect();
    let setup = Setup::new(threads, FRAMES, threads * calls as u64).with_file(Mode::ReadWrite, bytes).with_log();
    let seats = Space::share(Machine::new(&setup)?)?;
    let made = seats.into_iter().map(|mut seat| {
        thread::spawn(move || {
            let own = seed * 1000 + u64::from(seat.core());
            let noted = work(&mut seat, own, calls);
            (seat, noted)
        })
    });
    let made: Vec<_> = made.collect();
    let (seats, noted): (Vec<_>, Vec<_>) = made.into_iter().map(|thread| thread.join().expect("no thread panics")).unzip();
    let machine = Seat::gather(seats).map_err(|_| "a seat is left")?;
    if let Some(text) = difference(&machine.log()?, &noted, &setup)? {
        println!("{text}");
        return Ok(ExitCode::FAILURE);
    }
    println!("{threads} threads of {calls} calls");
    Ok(ExitCode::SUCCESS)
}
