//! Times the calls by which a machine decides for a real MMU, through libradixvm.a, beside the plain machine of bench/baseline.rs, called as a function,
//! which drops its TLB's entry and makes the access: nanoseconds a call of the thread's own time, medians of five runs in turn, each on a new machine,
//! whose making isn't timed. The replies have to be the same. bench/library.sh builds and runs it.
//!   touch         a load at one of 4,096 pages that have a frame and an entry
//!   first load    at each of 65,000 pages of one mapping
//!   first store   the same
//!   change+touch  one of 512 pages protected, and stored to at once
//!   take          a message of a change, which 63 cores take twice
//!   take none     of an empty inbox
mod baseline {
    #![allow(dead_code)]
    pub mod counts;
    pub mod cpu;
    pub mod files;
    pub mod frames;
    pub mod machine;
    pub mod maps;
    pub mod request;
    pub mod slots;
}

use baseline::machine::{Machine, Outcome};
use baseline::request::{Access, Action, Flags, Prot, Request};

#[repr(C)]
struct Setup {
    cores: u64,
    frames: u64,
    calls: u64,
    log: u32,
}

#[repr(C)]
#[derive(Clone, Copy, Default)]
struct Event {
    kind: u32,
    core: u32,
    at: u64,
    len: u64,
    file: u64,
    off: u64,
    prot: u32,
    flags: u32,
    byte: u32,
}

#[repr(C)]
#[derive(Clone, Copy, Default)]
struct Told {
    kind: u32,
    value: u64,
}

#[repr(C)]
#[derive(Clone, Copy, Default)]
struct Filled {
    word: u64,
    page: u64,
    frame: u32,
    fill: u32,
    from: u64,
    file: u32,
}

#[repr(C)]
#[derive(Clone, Copy, Default)]
struct Drop {
    first: u64,
    end: u64,
    what: u32,
    from: u32,
}

#[repr(C)]
struct Done {
    status: u32,
    count: u64,
}

/// A machine that is kept.
#[repr(C)]
struct Held {
    at: *mut u8,
}

extern "C" {
    fn radixvm_new_held(
        setup: *const Setup, files: *const u8, file_count: usize, bytes: *const u8, byte_count: usize, machine: *mut Held,
    ) -> Done;
    fn radixvm_free_held(machine: *mut Held);
    fn radixvm_touch_held(machine: *mut Held, core: u32, at: u64, kind: u32, told: *mut Told, filled: *mut Filled) -> u32;
    fn radixvm_change_held(machine: *mut Held, event: *const Event, told: *mut Told, own: *mut Drop) -> u32;
    fn radixvm_go_on_held(machine: *mut Held, core: u32, told: *mut Told, filled: *mut Filled, own: *mut Drop) -> u32;
    fn radixvm_take_held(machine: *mut Held, core: u32, drop: *mut Drop) -> u32;
    fn clock_gettime(clock: i32, time: *mut [i64; 2]) -> i32;
}

/// Linux's CLOCK_THREAD_CPUTIME_ID.
const THREAD_CLOCK: i32 = 3;

/// Nanoseconds that this thread has run, whatever else the processor does.
fn now() -> f64 {
    let mut time = [0; 2];
    // SAFETY: two words of 64 bits are a timespec.
    assert!(unsafe { clock_gettime(THREAD_CLOCK, &mut time) } == 0);
    time[0] as f64 * 1e9 + time[1] as f64
}

const BASE: u64 = 0x1000_0000;
const FRAMES: u64 = 65_536;
const FIRSTS: u64 = 65_000;
const CALLS: u64 = 500_000;
const CORES: u64 = 64;

/// A call that both machines make.
#[derive(Clone, Copy)]
enum Call {
    Touch { at: u64, is_store: bool },
    Map { pages: u64 },
    Protect { at: u64 },
}

use Call::{Map, Protect, Touch};

/// The machine that makes the calls, and what each call told: its kind and value.
trait Made {
    fn new(cores: u64) -> Self;
    fn call(&mut self, core: u32, call: Call) -> (u32, u64);
    fn go_on(&mut self, core: u32) -> (u32, u64);
    /// Tells whether there was a message.
    fn take(&mut self, core: u32) -> bool;
}

impl Made for Held {
    fn new(cores: u64) -> Held {
        let setup = Setup { cores, frames: FRAMES, calls: 1 << 30, log: 0 };
        let (mut held, bytes) = (Held { at: std::ptr::null_mut() }, [0u8; 32]);
        // SAFETY: each pointer is of one that is alive, or of length 0, aligned and not null; the place is null before.
        let done = unsafe { radixvm_new_held(&setup, bytes.as_ptr(), 0, bytes.as_ptr(), 0, &mut held) };
        assert!(done.status == 0 && done.count == 0);
        held
    }

    fn call(&mut self, core: u32, call: Call) -> (u32, u64) {
        let (mut told, mut filled, mut own) = (Told::default(), Filled::default(), Drop::default());
        let (kind, at, len) = match call {
            Touch { at, is_store } => {
                // SAFETY: each pointer is of one that is alive, and the machine is this one's alone.
                let status = unsafe { radixvm_touch_held(self, core, at, 4 + u32::from(is_store), &mut told, &mut filled) };
                assert!(status == 0 && filled.word & 1 == 1);
                return (told.kind, told.value);
            }
            Map { pages } => (1, BASE, pages * 4096),
            Protect { at } => (3, at, 4096),
        };
        let event = Event { kind, core, at, len, prot: 3, flags: 2 | 16 | 32, ..Event::default() };
        // SAFETY: as above.
        assert!(unsafe { radixvm_change_held(self, &event, &mut told, &mut own) } == 0);
        (told.kind, told.value)
    }

    fn go_on(&mut self, core: u32) -> (u32, u64) {
        let (mut told, mut filled, mut own) = (Told::default(), Filled::default(), Drop::default());
        // SAFETY: as above.
        assert!(unsafe { radixvm_go_on_held(self, core, &mut told, &mut filled, &mut own) } == 0);
        (told.kind, told.value)
    }

    fn take(&mut self, core: u32) -> bool {
        let mut drop = Drop::default();
        // SAFETY: as above.
        assert!(unsafe { radixvm_take_held(self, core, &mut drop) } == 0);
        drop.what != 0
    }
}

impl std::ops::Drop for Held {
    fn drop(&mut self) {
        // SAFETY: as above.
        unsafe { radixvm_free_held(self) };
    }
}

/// The kind and value of a plain outcome, as the library codes it.
fn coded(outcome: &Outcome) -> (u32, u64) {
    match outcome {
        Outcome::WaitAcks(set) => (3, *set),
        Outcome::Mapped(at) => (6, *at),
        Outcome::Done => (7, 0),
        Outcome::Byte(byte) => (8, u64::from(*byte)),
        _ => (0, 0),
    }
}

impl Made for Machine {
    fn new(cores: u64) -> Machine {
        Machine::new(cores as usize, FRAMES as usize, 1 << 30)
    }

    fn call(&mut self, core: u32, call: Call) -> (u32, u64) {
        let prot = Prot { read: true, write: true, exec: false };
        let flags = Flags { private: true, fixed: true, anon: true, ..Flags::default() };
        let request = match call {
            Touch { at, is_store } => {
                self.act(core as usize, Action::Evict { addr: at });
                Request::Access { addr: at, access: if is_store { Access::Store(0) } else { Access::Load } }
            }
            Map { pages } => Request::Mmap { addr: BASE, len: pages * 4096, prot, flags, file: 0, off: 0 },
            Protect { at } => Request::Mprotect { addr: at, len: 4096, prot },
        };
        coded(&self.act(core as usize, Action::Now(request)))
    }

    fn go_on(&mut self, core: u32) -> (u32, u64) {
        coded(&self.act(core as usize, Action::Finish))
    }

    fn take(&mut self, core: u32) -> bool {
        self.act(core as usize, Action::Take) == Outcome::Step
    }
}

/// What is timed: its name, how many pages are touched before, the calls, and how many a unit has.
struct Kind {
    name: &'static str,
    pages: u64,
    touched: u64,
    calls: fn() -> Vec<Call>,
    unit: usize,
}

const KINDS: [Kind; 4] = [
    Kind { name: "touch", pages: 4096, touched: 4096, calls: || touches(CALLS, 4096, false), unit: 1 },
    Kind { name: "first load", pages: FIRSTS, touched: 0, calls: || touches(FIRSTS, FIRSTS, false), unit: 1 },
    Kind { name: "first store", pages: FIRSTS, touched: 0, calls: || touches(FIRSTS, FIRSTS, true), unit: 1 },
    Kind { name: "change+touch", pages: 512, touched: 512, calls: changes, unit: 2 },
];

fn touches(count: u64, pages: u64, is_store: bool) -> Vec<Call> {
    (0..count).map(|i| Touch { at: BASE + i % pages * 4096, is_store }).collect()
}

fn changes() -> Vec<Call> {
    (0..CALLS).map(|i| BASE + i % 512 * 4096).flat_map(|at| [Protect { at }, Touch { at, is_store: true }]).collect()
}

/// Nanoseconds a unit of the kind's calls, and a sum of what they told.
fn time<M: Made>(kind: &Kind, calls: &[Call]) -> (f64, u64) {
    let mut machine = M::new(1);
    let mut sum = 0u64;
    machine.call(0, Map { pages: kind.pages });
    for page in 0..kind.touched {
        machine.call(0, Touch { at: BASE + page * 4096, is_store: true });
    }
    let start = now();
    for call in calls {
        let (outcome, value) = machine.call(0, *call);
        sum = sum.wrapping_mul(31).wrapping_add(u64::from(outcome) + (value << 8));
    }
    ((now() - start) / (calls.len() / kind.unit) as f64, sum)
}

/// Nanoseconds a take of a message, and a take where there is none.
fn time_takes<M: Made>() -> (f64, f64) {
    const ROUNDS: u64 = 1000;
    let mut machine = M::new(CORES);
    machine.call(0, Map { pages: 1 });
    let mut spent = [0.0; 2];
    for _ in 0..ROUNDS {
        for core in 0..CORES as u32 {
            machine.call(core, Touch { at: BASE, is_store: true });
        }
        assert!(machine.call(0, Protect { at: BASE }) == (3, !1));
        for is_left in [true, false] {
            let start = now();
            for _take in 0..2 {
                for core in 1..CORES as u32 {
                    assert!(machine.take(core) == is_left);
                }
            }
            spent[usize::from(!is_left)] += now() - start;
        }
        assert!(machine.go_on(0) == (7, 0));
    }
    let takes = (ROUNDS * (CORES - 1) * 2) as f64;
    (spent[0] / takes, spent[1] / takes)
}

fn show(name: &str, mut ours: Vec<f64>, mut plain: Vec<f64>) {
    ours.sort_by(f64::total_cmp);
    plain.sort_by(f64::total_cmp);
    println!("{name}: {:.1} ns, plain {:.1} ns, ratio {:.2}", ours[2], plain[2], ours[2] / plain[2]);
}

fn main() {
    for kind in &KINDS {
        let calls = (kind.calls)();
        let runs: Vec<_> = (0..5).map(|_| (time::<Held>(kind, &calls), time::<Machine>(kind, &calls))).collect();
        assert!(runs.iter().all(|(ours, plain)| ours.1 == plain.1));
        show(kind.name, runs.iter().map(|run| run.0.0).collect(), runs.iter().map(|run| run.1.0).collect());
    }
    let runs: Vec<_> = (0..5).map(|_| (time_takes::<Held>(), time_takes::<Machine>())).collect();
    show("take", runs.iter().map(|run| run.0.0).collect(), runs.iter().map(|run| run.1.0).collect());
    show("take none", runs.iter().map(|run| run.0.1).collect(), runs.iter().map(|run| run.1.1).collect());
}
