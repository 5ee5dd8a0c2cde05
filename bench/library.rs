//! Times calls through libradixvm.a, in one batch and one by one on a machine that is kept, beside the plain machine of
//! bench/baseline.rs, called as a function: the same list, made by each from a new machine on, five times in turn. bench/library.sh
//! builds and runs it.
mod baseline {
    #![allow(dead_code)]
    pub mod counts;
    pub mod cpu;
    pub mod files;
    pub mod frames;
    pub mod machine;
    pub mod maps;
    pub mod request;
    pub mod slots;
}

use baseline::machine::{Machine, Outcome};
use baseline::request::{Access, Action, Flags, Prot, Request};
use std::time::Instant;

#[repr(C)]
struct Setup {
    cores: u64,
    frames: u64,
    calls: u64,
    log: u32,
}

#[repr(C)]
#[derive(Clone, Copy, Default)]
struct Event {
    kind: u32,
    core: u32,
    at: u64,
    len: u64,
    file: u64,
    off: u64,
    prot: u32,
    flags: u32,
    byte: u32,
}

#[repr(C)]
#[derive(Clone, Copy, Default)]
struct Told {
    kind: u32,
    value: u64,
}

#[repr(C)]
struct Done {
    status: u32,
    count: u64,
}

extern "C" {
    fn radixvm_calls_batch(
        setup: *const Setup, files: *const u8, file_count: usize, bytes: *const u8, byte_count: usize, events: *const Event,
        event_count: usize, told: *mut Told, room: usize,
    ) -> Done;
    fn radixvm_new_held(
        setup: *const Setup, files: *const u8, file_count: usize, bytes: *const u8, byte_count: usize, machine: *mut Held,
    ) -> Done;
    fn radixvm_call_held(machine: *mut Held, event: *const Event, told: *mut Told) -> u32;
    fn radixvm_free_held(machine: *mut Held);
}

/// A machine that is kept.
#[repr(C)]
struct Held {
    at: *mut u8,
}

const CALLS: u64 = 1_000_000;
const FRAMES: u64 = 65_536;
const BASE: u64 = 0x1000_0000;

/// A call as both take it.
fn both(kind: u32, at: u64, len: u64) -> (Event, Request) {
    let prot = Prot { read: true, write: true, exec: false };
    let flags = Flags { private: true, fixed: true, anon: true, ..Flags::default() };
    let event = Event { kind, at, len, prot: 3, flags: 2 | 16 | 32, ..Event::default() };
    let request = match kind {
        1 => Request::Mmap { addr: at, len, prot, flags, file: 0, off: 0 },
        2 => Request::Munmap { addr: at, len },
        _ => Request::Access { addr: at, access: Access::Load },
    };
    (event, request)
}

fn calls_of(kind: &str) -> Vec<(Event, Request)> {
    match kind {
        "hit" => std::iter::once(both(1, BASE, 4096)).chain((1..CALLS).map(|i| both(4, BASE + i % 4096, 0))).collect(),
        "fault" => std::iter::once(both(1, BASE, 65_000 * 4096)).chain((0..65_000).map(|i| both(4, BASE + i * 4096, 0))).collect(),
        _ => (0..CALLS).map(|i| both(1 + (i % 2) as u32, BASE, 4096)).collect(),
    }
}

/// The kind and value of a plain outcome, as the library codes it.
fn coded(outcome: &Outcome) -> (u32, u64) {
    match outcome {
        Outcome::Mapped(at) => (6, *at),
        Outcome::Done => (7, 0),
        Outcome::Byte(byte) => (8, u64::from(*byte)),
        _ => (0, 0),
    }
}

/// The calls one by one on a machine that is kept.
fn one_by_one(setup: &Setup, events: &[Event], told: &mut [Told]) {
    let mut held = Held { at: std::ptr::null_mut() };
    let bytes = [0u8; 32];
    // SAFETY: as in `time`; the place of the machine is null before it is made, and nothing else writes it.
    unsafe {
        assert!(radixvm_new_held(setup, events.as_ptr().cast(), 0, bytes.as_ptr(), 0, &mut held).status == 0);
        for (event, told) in events.iter().zip(told) {
            assert!(radixvm_call_held(&mut held, event, told) == 0);
        }
        radixvm_free_held(&mut held);
    }
}

/// Nanoseconds a call: of a batch, one by one, and of the plain machine.
fn time(calls: &[(Event, Request)]) -> (f64, f64, f64) {
    let events: Vec<_> = calls.iter().map(|call| call.0).collect();
    let mut told = vec![Told::default(); calls.len()];
    let setup = Setup { cores: 1, frames: FRAMES, calls: CALLS, log: 0 };
    let (bytes, start) = ([0u8; 32], Instant::now());
    // SAFETY: each pointer is a slice's with its length, or one of length 0 that is aligned and not null.
    let done = unsafe {
        radixvm_calls_batch(&setup, events.as_ptr().cast(), 0, bytes.as_ptr(), 0, events.as_ptr(), events.len(), told.as_mut_ptr(), told.len())
    };
    let ours = start.elapsed();
    assert!(done.status == 0 && done.count == calls.len() as u64);
    let mut told_each = vec![Told::default(); calls.len()];
    let start = Instant::now();
    one_by_one(&setup, &events, &mut told_each);
    let each_by_itself = start.elapsed();
    assert!(told.iter().zip(&told_each).all(|(told, each)| (told.kind, told.value) == (each.kind, each.value)));
    let mut outcomes = vec![(0, 0); calls.len()];
    let start = Instant::now();
    let mut machine = Machine::new(1, FRAMES as usize, CALLS);
    for (outcome, call) in outcomes.iter_mut().zip(calls) {
        *outcome = coded(&machine.act(0, Action::Now(call.1)));
    }
    let plain = start.elapsed();
    assert!(told.iter().zip(&outcomes).all(|(told, outcome)| (told.kind, told.value) == *outcome));
    let each = 1e9 / calls.len() as f64;
    (ours.as_secs_f64() * each, each_by_itself.as_secs_f64() * each, plain.as_secs_f64() * each)
}

fn main() {
    for kind in ["hit", "fault", "change"] {
        let calls = calls_of(kind);
        let mut runs: Vec<_> = (0..5).map(|_| time(&calls)).collect();
        let mut median = |of: fn(&(f64, f64, f64)) -> f64| {
            runs.sort_by(|a, b| of(a).total_cmp(&of(b)));
            of(&runs[2])
        };
        let (ours, each, plain) = (median(|run| run.0), median(|run| run.1), median(|run| run.2));
        println!(
            "{kind}: a batch {ours:.1} ns, one by one {each:.1} ns, plain {plain:.1} ns, ratios {:.2}, {:.2}",
            ours / plain,
            each / plain
        );
    }
}
