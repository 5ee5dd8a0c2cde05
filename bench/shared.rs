//! Times hits of a machine that threads share, through libradixvm.a: by one thread, beside a machine that is held; and by four
//! together, beside a pthread mutex around a machine that is held; and in lists. Each thread loads from a page of its own. bench/library.sh builds
//! and runs it.
use std::hint::spin_loop;
use std::ptr::null_mut;
use std::thread;
use std::time::Instant;

#[repr(C)]
struct Setup {
    cores: u64,
    frames: u64,
    calls: u64,
    log: u32,
}

#[repr(C)]
#[derive(Clone, Copy, Default)]
struct Event {
    kind: u32,
    core: u32,
    at: u64,
    len: u64,
    file: u64,
    off: u64,
    prot: u32,
    flags: u32,
    byte: u32,
}

#[repr(C)]
#[derive(Clone, Copy, Default)]
struct Told {
    kind: u32,
    value: u64,
}

#[repr(C)]
struct Done {
    status: u32,
    count: u64,
}

/// A machine, or a seat, as C holds it.
#[repr(C)]
struct Place {
    at: *mut u8,
}

extern "C" {
    fn radixvm_new_held(
        setup: *const Setup, files: *const u8, file_count: usize, bytes: *const u8, byte_count: usize, machine: *mut Place,
    ) -> Done;
    fn radixvm_call_held(machine: *mut Place, event: *const Event, told: *mut Told) -> u32;
    fn radixvm_free_held(machine: *mut Place);
    fn radixvm_share_held(machine: *mut Place, seat: *mut Place) -> u32;
    fn radixvm_split_seat(first: *mut Place, other: *mut Place) -> u32;
    fn radixvm_try_seat(seat: *mut Place, event: *const Event, told: *mut Told) -> u32;
    fn radixvm_calls_seat(seat: *mut Place, events: *const Event, event_count: usize, told: *mut Told, room: usize) -> Done;
    fn radixvm_free_seat(seat: *mut Place);
    fn pthread_mutex_lock(mutex: *mut Door) -> i32;
    fn pthread_mutex_unlock(mutex: *mut Door) -> i32;
    fn sched_yield() -> i32;
}

/// A pthread_mutex_t, which all zeros are unlocked.
#[repr(C, align(64))]
struct Door([u8; 64]);

/// What threads are handed; each uses it as its test says.
struct Handed<T>(*mut T);

impl<T> Handed<T> {
    fn at(&self) -> *mut T {
        self.0
    }
}

// SAFETY: the tests below use what they point to by one thread at a time.
unsafe impl<T> Send for Handed<T> {}
// SAFETY: as above.
unsafe impl<T> Sync for Handed<T> {}

const CALLS: u64 = 1_000_000;
const THREADS: u64 = 4;
const LIST: u64 = 64;
const BASE: u64 = 0x1000_0000;

fn page_of(core: u64) -> u64 {
    BASE + core * 4096
}

fn map(core: u64) -> Event {
    Event { kind: 1, core: core as u32, at: page_of(core), len: 4096, prot: 3, flags: 2 | 16 | 32, ..Event::default() }
}

fn load(core: u64, number: u64) -> Event {
    Event { kind: 4, core: core as u32, at: page_of(core) + number % 4096, ..Event::default() }
}

fn new_machine() -> Place {
    let setup = Setup { cores: THREADS, frames: 64, calls: 1 << 40, log: 0 };
    let (bytes, mut held) = ([0u64; 4], Place { at: null_mut() });
    // SAFETY: each pointer is a reference's, or one of length 0 that is aligned and not null.
    assert!(unsafe { radixvm_new_held(&setup, bytes.as_ptr().cast(), 0, bytes.as_ptr().cast(), 0, &mut held) }.status == 0);
    held
}

fn call_held(held: *mut Place, event: &Event) -> Told {
    let mut told = Told::default();
    // SAFETY: the place is the library's own, and one thread's at a time.
    assert!(unsafe { radixvm_call_held(held, event, &mut told) } == 0);
    told
}

/// Waits before the next try, as radixvm_relax does.
fn relax(tries: u32) {
    if tries < 10 {
        (0..16 << tries.min(3)).for_each(|_| spin_loop());
    } else {
        // SAFETY: it takes nothing.
        unsafe { sched_yield() };
    }
}

/// Tries until the machine is free, as radixvm_seat_call does.
fn until_free(mut turn: impl FnMut() -> u32) {
    let mut tries = 0;
    while let status @ 1.. = turn() {
        assert!(status == 17);
        relax(tries);
        tries += 1;
    }
}

fn call_seat(seat: *mut Place, event: &Event) -> Told {
    let mut told = Told::default();
    // SAFETY: the place is this thread's alone.
    until_free(|| unsafe { radixvm_try_seat(seat, event, &mut told) });
    told
}

/// As radixvm_seat_calls.
fn call_list(seat: *mut Place, events: &[Event], told: &mut [Told]) {
    // SAFETY: the place is this thread's alone, and each pointer is a slice's with its length.
    until_free(|| unsafe { radixvm_calls_seat(seat, events.as_ptr(), events.len(), told.as_mut_ptr(), told.len()) }.status);
}

/// Nanoseconds a call, by so many threads of CALLS calls each, of which each makes its own by `call`.
fn time(threads: u64, call: impl Fn(u64, &Event) -> Told + Send + Sync) -> f64 {
    let make = |core: u64| {
        call(core, &map(core));
        call(core, &load(core, 0));
    };
    (0..threads).for_each(make);
    let start = Instant::now();
    thread::scope(|scope| {
        for core in 0..threads {
            let call = &call;
            scope.spawn(move || (0..CALLS).for_each(|number| assert!(call(core, &load(core, number)).kind == 8)));
        }
    });
    start.elapsed().as_secs_f64() * 1e9 / (threads * CALLS) as f64
}

/// On a machine that is held, by one thread.
fn held() -> f64 {
    let mut machine = new_machine();
    let at = Handed(&mut machine as *mut Place);
    let each = time(1, move |_, event| call_held(at.at(), event));
    // SAFETY: as above.
    unsafe { radixvm_free_held(&mut machine) };
    each
}

/// The seats of a new machine, a core each.
fn new_seats() -> Vec<Place> {
    let mut machine = new_machine();
    let mut seats: Vec<_> = (0..THREADS).map(|_| Place { at: null_mut() }).collect();
    // SAFETY: the places are the library's own, and empty.
    unsafe {
        assert!(radixvm_share_held(&mut machine, &mut seats[0]) == 0);
        for number in (1..THREADS as usize).rev() {
            let (first, others) = seats.split_at_mut(1);
            assert!(radixvm_split_seat(&mut first[0], &mut others[number - 1]) == 0);
        }
    }
    seats
}

fn free_all(mut seats: Vec<Place>) {
    // SAFETY: the places are the library's own.
    seats.iter_mut().for_each(|seat| unsafe { radixvm_free_seat(seat) });
}

/// On a machine that threads share.
fn shared(threads: u64) -> f64 {
    let mut seats = new_seats();
    let at = Handed(seats.as_mut_ptr());
    // SAFETY: each core's seat is its thread's alone.
    let each = time(threads, move |core, event| call_seat(unsafe { at.at().add(core as usize) }, event));
    free_all(seats);
    each
}

/// The same in lists of LIST calls.
fn in_lists(threads: u64) -> f64 {
    let mut seats = new_seats();
    let at = Handed(seats.as_mut_ptr());
    for core in 0..threads {
        // SAFETY: as above.
        let seat = unsafe { at.at().add(core as usize) };
        call_seat(seat, &map(core));
        call_seat(seat, &load(core, 0));
    }
    let start = Instant::now();
    thread::scope(|scope| {
        for core in 0..threads {
            let at = &at;
            scope.spawn(move || {
                // SAFETY: as above.
                let seat = unsafe { at.at().add(core as usize) };
                let events: Vec<_> = (0..LIST).map(|number| load(core, number)).collect();
                let mut told = vec![Told::default(); LIST as usize];
                (0..CALLS / LIST).for_each(|_| {
                    call_list(seat, &events, &mut told);
                    assert!(told[LIST as usize - 1].kind == 8);
                });
            });
        }
    });
    let each = start.elapsed().as_secs_f64() * 1e9 / (threads * (CALLS / LIST * LIST)) as f64;
    free_all(seats);
    each
}

/// On a machine that is held, by threads that take a pthread mutex around each call.
fn behind_mutex(threads: u64) -> f64 {
    let (mut machine, mut door) = (new_machine(), Door([0; 64]));
    let (at, lock) = (Handed(&mut machine as *mut Place), Handed(&mut door as *mut Door));
    let each = time(threads, move |_, event| {
        // SAFETY: the mutex is unlocked memory of its size, and who has it has the machine.
        unsafe {
            pthread_mutex_lock(lock.at());
            let told = call_held(at.at(), event);
            pthread_mutex_unlock(lock.at());
            told
        }
    });
    // SAFETY: as above.
    unsafe { radixvm_free_held(&mut machine) };
    each
}

fn median(mut of: impl FnMut() -> f64) -> f64 {
    let mut runs: Vec<_> = (0..5).map(|_| of()).collect();
    runs.sort_by(f64::total_cmp);
    runs[2]
}

fn main() {
    let (alone, one) = (median(held), median(|| shared(1)));
    println!("a hit, one thread: held {alone:.1} ns, shared {one:.1} ns, {:.1} ns more; behind a mutex {:.1} ns", one - alone, median(|| behind_mutex(1)));
    let (four, mutex) = (median(|| shared(THREADS)), median(|| behind_mutex(THREADS)));
    println!(
        "a hit, four threads: shared {four:.1} ns, {:.1} million a second; behind a mutex {mutex:.1} ns, {:.1} million",
        1000.0 / four,
        1000.0 / mutex
    );
    let (alone, four) = (median(|| in_lists(1)), median(|| in_lists(THREADS)));
    println!("a hit in lists of {LIST}: one thread {alone:.1} ns; four threads {four:.1} ns, {:.1} million a second", 1000.0 / four);
}
