//! A page-table walker of one's own beside a machine that is kept: each call is made by both before the next one is chosen, as a
//! simulator does; after it the replies are compared, and what the machine's page tables say of the page with what the walker has
//! there; now and then the list of all mappings is. `cargo run --example beside [SEED]` ends with status 1 at a difference.
use own::{answer, new_table, walk, Entry, Random, BASE, CALLS, PAGE, PAGES};
use radixvm::{Line, Machine, Outcome, Request, Setup};
use std::error::Error;
use std::process::ExitCode;

mod own;

// Intel SDM volume 3A, the entry of a 4 KiB page.
const PRESENT: u64 = 1;
const WRITABLE: u64 = 2;
const NO_EXECUTE: u64 = 1 << 63;

fn address_of(request: &Request) -> u64 {
    match *request {
        Request::Mmap { addr, .. } | Request::Munmap { addr, .. } | Request::Mprotect { addr, .. } => addr,
        Request::Load { addr } | Request::Store { addr, .. } | Request::Fetch { addr } => addr,
    }
}

/// An entry of the machine is of a page that the walker has, and allows nothing that it doesn't.
fn agrees(word: u64, own: &Entry) -> bool {
    match own {
        _ if word & PRESENT == 0 => true,
        Entry::Page(page) => {
            page.bytes.is_some() && (word & WRITABLE == 0 || page.prot.write) && (word & NO_EXECUTE != 0 || page.prot.exec)
        }
        _ => false,
    }
}

/// The lines have the walker's pages, with their rights, and no other.
fn lists(lines: &[Line], root: &mut Vec<Entry>) -> bool {
    let first = BASE / PAGE;
    let inside = lines.iter().all(|line| line.pages.start >= first && line.pages.end <= first + PAGES);
    inside
        && (first..first + PAGES).all(|number| {
            let listed = lines.iter().find(|line| line.pages.contains(&number)).map(|line| line.prot);
            let own = match walk(root, number * PAGE) {
                Entry::Page(page) => Some(page.prot),
                _ => None,
            };
            listed == own
        })
}

fn main() -> Result<ExitCode, Box<dyn Error>> {
    let seed = std::env::args().nth(1).map_or(Ok(1), |word| word.parse())?;
    let mut random = Random(seed);
    let mut root = new_table();
    let mut machine = Machine::new(&Setup::new(1, CALLS as u64, CALLS as u64))?;
    for number in 0..CALLS {
        let request = random.call();
        let (own, outcome) = (answer(&mut root, request), machine.call(0, request)?);
        let at = address_of(&request);
        let word = machine.entry(0, at / PAGE)?;
        if outcome != Outcome::Replied(own)
            || !agrees(word, walk(&mut root, at))
            || (number % 64 == 0 && !lists(&machine.maps()?, &mut root))
        {
            println!("call {number}, {request:x?}: the walker says {own:x?}, the library {outcome:x?}, its entry {word:#x}");
            return Ok(ExitCode::FAILURE);
        }
    }
    println!("{CALLS} calls, the same replies, entries and mappings");
    Ok(ExitCode::SUCCESS)
}
