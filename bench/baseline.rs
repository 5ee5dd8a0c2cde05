//! The plain Rust program that the traces are measured against: the same texts in and out, for lines of whole calls (`cC!`,
//! `call`, `finish`; mappings with MAP_FIXED), takes, walks, evictions, flushes and reviews. Each core has page tables and a
//! TLB; the slots of pages stand in a radix tree. It keeps no log. With the word `maps` it writes the list of mappings in place
//! of the replies. With the word `certify` it reads notes of steps, of such lines and `go`, and says whether a new machine comes
//! to the same outcomes; with the word `rewrite` it reads them and writes them in order of their tickets.
//! Standard library alone. Build: `rustc --edition 2021 -C opt-level=3 bench/baseline.rs`.
mod baseline {
    pub mod counts;
    pub mod cpu;
    pub mod files;
    pub mod frames;
    pub mod machine;
    pub mod maps;
    pub mod notes;
    pub mod request;
    pub mod slots;
    pub mod writing;
}

use baseline::files::File;
use baseline::machine::{Machine, Outcome};
use baseline::maps::{Backing, Mapping};
use baseline::notes::{certify, read_note, Note, Verdict};
use baseline::request::{read_line, Line};
use baseline::writing::write_notes;
use std::io::{self, BufRead, BufReader, BufWriter, Write};
use std::process::ExitCode;

fn write_byte(out: &mut impl Write, byte: u8) -> io::Result<()> {
    let digits = [
        byte / 100 + b'0',
        byte / 10 % 10 + b'0',
        byte % 10 + b'0',
        b'\n',
    ];
    let from = if byte >= 100 {
        0
    } else if byte >= 10 {
        1
    } else {
        2
    };
    out.write_all(&digits[from..])
}

fn write_outcome(out: &mut impl Write, outcome: Outcome) -> io::Result<()> {
    match outcome {
        Outcome::Step => out.write_all(b"step\n"),
        Outcome::Idle => out.write_all(b"idle\n"),
        Outcome::Full => out.write_all(b"full\n"),
        Outcome::Done => out.write_all(b"done\n"),
        Outcome::Byte(byte) => write_byte(out, byte),
        Outcome::Mapped(addr) => writeln!(out, "{addr:#x}"),
        Outcome::Refused(text) => writeln!(out, "{text}"),
        Outcome::WaitSlot(owner) => writeln!(out, "wait slot {owner}"),
        Outcome::WaitAcks(awaited) => {
            out.write_all(b"wait acks")?;
            for core in (0..64).filter(|core| awaited >> core & 1 == 1) {
                write!(out, " {core}")?;
            }
            out.write_all(b"\n")
        }
    }
}

fn write_mapping(out: &mut impl Write, mapping: &Mapping) -> io::Result<()> {
    let letter = |has_right, letter| if has_right { letter } else { '-' };
    let prot = mapping.prot;
    write!(
        out,
        "{:#x}-{:#x} {}{}{}",
        mapping.start,
        mapping.end,
        letter(prot.read, 'r'),
        letter(prot.write, 'w'),
        letter(prot.exec, 'x'),
    )?;
    match mapping.backing {
        Backing::Anon => writeln!(out, " anon"),
        Backing::Shared { file, offset } => writeln!(out, " shared {file} {offset:#x}"),
        Backing::Private { file, offset } => writeln!(out, " private {file} {offset:#x}"),
    }
}

/// Makes the machine, opens a file, or acts, and tells what an action came to. `Err` where the line stands at a wrong place.
fn obey(machine: &mut Option<Machine>, line: Line) -> Result<Option<Outcome>, ()> {
    match (line, machine) {
        (Line::Blank, _) => {}
        (
            Line::Space {
                cores: cores @ 1..=64,
                frames: frames @ 0..=65_536,
                calls,
            },
            machine @ None,
        ) => *machine = Some(Machine::new(cores as usize, frames as usize, calls)),
        (
            Line::File {
                can_read,
                can_write,
                len: len @ 0..=1_048_576,
                seed,
            },
            Some(machine),
        ) => machine.open(File::new(can_read, can_write, len as usize, seed)),
        (Line::Core { core, action }, Some(machine)) => {
            return Ok(Some(machine.act(core, action)));
        }
        _ => return Err(()),
    }
    Ok(None)
}

/// Reads a text line by line, and ends with the number of the first line that is bad.
fn each_line(mut take: impl FnMut(&[u8]) -> io::Result<bool>) -> io::Result<Option<u64>> {
    let mut input = BufReader::with_capacity(1 << 16, io::stdin().lock());
    let mut line = Vec::new();
    let mut count = 0u64;
    while input.read_until(b'\n', &mut line)? > 0 {
        count += 1;
        if !take(line.trim_ascii_end())? {
            return Ok(Some(count));
        }
        line.clear();
    }
    Ok(None)
}

fn bad_line(count: u64) -> ExitCode {
    eprintln!("line {count}: bad line");
    ExitCode::from(2)
}

/// Replays the trace of standard input, and writes its replies, or the mappings at its end.
fn replay(shows_maps: bool) -> io::Result<ExitCode> {
    let mut out = BufWriter::with_capacity(1 << 16, io::stdout().lock());
    let mut machine = None;
    let bad = each_line(|line| {
        let obeyed = read_line(line)
            .ok_or(())
            .and_then(|line| obey(&mut machine, line));
        match obeyed {
            Ok(Some(outcome)) if !shows_maps => write_outcome(&mut out, outcome)?,
            Ok(_) => {}
            Err(()) => return Ok(false),
        }
        Ok(true)
    })?;
    if let Some(count) = bad {
        out.flush()?;
        return Ok(bad_line(count));
    }
    if let (true, Some(machine)) = (shows_maps, &machine) {
        for mapping in machine.maps() {
            write_mapping(&mut out, &mapping)?;
        }
    }
    out.flush()?;
    Ok(ExitCode::SUCCESS)
}

/// Reads the notes of standard input, and says whether a new machine comes to the same outcomes.
fn certify_notes() -> io::Result<ExitCode> {
    let mut machine = None;
    let mut notes: Vec<Note> = Vec::new();
    let bad = each_line(|line| {
        if line.first().is_some_and(u8::is_ascii_digit) {
            let Some(note) = read_note(line) else {
                return Ok(false);
            };
            notes.push(note);
            return Ok(true);
        }
        Ok(read_line(line)
            .ok_or(())
            .and_then(|line| obey(&mut machine, line))
            .is_ok())
    })?;
    if let Some(count) = bad {
        return Ok(bad_line(count));
    }
    let Some(mut machine) = machine else {
        eprintln!("no vm line first");
        return Ok(ExitCode::from(2));
    };
    match certify(&mut machine, notes) {
        Verdict::Certified(calls) => println!("certified {calls}"),
        Verdict::Misnumbered(ticket) => {
            println!("refused C1 {ticket}");
            return Ok(ExitCode::from(1));
        }
        Verdict::Differs {
            ticket,
            noted,
            expected,
        } => {
            println!("refused C2 {ticket}: noted {noted:?}, expected {expected:?}");
            return Ok(ExitCode::from(1));
        }
    }
    Ok(ExitCode::SUCCESS)
}

/// Reads the notes of standard input, of a space without files, and writes them in order of their tickets.
fn rewrite_notes() -> io::Result<ExitCode> {
    let mut space = None;
    let mut notes: Vec<Note> = Vec::new();
    let bad = each_line(|line| {
        if line.first().is_some_and(u8::is_ascii_digit) {
            let Some(note) = read_note(line) else {
                return Ok(false);
            };
            notes.push(note);
            return Ok(true);
        }
        match (read_line(line), space) {
            (
                Some(Line::Space {
                    cores,
                    frames,
                    calls,
                }),
                None,
            ) => space = Some((cores, frames, calls)),
            (Some(Line::Blank), _) => {}
            _ => return Ok(false),
        }
        Ok(true)
    })?;
    if let Some(count) = bad {
        return Ok(bad_line(count));
    }
    let Some(space) = space else {
        eprintln!("no vm line first");
        return Ok(ExitCode::from(2));
    };
    let mut out = BufWriter::with_capacity(1 << 16, io::stdout().lock());
    write_notes(&mut out, space, notes)?;
    out.flush()?;
    Ok(ExitCode::SUCCESS)
}

fn main() -> io::Result<ExitCode> {
    match std::env::args().nth(1).as_deref() {
        Some("certify") => certify_notes(),
        Some("rewrite") => rewrite_notes(),
        word => replay(word == Some("maps")),
    }
}
