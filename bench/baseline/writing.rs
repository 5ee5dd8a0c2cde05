//! Notes as text: numbers of events and outcomes as a trace has them, addresses, lengths and offsets in hexadecimal digits.
use crate::baseline::machine::Outcome;
use crate::baseline::notes::Note;
use crate::baseline::request::{Access, Action, Flags, Prot, Request};
use std::io::{self, Write};

/// A line that is made.
pub struct Text {
    bytes: Vec<u8>,
}

impl Text {
    pub fn new() -> Text {
        Text {
            bytes: Vec::with_capacity(256),
        }
    }

    fn push(&mut self, text: &[u8]) {
        self.bytes.extend_from_slice(text);
    }

    fn number(&mut self, number: u64) {
        let mut digits = [0; 20];
        let mut from = digits.len();
        let mut left = number;
        loop {
            from -= 1;
            digits[from] = b'0' + (left % 10) as u8;
            left /= 10;
            if left == 0 {
                break;
            }
        }
        self.push(&digits[from..]);
    }

    fn address(&mut self, address: u64) {
        let mut digits = [0; 16];
        let mut from = digits.len();
        let mut left = address;
        loop {
            from -= 1;
            digits[from] = b"0123456789abcdef"[(left % 16) as usize];
            left /= 16;
            if left == 0 {
                break;
            }
        }
        self.push(b"0x");
        self.push(&digits[from..]);
    }

    fn count(&mut self, number: u64) {
        self.push(b" ");
        self.number(number);
    }

    fn place(&mut self, address: u64) {
        self.push(b" ");
        self.address(address);
    }

    fn prot(&mut self, prot: Prot) {
        let letter = |has_right, letter| if has_right { letter } else { b'-' };
        self.push(&[
            b' ',
            letter(prot.read, b'r'),
            letter(prot.write, b'w'),
            letter(prot.exec, b'x'),
        ]);
    }

    fn flags(&mut self, flags: Flags) {
        self.push(b" ");
        let before = self.bytes.len();
        for (is_set, letter) in [
            (flags.private, b'p'),
            (flags.shared, b's'),
            (flags.fixed, b'f'),
            (flags.anon, b'a'),
        ] {
            if is_set {
                self.bytes.push(letter);
            }
        }
        if self.bytes.len() == before {
            self.bytes.push(b'-');
        }
    }

    fn access(&mut self, addr: u64, access: Access) {
        self.push(match access {
            Access::Load => b" load",
            Access::Store(_) => b" store",
            Access::Fetch => b" fetch",
        });
        self.place(addr);
        if let Access::Store(byte) = access {
            self.count(u64::from(byte));
        }
    }

    fn request(&mut self, request: Request) {
        match request {
            Request::Mmap {
                addr,
                len,
                prot,
                flags,
                file,
                off,
            } => {
                self.push(b" mmap");
                self.place(addr);
                self.place(len);
                self.prot(prot);
                self.flags(flags);
                self.count(file);
                self.place(off);
            }
            Request::Munmap { addr, len } => {
                self.push(b" munmap");
                self.place(addr);
                self.place(len);
            }
            Request::Mprotect { addr, len, prot } => {
                self.push(b" mprotect");
                self.place(addr);
                self.place(len);
                self.prot(prot);
            }
            Request::Access { addr, access } => self.access(addr, access),
        }
    }

    fn action(&mut self, action: &Action) {
        match action {
            Action::Call(request) => {
                self.push(b" call");
                self.request(*request);
            }
            Action::Go => self.push(b" go"),
            Action::Take => self.push(b" take"),
            Action::Flush => self.push(b" flush"),
            Action::Review => self.push(b" review"),
            Action::Walk { addr } => {
                self.push(b" walk");
                self.place(addr & !4095);
            }
            Action::Evict { addr } => {
                self.push(b" evict");
                self.place(addr & !4095);
            }
            Action::Now(_) | Action::Finish => unreachable!("no note is of a whole call"),
        }
    }

    fn outcome(&mut self, outcome: Outcome) {
        match outcome {
            Outcome::Step => self.push(b"step"),
            Outcome::Idle => self.push(b"idle"),
            Outcome::Full => self.push(b"full"),
            Outcome::Done => self.push(b"done"),
            Outcome::Byte(byte) => self.number(u64::from(byte)),
            Outcome::Mapped(addr) => self.address(addr),
            Outcome::Refused(text) => self.push(text.as_bytes()),
            Outcome::WaitSlot(owner) => {
                self.push(b"wait slot");
                self.count(u64::from(owner));
            }
            Outcome::WaitAcks(awaited) => {
                self.push(b"wait acks");
                for core in (0..64).filter(|core| awaited >> core & 1 == 1) {
                    self.count(core);
                }
            }
        }
    }
}

/// Writes the line of a note.
fn write_note(out: &mut impl Write, text: &mut Text, note: &Note) -> io::Result<()> {
    text.bytes.clear();
    text.number(note.ticket);
    text.push(b" c");
    text.number(note.core as u64);
    text.action(&note.action);
    text.push(b" = ");
    text.outcome(note.outcome);
    text.push(b"\n");
    out.write_all(&text.bytes)
}

/// Writes the vm line and the notes, in order of their tickets.
pub fn write_notes(
    out: &mut impl Write,
    (cores, frames, calls): (u64, u64, u64),
    mut notes: Vec<Note>,
) -> io::Result<()> {
    notes.sort_by_key(|note| note.ticket);
    writeln!(out, "vm {cores} {frames} {calls}")?;
    let mut text = Text::new();
    for note in &notes {
        write_note(out, &mut text, note)?;
    }
    Ok(())
}
