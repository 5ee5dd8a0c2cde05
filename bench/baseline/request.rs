//! What the lines of a trace ask for.

#[derive(Clone, Copy, PartialEq, Eq)]
pub struct Prot {
    pub read: bool,
    pub write: bool,
    pub exec: bool,
}

#[derive(Clone, Copy)]
pub enum Access {
    Load,
    Store(u8),
    Fetch,
}

#[derive(Clone, Copy, Default)]
pub struct Flags {
    pub private: bool,
    pub shared: bool,
    pub fixed: bool,
    pub anon: bool,
}

#[derive(Clone, Copy)]
pub enum Request {
    Mmap {
        addr: u64,
        len: u64,
        prot: Prot,
        flags: Flags,
        file: u64,
        off: u64,
    },
    Munmap {
        addr: u64,
        len: u64,
    },
    Mprotect {
        addr: u64,
        len: u64,
        prot: Prot,
    },
    Access {
        addr: u64,
        access: Access,
    },
}

pub enum Action {
    Now(Request),
    Call(Request),
    Go,
    Finish,
    Take,
    Flush,
    Review,
    Walk { addr: u64 },
    Evict { addr: u64 },
}

pub enum Line {
    Blank,
    Space {
        cores: u64,
        frames: u64,
        calls: u64,
    },
    File {
        can_read: bool,
        can_write: bool,
        len: u64,
        seed: u8,
    },
    Core {
        core: usize,
        action: Action,
    },
}

pub fn number(word: &[u8]) -> Option<u64> {
    let (digits, radix) = match word {
        [b'0', b'x', digits @ ..] => (digits, 16),
        _ => (word, 10),
    };
    if digits.is_empty() {
        return None;
    }
    let mut value = 0u64;
    for digit in digits {
        let digit = (*digit as char).to_digit(radix)?;
        value = value
            .checked_mul(u64::from(radix))?
            .checked_add(u64::from(digit))?;
    }
    Some(value)
}

fn right(given: u8, letter: u8) -> Option<bool> {
    match given {
        b'-' => Some(false),
        _ if given == letter => Some(true),
        _ => None,
    }
}

fn prot(word: &[u8]) -> Option<Prot> {
    let [r, w, x] = word else { return None };
    Some(Prot {
        read: right(*r, b'r')?,
        write: right(*w, b'w')?,
        exec: right(*x, b'x')?,
    })
}

fn flags(word: &[u8]) -> Option<Flags> {
    let mut flags = Flags::default();
    if word == b"-" {
        return Some(flags);
    }
    for letter in word {
        let flag = match letter {
            b'p' => &mut flags.private,
            b's' => &mut flags.shared,
            b'f' => &mut flags.fixed,
            b'a' => &mut flags.anon,
            _ => return None,
        };
        if std::mem::replace(flag, true) {
            return None;
        }
    }
    Some(flags)
}

fn request<'a>(name: &[u8], words: &mut impl Iterator<Item = &'a [u8]>) -> Option<Request> {
    let addr = number(words.next()?)?;
    let access = |access| Request::Access { addr, access };
    Some(match name {
        b"load" => access(Access::Load),
        b"store" => access(Access::Store(u8::try_from(number(words.next()?)?).ok()?)),
        b"fetch" => access(Access::Fetch),
        b"mmap" => {
            let len = number(words.next()?)?;
            let (prot, flags) = (prot(words.next()?)?, flags(words.next()?)?);
            let (file, off) = match words.next() {
                None if flags.anon => (0, 0),
                file => (number(file?)?, number(words.next()?)?),
            };
            Request::Mmap {
                addr,
                len,
                prot,
                flags,
                file,
                off,
            }
        }
        b"munmap" => Request::Munmap {
            addr,
            len: number(words.next()?)?,
        },
        b"mprotect" => {
            let len = number(words.next()?)?;
            Request::Mprotect {
                addr,
                len,
                prot: prot(words.next()?)?,
            }
        }
        _ => return None,
    })
}

fn action<'a>(words: &mut impl Iterator<Item = &'a [u8]>) -> Option<Action> {
    Some(match words.next()? {
        b"take" => Action::Take,
        b"go" => Action::Go,
        b"finish" => Action::Finish,
        b"flush" => Action::Flush,
        b"review" => Action::Review,
        b"walk" => Action::Walk {
            addr: number(words.next()?)?,
        },
        b"evict" => Action::Evict {
            addr: number(words.next()?)?,
        },
        b"call" => Action::Call(request(words.next()?, words)?),
        _ => return None,
    })
}

/// A core's number and what it does, of a line that begins with it.
pub fn core_action<'a>(
    first: &[u8],
    words: &mut impl Iterator<Item = &'a [u8]>,
) -> Option<(usize, Action)> {
    Some(match first {
        [b'c', core @ .., b'!'] => (
            number(core)? as usize,
            Action::Now(request(words.next()?, words)?),
        ),
        [b'c', core @ ..] => (number(core)? as usize, action(words)?),
        _ => return None,
    })
}

fn file<'a>(words: &mut impl Iterator<Item = &'a [u8]>) -> Option<Line> {
    number(words.next()?)?;
    let (can_read, can_write) = match words.next()? {
        b"r" => (true, false),
        b"w" => (false, true),
        b"rw" => (true, true),
        _ => return None,
    };
    Some(Line::File {
        can_read,
        can_write,
        len: number(words.next()?)?,
        seed: u8::try_from(number(words.next()?)?).ok()?,
    })
}

/// What the line says; none where it is bad.
pub fn read_line(line: &[u8]) -> Option<Line> {
    if line.first() == Some(&b'#') {
        return Some(Line::Blank);
    }
    let mut words = line
        .split(|byte| *byte == b' ')
        .filter(|word| !word.is_empty());
    let line = match words.next() {
        None => return Some(Line::Blank),
        Some(b"vm") => Line::Space {
            cores: number(words.next()?)?,
            frames: number(words.next()?)?,
            calls: words.next().map_or(Some(4096), number)?,
        },
        Some(b"file") => file(&mut words)?,
        Some(first) => {
            let (core, action) = core_action(first, &mut words)?;
            Line::Core { core, action }
        }
    };
    words.next().is_none().then_some(line)
}
