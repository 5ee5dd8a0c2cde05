//! Notes of steps, each with what it came to: read, sorted by ticket, and given to a new machine.
use crate::baseline::machine::{Machine, Outcome};
use crate::baseline::request::{core_action, number, Action};

/// A step that a core made, its place in the order of all steps, and what it came to.
pub struct Note {
    pub ticket: u64,
    pub core: usize,
    pub action: Action,
    pub outcome: Outcome,
}

/// What becomes of notes.
pub enum Verdict {
    /// They are a run of the machine, in which so many calls were answered.
    Certified(u64),
    /// The least ticket that doesn't stand once.
    Misnumbered(u64),
    /// The step of this ticket comes to another outcome than was noted, and to which.
    Differs {
        ticket: u64,
        noted: Outcome,
        expected: Outcome,
    },
}

/// The replies that are words alone.
const REFUSALS: &[&str] = &[
    "segv maperr",
    "segv accerr",
    "bus",
    "einval",
    "enomem",
    "ebadf",
    "eoverflow",
    "eacces",
    "noframe",
    "nomemory",
];

fn outcome(text: &[u8]) -> Option<Outcome> {
    Some(match text {
        b"step" => Outcome::Step,
        b"done" => Outcome::Done,
        b"idle" => Outcome::Idle,
        b"full" => Outcome::Full,
        [b'0', b'x', ..] => Outcome::Mapped(number(text)?),
        [b'0'..=b'9', ..] => Outcome::Byte(u8::try_from(number(text)?).ok()?),
        [b'w', b'a', b'i', b't', b' ', b's', b'l', b'o', b't', b' ', core @ ..] => {
            Outcome::WaitSlot(u8::try_from(number(core)?).ok()?)
        }
        [b'w', b'a', b'i', b't', b' ', b'a', b'c', b'k', b's', b' ', cores @ ..] => {
            let mut awaited = 0;
            for core in cores.split(|byte| *byte == b' ') {
                awaited |= 1u64.checked_shl(u32::try_from(number(core)?).ok()?)?;
            }
            Outcome::WaitAcks(awaited)
        }
        _ => Outcome::Refused(REFUSALS.iter().find(|name| name.as_bytes() == text)?),
    })
}

/// The note that a line says; none where it is bad.
pub fn read_note(line: &[u8]) -> Option<Note> {
    let at = line.windows(3).position(|three| three == b" = ")?;
    let outcome = outcome(&line[at + 3..])?;
    let mut words = line[..at]
        .split(|byte| *byte == b' ')
        .filter(|word| !word.is_empty());
    let ticket = number(words.next()?)?;
    let (core, action) = core_action(words.next()?, &mut words)?;
    words.next().is_none().then_some(Note {
        ticket,
        core,
        action,
        outcome,
    })
}

fn is_reply(outcome: Outcome) -> bool {
    matches!(
        outcome,
        Outcome::Mapped(_) | Outcome::Done | Outcome::Byte(_) | Outcome::Refused(_)
    )
}

/// Gives the notes' steps to a new machine, in order of tickets. It takes a step of a call that was noted as such at its word, and
/// does the call at its answer or its wait.
pub fn certify(machine: &mut Machine, mut notes: Vec<Note>) -> Verdict {
    notes.sort_unstable_by_key(|note| note.ticket);
    if let Some((place, _)) = (0..)
        .zip(&notes)
        .find(|(place, note)| note.ticket != *place)
    {
        // A ticket that stands twice is the one before the place, unless it is missing.
        let is_double = place > 0 && notes[place as usize].ticket == place - 1;
        return Verdict::Misnumbered(if is_double { place - 1 } else { place });
    }
    let mut replies = 0;
    for note in notes {
        let Note {
            ticket,
            core,
            action,
            outcome: noted,
        } = note;
        let steps_on = matches!((&action, noted), (Action::Go, Outcome::Step));
        let expected = if steps_on && machine.has_call(core) {
            Outcome::Step
        } else {
            machine.act(core, action)
        };
        if noted != expected {
            return Verdict::Differs {
                ticket,
                noted,
                expected,
            };
        }
        replies += u64::from(is_reply(expected));
    }
    Verdict::Certified(replies)
}
