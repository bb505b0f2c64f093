//! What is answered and printed for given input bytes, by the check program
//! and where there is more room than it has.

use std::fmt;

use crate::file::{self, Certificate, Content, Entries, Header, Lent};
use crate::kind::Kind;
use crate::tables::{MAX_ACTIONS, MAX_BRANCHES, MAX_STATES, NONE};
use crate::verdict::{Refusal, Verdict};

/// The counts up to which a file can be read.
#[derive(Clone, Copy, Debug, PartialEq, Eq)]
pub struct Room {
    pub states: usize,
    pub actions: usize,
    pub branches: usize,
}

impl Room {
    /// The check program's.
    pub const CHECK: Room = Room {
        states: 500,
        actions: 1_000,
        branches: 2_000,
    };
    /// Room for all that the limits allow.
    pub const WHOLE: Room = Room {
        states: MAX_STATES,
        actions: MAX_ACTIONS,
        branches: MAX_BRANCHES,
    };

    /// The most that the room can need; longer input is refused 33.
    pub const fn most_bytes(self) -> usize {
        self.entries().file_bytes()
    }

    /// The entries of a file that fills the room.
    const fn entries(self) -> Entries {
        Entries::of_all_tables(self.states, self.actions, self.branches)
    }
}

/// What comes out for one input; displayed as the program prints it.
#[derive(Clone, Debug, PartialEq, Eq)]
pub struct Answer {
    /// The kind, if the file was read.
    pub kind: Option<u32>,
    pub verdict: Verdict,
    /// Filled after an accepted "some" claim.
    pub choices: Vec<u32>,
}

/// Reads the input as a file for which there is room, and checks it.
pub fn answer(input: &[u8], room: Room) -> Answer {
    Desk::new(room).answer(input)
}

/// Reads the input as a file for which there is room.
pub fn read(input: &[u8], room: Room) -> Result<Certificate, Refusal> {
    let mut desk = Desk::new(room);
    let header = desk.read(input)?;
    Ok(cut(desk.tables, &header))
}

/// Entries of the result that `answer_into` fills.
pub const RESULT_ENTRIES: usize = 2;

/// The bytes that a text must have for what may be printed of so many states.
pub const fn text_bytes(states: usize) -> usize {
    states.saturating_mul(32).saturating_add(64)
}

/// Reads the input as a file into lent tables of any length, checks it and
/// prints, as include/vartrymoy.h says of `vartrymoy_answer`. The result gets
/// the number, which is also returned, and how many bytes were printed at the
/// front of the text; the choice list gets the choices of an accepted "some"
/// claim at its front.
///
/// Where the choice list or the text is too short for as many states as there
/// are marks, or the result has not two entries, nothing is written to the
/// three, and 5 is the number if neither the file nor its tables are refused.
pub fn answer_into(
    input: &[u8],
    lent: &mut Lent,
    choices: &mut [u32],
    text: &mut [u8],
    result: &mut [u64],
) -> u32 {
    let read = read_within(input, Room::WHOLE, lent);
    let states = lent.marks.len();
    let fit = choices.len() >= states
        && text.len() >= text_bytes(states)
        && result.len() == RESULT_ENTRIES;
    if !fit {
        return refusal(read, lent).map_or(5, |refusal| refusal.number);
    }
    let (verdict, chosen) = match read {
        Ok(header) => checked(&header, lent, choices),
        Err(refusal) => (refusal.into(), &[][..]),
    };
    let mut printed = Vec::new();
    print(verdict, chosen, &mut printed);
    text[..printed.len()].copy_from_slice(&printed);
    result.copy_from_slice(&[u64::from(verdict.number()), printed.len() as u64]);
    verdict.number()
}

/// Reads the input as a file, unless it is longer than the room can need.
fn read_within(input: &[u8], room: Room, lent: &mut Lent) -> Result<Header, Refusal> {
    let refused = |number| Refusal { number, place: 0 };
    if input.len() > room.most_bytes() {
        return Err(refused(33));
    }
    file::read(input, lent).map_err(refused)
}

/// The refusal over a file or its tables, if there is one.
fn refusal(read: Result<Header, Refusal>, lent: &Lent) -> Option<Refusal> {
    let accepted = read.and_then(|header| content(&header, lent).refusals());
    accepted.err()
}

/// Checks the file that was read, and gives the choices too, which are at the
/// front of the list: none but those of an accepted "some" claim.
fn checked<'a>(header: &Header, lent: &Lent, choices: &'a mut [u32]) -> (Verdict, &'a [u32]) {
    let length = if kind_of(header).some {
        header.states
    } else {
        0
    };
    let choices = &mut choices[..length];
    let verdict = content(header, lent).check(choices);
    match verdict {
        Verdict::Accepted { .. } => (verdict, choices),
        _ => (verdict, &[]),
    }
}

fn content<'a>(header: &Header, lent: &'a Lent) -> Content<'a> {
    Content::of(header, kind_of(header), lent)
}

/// Tables as long as there is room for, lent for one file after the other.
pub struct Desk {
    room: Room,
    tables: Certificate,
}

impl Desk {
    pub fn new(room: Room) -> Desk {
        let entries = room.entries();
        let tables = Certificate {
            kind: 0,
            d: 0,
            c: 0,
            marks: vec![0; entries.marks],
            action_starts: vec![0; entries.action_starts],
            branch_starts: vec![0; entries.branch_starts],
            destinations: vec![0; entries.destinations],
            weights: vec![0; entries.weights],
            costs: vec![0; entries.costs],
            claims: vec![0; entries.claims],
            ranks: vec![0; entries.ranks],
        };
        Desk { room, tables }
    }

    /// Reads the input as a file and checks it.
    pub fn answer(&mut self, input: &[u8]) -> Answer {
        match self.read(input) {
            Ok(header) => self.checked(&header),
            Err(refusal) => Answer {
                kind: None,
                verdict: refusal.into(),
                choices: Vec::new(),
            },
        }
    }

    fn read(&mut self, input: &[u8]) -> Result<Header, Refusal> {
        read_within(input, self.room, &mut self.tables.lent())
    }

    fn checked(&mut self, header: &Header) -> Answer {
        let mut choices = vec![NONE; header.states];
        let (verdict, chosen) = checked(header, &self.tables.lent(), &mut choices);
        let length = chosen.len();
        choices.truncate(length);
        Answer {
            kind: Some(header.kind),
            verdict,
            choices,
        }
    }
}

/// The first entries of the tables, as many as the counts say.
fn cut(mut tables: Certificate, header: &Header) -> Certificate {
    let entries = Entries::of(header, kind_of(header));
    tables.marks.truncate(entries.marks);
    tables.action_starts.truncate(entries.action_starts);
    tables.branch_starts.truncate(entries.branch_starts);
    tables.destinations.truncate(entries.destinations);
    tables.weights.truncate(entries.weights);
    tables.costs.truncate(entries.costs);
    tables.claims.truncate(entries.claims);
    tables.ranks.truncate(entries.ranks);
    Certificate {
        kind: header.kind,
        d: header.d,
        c: header.c,
        ..tables
    }
}

fn kind_of(header: &Header) -> Kind {
    Kind::numbered(header.kind).expect("the reader refuses other kinds")
}

impl Answer {
    /// Puts what is printed at the end of a text.
    pub fn print(&self, text: &mut Vec<u8>) {
        print(self.verdict, &self.choices, text);
    }
}

fn print(verdict: Verdict, choices: &[u32], text: &mut Vec<u8>) {
    match verdict {
        Verdict::Accepted { greatest_rank } => {
            put_line(text, "accepted", &[Some(greatest_rank)]);
        }
        Verdict::Refused { number, place } => {
            put_line(text, "refused", &[Some(number), Some(place)]);
        }
        Verdict::Violated {
            number,
            state,
            action,
        } => put_line(text, "violated", &[Some(number), Some(state), action]),
    }
    text.reserve(choices.len() * LONGEST_CHOICE_LINE);
    for (state, &choice) in choices.iter().enumerate() {
        put_number(text, state as u32);
        text.push(b' ');
        put_or_dash(text, (choice != NONE).then_some(choice));
        text.push(b'\n');
    }
}

impl fmt::Display for Answer {
    fn fmt(&self, out: &mut fmt::Formatter) -> fmt::Result {
        let mut text = Vec::new();
        self.print(&mut text);
        out.write_str(std::str::from_utf8(&text).expect("letters, digits and signs"))
    }
}

/// The digits of the greatest number.
const MOST_DIGITS: usize = 10;
const LONGEST_CHOICE_LINE: usize = MOST_DIGITS + 1 + MOST_DIGITS + 1;

fn put_line(text: &mut Vec<u8>, word: &str, numbers: &[Option<u32>]) {
    text.extend_from_slice(word.as_bytes());
    for &number in numbers {
        text.push(b' ');
        put_or_dash(text, number);
    }
    text.push(b'\n');
}

/// Puts a number, or `-` for none.
fn put_or_dash(text: &mut Vec<u8>, number: Option<u32>) {
    match number {
        Some(number) => put_number(text, number),
        None => text.push(b'-'),
    }
}

/// By hand, as the formatting of the standard library takes about twice as
/// long over a whole choice list.
fn put_number(text: &mut Vec<u8>, number: u32) {
    let mut digits = [b'0'; MOST_DIGITS];
    let mut first = MOST_DIGITS;
    let mut rest = number;
    loop {
        first -= 1;
        digits[first] += (rest % 10) as u8;
        rest /= 10;
        if rest == 0 {
            break;
        }
    }
    text.extend_from_slice(&digits[first..]);
}
