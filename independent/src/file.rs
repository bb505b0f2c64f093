//! The certificate file: reading it into lent tables, and writing one.

use crate::check::check;
use crate::kind::Kind;
use crate::tables::{refusals, Claim, Rows, MAX_ACTIONS, MAX_BRANCHES, MAX_STATES};
use crate::verdict::{Refusal, Verdict};

/// Bytes before the tables: length field, version, kind, scales and counts.
pub const HEADER_BYTES: usize = 26;
const LENGTH_FIELD_BYTES: usize = 4;
const VERSION: u8 = 1;

/// The tables that a file is read into. Those a kind lacks may be empty.
pub struct Lent<'a> {
    pub marks: &'a mut [u8],
    pub action_starts: &'a mut [u32],
    pub branch_starts: &'a mut [u32],
    pub destinations: &'a mut [u32],
    pub weights: &'a mut [u32],
    pub costs: &'a mut [u32],
    pub claims: &'a mut [u64],
    pub ranks: &'a mut [u32],
}

/// Kind, scales and counts of a file that was read.
#[derive(Clone, Copy, Debug, PartialEq, Eq)]
pub struct Header {
    pub kind: u32,
    pub d: u32,
    pub c: u32,
    pub states: usize,
    pub actions: usize,
    pub branches: usize,
}

/// Entries that a file holds of each table, 0 where the kind lacks it.
pub struct Entries {
    pub marks: usize,
    pub action_starts: usize,
    pub branch_starts: usize,
    pub destinations: usize,
    pub weights: usize,
    pub costs: usize,
    pub claims: usize,
    pub ranks: usize,
}

/// A file's content as owned tables.
#[derive(Clone, Debug, PartialEq, Eq)]
pub struct Certificate {
    pub kind: u32,
    pub d: u32,
    pub c: u32,
    pub marks: Vec<u8>,
    pub action_starts: Vec<u32>,
    pub branch_starts: Vec<u32>,
    pub destinations: Vec<u32>,
    pub weights: Vec<u32>,
    pub costs: Vec<u32>,
    pub claims: Vec<u64>,
    pub ranks: Vec<u32>,
}

impl Certificate {
    /// Its tables, to read into.
    pub fn lent(&mut self) -> Lent<'_> {
        Lent {
            marks: &mut self.marks,
            action_starts: &mut self.action_starts,
            branch_starts: &mut self.branch_starts,
            destinations: &mut self.destinations,
            weights: &mut self.weights,
            costs: &mut self.costs,
            claims: &mut self.claims,
            ranks: &mut self.ranks,
        }
    }
}

/// Reads a file. A refusal gives its number (its place is 0) and writes
/// nothing; success overwrites the first entries of each table present.
pub fn read(bytes: &[u8], lent: &mut Lent) -> Result<Header, u32> {
    if bytes.len() < HEADER_BYTES || !length_field_holds(bytes) {
        return Err(31);
    }
    let mut reader = Reader {
        bytes,
        place: LENGTH_FIELD_BYTES,
    };
    if reader.byte() != VERSION {
        return Err(32);
    }
    let number = u32::from(reader.byte());
    let kind = Kind::numbered(number).ok_or(1u32)?;
    let [d, c, n, m, b] = std::array::from_fn(|_| reader.word());
    let header = counted(number, [d, c], [n, m, b]).ok_or(33u32)?;
    let entries = Entries::of(&header, kind);
    if !entries.fit(lent) {
        return Err(33);
    }
    if entries.file_bytes() != bytes.len() {
        return Err(34);
    }
    reader.tables(&entries, lent);
    Ok(header)
}

fn length_field_holds(bytes: &[u8]) -> bool {
    let mut reader = Reader { bytes, place: 0 };
    u64::from(reader.word()) == (bytes.len() - LENGTH_FIELD_BYTES) as u64
}

/// The header, if its counts are within the limits.
fn counted(kind: u32, [d, c]: [u32; 2], counts: [u32; 3]) -> Option<Header> {
    let [states, actions, branches] = counts.map(|count| count as usize);
    let within = states <= MAX_STATES && actions <= MAX_ACTIONS && branches <= MAX_BRANCHES;
    within.then_some(Header {
        kind,
        d,
        c,
        states,
        actions,
        branches,
    })
}

impl Entries {
    pub fn of(header: &Header, kind: Kind) -> Entries {
        let all = Entries::of_all_tables(header.states, header.actions, header.branches);
        Entries {
            costs: if kind.cost { all.costs } else { 0 },
            ranks: if kind.at_least { all.ranks } else { 0 },
            ..all
        }
    }

    /// Of a file whose kind has all tables.
    pub const fn of_all_tables(states: usize, actions: usize, branches: usize) -> Entries {
        Entries {
            marks: states,
            action_starts: states + 1,
            branch_starts: actions + 1,
            destinations: branches,
            weights: branches,
            costs: states,
            claims: states,
            ranks: states,
        }
    }

    fn fit(&self, lent: &Lent) -> bool {
        self.marks <= lent.marks.len()
            && self.action_starts <= lent.action_starts.len()
            && self.branch_starts <= lent.branch_starts.len()
            && self.destinations <= lent.destinations.len()
            && self.weights <= lent.weights.len()
            && self.costs <= lent.costs.len()
            && self.claims <= lent.claims.len()
            && self.ranks <= lent.ranks.len()
    }

    /// The length of the file.
    pub const fn file_bytes(&self) -> usize {
        let words = self.action_starts
            + self.branch_starts
            + self.destinations
            + self.weights
            + self.costs
            + self.ranks;
        HEADER_BYTES + self.marks + 4 * words + 8 * self.claims
    }
}

/// The bytes of a file and the place reached in them.
struct Reader<'a> {
    bytes: &'a [u8],
    place: usize,
}

impl<'a> Reader<'a> {
    fn stretch(&mut self, count: usize) -> &'a [u8] {
        let end = self.place + count;
        let stretch = &self.bytes[self.place..end];
        self.place = end;
        stretch
    }

    fn byte(&mut self) -> u8 {
        self.stretch(1)[0]
    }

    fn word(&mut self) -> u32 {
        let mut word = [0];
        self.words(&mut word);
        word[0]
    }

    fn words(&mut self, into: &mut [u32]) {
        let stretch = self.stretch(4 * into.len());
        for (word, bytes) in into.iter_mut().zip(stretch.chunks_exact(4)) {
            *word = u32::from_be_bytes(bytes.try_into().expect("four bytes"));
        }
    }

    fn longs(&mut self, into: &mut [u64]) {
        let stretch = self.stretch(8 * into.len());
        for (long, bytes) in into.iter_mut().zip(stretch.chunks_exact(8)) {
            *long = u64::from_be_bytes(bytes.try_into().expect("eight bytes"));
        }
    }

    fn tables(&mut self, entries: &Entries, lent: &mut Lent) {
        lent.marks[..entries.marks].copy_from_slice(self.stretch(entries.marks));
        self.words(&mut lent.action_starts[..entries.action_starts]);
        self.words(&mut lent.branch_starts[..entries.branch_starts]);
        self.words(&mut lent.destinations[..entries.destinations]);
        self.words(&mut lent.weights[..entries.weights]);
        self.words(&mut lent.costs[..entries.costs]);
        self.longs(&mut lent.claims[..entries.claims]);
        self.words(&mut lent.ranks[..entries.ranks]);
    }
}

/// Writes the tables as a file at the front of the buffer and gives its
/// length; the rest of the buffer stays. Refused are tables that the checker
/// refuses, the choice list aside, and then a buffer shorter than the file.
/// A refusal writes nothing.
#[allow(clippy::too_many_arguments)]
pub fn write_into(
    kind: u32,
    d: u32,
    c: u32,
    marks: &[u8],
    action_starts: &[u32],
    branch_starts: &[u32],
    destinations: &[u32],
    weights: &[u32],
    costs: &[u32],
    claims: &[u64],
    ranks: &[u32],
    buffer: &mut [u8],
) -> Result<usize, Refusal> {
    let content = Content {
        kind,
        rows: Rows {
            d,
            marks,
            action_starts,
            branch_starts,
            destinations,
            weights,
        },
        claim: Claim {
            c,
            costs,
            claims,
            ranks,
        },
    };
    content.refusals()?;
    let length = content.file_bytes();
    let file = buffer.get_mut(..length).ok_or(Refusal {
        number: 35,
        place: 0,
    })?;
    content.put(file);
    Ok(length)
}

/// Makes a file out of tables. The counts are those of tables 1, 3 and 4; no
/// entry is judged.
pub fn write(certificate: &Certificate) -> Vec<u8> {
    let content = Content {
        kind: certificate.kind,
        rows: Rows {
            d: certificate.d,
            marks: &certificate.marks,
            action_starts: &certificate.action_starts,
            branch_starts: &certificate.branch_starts,
            destinations: &certificate.destinations,
            weights: &certificate.weights,
        },
        claim: Claim {
            c: certificate.c,
            costs: &certificate.costs,
            claims: &certificate.claims,
            ranks: &certificate.ranks,
        },
    };
    let mut file = vec![0; content.file_bytes()];
    content.put(&mut file);
    file
}

/// Makes the length field of a file of four bytes or more right.
pub fn set_length_field(file: &mut [u8]) {
    let length = (file.len() - LENGTH_FIELD_BYTES) as u32;
    file[..LENGTH_FIELD_BYTES].copy_from_slice(&length.to_be_bytes());
}

/// What a file is made of.
pub(crate) struct Content<'a> {
    kind: u32,
    rows: Rows<'a>,
    claim: Claim<'a>,
}

impl<'a> Content<'a> {
    /// Of a file that was read. Beyond its counts the tables hold what was
    /// there before, so they are taken up to the counts.
    pub fn of(header: &Header, kind: Kind, lent: &'a Lent) -> Content<'a> {
        let entries = Entries::of(header, kind);
        Content {
            kind: header.kind,
            rows: Rows {
                d: header.d,
                marks: &lent.marks[..entries.marks],
                action_starts: &lent.action_starts[..entries.action_starts],
                branch_starts: &lent.branch_starts[..entries.branch_starts],
                destinations: &lent.destinations[..entries.destinations],
                weights: &lent.weights[..entries.weights],
            },
            claim: Claim {
                c: header.c,
                costs: &lent.costs[..entries.costs],
                claims: &lent.claims[..entries.claims],
                ranks: &lent.ranks[..entries.ranks],
            },
        }
    }

    pub fn check(&self, choices: &mut [u32]) -> Verdict {
        let Content { kind, rows, claim } = self;
        check(
            *kind,
            rows.d,
            claim.c,
            rows.marks,
            rows.action_starts,
            rows.branch_starts,
            rows.destinations,
            rows.weights,
            claim.costs,
            claim.claims,
            claim.ranks,
            choices,
        )
    }

    /// Refusals 1 to 14, the choice list aside.
    pub fn refusals(&self) -> Result<(), Refusal> {
        refusals(self.kind, &self.rows, &self.claim, None).map(|_| ())
    }

    fn file_bytes(&self) -> usize {
        let Content { rows, claim, .. } = self;
        let entries = Entries {
            marks: rows.marks.len(),
            action_starts: rows.action_starts.len(),
            branch_starts: rows.branch_starts.len(),
            destinations: rows.destinations.len(),
            weights: rows.weights.len(),
            costs: claim.costs.len(),
            claims: claim.claims.len(),
            ranks: claim.ranks.len(),
        };
        entries.file_bytes()
    }

    /// Puts the file; it has just the length for it.
    fn put(&self, file: &mut [u8]) {
        let Content { kind, rows, claim } = self;
        let states = rows.marks.len();
        let actions = rows.branch_starts.len() - 1;
        let branches = rows.destinations.len();
        set_length_field(file);
        let mut writer = Writer {
            bytes: file,
            place: LENGTH_FIELD_BYTES,
        };
        writer.bytes(&[VERSION, *kind as u8]);
        writer.words(&[rows.d, claim.c]);
        writer.words(&[states, actions, branches].map(|count| count as u32));
        writer.bytes(rows.marks);
        writer.words(rows.action_starts);
        writer.words(rows.branch_starts);
        writer.words(rows.destinations);
        writer.words(rows.weights);
        writer.words(claim.costs);
        writer.longs(claim.claims);
        writer.words(claim.ranks);
    }
}

/// The bytes of a file and the place reached in writing them.
struct Writer<'a> {
    bytes: &'a mut [u8],
    place: usize,
}

impl Writer<'_> {
    fn stretch(&mut self, count: usize) -> &mut [u8] {
        let start = self.place;
        self.place += count;
        &mut self.bytes[start..self.place]
    }

    fn bytes(&mut self, bytes: &[u8]) {
        self.stretch(bytes.len()).copy_from_slice(bytes);
    }

    fn words(&mut self, words: &[u32]) {
        let stretch = self.stretch(4 * words.len());
        for (bytes, word) in stretch.chunks_exact_mut(4).zip(words) {
            bytes.copy_from_slice(&word.to_be_bytes());
        }
    }

    fn longs(&mut self, longs: &[u64]) {
        let stretch = self.stretch(8 * longs.len());
        for (bytes, long) in stretch.chunks_exact_mut(8).zip(longs) {
            bytes.copy_from_slice(&long.to_be_bytes());
        }
    }
}
