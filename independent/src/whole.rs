//! Files of any size within the limits, answered one after the other.

use std::ffi::{OsStr, OsString};
use std::fs::File;
use std::io::{self, Read, Write};
use std::os::fd::AsFd;

use crate::program::{Answer, Desk, Room};
use crate::verdict::Verdict;

/// The name that stands for standard input.
const STANDARD_INPUT: &str = "-";

/// What the answers of a run come to: the worst of them, in this order.
#[derive(Clone, Copy, Debug, PartialEq, Eq, PartialOrd, Ord)]
pub enum Status {
    Accepted = 0,
    Violated = 1,
    /// Refused, or not to be read at all.
    Refused = 2,
}

impl From<Verdict> for Status {
    fn from(verdict: Verdict) -> Status {
        match verdict {
            Verdict::Accepted { .. } => Status::Accepted,
            Verdict::Violated { .. } => Status::Violated,
            Verdict::Refused { .. } => Status::Refused,
        }
    }
}

/// Prints the answer to each file, after its name if there are several. A file
/// that cannot be read gets a line among the errors and nothing else.
pub fn whole(
    names: &[OsString],
    out: &mut impl Write,
    errors: &mut impl Write,
) -> io::Result<Status> {
    let mut desk = Desk::new(Room::WHOLE);
    let mut input = Vec::new();
    let mut status = Status::Accepted;
    for name in names {
        let of_file = match read_into(name, &mut input) {
            Ok(()) => {
                let answer = desk.answer(&input);
                let heading = (names.len() > 1).then_some(name.as_os_str());
                print(out, heading, &answer)?;
                answer.verdict.into()
            }
            Err(error) => {
                // What was answered before this file comes before its line.
                out.flush()?;
                complain(errors, name, &error);
                Status::Refused
            }
        };
        status = status.max(of_file);
    }
    Ok(status)
}

fn print(out: &mut impl Write, heading: Option<&OsStr>, answer: &Answer) -> io::Result<()> {
    let mut text = Vec::new();
    if let Some(name) = heading {
        text.extend_from_slice(name.as_encoded_bytes());
        text.push(b'\n');
    }
    answer.print(&mut text);
    out.write_all(&text)
}

/// The status tells it too, so the other files go on even if this cannot be
/// written. Quotes and escapes keep any name on one line.
fn complain(errors: &mut impl Write, name: &OsStr, error: &io::Error) {
    let _ = writeln!(errors, "independent: {name:?}: {error}");
}

/// Reads a file in place of what `input` held, but no more than one byte over
/// what there is room for.
fn read_into(name: &OsStr, input: &mut Vec<u8>) -> io::Result<()> {
    let most = Room::WHOLE.most_bytes() as u64;
    let file = open(name)?;
    let length = file.metadata().map_or(0, |known| known.len());
    input.clear();
    // With a byte to spare the end of the file is seen without more room.
    input.reserve(length.min(most) as usize + 1);
    file.take(most + 1).read_to_end(input)?;
    Ok(())
}

/// Standard input is taken as a file too, as its length may be known.
fn open(name: &OsStr) -> io::Result<File> {
    if name == STANDARD_INPUT {
        Ok(File::from(io::stdin().as_fd().try_clone_to_owned()?))
    } else {
        File::open(name)
    }
}
