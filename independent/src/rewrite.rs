//! A file read and written anew.

use std::fmt;

use crate::file::write_into;
use crate::program::{read, Room};
use crate::verdict::Refusal;

/// What comes of one file; displayed as a line without its end.
#[derive(Clone, Copy, Debug, PartialEq, Eq)]
pub enum Rewritten {
    /// By the reader, or by the writer.
    Refused(Refusal),
    /// The bytes written are those that were read.
    Same { length: usize },
    /// They are not.
    Differs { length: usize },
}

/// Reads the input as the check program does, and writes what was read.
pub fn rewrite(input: &[u8]) -> Rewritten {
    let mut buffer = [0; Room::CHECK.most_bytes()];
    match written(input, &mut buffer) {
        Ok(length) if buffer[..length] == *input => Rewritten::Same { length },
        Ok(length) => Rewritten::Differs { length },
        Err(refusal) => Rewritten::Refused(refusal),
    }
}

fn written(input: &[u8], buffer: &mut [u8]) -> Result<usize, Refusal> {
    let certificate = read(input, Room::CHECK)?;
    write_into(
        certificate.kind,
        certificate.d,
        certificate.c,
        &certificate.marks,
        &certificate.action_starts,
        &certificate.branch_starts,
        &certificate.destinations,
        &certificate.weights,
        &certificate.costs,
        &certificate.claims,
        &certificate.ranks,
        buffer,
    )
}

impl fmt::Display for Rewritten {
    fn fmt(&self, out: &mut fmt::Formatter) -> fmt::Result {
        match self {
            Rewritten::Refused(Refusal { number, place }) => {
                write!(out, "refused {number} {place}")
            }
            Rewritten::Same { length } => write!(out, "same {length}"),
            Rewritten::Differs { length } => write!(out, "differs {length}"),
        }
    }
}
