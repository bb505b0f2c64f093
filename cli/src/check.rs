//! The command `check`: files answered one after the other.

use std::ffi::{OsStr, OsString};
use std::fs::File;
use std::io::{self, Read, Write};
use std::os::unix::ffi::OsStrExt;

use crate::library::{Desk, MOST_BYTES};

/// The name that stands for standard input.
const STANDARD_INPUT: &str = "-";

const ACCEPTED: u8 = 0;
const VIOLATED: u8 = 1;
const REFUSED: u8 = 2;

/// Answers each file, after its name if there are several: the worst status among them.
pub fn check(names: &[OsString]) -> u8 {
    let mut desk = Desk::new();
    let mut file = Vec::with_capacity(MOST_BYTES + 1);
    let mut worst = ACCEPTED;
    for name in names {
        let status = match read(name, &mut file) {
            Ok(()) => {
                let (number, text) = desk.answer(&file);
                let heading = if names.len() > 1 { Some(name) } else { None };
                if let Err(error) = print(heading, text) {
                    eprintln!("vartrymoy: standard output: {error}");
                    return REFUSED;
                }
                status_of(number)
            }
            Err(error) => {
                eprintln!("vartrymoy: {}: {error}", name.to_string_lossy());
                REFUSED
            }
        };
        worst = worst.max(status);
    }
    worst
}

/// Document 01's numbers: 0 is accepted, 21 to 24 are violated conditions, every other is a refusal.
fn status_of(number: u32) -> u8 {
    match number {
        0 => ACCEPTED,
        21..=24 => VIOLATED,
        _ => REFUSED,
    }
}

/// Reads a file in place of what was read before; one byte over the longest is enough for the library to see that it is too long.
fn read(name: &OsStr, file: &mut Vec<u8>) -> io::Result<()> {
    let longest = MOST_BYTES as u64 + 1;
    file.clear();
    if name == STANDARD_INPUT {
        io::stdin().lock().take(longest).read_to_end(file)?;
    } else {
        File::open(name)?.take(longest).read_to_end(file)?;
    }
    Ok(())
}

fn print(heading: Option<&OsString>, text: &[u8]) -> io::Result<()> {
    let mut out = io::stdout().lock();
    if let Some(name) = heading {
        out.write_all(name.as_bytes())?;
        out.write_all(b"\n")?;
    }
    out.write_all(text)?;
    out.flush()
}
