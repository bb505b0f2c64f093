//! The program `independent`; see README.md for its commands.

use std::collections::BTreeMap;
use std::env;
use std::ffi::OsString;
use std::fs;
use std::io::{self, BufReader, BufWriter, Read, Write};
use std::path::PathBuf;
use std::process::ExitCode;

use independent::file;
use independent::generate::{self, limits};
use independent::kind::Kind;
use independent::program::{answer, Room};
use independent::rewrite::rewrite;
use independent::stream::{read_case, split, write_case};
use independent::tables::MAX_BRANCHES;
use independent::whole::whole;

const USAGE: &str =
    "usage: independent check | whole FILE.. | generate SEED COUNT | limits KIND | \
stream FILE.. | split FOLDER | answers | rewrite | census";
const SUCCESS: u8 = 0;
const FAILURE: u8 = 1;
const BAD_USAGE: u8 = 2;
/// Where 1 says that a claim is violated.
const FAILURE_OF_WHOLE: u8 = 2;
/// Of the output; a longer text is not held back but goes out at once.
const BUFFER_BYTES: usize = 1 << 16;

fn main() -> ExitCode {
    let arguments: Vec<OsString> = env::args_os().skip(1).collect();
    let status = match Command::parse(&arguments) {
        Some(command) => command.status(),
        None => {
            complain(USAGE);
            BAD_USAGE
        }
    };
    ExitCode::from(status)
}

/// Where not even this can be written, the status has to do.
fn complain(text: &str) {
    let _ = writeln!(io::stderr(), "{text}");
}

enum Command {
    Check,
    Whole { files: Vec<OsString> },
    Generate { seed: u64, count: u64 },
    Limits { kind: u32 },
    Stream { files: Vec<OsString> },
    Split { folder: PathBuf },
    Answers,
    Rewrite,
    Census,
}

impl Command {
    fn parse(arguments: &[OsString]) -> Option<Command> {
        let (command, rest) = arguments.split_first()?;
        match (command.to_str()?, rest) {
            ("check", []) => Some(Command::Check),
            ("whole", [_, ..]) => Some(Command::Whole {
                files: rest.to_vec(),
            }),
            ("generate", [seed, count]) => Some(Command::Generate {
                seed: seed.to_str()?.parse().ok()?,
                count: count.to_str()?.parse().ok()?,
            }),
            ("limits", [kind]) => Some(Command::Limits {
                kind: kind.to_str()?.parse().ok().filter(is_kind)?,
            }),
            ("stream", _) => Some(Command::Stream {
                files: rest.to_vec(),
            }),
            ("split", [folder]) => Some(Command::Split {
                folder: folder.into(),
            }),
            ("answers", []) => Some(Command::Answers),
            ("rewrite", []) => Some(Command::Rewrite),
            ("census", []) => Some(Command::Census),
            _ => None,
        }
    }

    /// Runs it, and says what went wrong if something did.
    fn status(self) -> u8 {
        let of_failure = match self {
            Command::Whole { .. } => FAILURE_OF_WHOLE,
            _ => FAILURE,
        };
        self.run().unwrap_or_else(|error| {
            complain(&format!("independent: {error}"));
            of_failure
        })
    }

    fn run(self) -> io::Result<u8> {
        let mut out = BufWriter::with_capacity(BUFFER_BYTES, io::stdout().lock());
        let mut status = SUCCESS;
        match self {
            Command::Check => print_check(&mut out)?,
            Command::Whole { files } => {
                status = whole(&files, &mut out, &mut io::stderr())? as u8;
            }
            Command::Generate { seed, count } => {
                for index in 0..count {
                    write_case(&mut out, &generate::case(seed, index))?;
                }
            }
            Command::Limits { kind } => {
                out.write_all(&file::write(&limits::accepted(kind, MAX_BRANCHES)))?;
            }
            Command::Stream { files } => {
                for file in files {
                    write_case(&mut out, &fs::read(file)?)?;
                }
            }
            Command::Split { folder } => split(&mut input(), &folder)?,
            Command::Answers => for_each_case(|case| write!(out, "{}", answer(case, Room::CHECK)))?,
            Command::Rewrite => for_each_case(|case| writeln!(out, "{}", rewrite(case)))?,
            Command::Census => print_census(&mut out)?,
        }
        out.flush()?;
        Ok(status)
    }
}

fn is_kind(number: &u32) -> bool {
    Kind::numbered(*number).is_some()
}

fn input() -> impl Read {
    BufReader::new(io::stdin().lock())
}

fn print_check(out: &mut impl Write) -> io::Result<()> {
    // One byte more than fits is enough to see that it does not.
    let longest = Room::CHECK.most_bytes() as u64 + 1;
    let mut input = Vec::new();
    io::stdin().lock().take(longest).read_to_end(&mut input)?;
    write!(out, "{}", answer(&input, Room::CHECK))
}

fn for_each_case(mut each: impl FnMut(&[u8]) -> io::Result<()>) -> io::Result<()> {
    let mut input = input();
    while let Some(case) = read_case(&mut input)? {
        each(&case)?;
    }
    Ok(())
}

/// How often each number is answered, and for 0 and the conditions by kind.
fn print_census(out: &mut impl Write) -> io::Result<()> {
    let mut totals = BTreeMap::new();
    let mut by_kind = BTreeMap::new();
    for_each_case(|case| {
        let answer = answer(case, Room::CHECK);
        let number = answer.verdict.number();
        *totals.entry(number).or_insert(0u64) += 1;
        if let (0 | 21..=24, Some(kind)) = (number, answer.kind) {
            let counts = by_kind.entry(number).or_insert([0u64; 8]);
            counts[kind as usize - 1] += 1;
        }
        Ok(())
    })?;
    writeln!(
        out,
        "number  total  kind 1     2     3     4     5     6     7     8"
    )?;
    for (number, total) in totals {
        write!(out, "{number:6} {total:6}")?;
        for count in by_kind.get(&number).into_iter().flatten() {
            write!(out, " {count:5}")?;
        }
        writeln!(out)?;
    }
    Ok(())
}
